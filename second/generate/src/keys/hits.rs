//! What is counted of the keys of files that pass 2 to 5.

use second::network::{Behaviour, Direction, Operation, TypeNode};
use second::{Basic, Network, Refusal, ServiceEnvironments};

use super::decide::{unfit, Unfit};

/// All that is counted.
pub const NAMES: [&str; 17] = [
    "accepted with a keyed service",
    "accepted with a keyed service beside one without a key",
    "accepted with two keyed services",
    "accepted with services keyed by two ids",
    "accepted with a keyed service without inputs",
    "accepted with a key that has children",
    "accepted with a key in an input that no row uses",
    "accepted with a send to a keyed service",
    "accepted with a send of a keyed service to itself",
    "refused 13 before 23",
    "refused 6 to 12 before 23",
    "refused 23 for an optional int",
    "refused 23 for a long",
    "refused 23 for an input that no row uses",
    "refused 23 at the lowest of several inputs",
    "refused 23 at the lowest of several services",
    "refused 23 in a later service than one whose keys are right",
];

/// The names that a file hits.
pub fn of_file(
    file: &[u8],
    network: &Network,
    verdict: &Result<Vec<ServiceEnvironments>, Refusal>,
) -> Vec<&'static str> {
    let found = match verdict {
        Ok(_) => accepted(network).to_vec(),
        Err(refusal) => refused(file, network, refusal),
    };
    found.into_iter().filter(|(holds, _)| *holds).map(|(_, name)| name).collect()
}

fn accepted(network: &Network) -> [(bool, &'static str); 9] {
    let keys: Vec<u16> = network.services.iter().filter_map(|service| service.key).collect();
    let mixed = !keys.is_empty() && keys.len() < network.services.len();
    let two_ids = keys.iter().any(|&key| key != keys[0]);
    let keyed = |service: usize| network.services[service].key.is_some();
    let inputs: Vec<usize> = (0..network.operations.len()).filter(|&row| is_keyed_input(network, row)).collect();
    let has_inputs = |service: usize| inputs.iter().any(|&row| network.operations[row].service == service);
    let idle = (0..network.services.len()).any(|service| keyed(service) && !has_inputs(service));
    let has_children = |&row: &usize| key_child(network, row).is_some_and(|child| !child.children.is_empty());
    let unused = |row: &usize| inputs.contains(row);
    let targets: Vec<(usize, usize)> = sends(network).filter(|&(_, target)| keyed(target)).collect();
    [
        (!keys.is_empty(), "accepted with a keyed service"),
        (mixed, "accepted with a keyed service beside one without a key"),
        (keys.len() > 1, "accepted with two keyed services"),
        (two_ids, "accepted with services keyed by two ids"),
        (idle, "accepted with a keyed service without inputs"),
        (inputs.iter().any(has_children), "accepted with a key that has children"),
        (unused_operations(network).iter().any(unused), "accepted with a key in an input that no row uses"),
        (!targets.is_empty(), "accepted with a send to a keyed service"),
        (targets.iter().any(|(from, to)| from == to), "accepted with a send of a keyed service to itself"),
    ]
}

fn refused(file: &[u8], network: &Network, refusal: &Refusal) -> Vec<(bool, &'static str)> {
    let unfit = unfit(file);
    let Some(&(lowest, why)) = unfit.first() else { return Vec::new() };
    if refusal.number != 23 {
        let name = if refusal.number == 13 { "refused 13 before 23" } else { "refused 6 to 12 before 23" };
        return vec![(true, name)];
    }
    let service = |row: usize| network.operations[row].service;
    let basic = key_child(network, lowest).map(|child| child.basic);
    let unused = unused_operations(network).contains(&lowest);
    let other_service = unfit.iter().any(|&(row, _)| service(row) != service(lowest));
    let is_right = |row: usize| unfit.iter().all(|&(other, _)| service(other) != service(row));
    let right_before = (0..network.operations.len())
        .any(|row| is_keyed_input(network, row) && service(row) < service(lowest) && is_right(row));
    vec![
        (why == Unfit::Optional && basic == Some(Basic::Int), "refused 23 for an optional int"),
        (why == Unfit::OtherBasic && basic == Some(Basic::Long), "refused 23 for a long"),
        (unused, "refused 23 for an input that no row uses"),
        (unfit.len() > 1, "refused 23 at the lowest of several inputs"),
        (other_service, "refused 23 at the lowest of several services"),
        (right_before, "refused 23 in a later service than one whose keys are right"),
    ]
}

fn is_keyed_input(network: &Network, row: usize) -> bool {
    let operation = &network.operations[row];
    operation.direction == Direction::In && network.services[operation.service].key.is_some()
}

/// The key in an operation's request type.
fn key_child(network: &Network, row: usize) -> Option<&TypeNode> {
    let operation = &network.operations[row];
    network.child(operation.request, network.services[operation.service].key?)
}

/// The operations of rows that have one.
fn used_operations(network: &Network) -> impl Iterator<Item = usize> + '_ {
    use Behaviour::*;
    network.behaviours.iter().filter_map(|behaviour| match *behaviour {
        OneWay { operation, .. }
        | RequestResponse { operation, .. }
        | Notification { operation, .. }
        | SolicitResponse { operation, .. } => Some(operation),
        _ => None,
    })
}

/// The operations that no row names.
fn unused_operations(network: &Network) -> Vec<usize> {
    let used: Vec<usize> = used_operations(network).collect();
    (0..network.operations.len()).filter(|row| !used.contains(row)).collect()
}

/// The service that sends and the one that is sent to, of rows that send inside the file.
fn sends(network: &Network) -> impl Iterator<Item = (usize, usize)> + '_ {
    let target = |row: &Operation| network.services.iter().position(|service| service.location == row.location);
    let outputs = used_operations(network).map(|row| &network.operations[row]);
    let outputs = outputs.filter(|operation| operation.direction == Direction::Out);
    outputs.filter_map(move |operation| Some((operation.service, target(operation)?)))
}
