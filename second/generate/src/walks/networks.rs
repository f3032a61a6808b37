//! Networks to walk over: mostly accepted ones, in which something can happen.

use second::network::Behaviour;
use second::tables::OperationRow;
use second::{Network, Tables};
use stepper::rows::Rows;

use super::{counters, hoists, texts};
use crate::nests;
use crate::networks::{tables, talkative, Blunder};
use crate::random::Random;

/// A file that passes 2 to 5; most are accepted.
pub fn file(random: &mut Random) -> Vec<u8> {
    if random.one_in(4) {
        return hoists::file(random);
    }
    if random.one_in(7) {
        return texts::file(random.pick(&texts::ALL).expect("a text"));
    }
    if random.one_in(5) {
        return nests::busy(random).tables().write();
    }
    if random.one_in(6) {
        return counters::file(random);
    }
    loop {
        let (tables, accepted) = some_tables(random);
        let file = tables.write();
        let Ok(network) = Network::read(&file) else { continue };
        if is_lively(random, &network) && (!accepted || second::check(&file).is_ok()) {
            return file;
        }
    }
}

/// Tables, and whether they are meant to be accepted.
fn some_tables(random: &mut Random) -> (Tables, bool) {
    let mut rows = if random.one_in(2) { talkative(random) } else { tables(random, 0, None) };
    match random.below(20) {
        0 => rows = tables(random, 100, None),
        1 => {
            let blunder = random.pick(&Blunder::ALL).copied();
            rows = tables(random, 30, blunder);
        }
        2 => deepen(random, &mut rows.paths),
        3..=5 => misname(random, &mut rows),
        _ => return (rows, true),
    }
    (rows, false)
}

/// Other operations and expressions in some rows, whatever their types.
fn misname(random: &mut Random, tables: &mut Tables) {
    let expressions = tables.expressions.len();
    let renames = random.one_in(2);
    for row in &mut tables.behaviours {
        if !random.one_in(3) {
            continue;
        }
        match row.kind {
            1..=4 if renames => row.fields[0] = other_operation(random, &tables.operations, row.fields[0]),
            3 | 4 | 9 => row.fields[1] = random.below(expressions) as u16,
            5 | 6 => row.fields[0] = random.below(expressions) as u16,
            _ => {}
        }
    }
}

/// Any operation, or one of the same service and direction.
fn other_operation(random: &mut Random, operations: &[OperationRow], row: u16) -> u16 {
    let now = &operations[usize::from(row)];
    let any = random.one_in(3);
    let alike = |row: &usize| {
        let other = &operations[*row];
        any || (other.service, other.direction) == (now.service, now.direction)
    };
    let rows: Vec<usize> = (0..operations.len()).filter(alike).collect();
    random.pick(&rows).map_or(row, |&row| row as u16)
}

/// Paths of four steps, at which a message of four levels is too deep.
fn deepen(random: &mut Random, paths: &mut [[u16; 4]]) {
    for path in paths {
        if random.one_in(2) {
            let length = path.iter().take_while(|&&id| id != 0).count();
            let last = path[length - 1];
            path[length..].fill(last);
        }
    }
}

/// Few rows are fewer moves: such networks are taken now and then only.
fn is_lively(random: &mut Random, network: &Network) -> bool {
    let rows = Rows::of(network);
    let root = |service: usize, session: usize| rows.root(service, session).map_or(0, |root| rows.below(root).len());
    let sizes: usize = (0..network.services.len()).map(|service| root(service, 0) + root(service, 1)).sum();
    let talks = network.behaviours.iter().any(|row| {
        let (Behaviour::Notification { operation, .. } | Behaviour::SolicitResponse { operation, .. }) = row else {
            return false;
        };
        let location = network.operations[*operation].location;
        network.services.iter().any(|service| service.location == location)
    });
    (sizes > 6 && talks) || random.one_in(10)
}
