//! The search goes down both types together. Where the mandatory nodes of the first break the second at its root,
//! they are the least; else one child is at fault, and of the others the mandatory nodes alone are there.

use second::network::TypeNode;
use second::{Basic, Network};

/// A node with all below it. The order is the papers': fewest nodes, then lowest bytes.
#[derive(PartialEq, Eq, PartialOrd, Ord)]
struct Encoded {
    nodes: usize,
    bytes: Vec<u8>,
}

/// The least message that fits the first type row and not the second, both taken as roots.
pub fn least(network: &Network, first: usize, second: usize) -> Option<Vec<u8>> {
    let mut message = breaking(network, first, second)?.bytes;
    // A row's own id does not matter for a root.
    message[..2].fill(0);
    Some(message)
}

/// The least that fits the first row and not the second; its id is the first row's.
fn breaking(network: &Network, first: usize, second: usize) -> Option<Encoded> {
    if breaks_at_root(network, first, second) {
        return Some(plain(network, first));
    }
    let children = network.types[first].children.clone();
    let candidates = children.filter_map(|child| {
        let at_fault = match row_of_child(network, second, network.types[child].id) {
            Some(wanted) => breaking(network, child, wanted)?,
            None => plain(network, child),
        };
        Some(with_child(network, first, child, &at_fault))
    });
    candidates.min()
}

/// Whether the mandatory nodes alone break the second row at the root: by its basic type, or by a missing child.
fn breaks_at_root(network: &Network, first: usize, second: usize) -> bool {
    let (own, wanted) = (&network.types[first], &network.types[second]);
    let lacks = |child: &TypeNode| child.mandatory && !network.child(first, child.id).is_some_and(|own| own.mandatory);
    own.basic != wanted.basic || network.types[wanted.children.clone()].iter().any(lacks)
}

fn row_of_child(network: &Network, row: usize, id: u16) -> Option<usize> {
    network.types[row].children.clone().find(|&child| network.types[child].id == id)
}

/// The mandatory nodes of a row.
fn plain(network: &Network, row: usize) -> Encoded {
    let mandatory = network.types[row].children.clone().filter(|&child| network.types[child].mandatory);
    let children: Vec<Encoded> = mandatory.map(|child| plain(network, child)).collect();
    encode(&network.types[row], children.iter())
}

/// The mandatory nodes of a row, with one child as given, which is there even if it is optional.
fn with_child(network: &Network, row: usize, given: usize, encoded: &Encoded) -> Encoded {
    let children = network.types[row].children.clone();
    let plains: Vec<(usize, Encoded)> = children
        .filter(|&child| child == given || network.types[child].mandatory)
        .map(|child| (child, plain(network, child)))
        .collect();
    let chosen = plains.iter().map(|(child, plain)| if *child == given { encoded } else { plain });
    encode(&network.types[row], chosen)
}

fn encode<'a>(node: &TypeNode, children: impl Iterator<Item = &'a Encoded> + Clone) -> Encoded {
    let value = least_value(node.basic);
    let mut bytes = node.id.to_le_bytes().to_vec();
    bytes.extend([node.basic.byte(), children.clone().count() as u8, value.len() as u8]);
    bytes.extend(value);
    children.clone().for_each(|child| bytes.extend(&child.bytes));
    Encoded { nodes: 1 + children.map(|child| child.nodes).sum::<usize>(), bytes }
}

/// The shortest and then lowest value: the length stands before the value.
fn least_value(basic: Basic) -> &'static [u8] {
    match basic {
        Basic::Bool => &[0],
        Basic::Int => &[0; 4],
        Basic::Double | Basic::Long => &[0; 8],
        Basic::String | Basic::Raw | Basic::Void => &[],
    }
}
