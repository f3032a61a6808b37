//! Every message of a type with the least values: one for each choice of its optional nodes.

use second::environment::{trees, Node};
use second::{Basic, Network};
use stepper::Tree;

/// Types with more optional nodes are not tried.
pub const MOST_OPTIONAL: usize = 10;

/// The messages of fewest nodes that fit the first row and not the second, by their bytes. None for a type with
/// too many optional nodes.
pub fn fewest(network: &Network, first: usize, second: usize) -> Option<Vec<Vec<u8>>> {
    let nodes = network.write_out(first);
    if nodes[1..].iter().filter(|node| !node.mandatory).count() > MOST_OPTIONAL {
        return None;
    }
    let mut breaking = messages(&nodes, 0);
    breaking.retain(|message| !message.fits(network, second));
    let fewest = breaking.iter().map(Tree::nodes).min();
    breaking.retain(|message| Some(message.nodes()) == fewest);
    let mut encoded: Vec<Vec<u8>> = breaking.iter().map(Tree::bytes).collect();
    encoded.sort();
    Some(encoded)
}

/// One for each choice, of a type written out.
fn messages(nodes: &[Node], id: u16) -> Vec<Tree> {
    let basic = nodes[0].basic;
    let mut messages = vec![Tree { id, basic, value: vec![0; least_length(basic)], children: Vec::new() }];
    for child in trees(&nodes[1..]) {
        let below = self::messages(child, child[0].id);
        let with = messages.iter().flat_map(|message| {
            below.iter().map(|child| {
                let mut message = message.clone();
                message.children.push(child.clone());
                message
            })
        });
        let with: Vec<Tree> = with.collect();
        if child[0].mandatory {
            messages = with;
        } else {
            messages.extend(with);
        }
    }
    messages
}

/// Bytes of the least value.
pub fn least_length(basic: Basic) -> usize {
    (0..=8).find(|&length| basic.holds(&vec![0; length])).expect("zeros are a value of some length")
}
