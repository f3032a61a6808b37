//! Messages from outside: built from a type, nearly so, or broken.

use second::{Basic, Network};
use stepper::{Move, State, Tree};

use crate::keys;
use crate::messages;
use crate::networks::value;
use crate::random::Random;
use crate::strings::held::{break_one, in_nodes};

/// A tree of a type: every mandatory child, and some of the optional ones.
pub fn fitting(random: &mut Random, network: &Network, type_row: usize) -> Tree {
    let node = &network.types[type_row];
    let mut children = Vec::new();
    for child in node.children.clone() {
        if network.types[child].mandatory || random.one_in(2) {
            children.push(fitting(random, network, child));
        }
    }
    Tree { id: node.id, basic: node.basic, value: value(random, node.basic), children }
}

/// Gives a message to a keyed service the key that its target asks for, most of the time.
pub fn aim(random: &mut Random, network: &Network, state: &State, named: &Move, message: &mut Tree) {
    let Move::OuterMessage { service, target, .. } = *named else { return };
    let (service, target) = (usize::from(service), usize::from(target));
    let Some(id) = network.services.get(service).and_then(|service| service.key) else { return };
    let Some(key) = message.children.iter_mut().find(|child| (child.id, child.basic) == (id, Basic::Int)) else {
        return;
    };
    let held: Vec<i32> = state.services[service].iter().flatten().filter_map(|session| session.key).collect();
    let wanted = state.live(service, target).and_then(|live| live.key);
    let int = match random.below(8) {
        0 => random.pick(&held).copied().unwrap_or(0),
        1 => keys::some(random),
        _ => wanted.unwrap_or_else(|| keys::other_than(random, &held)),
    };
    key.value = int.to_le_bytes().to_vec();
}

/// Bytes for a move, which may take a message of a type. Few rows wait for an outsider: of replies every other one has a
/// string broken.
pub fn bytes(random: &mut Random, network: &Network, state: &State, named: &Move, type_row: Option<usize>) -> Vec<u8> {
    let tree = type_row.map(|row| {
        let mut tree = fitting(random, network, row);
        aim(random, network, state, named, &mut tree);
        tree
    });
    let bytes = message(random, tree);
    match named {
        Move::OuterReply { .. } if random.one_in(2) => with_broken_string(random, bytes),
        _ => bytes,
    }
}

/// A fitting message, or nearly so; anything where none is asked for.
fn message(random: &mut Random, fitting: Option<Tree>) -> Vec<u8> {
    let Some(mut tree) = fitting else {
        return if random.one_in(2) { Vec::new() } else { messages::message(random).0 };
    };
    match random.below(16) {
        0 => retype(random, &mut tree),
        1 => drop_child(random, &mut tree),
        2 => add_child(random, &mut tree),
        3 => return broken(random, tree.bytes()),
        4 => return messages::message(random).0,
        5 | 6 => return with_broken_string(random, tree.bytes()),
        _ => {}
    }
    tree.bytes()
}

fn with_broken_string(random: &mut Random, mut bytes: Vec<u8>) -> Vec<u8> {
    let strings = in_nodes(&bytes);
    break_one(random, &mut bytes, &strings);
    bytes
}

fn broken(random: &mut Random, mut bytes: Vec<u8>) -> Vec<u8> {
    let at = random.below(bytes.len());
    match random.below(4) {
        0 => bytes.truncate(at),
        1 => bytes.push(random.byte()),
        2 => bytes[at] = random.byte(),
        _ => bytes[at] ^= 1 << random.below(8),
    }
    bytes
}

/// Some node of a tree; the root only if it may be.
pub fn some_node<'a>(random: &mut Random, tree: &'a mut Tree, root_too: bool) -> Option<&'a mut Tree> {
    if tree.children.is_empty() || (root_too && random.one_in(4)) {
        return root_too.then_some(tree);
    }
    let child = random.below(tree.children.len());
    some_node(random, &mut tree.children[child], true)
}

/// Another basic type and a value of it.
pub fn set_basic(random: &mut Random, node: &mut Tree) {
    node.basic = Basic::ALL[random.below(7)];
    node.value = value(random, node.basic);
}

fn retype(random: &mut Random, tree: &mut Tree) {
    if let Some(node) = some_node(random, tree, true) {
        set_basic(random, node);
    }
}

fn drop_child(random: &mut Random, tree: &mut Tree) {
    if let Some(node) = some_node(random, tree, true) {
        node.children.pop();
    }
    tree.children.pop();
}

fn add_child(random: &mut Random, tree: &mut Tree) {
    if let Some(node) = some_node(random, tree, true) {
        let id = node.children.last().map_or(1, |child| child.id.saturating_add(1));
        node.children.push(Tree::void(id));
    }
}
