//! Messages and paths, right and damaged.

use second::value::NAN_BITS;
use second::Basic;

use crate::networks::value;
use crate::random::Random;
use crate::strings::held::{break_one, in_nodes};

/// A node of a message before it is written.
struct Tree {
    id: u16,
    basic: Basic,
    value: Vec<u8>,
    children: Vec<Tree>,
}

impl Tree {
    fn write(&self, bytes: &mut Vec<u8>) {
        bytes.extend(self.id.to_le_bytes());
        bytes.extend([self.basic.byte(), self.children.len() as u8, self.value.len() as u8]);
        bytes.extend(&self.value);
        for child in &self.children {
            child.write(bytes);
        }
    }
}

/// How a message was damaged.
#[derive(Clone, Copy, PartialEq, Eq, Debug, PartialOrd, Ord)]
pub enum Damage {
    RootId,
    ChildId,
    ChildOrder,
    WrongBasic,
    WrongValue,
    WrongLength,
    ChildCount,
    TooManyNodes,
    TooManyLevels,
    Cut,
    Longer,
    AnyByte,
    NoMessage,
}

impl Damage {
    pub const ALL: [Damage; 13] = {
        use Damage::*;
        [
            RootId,
            ChildId,
            ChildOrder,
            WrongBasic,
            WrongValue,
            WrongLength,
            ChildCount,
            TooManyNodes,
            TooManyLevels,
            Cut,
            Longer,
            AnyByte,
            NoMessage,
        ]
    };
}

/// A message, right or damaged, and a path; now and then a string of it is broken.
pub fn message(random: &mut Random) -> (Vec<u8>, [u16; 4], Option<Damage>) {
    let damage = random.one_in(3).then(|| Damage::ALL[random.below(13)]);
    let (nodes, levels) = match damage {
        Some(Damage::TooManyNodes) => (random.between(17, 20), 4),
        Some(Damage::TooManyLevels) => (random.between(5, 16), random.between(5, 6)),
        _ => (random.between(1, 16), 4),
    };
    let mut tree = tree(random, nodes, levels, damage);
    let ids = path(random, &tree);
    let mut bytes = Vec::new();
    apply(random, &mut tree, damage);
    tree.write(&mut bytes);
    if random.one_in(8) {
        let strings = in_nodes(&bytes);
        break_one(random, &mut bytes, &strings);
    }
    apply_to_bytes(random, &mut bytes, damage);
    (bytes, ids, damage)
}

fn new_node(random: &mut Random, id: u16) -> Tree {
    let basic = Basic::ALL[random.below(7)];
    Tree { id, basic, value: value(random, basic), children: Vec::new() }
}

/// A tree of exactly so many nodes; of that many levels if a damage asks for it.
fn tree(random: &mut Random, nodes: usize, levels: usize, damage: Option<Damage>) -> Tree {
    let mut root = new_node(random, 0);
    let mut left = nodes - 1;
    if matches!(damage, Some(Damage::TooManyLevels)) || random.one_in(3) {
        let mut at = &mut root;
        for _ in 1..levels.min(nodes) {
            let id = random.between(1, 9) as u16;
            at.children.push(new_node(random, id));
            at = at.children.last_mut().expect("the child just made");
            left -= 1;
        }
    }
    while left > 0 {
        let mut at = &mut root;
        for _ in 0..random.below(levels - 1) {
            if at.children.is_empty() {
                break;
            }
            let child = random.below(at.children.len());
            at = &mut at.children[child];
        }
        let id = if random.one_in(9) { random.between(1, 65_535) as u16 } else { random.between(1, 24) as u16 };
        if let Err(place) = at.children.binary_search_by_key(&id, |child| child.id) {
            at.children.insert(place, new_node(random, id));
            left -= 1;
        }
    }
    root
}

/// A path that goes some way down the tree and then on, off it, or wrong.
fn path(random: &mut Random, root: &Tree) -> [u16; 4] {
    let mut ids = [0; 4];
    let mut at = root;
    let mut steps = 0;
    for _ in 0..random.below(4) {
        let Some(child) = random.pick(&at.children) else { break };
        ids[steps] = child.id;
        at = child;
        steps += 1;
    }
    match random.below(8) {
        // A step that is not there, now and then more than one.
        0 | 1 => {
            for id in ids.iter_mut().skip(steps).take(random.between(1, 2)) {
                *id = random.between(1, 26) as u16;
            }
        }
        2 => ids[random.below(4)] = random.number(),
        3 => ids[random.below(4)] = 0,
        4 => ids = std::array::from_fn(|_| random.below(3) as u16),
        _ => {}
    }
    ids
}

/// Some node below the root, if there is one.
fn some_child<'a>(random: &mut Random, tree: &'a mut Tree) -> Option<&'a mut Tree> {
    if tree.children.is_empty() {
        return None;
    }
    let child = random.below(tree.children.len());
    let child = &mut tree.children[child];
    if !child.children.is_empty() && random.one_in(2) {
        return some_child(random, child);
    }
    Some(child)
}

fn some_node<'a>(random: &mut Random, tree: &'a mut Tree) -> &'a mut Tree {
    if tree.children.is_empty() || random.one_in(3) {
        return tree;
    }
    some_child(random, tree).expect("a child")
}

fn apply(random: &mut Random, tree: &mut Tree, damage: Option<Damage>) {
    match damage {
        Some(Damage::RootId) => tree.id = random.between(1, 300) as u16,
        Some(Damage::ChildId) => {
            if let Some(child) = some_child(random, tree) {
                child.id = 0;
            }
        }
        Some(Damage::ChildOrder) => {
            let parent = some_node(random, tree);
            let count = parent.children.len();
            if count > 1 {
                let at = random.below(count - 1);
                if random.one_in(2) {
                    parent.children.swap(at, at + 1);
                } else {
                    parent.children[at + 1].id = parent.children[at].id;
                }
            }
        }
        Some(Damage::WrongValue) => {
            let node = some_node(random, tree);
            if random.one_in(2) {
                (node.basic, node.value) = (Basic::Bool, vec![random.between(2, 255) as u8]);
            } else {
                let sign = (random.below(2) as u64) << 63;
                let bits = NAN_BITS | sign | (1 + random.below(1 << 16) as u64);
                (node.basic, node.value) = (Basic::Double, bits.to_le_bytes().to_vec());
            }
        }
        Some(Damage::WrongLength) => {
            let node = some_node(random, tree);
            if matches!(node.basic, Basic::String | Basic::Raw) {
                node.value = vec![7; random.between(17, 20)];
            } else if random.one_in(2) {
                node.value.push(0);
            } else {
                node.value.pop();
            }
        }
        _ => {}
    }
}

fn apply_to_bytes(random: &mut Random, bytes: &mut Vec<u8>, damage: Option<Damage>) {
    match damage {
        Some(Damage::WrongBasic) => bytes[2] = random.between(7, 255) as u8,
        Some(Damage::ChildCount) => bytes[3] = bytes[3].wrapping_add(*random.pick(&[1, 255, 100]).expect("three")),
        Some(Damage::Cut) => bytes.truncate(random.below(bytes.len())),
        Some(Damage::Longer) => bytes.extend((0..random.between(1, 6)).map(|_| random.byte())),
        Some(Damage::AnyByte) => {
            let at = random.below(bytes.len());
            bytes[at] = random.byte();
        }
        Some(Damage::NoMessage) => *bytes = (0..random.below(60)).map(|_| random.below(8) as u8).collect(),
        _ => {}
    }
}
