//! Declarations that keep to every rule.

use second::network::{TYPE_LEVELS, TYPE_NODES};
use second::Basic;

use crate::random::Random;

pub struct Declaration {
    pub name: String,
    pub tree: Tree,
}

pub struct Tree {
    pub basic: Basic,
    pub children: Vec<Child>,
}

pub struct Child {
    pub name: String,
    /// `?`, `[0,1]`, `[1,1]` or nothing.
    pub mark: &'static str,
    pub right: Right,
}

pub enum Right {
    Tree(Tree),
    Named(String),
}

pub const MARKS: [&str; 4] = ["", "?", "[0,1]", "[1,1]"];

/// A declared type and its size written out.
struct Known {
    name: String,
    nodes: usize,
    levels: usize,
}

/// None, one or several declarations of at most 16 nodes and 4 levels each.
pub fn some(random: &mut Random) -> Vec<Declaration> {
    let mut known: Vec<Known> = Vec::new();
    let mut declarations = Vec::new();
    for _ in 0..random.below(7) {
        let mut name = type_name(random);
        while known.iter().any(|known| known.name == name) {
            name = type_name(random);
        }
        let most = random.between(1, TYPE_NODES);
        let mut maker = Maker { known: &known, left: most - 1 };
        let (tree, levels) = maker.tree(random, TYPE_LEVELS);
        let nodes = most - maker.left;
        known.push(Known { name: name.clone(), nodes, levels });
        declarations.push(Declaration { name, tree });
    }
    declarations
}

struct Maker<'a> {
    known: &'a [Known],
    /// Nodes that the type may still have.
    left: usize,
}

impl Maker<'_> {
    /// A tree of at most so many levels, and how many it has.
    fn tree(&mut self, random: &mut Random, levels: usize) -> (Tree, usize) {
        let mut children: Vec<Child> = Vec::new();
        let mut deepest = 0;
        while levels > 1 && self.left > 0 && !random.one_in(4) {
            let mut name = child_name(random);
            while children.iter().any(|child| child.name == name) {
                name = child_name(random);
            }
            let (right, below) = self.right(random, levels - 1);
            deepest = deepest.max(below);
            children.push(Child { name, mark: mark(random), right });
        }
        (Tree { basic: basic(random), children }, 1 + deepest)
    }

    fn right(&mut self, random: &mut Random, levels: usize) -> (Right, usize) {
        let fits = |known: &&Known| known.nodes <= self.left && known.levels <= levels;
        let fitting: Vec<&Known> = self.known.iter().filter(fits).collect();
        match random.pick(&fitting) {
            Some(known) if random.one_in(3) => {
                self.left -= known.nodes;
                (Right::Named(known.name.clone()), known.levels)
            }
            _ => {
                self.left -= 1;
                let (tree, levels) = self.tree(random, levels);
                (Right::Tree(tree), levels)
            }
        }
    }
}

pub fn basic(random: &mut Random) -> Basic {
    Basic::ALL[random.below(Basic::ALL.len())]
}

pub fn mark(random: &mut Random) -> &'static str {
    MARKS[random.below(MARKS.len())]
}

/// Of so many bytes.
pub fn name(random: &mut Random, length: usize) -> String {
    const FIRST: &[u8] = b"abcdefghijklmnopqrstuvwxyzABCDEFGHIJKLMNOPQRSTUVWXYZ";
    const LATER: &[u8] = b"abcdefghijklmnopqrstuvwxyzABCDEFGHIJKLMNOPQRSTUVWXYZ0123456789_";
    let letters = (0..length).map(|at| if at == 0 { FIRST } else { LATER });
    letters.map(|letters| char::from(letters[random.below(letters.len())])).collect()
}

/// Few names, so that a text uses one often.
fn child_name(random: &mut Random) -> String {
    const NAMES: [&str; 10] = ["a", "b", "c", "load", "clipped", "A", "x_1", "type", "abcdefghijklmnop", "Z9________"];
    match random.below(12) {
        0 => basic(random).name().into(),
        1 => {
            let length = random.between(1, 16);
            name(random, length)
        }
        _ => NAMES[random.below(NAMES.len())].into(),
    }
}

fn type_name(random: &mut Random) -> String {
    const NAMES: [&str; 8] = ["a", "b", "Lift", "load", "type", "T_1", "abcdefghijklmnop", "Int"];
    match random.below(4) {
        // No basic word has two bytes or sixteen.
        0 => {
            let length = if random.one_in(2) { 2 } else { 16 };
            name(random, length)
        }
        _ => NAMES[random.below(NAMES.len())].into(),
    }
}

/// A tree of exactly so many nodes and at most so many levels, which are two at least for several nodes.
pub fn exact(random: &mut Random, nodes: usize, levels: usize) -> Tree {
    let mut children = Vec::new();
    let mut left = nodes - 1;
    while left > 0 {
        let below = if levels > 2 { random.between(1, left.min(6)) } else { 1 };
        left -= below;
        let right = Right::Tree(exact(random, below, levels - 1));
        children.push(Child { name: format!("c{}", children.len()), mark: mark(random), right });
    }
    Tree { basic: basic(random), children }
}

/// A tree of exactly so many levels, a node each.
pub fn chain(random: &mut Random, levels: usize) -> Tree {
    let mut tree = Tree { basic: basic(random), children: Vec::new() };
    for _ in 1..levels {
        let right = Right::Tree(tree);
        let length = random.between(1, 2);
        let child = Child { name: name(random, length), mark: mark(random), right };
        tree = Tree { basic: basic(random), children: vec![child] };
    }
    tree
}
