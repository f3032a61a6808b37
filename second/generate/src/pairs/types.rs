//! Types as trees, to be written as rows, and small changes of them.

use std::collections::VecDeque;

use second::network::{TYPE_LEVELS, TYPE_NODES};
use second::tables::TypeRow;
use second::Basic;

use crate::random::Random;

#[derive(Clone, PartialEq, Eq, Debug)]
pub struct Type {
    pub id: u16,
    pub optional: bool,
    pub basic: Basic,
    /// By rising id.
    pub children: Vec<Type>,
}

/// Ids of which some have the order of their bytes against that of their numbers.
const IDS: [u16; 12] = [1, 2, 3, 4, 255, 256, 257, 258, 512, 768, 65_280, 65_535];

impl Type {
    fn leaf(random: &mut Random, id: u16) -> Type {
        Type { id, optional: random.below(5) < 3, basic: basic(random), children: Vec::new() }
    }

    /// A type of at most so many nodes.
    pub fn some(random: &mut Random, most: usize) -> Type {
        let mut root = Type { optional: false, ..Type::leaf(random, 0) };
        if random.below(4) > 0 {
            root.basic = Basic::Void;
        }
        for _ in 0..4 * most {
            if root.nodes() < most {
                root.grow(random);
            }
        }
        if random.one_in(3) {
            root.loosen(random);
        }
        root
    }

    pub fn nodes(&self) -> usize {
        1 + self.children.iter().map(Type::nodes).sum::<usize>()
    }

    /// Adds a leaf somewhere; false if it has no place there.
    fn grow(&mut self, random: &mut Random) -> bool {
        let full = self.nodes() == TYPE_NODES;
        let (node, level) = self.somewhere(random, 1);
        let id = some_id(random);
        if full || level == TYPE_LEVELS || node.children.iter().any(|child| child.id == id) {
            return false;
        }
        node.children.push(Type::leaf(random, id));
        node.sort();
        true
    }

    /// Drops some optional children; whether there were any.
    fn strip(&mut self, random: &mut Random) -> bool {
        let before = self.nodes();
        self.children.retain(|child| !child.optional || random.one_in(3));
        for child in &mut self.children {
            child.strip(random);
        }
        self.nodes() < before
    }

    /// Makes most children optional.
    fn loosen(&mut self, random: &mut Random) {
        for child in &mut self.children {
            child.optional |= !random.one_in(4);
            child.loosen(random);
        }
    }

    fn sort(&mut self) {
        self.children.sort_by_key(|child| child.id);
    }

    /// A node and its level; this one is at the given level.
    fn somewhere(&mut self, random: &mut Random, level: usize) -> (&mut Type, usize) {
        if self.children.is_empty() || random.one_in(3) {
            return (self, level);
        }
        let child = random.below(self.children.len());
        self.children[child].somewhere(random, level + 1)
    }

    /// The last node in preorder.
    pub(super) fn last(&mut self) -> &mut Type {
        match self.children.len() {
            0 => self,
            count => self.children[count - 1].last(),
        }
    }

    /// Adds the rows, level by level, those of one parent's children together; the root's row.
    pub fn write(&self, rows: &mut Vec<TypeRow>) -> usize {
        let root = rows.len();
        rows.push(self.row());
        let mut waiting = VecDeque::from([(root, self)]);
        while let Some((row, node)) = waiting.pop_front() {
            if node.children.is_empty() {
                continue;
            }
            (rows[row].first_child, rows[row].child_count) = (rows.len() as u16, node.children.len() as u16);
            for child in &node.children {
                waiting.push_back((rows.len(), child));
                rows.push(child.row());
            }
        }
        root
    }

    fn row(&self) -> TypeRow {
        TypeRow { id: self.id, cardinality: u8::from(!self.optional), basic: self.basic.byte(), ..TypeRow::default() }
    }
}

fn basic(random: &mut Random) -> Basic {
    *random.pick(&Basic::ALL).expect("a basic type")
}

fn some_id(random: &mut Random) -> u16 {
    match random.below(20) {
        0 => random.between(1, 65_535) as u16,
        _ => *random.pick(&IDS).expect("an id"),
    }
}

/// A small change of a type.
#[derive(Clone, Copy, PartialEq, Eq, Debug)]
pub enum Edit {
    Optional,
    Mandatory,
    Add,
    /// A child where there was none beside it.
    Deepen,
    Remove,
    /// Some optional children go, all over the type.
    Strip,
    Basic,
    Id,
}

impl Edit {
    pub const ALL: [Edit; 8] =
        [Edit::Optional, Edit::Mandatory, Edit::Add, Edit::Deepen, Edit::Remove, Edit::Strip, Edit::Basic, Edit::Id];

    /// Changes a type somewhere; false if it found no place for it.
    pub fn make(self, random: &mut Random, root: &mut Type) -> bool {
        match self {
            Edit::Add => root.grow(random),
            Edit::Strip => root.strip(random),
            Edit::Deepen => {
                let full = root.nodes() == TYPE_NODES;
                let (node, level) = root.somewhere(random, 1);
                !full && level < TYPE_LEVELS && node.children.is_empty() && node.grow(random)
            }
            Edit::Basic => {
                let basic = basic(random);
                let (node, _) = root.somewhere(random, 1);
                std::mem::replace(&mut node.basic, basic) != basic
            }
            Edit::Optional | Edit::Mandatory | Edit::Remove | Edit::Id => {
                let (parent, _) = root.somewhere(random, 1);
                !parent.children.is_empty() && self.make_at_child(random, parent)
            }
        }
    }

    fn make_at_child(self, random: &mut Random, parent: &mut Type) -> bool {
        let at = random.below(parent.children.len());
        match self {
            Edit::Remove => {
                parent.children.remove(at);
                true
            }
            Edit::Id => rename(random, parent, at),
            _ => {
                let optional = self == Edit::Optional;
                std::mem::replace(&mut parent.children[at].optional, optional) != optional
            }
        }
    }
}

/// Gives a child an id that none of them has.
fn rename(random: &mut Random, parent: &mut Type, at: usize) -> bool {
    let id = some_id(random);
    if parent.children.iter().any(|child| child.id == id) {
        return false;
    }
    parent.children[at].id = id;
    parent.sort();
    true
}
