//! Keyed services: types that have the key, or nearly so, for the inputs of some.

use second::environment::{trees, Node};
use second::tables::TypeRow;
use second::Basic;

use super::{Blunder, Maker};
use crate::keys::decide::Unfit;
use crate::random::Random;

/// The keys of a network, one or two in every fourth, and how inputs are unfit: as a blunder says, and now and then
/// beside an output that meets no input.
pub(super) fn chosen(random: &mut Random, ids: &[u16], blunder: Option<Blunder>) -> (Vec<u16>, Option<Unfit>) {
    use Blunder::*;
    let unfit = match blunder {
        Some(Key(unfit)) => Some(unfit),
        Some(NoInput | InputKind | InputRequest | InputReply) if random.one_in(4) => {
            random.pick(&[Unfit::Missing, Unfit::Optional, Unfit::OtherBasic]).copied()
        }
        _ => None,
    };
    if unfit.is_none() && !random.one_in(4) {
        return (Vec::new(), None);
    }
    let count = if random.one_in(3) { 2 } else { 1 };
    let keys = (0..count).map(|_| ids[random.below(ids.len())]).collect();
    (keys, unfit)
}

/// What is wrong with the key of a type's tree.
fn unfit(tree: &[Node], key: u16) -> Option<Unfit> {
    let found = trees(&tree[1..]).map(|child| child[0]).find(|child| child.id == key);
    match found {
        None => Some(Unfit::Missing),
        Some(child) if !child.mandatory => Some(Unfit::Optional),
        Some(child) if child.basic != Basic::Int => Some(Unfit::OtherBasic),
        Some(_) => None,
    }
}

impl Maker<'_> {
    /// A service's key, or 0; in a network with keys the first service has one.
    pub(super) fn some_key(&mut self) -> u16 {
        let first = self.tables.services.is_empty();
        match self.random.pick(&self.keys) {
            Some(&key) if first || self.random.one_in(2) => key,
            _ => 0,
        }
    }

    /// Types with each key, and one that is unfit as inputs are to be.
    pub(super) fn key_types(&mut self) {
        for key in self.keys.clone() {
            for _ in 0..self.random.between(2, 3) {
                self.key_type(key, None);
            }
            if let Some(unfit) = self.unfit {
                self.key_type(key, Some(unfit));
            }
        }
    }

    /// A root and its children, of which one is the key or nearly so; now and then the key has children.
    fn key_type(&mut self, key: u16, unfit: Option<Unfit>) {
        let mut ids = self.some_ids(3);
        ids.retain(|&id| id != key);
        if unfit != Some(Unfit::Missing) {
            ids.insert(ids.partition_point(|&id| id < key), key);
        }
        let (start, count) = (self.tables.types.len() as u16, ids.len() as u16);
        let first_child = if count == 0 { 0 } else { start + 1 };
        let basic = self.basic().byte();
        self.tables.types.push(TypeRow { id: 0, cardinality: 1, basic, first_child, child_count: count });
        for id in ids {
            let (cardinality, basic) = match unfit {
                _ if id != key => (u8::from(!self.random.one_in(3)), self.basic()),
                Some(Unfit::Optional) => (0, if self.random.one_in(3) { self.basic() } else { Basic::Int }),
                Some(Unfit::OtherBasic) => {
                    (1, *self.random.pick(&[Basic::Long, Basic::Raw, Basic::Void]).expect("three"))
                }
                _ => (1, Basic::Int),
            };
            let basic = basic.byte();
            self.tables.types.push(TypeRow { id, cardinality, basic, ..TypeRow::default() });
        }
        if self.random.one_in(3) {
            self.below_key(usize::from(start), key);
        }
    }

    /// Children of the key of a type whose rows are the last.
    fn below_key(&mut self, root: usize, key: u16) {
        let ids = self.some_ids(2);
        let Some(at) = (root + 1..self.tables.types.len()).find(|&row| self.tables.types[row].id == key) else {
            return;
        };
        if ids.is_empty() {
            return;
        }
        self.tables.types[at].first_child = self.tables.types.len() as u16;
        self.tables.types[at].child_count = ids.len() as u16;
        for id in ids {
            let (cardinality, basic) = (self.random.below(2) as u8, self.basic().byte());
            self.tables.types.push(TypeRow { id, cardinality, basic, ..TypeRow::default() });
        }
    }

    /// A request type for an input of a service: one that has its key, unless a mistake is made.
    pub(super) fn input_root(&mut self, service: usize) -> u16 {
        let key = self.tables.services[service].key;
        if key == 0 || self.is_careless() {
            return self.some_root();
        }
        let wanted = self.unfit.filter(|_| self.random.one_in(2));
        let alike = self.roots.iter().filter(|(_, tree)| unfit(tree, key) == wanted);
        let alike: Vec<u16> = alike.map(|(row, _)| *row).collect();
        *self.random.pick(&alike).expect("a type with the key")
    }
}
