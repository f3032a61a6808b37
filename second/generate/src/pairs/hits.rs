//! What pairs have hit, so that a run that misses something can fail.

use std::collections::BTreeMap;
use std::fmt;

use counterexample::{Cause, Refusal, LEAST_OUT};
use second::environment::{trees, Node};
use second::network::{TYPE_LEVELS, TYPE_NODES};
use second::{message, Network};
use stepper::Tree;

use super::{type_rows, Edit, Pair};

/// Each name was to be hit often enough.
pub struct PairHits {
    counts: BTreeMap<String, usize>,
}

const ANSWERED: [&str; 12] = [
    "answered, each choice of optional nodes tried",
    "answered, more than ten optional nodes",
    "none",
    "none for one row twice",
    "none for types of 16 nodes and 4 levels",
    "a message for types of 16 nodes and 4 levels",
    "an id above 255 in the message",
    "as few nodes in another message",
    "a higher id since its low byte is lower",
    "an optional child with mandatory ones below",
    "a child's row as first root",
    "a child's row as second root",
];

/// The verdicts on files that are answered.
const FILES: [&str; 4] = ["accepted", "refused by 6 to 12", "refused by 13", "refused by 23"];

const REFUSED: [&str; 14] = [
    "refused  1",
    "refused  1 with a buffer of 511 bytes",
    "refused  1 where a larger buffer gives 0",
    "refused  1 where a larger buffer gives 2 to 5",
    "refused  1 where a larger buffer gives 15",
    "refused  2",
    "refused  3",
    "refused  4",
    "refused  5",
    "refused  2 to 5 with numbers that are no rows",
    "refused 15 for the first number alone",
    "refused 15 for the second number alone",
    "refused 15 for both numbers",
    "refused 15 for the number of rows",
];

/// What alone makes a message unfit for the second type.
#[derive(Clone, Copy, PartialEq, Eq, Debug)]
enum Fault {
    Basic,
    Unknown,
    Missing,
}

impl Fault {
    const ALL: [Fault; 3] = [Fault::Basic, Fault::Unknown, Fault::Missing];

    fn name(self, depth: usize) -> String {
        let what = match self {
            Fault::Basic => "another basic type",
            Fault::Unknown => "an unknown child",
            Fault::Missing => "a missing child",
        };
        format!("{what} at depth {depth}")
    }
}

fn edit_name(edit: Edit, unfit: bool) -> String {
    format!("{} after the edit {edit:?} alone", if unfit { "a message" } else { "none" })
}

impl Default for PairHits {
    fn default() -> PairHits {
        let mut names: Vec<String> = ANSWERED.iter().chain(&REFUSED).map(|&name| name.into()).collect();
        names.extend(FILES.map(|verdict| format!("answered, the file {verdict}")));
        names.extend(["at", "above"].map(|size| format!("answered, the buffer {size} 512 bytes")));
        for fault in Fault::ALL {
            names.extend((usize::from(fault != Fault::Basic)..TYPE_LEVELS).map(|depth| fault.name(depth)));
        }
        for edit in Edit::ALL {
            names.extend([true, false].map(|unfit| edit_name(edit, unfit)));
        }
        // After these there is always a message.
        names.retain(|name| ![Edit::Basic, Edit::Id].map(|edit| edit_name(edit, false)).contains(name));
        PairHits { counts: names.into_iter().map(|name| (name, 0)).collect() }
    }
}

impl fmt::Display for PairHits {
    fn fmt(&self, f: &mut fmt::Formatter) -> fmt::Result {
        for (name, count) in &self.counts {
            writeln!(f, "{count:8}  {name}")?;
        }
        Ok(())
    }
}

impl PairHits {
    fn hit(&mut self, name: &str) {
        *self.counts.get_mut(name).unwrap_or_else(|| panic!("{name} is not among the names that are counted")) += 1;
    }

    fn hit_if(&mut self, holds: bool, name: &str) {
        if holds {
            self.hit(name);
        }
    }

    /// Names that were hit less often.
    pub fn below(&self, least: usize) -> Vec<&str> {
        self.counts.iter().filter(|(_, &count)| count < least).map(|(name, _)| name.as_str()).collect()
    }

    /// A pair, its answer (a message, empty for none) and all messages of as few nodes, where they are known.
    pub fn pair(&mut self, pair: &Pair, answer: Result<&[u8], Refusal>, fewest: Option<&[Vec<u8>]>) {
        match answer {
            Ok(message) => {
                let network = Network::read(&pair.file).expect("a file that is answered");
                self.answered(pair, &network, message);
                self.tied(message, fewest);
            }
            Err(refusal) => self.refused(pair, refusal),
        }
    }

    fn refused(&mut self, pair: &Pair, refusal: Refusal) {
        let rows = type_rows(&pair.file).unwrap_or(0);
        let [no_first, no_second] = [pair.first, pair.second].map(|number| usize::from(number) >= rows);
        match refusal.cause {
            Cause::OutBuffer => {
                self.hit("refused  1");
                self.hit_if(pair.out_size == LEAST_OUT - 1, "refused  1 with a buffer of 511 bytes");
                let file = Network::read(&pair.file);
                let larger = if file.is_err() { "2 to 5" } else { ["0", "15"][usize::from(no_first || no_second)] };
                self.hit(&format!("refused  1 where a larger buffer gives {larger}"));
            }
            Cause::File(_) => {
                self.hit(&format!("refused {:2}", refusal.number));
                self.hit_if(no_first || no_second, "refused  2 to 5 with numbers that are no rows");
            }
            Cause::FirstRow | Cause::SecondRow => {
                let which = match (no_first, no_second) {
                    (true, true) => "both numbers",
                    (true, false) => "the first number alone",
                    _ => "the second number alone",
                };
                self.hit(&format!("refused 15 for {which}"));
                let is_end = [pair.first, pair.second].iter().any(|&number| usize::from(number) == rows);
                self.hit_if(is_end, "refused 15 for the number of rows");
            }
        }
    }

    fn answered(&mut self, pair: &Pair, network: &Network, message: &[u8]) {
        let verdict = match second::check(&pair.file) {
            Ok(_) => FILES[0],
            Err(refusal) if refusal.number < 13 => FILES[1],
            Err(refusal) if refusal.number == 13 => FILES[2],
            Err(_) => FILES[3],
        };
        self.hit(&format!("answered, the file {verdict}"));
        let size = if pair.out_size > LEAST_OUT { "above" } else { "at" };
        self.hit(&format!("answered, the buffer {size} 512 bytes"));
        let rows = [pair.first, pair.second].map(|number| &network.types[usize::from(number)]);
        self.hit_if(rows[0].id != 0, "a child's row as first root");
        self.hit_if(rows[1].id != 0, "a child's row as second root");
        let largest = rows.iter().all(|row| (row.nodes, row.levels) == (TYPE_NODES, TYPE_LEVELS));
        if let Some([edit]) = pair.edits.as_deref() {
            self.hit(&edit_name(*edit, !message.is_empty()));
        }
        let Some(tree) = Tree::read_message(message) else {
            self.hit("none");
            self.hit_if(pair.first == pair.second, "none for one row twice");
            self.hit_if(largest, "none for types of 16 nodes and 4 levels");
            return;
        };
        self.hit_if(largest, "a message for types of 16 nodes and 4 levels");
        self.message(network, pair, &tree);
    }

    fn message(&mut self, network: &Network, pair: &Pair, tree: &Tree) {
        let [first, second] = [pair.first, pair.second].map(|row| network.write_out(row.into()));
        self.hit_if(highest_id(tree) > 255, "an id above 255 in the message");
        self.hit_if(adds_mandatory(tree, &first), "an optional child with mandatory ones below");
        let mut faults = Vec::new();
        find_faults(tree, &second, 0, &mut faults);
        if let [(fault, depth)] = faults[..] {
            self.hit(&fault.name(depth));
        }
    }

    fn tied(&mut self, message: &[u8], fewest: Option<&[Vec<u8>]>) {
        let Some(fewest) = fewest else { return self.hit("answered, more than ten optional nodes") };
        self.hit("answered, each choice of optional nodes tried");
        self.hit_if(fewest.len() > 1, "as few nodes in another message");
        let higher = fewest.iter().skip(1).any(|other| has_higher_id(message, other));
        self.hit_if(higher, "a higher id since its low byte is lower");
    }
}

fn highest_id(tree: &Tree) -> u16 {
    tree.children.iter().map(highest_id).fold(tree.id, u16::max)
}

/// The child of a type written out.
fn child(nodes: &[Node], id: u16) -> Option<&[Node]> {
    trees(&nodes[1..]).find(|child| child[0].id == id)
}

/// Whether an optional node is there that has a mandatory child.
fn adds_mandatory(tree: &Tree, nodes: &[Node]) -> bool {
    tree.children.iter().any(|below| {
        child(nodes, below.id).is_some_and(|nodes| {
            let adds = !nodes[0].mandatory && trees(&nodes[1..]).any(|child| child[0].mandatory);
            adds || adds_mandatory(below, nodes)
        })
    })
}

/// What keeps a message from a type, and how deep below the root.
fn find_faults(tree: &Tree, nodes: &[Node], depth: usize, faults: &mut Vec<(Fault, usize)>) {
    if tree.basic != nodes[0].basic {
        faults.push((Fault::Basic, depth));
    }
    for below in &tree.children {
        match child(nodes, below.id) {
            Some(nodes) => find_faults(below, nodes, depth + 1, faults),
            None => faults.push((Fault::Unknown, depth + 1)),
        }
    }
    let lacks = |child: &&[Node]| child[0].mandatory && tree.find(&[child[0].id]).is_none();
    faults.extend(trees(&nodes[1..]).filter(lacks).map(|_| (Fault::Missing, depth + 1)));
}

/// Whether the first byte in which two messages differ is an id's, and the one with the lower bytes has the higher id.
fn has_higher_id(message: &[u8], other: &[u8]) -> bool {
    let at = message.iter().zip(other).position(|(own, other)| own != other);
    let id = |bytes| message::nodes(bytes)?.iter().find(|node| Some(node.start) == at).map(|node| node.id);
    message < other && id(message) > id(other)
}
