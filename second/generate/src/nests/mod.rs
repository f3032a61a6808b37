//! Behaviours nested as deep as 256 rows allow, of one kind or mixed, with all that a move may find
//! at the end: right ones and ones that the checker refuses there.

pub mod kit;
pub mod reach;

use second::network::{Behaviour, Expression, Network};
use second::tables::{BehaviourRow, ServiceRow, Tables, NONE};

use crate::random::Random;

/// Rows of a file.
const ROWS: usize = 256;

/// One level: a row, or a choice with its branch and input, and where the rest is nested in it.
#[derive(Clone, Copy, PartialEq, Eq, Debug)]
pub enum Level {
    While,
    Then,
    Else,
    First,
    Second,
    Left,
    Right,
    /// After a choice's input.
    Branch,
    /// In the body of a choice's input.
    Input,
    Answer,
}

impl Level {
    pub const ALL: [Level; 10] = {
        use Level::*;
        [While, Then, Else, First, Second, Left, Right, Branch, Input, Answer]
    };

    pub fn name(self) -> &'static str {
        match self {
            Level::While => "whiles",
            Level::Then => "ifs by then",
            Level::Else => "ifs by else",
            Level::First => "sequences to the left",
            Level::Second => "sequences to the right",
            Level::Left => "parallels to the left",
            Level::Right => "parallels to the right",
            Level::Branch => "choices by branches",
            Level::Input => "choices by inputs",
            Level::Answer => "request-responses",
        }
    }

    fn rows(self) -> usize {
        match self {
            Level::While | Level::Answer => 1,
            Level::Branch => 3,
            Level::Input => 4,
            _ => 2,
        }
    }

    /// How many of them a file can hold in one another.
    pub fn most(self) -> usize {
        (ROWS - 1) / self.rows()
    }
}

/// What stands at the end, or beside each sequence and parallel.
#[derive(Clone, Copy, PartialEq, Eq, Debug)]
pub enum Leaf {
    Nil,
    Assign,
    /// Receives a message.
    OneWay,
    /// Receives a request and answers it.
    Answer,
    Notify,
    Ask,
    NotifyOutside,
    AskOutside,
    While,
    If,
    /// 6: a notification by an input.
    Misnamed,
    /// 7: a path that is not there is read.
    Missing,
    /// 8: an int is negated as if it were a bool.
    WrongKind,
    /// 9: a bool is sent for an int.
    Unfit,
    /// 12: a message of four levels below a path of four steps.
    TooDeep,
}

impl Leaf {
    pub const ALL: [Leaf; 15] = {
        use Leaf::*;
        [
            Nil,
            Assign,
            OneWay,
            Answer,
            Notify,
            Ask,
            NotifyOutside,
            AskOutside,
            While,
            If,
            Misnamed,
            Missing,
            WrongKind,
            Unfit,
            TooDeep,
        ]
    };

    /// Its rows, the first of which has the number `at`.
    fn rows(self, nest: &Nest, at: u16) -> Vec<BehaviourRow> {
        let (condition, kinds) = (nest.condition, &nest.operations);
        let value = if nest.large { kit::READ } else { kit::DEEP_INT };
        match self {
            Leaf::Nil => vec![row(0, [0; 4])],
            Leaf::Assign => vec![row(9, [kit::OTHER, kit::DEEP_INT, 0, 0])],
            Leaf::OneWay => vec![row(1, [kinds.one_way, kit::ROOT, 0, 0])],
            Leaf::Answer => vec![row(2, [kinds.answer, kit::ROOT, kit::ROOT, at + 1]), row(0, [0; 4])],
            Leaf::Notify => vec![row(3, [kinds.notify, value, 0, 0])],
            Leaf::Ask => vec![row(4, [kinds.ask, value, kit::ROOT, 0])],
            Leaf::NotifyOutside => vec![row(3, [kinds.notify_outside, value, 0, 0])],
            Leaf::AskOutside => vec![row(4, [kinds.ask_outside, value, kit::ROOT, 0])],
            Leaf::While => vec![row(6, [condition, at + 1, 0, 0]), row(0, [0; 4])],
            Leaf::If => vec![row(5, [condition, at + 1, at + 2, 0]), row(0, [0; 4]), row(0, [0; 4])],
            Leaf::Misnamed => vec![row(3, [kinds.one_way, value, 0, 0])],
            Leaf::Missing => vec![row(9, [kit::OTHER, kit::READ_MISSING, 0, 0])],
            Leaf::WrongKind => vec![row(9, [kit::OTHER, kit::NOT_OF_INT, 0, 0])],
            Leaf::Unfit => vec![row(3, [kinds.notify, kit::TRUE, 0, 0])],
            Leaf::TooDeep => vec![row(1, [kit::LARGE.one_way, kit::FOUR_STEPS, 0, 0])],
        }
    }
}

fn row(kind: u8, fields: [u16; 4]) -> BehaviourRow {
    BehaviourRow { kind, unused: 0, fields }
}

/// A service that runs a nest, as its client or its starter.
#[derive(Clone, Debug)]
pub struct Nest {
    pub levels: Vec<Level>,
    pub leaf: Leaf,
    /// What stands beside each sequence and parallel: a row.
    pub side: Leaf,
    /// Expression row of ifs and whiles.
    pub condition: u16,
    /// The largest messages instead of an int.
    pub large: bool,
    pub operations: kit::Operations,
    /// A starter's first level is a choice.
    pub starter: bool,
}

impl Nest {
    /// As many levels of a kind as there is room for.
    pub fn full(level: Level, leaf: Leaf) -> Nest {
        Nest::repeated(&[level], leaf)
    }

    /// The levels over and over while there is room.
    pub fn repeated(cycle: &[Level], leaf: Leaf) -> Nest {
        let mut nest = Nest {
            levels: Vec::new(),
            leaf,
            side: Leaf::Nil,
            condition: kit::TRUE,
            large: false,
            operations: kit::SMALL,
            starter: false,
        };
        let mut left = ROWS - leaf.rows(&nest, 0).len();
        for level in cycle.iter().cycle() {
            if level.rows() > left {
                break;
            }
            left -= level.rows();
            nest.levels.push(*level);
        }
        nest
    }

    /// With the largest messages.
    pub fn large(self) -> Nest {
        Nest { large: true, operations: kit::LARGE, ..self }
    }

    /// Conditions of 8 levels.
    pub fn deep(self) -> Nest {
        Nest { condition: kit::DEEP_BOOL, ..self }
    }

    /// As a starter: a level more at the front, some less at the end.
    pub fn started(mut self) -> Nest {
        if !matches!(self.levels.first(), Some(Level::Branch | Level::Input)) {
            self.levels.insert(0, Level::Branch);
            let rows = |nest: &Nest| nest.levels.iter().map(|level| level.rows()).sum::<usize>();
            while rows(&self) + self.leaf.rows(&self, 0).len() > ROWS {
                self.levels.pop();
            }
        }
        Nest { starter: true, ..self }
    }

    pub fn tables(&self) -> Tables {
        let mut tables = kit::tables();
        for level in &self.levels {
            let at = tables.behaviours.len() as u16;
            tables.behaviours.extend(self.level(*level, at));
        }
        let at = tables.behaviours.len() as u16;
        tables.behaviours.extend(self.leaf.rows(self, at));
        let (starter, client) = if self.starter { (0, NONE) } else { (NONE, 0) };
        tables.services.push(ServiceRow { location: kit::LOCATION, starter, client, key: 0 });
        tables
    }

    /// The rows of a level; the rest follows them.
    fn level(&self, level: Level, at: u16) -> Vec<BehaviourRow> {
        let Nest { condition, operations, .. } = self;
        let rest = at + level.rows() as u16;
        let beside = |kind: u8, fields: [u16; 4]| [vec![row(kind, fields)], self.side.rows(self, at + 1)].concat();
        let answer = |body: u16| row(2, [operations.answer, kit::ROOT, kit::ROOT, body]);
        match level {
            Level::While => vec![row(6, [*condition, rest, 0, 0])],
            Level::Then => vec![row(5, [*condition, rest, at + 1, 0]), row(0, [0; 4])],
            Level::Else => vec![row(5, [*condition, at + 1, rest, 0]), row(0, [0; 4])],
            Level::First => beside(7, [rest, at + 1, 0, 0]),
            Level::Second => beside(7, [at + 1, rest, 0, 0]),
            Level::Left => beside(8, [rest, at + 1, 0, 0]),
            Level::Right => beside(8, [at + 1, rest, 0, 0]),
            Level::Branch => vec![
                row(10, [at + 1, 1, 0, 0]),
                row(11, [at + 2, rest, 0, 0]),
                row(1, [operations.one_way, kit::ROOT, 0, 0]),
            ],
            Level::Input => {
                vec![row(10, [at + 1, 1, 0, 0]), row(11, [at + 3, at + 2, 0, 0]), row(0, [0; 4]), answer(rest)]
            }
            Level::Answer => vec![answer(rest)],
        }
    }
}

/// A nest to check.
pub fn some(random: &mut Random) -> Nest {
    let leaf = match random.below(3) {
        0 => Leaf::Nil,
        1 => Leaf::ALL[random.below(15)],
        _ => Leaf::ALL[random.between(10, 14)],
    };
    let level = Level::ALL[random.below(10)];
    ending(random, level, leaf)
}

/// A nest at whose end there is something to do: the least in ifs, which come more often.
pub fn busy(random: &mut Random) -> Nest {
    let leaf = Leaf::ALL[random.between(1, 9)];
    let ifs = if random.one_in(2) { Level::Then } else { Level::Else };
    let level = if random.one_in(4) { ifs } else { Level::ALL[random.below(10)] };
    ending(random, level, leaf)
}

/// A nest of one kind or of all, mostly as deep as it can be.
fn ending(random: &mut Random, level: Level, leaf: Leaf) -> Nest {
    let mut nest = match random.below(4) {
        0 => mixed(random, leaf),
        _ => Nest::full(level, leaf),
    };
    if random.one_in(3) {
        nest.levels.truncate(random.between(nest.levels.len() / 2, nest.levels.len()));
    }
    nest.condition = *random.pick(&[kit::TRUE, kit::FALSE, kit::DEEP_BOOL]).expect("three");
    if random.one_in(4) {
        nest = nest.large();
    }
    if random.one_in(3) {
        nest.side = *random.pick(&[Leaf::Assign, Leaf::OneWay, Leaf::NotifyOutside]).expect("three");
    }
    if random.one_in(3) {
        nest = nest.started();
    }
    nest
}

/// All kinds of levels in one another, as they come.
pub fn mixed(random: &mut Random, leaf: Leaf) -> Nest {
    let cycle: Vec<Level> = (0..random.between(10, 40)).map(|_| Level::ALL[random.below(10)]).collect();
    Nest::repeated(&cycle, leaf)
}

/// For each row of a network how many levels of each kind it is nested in.
pub fn depths(network: &Network) -> Vec<[usize; 10]> {
    let mut depths = vec![[0; 10]; network.behaviours.len()];
    for row in 0..depths.len() {
        for (number, part) in network.behaviours[row].parts().into_iter().enumerate() {
            depths[part] = depths[row];
            if let Some(level) = level_of(&network.behaviours[row], number) {
                depths[part][level as usize] += 1;
            }
        }
    }
    depths
}

/// The level that a part of a row is nested by.
fn level_of(behaviour: &Behaviour, part: usize) -> Option<Level> {
    match (behaviour, part) {
        (Behaviour::While { .. }, _) => Some(Level::While),
        (Behaviour::If { .. }, 0) => Some(Level::Then),
        (Behaviour::If { .. }, _) => Some(Level::Else),
        (Behaviour::Sequence(..), 0) => Some(Level::First),
        (Behaviour::Sequence(..), _) => Some(Level::Second),
        (Behaviour::Parallel(..), 0) => Some(Level::Left),
        (Behaviour::Parallel(..), _) => Some(Level::Right),
        (Behaviour::Branch { .. }, 0) => Some(Level::Input),
        (Behaviour::Branch { .. }, _) => Some(Level::Branch),
        (Behaviour::RequestResponse { .. }, _) => Some(Level::Answer),
        _ => None,
    }
}

/// Levels of many kinds in one another.
pub const MIXED: &str = "levels of six kinds";

/// Which nests a row with these depths is at the end of: of a kind half as deep as can be, or mixed.
pub fn nests_of(depths: &[usize; 10]) -> Vec<&'static str> {
    let pure = Level::ALL.into_iter().filter(|&level| depths[level as usize] >= level.most() / 2);
    let mut names: Vec<&str> = pure.map(Level::name).collect();
    let kinds = depths.iter().filter(|&&depth| depth >= 3).count();
    if kinds >= 6 && depths.iter().sum::<usize>() >= 80 {
        names.push(MIXED);
    }
    names
}

/// The most leaves of an expression that is written out.
pub fn most_leaves(network: &Network) -> usize {
    use Expression::*;
    let mut leaves: Vec<usize> = Vec::with_capacity(network.expressions.len());
    for expression in &network.expressions {
        leaves.push(match *expression {
            Constant(..) | Path(_) | Present(_) => 1,
            Not(a) | Negate(a) => leaves[a],
            Add(a, b) | Subtract(a, b) | Less(a, b) | Equal(a, b) | And(a, b) => leaves[a] + leaves[b],
        });
    }
    leaves.into_iter().max().unwrap_or(0)
}

/// All names of nests.
pub fn names() -> impl Iterator<Item = &'static str> {
    Level::ALL.map(Level::name).into_iter().chain([MIXED])
}

#[cfg(test)]
mod tests {
    use super::*;

    #[test]
    fn each_kind_is_accepted_as_deep_as_the_rows_allow() {
        for level in Level::ALL {
            let file = Nest::full(level, Leaf::Nil).tables().write();
            let network = Network::read(&file).unwrap_or_else(|refusal| panic!("{level:?}: {refusal}"));
            assert!(second::check(&file).is_ok(), "{level:?}: {:?}", second::check(&file));
            let last = *depths(&network).last().expect("a row");
            assert_eq!(last[level as usize], level.most());
            assert!(nests_of(&last).contains(&level.name()));
        }
    }

    #[test]
    fn the_mistakes_give_their_refusals() {
        let number = |leaf| second::check(&Nest::full(Level::Second, leaf).tables().write()).map_err(|r| r.number);
        for (leaf, expected) in
            [(Leaf::Misnamed, 6), (Leaf::Missing, 7), (Leaf::WrongKind, 8), (Leaf::Unfit, 9), (Leaf::TooDeep, 12)]
        {
            assert_eq!(number(leaf).err(), Some(expected), "{leaf:?}");
        }
        for leaf in Leaf::ALL.into_iter().take(10) {
            assert!(number(leaf).is_ok(), "{leaf:?}: {:?}", number(leaf).err());
        }
        let adding = Nest::full(Level::While, Leaf::Assign).tables().write();
        assert_eq!(second::check(&adding).map_err(|refusal| refusal.number).err(), Some(10));
        let sharing = Nest { side: Leaf::Assign, ..Nest::full(Level::Left, Leaf::Assign) }.tables().write();
        assert_eq!(second::check(&sharing).map_err(|refusal| (refusal.number, refusal.place)).err(), Some((11, 0)));
    }
}
