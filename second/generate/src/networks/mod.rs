//! Networks that are accepted, or would be but for a few careless choices.

mod behaviours;
mod expressions;
mod keys;
mod operations;
mod types;

pub use expressions::value;

use second::environment::Node;
use second::{Basic, Tables};

use crate::keys::decide::Unfit;
use crate::random::Random;

/// A single mistake, made where it can be made.
#[derive(Clone, Copy, PartialEq, Eq, Debug)]
pub enum Blunder {
    ReadOptional,
    TestMissing,
    AssignBelowOptional,
    AddBelowOptional,
    AssignOptionalParent,
    ReplyOptional,
    ReplyMissing,
    IfSides,
    WhileBody,
    ChoiceBranches,
    /// Sides or branches that differ in a cardinality alone.
    Cardinality,
    SharedRoot,
    NoInput,
    InputKind,
    InputRequest,
    InputReply,
    /// An input of a keyed service without the key, with an optional one, or one of another basic type.
    Key(Unfit),
}

impl Blunder {
    pub const ALL: [Blunder; 19] = {
        use Blunder::*;
        [
            ReadOptional,
            TestMissing,
            AssignBelowOptional,
            AddBelowOptional,
            AssignOptionalParent,
            ReplyOptional,
            ReplyMissing,
            IfSides,
            WhileBody,
            ChoiceBranches,
            Cardinality,
            SharedRoot,
            NoInput,
            InputKind,
            InputRequest,
            InputReply,
            Key(Unfit::Missing),
            Key(Unfit::Optional),
            Key(Unfit::OtherBasic),
        ]
    };
}

/// The rows of a network. `careless` is the chance in a thousand that a choice ignores its rule.
pub fn tables(random: &mut Random, careless: usize, blunder: Option<Blunder>) -> Tables {
    let mut maker = Maker::new(random, careless, blunder);
    maker.types();
    maker.services();
    maker.operations();
    maker.behaviours();
    maker.tables
}

/// An accepted network whose services talk: each has a client and a starter, inputs of both kinds, and
/// outputs to the inputs of all.
pub fn talkative(random: &mut Random) -> Tables {
    let mut maker = Maker::new(random, 0, None);
    maker.talkative = true;
    maker.types();
    maker.services();
    maker.operations();
    maker.behaviours();
    maker.tables
}

/// A behaviour before its rows have numbers.
#[derive(Clone)]
struct Plan {
    kind: u8,
    fields: [u16; 4],
    /// Sub-behaviours and the fields that name them.
    subs: Vec<(usize, Plan)>,
    /// The branches of a choice.
    branches: Vec<Plan>,
}

impl Plan {
    fn row(kind: u8, fields: [u16; 4]) -> Plan {
        Plan { kind, fields, subs: Vec::new(), branches: Vec::new() }
    }

    fn nil() -> Plan {
        Plan::row(0, [0; 4])
    }

    fn with(kind: u8, fields: [u16; 4], subs: Vec<(usize, Plan)>) -> Plan {
        Plan { kind, fields, subs, branches: Vec::new() }
    }

    fn sequence(left: Plan, right: Plan) -> Plan {
        Plan::with(7, [0; 4], vec![(0, left), (1, right)])
    }

    fn choice(branches: Vec<Plan>) -> Plan {
        Plan { kind: 10, fields: [0; 4], subs: Vec::new(), branches }
    }

    fn branch(input: Plan, then: Plan) -> Plan {
        Plan::with(11, [0; 4], vec![(0, input), (1, then)])
    }

    fn rows(&self) -> usize {
        1 + self.subs.iter().map(|(_, sub)| sub.rows()).sum::<usize>()
            + self.branches.iter().map(Plan::rows).sum::<usize>()
    }
}

/// Where a statement stands.
#[derive(Clone)]
struct Scope {
    service: u8,
    /// Root ids that its paths may have.
    roots: Vec<u16>,
    /// It must leave the environment as it is.
    quiet: bool,
}

struct Maker<'a> {
    random: &'a mut Random,
    careless: usize,
    blunder: Option<Blunder>,
    talkative: bool,
    tables: Tables,
    /// Root rows of types with their trees written out.
    roots: Vec<(u16, Vec<Node>)>,
    /// Two root rows whose trees differ in a cardinality alone.
    twins: Option<(u16, u16)>,
    /// How behaviour rows get their numbers.
    order: usize,
    rows_left: usize,
    /// Ids of children and steps.
    ids: Vec<u16>,
    /// Those that are keys of services; none in a network without keys.
    keys: Vec<u16>,
    /// How inputs of keyed services are unfit.
    unfit: Option<Unfit>,
}

impl<'a> Maker<'a> {
    fn new(random: &'a mut Random, careless: usize, blunder: Option<Blunder>) -> Maker<'a> {
        let ids = if random.one_in(6) {
            let mut ids: Vec<u16> = (0..8).map(|_| random.between(1, 65_535) as u16).collect();
            ids.sort_unstable();
            ids.dedup();
            ids
        } else {
            (1..=8).collect()
        };
        let order = random.below(3);
        let (keys, unfit) = keys::chosen(random, &ids, blunder);
        Maker {
            random,
            careless,
            blunder,
            talkative: false,
            tables: Tables::default(),
            roots: Vec::new(),
            twins: None,
            order,
            rows_left: 256,
            ids,
            keys,
            unfit,
        }
    }

    fn is_careless(&mut self) -> bool {
        let careless = self.careless;
        careless > 0 && self.random.per_mille(careless)
    }

    /// Whether this is the mistake to make, here.
    fn blunders(&mut self, blunder: Blunder) -> bool {
        self.blunder == Some(blunder) && self.random.one_in(2)
    }

    fn basic(&mut self) -> Basic {
        Basic::ALL[self.random.below(7)]
    }
}
