//! The rules of single rows and links (refusal 4), sizes (refusal 5), and the network that a file
//! stands for once these hold.

use std::ops::Range;

use crate::environment::Node;
use crate::refusal::{Cause, Refusal};
use crate::tables::{Layout, Section, Tables, NONE};
use crate::value::Basic;

/// Ids of a path: one to four, none 0.
#[derive(Clone, Copy, PartialEq, Eq, Debug)]
pub struct Path {
    ids: [u16; 4],
    length: u8,
}

impl Path {
    /// A path of four ids, or None if the first is 0 or another id stands after a 0.
    pub fn new(ids: [u16; 4]) -> Option<Path> {
        let length = ids.iter().position(|&id| id == 0).unwrap_or(4);
        let well_formed = length > 0 && ids[length..].iter().all(|&id| id == 0);
        well_formed.then_some(Path { ids, length: length as u8 })
    }

    pub fn ids(&self) -> &[u16] {
        &self.ids[..usize::from(self.length)]
    }

    pub fn root(&self) -> u16 {
        self.ids[0]
    }
}

/// An expression; operands are earlier rows.
#[derive(Clone, PartialEq, Eq, Debug)]
pub enum Expression {
    Constant(Basic, Range<usize>),
    Path(usize),
    Present(usize),
    Not(usize),
    Negate(usize),
    Add(usize, usize),
    Subtract(usize, usize),
    Less(usize, usize),
    Equal(usize, usize),
    And(usize, usize),
}

impl Expression {
    /// The rows of an operator's operands; the others have none.
    pub fn operands(&self) -> Vec<usize> {
        use Expression::*;
        match *self {
            Constant(..) | Path(_) | Present(_) => Vec::new(),
            Not(a) | Negate(a) => vec![a],
            Add(a, b) | Subtract(a, b) | Less(a, b) | Equal(a, b) | And(a, b) => vec![a, b],
        }
    }
}

/// A behaviour; sub-behaviours are later rows.
#[derive(Clone, PartialEq, Eq, Debug)]
pub enum Behaviour {
    Nil,
    OneWay { operation: usize, into: usize },
    RequestResponse { operation: usize, into: usize, reply: usize, body: usize },
    Notification { operation: usize, expression: usize },
    SolicitResponse { operation: usize, expression: usize, into: usize },
    If { condition: usize, then: usize, otherwise: usize },
    While { condition: usize, body: usize },
    Sequence(usize, usize),
    Parallel(usize, usize),
    Assign { path: usize, expression: usize },
    Choice { branches: Range<usize> },
    Branch { input: usize, then: usize },
}

impl Behaviour {
    /// The rows of its sub-behaviours.
    pub fn parts(&self) -> Vec<usize> {
        use Behaviour::*;
        match self {
            Nil | OneWay { .. } | Notification { .. } | SolicitResponse { .. } | Assign { .. } => Vec::new(),
            RequestResponse { body, .. } | While { body, .. } => vec![*body],
            If { then, otherwise, .. } => vec![*then, *otherwise],
            Sequence(a, b) | Parallel(a, b) => vec![*a, *b],
            Choice { branches } => branches.clone().collect(),
            Branch { input, then } => vec![*input, *then],
        }
    }
}

#[derive(Clone, Copy, PartialEq, Eq, Debug)]
pub enum Direction {
    In,
    Out,
}

#[derive(Clone, Copy, PartialEq, Eq, Debug)]
pub struct Operation {
    pub service: usize,
    pub direction: Direction,
    pub id: u16,
    pub location: u16,
    pub request: usize,
    /// The reply type of a two-way operation.
    pub reply: Option<usize>,
}

#[derive(Clone, Copy, PartialEq, Eq, Debug)]
pub struct Service {
    pub location: u16,
    pub starter: Option<usize>,
    pub client: Option<usize>,
    /// The id of the child by which messages find their session.
    pub key: Option<u16>,
}

/// A type node; children are later rows.
#[derive(Clone, PartialEq, Eq, Debug)]
pub struct TypeNode {
    pub id: u16,
    pub mandatory: bool,
    pub basic: Basic,
    pub children: Range<usize>,
    /// Nodes of this row written out.
    pub nodes: usize,
    /// Levels of this row written out.
    pub levels: usize,
}

/// A network whose rows and links are right and whose types and expressions are not too large.
#[derive(Clone, PartialEq, Eq, Debug)]
pub struct Network {
    pub paths: Vec<Path>,
    pub types: Vec<TypeNode>,
    pub expressions: Vec<Expression>,
    pub behaviours: Vec<Behaviour>,
    pub operations: Vec<Operation>,
    pub services: Vec<Service>,
    pub data: Vec<u8>,
    pub layout: Layout,
}

pub const TYPE_NODES: usize = 16;
pub const TYPE_LEVELS: usize = 4;
pub const EXPRESSION_LEVELS: usize = 8;

impl Network {
    /// Refusals 2 to 5.
    pub fn read(file: &[u8]) -> Result<Network, Refusal> {
        Network::read_sparing(file, None)
    }

    /// The same, but a file whose string constants alone are refused, for their text, is read.
    pub fn read_any_text(file: &[u8]) -> Result<Network, Refusal> {
        let spared = |refusal| Network::read_sparing(file, Some(Cause::BrokenText)).map_err(|_| refusal);
        Network::read(file).or_else(spared)
    }

    fn read_sparing(file: &[u8], spared: Option<Cause>) -> Result<Network, Refusal> {
        let (tables, layout) = Tables::read(file)?;
        let mut rules = Rules { tables: &tables, layout, spared, lowest: None };
        rules.judge();
        if let Some((place, cause)) = rules.lowest {
            return Err(Refusal::new(cause, place));
        }
        let network = Network::of_rows(tables, layout);
        network.sizes()?;
        Ok(network)
    }

    /// The child of a type row with an id.
    pub fn child(&self, row: usize, id: u16) -> Option<&TypeNode> {
        self.types[self.types[row].children.clone()].iter().find(|child| child.id == id)
    }

    /// The nodes of a type row written out, in preorder.
    pub fn write_out(&self, row: usize) -> Vec<Node> {
        let mut nodes = Vec::with_capacity(self.types[row].nodes);
        self.write_out_to(row, &mut nodes);
        nodes
    }

    fn write_out_to(&self, row: usize, nodes: &mut Vec<Node>) {
        let node = &self.types[row];
        nodes.push(Node { id: node.id, mandatory: node.mandatory, basic: node.basic, size: node.nodes as u8 });
        for child in node.children.clone() {
            self.write_out_to(child, nodes);
        }
    }

    /// Refusal 5: types before expressions, lowest row first.
    fn sizes(&self) -> Result<(), Refusal> {
        let too_large = |node: &TypeNode| node.nodes > TYPE_NODES || node.levels > TYPE_LEVELS;
        if let Some(row) = self.types.iter().position(too_large) {
            return Err(Refusal::new(Cause::TypeSize, self.layout.row(Section::Types, row)));
        }
        let mut levels: Vec<usize> = Vec::with_capacity(self.expressions.len());
        for (row, expression) in self.expressions.iter().enumerate() {
            use Expression::*;
            let below = match *expression {
                Constant(..) | Path(_) | Present(_) => 0,
                Not(a) | Negate(a) => levels[a],
                Add(a, b) | Subtract(a, b) | Less(a, b) | Equal(a, b) | And(a, b) => levels[a].max(levels[b]),
            };
            if below >= EXPRESSION_LEVELS {
                return Err(Refusal::new(Cause::ExpressionSize, self.layout.row(Section::Expressions, row)));
            }
            levels.push(below + 1);
        }
        Ok(())
    }

    /// The network of rows that the rules let pass.
    fn of_rows(tables: Tables, layout: Layout) -> Network {
        let number = usize::from;
        let run = |first: u16, count: u16| number(first)..number(first) + number(count);
        let basic = |byte: u8| Basic::from_byte(byte).expect("a basic type that the rules let pass");

        let mut types: Vec<TypeNode> = tables
            .types
            .iter()
            .map(|row| TypeNode {
                id: row.id,
                mandatory: row.cardinality == 1,
                basic: basic(row.basic),
                children: run(row.first_child, row.child_count),
                nodes: 1,
                levels: 1,
            })
            .collect();
        for row in (0..types.len()).rev() {
            for child in types[row].children.clone() {
                types[row].nodes = types[row].nodes.saturating_add(types[child].nodes);
                types[row].levels = types[row].levels.max(types[child].levels + 1);
            }
        }

        let expressions = tables
            .expressions
            .iter()
            .map(|row| {
                let [a, b, _] = row.fields.map(number);
                match row.kind {
                    0 => Expression::Constant(basic(row.basic), a..a + b),
                    1 => Expression::Path(a),
                    2 => Expression::Present(a),
                    3 => Expression::Not(a),
                    4 => Expression::Negate(a),
                    5 => Expression::Add(a, b),
                    6 => Expression::Subtract(a, b),
                    7 => Expression::Less(a, b),
                    8 => Expression::Equal(a, b),
                    _ => Expression::And(a, b),
                }
            })
            .collect();

        let behaviours = tables
            .behaviours
            .iter()
            .map(|row| {
                let [a, b, c, d] = row.fields.map(number);
                match row.kind {
                    0 => Behaviour::Nil,
                    1 => Behaviour::OneWay { operation: a, into: b },
                    2 => Behaviour::RequestResponse { operation: a, into: b, reply: c, body: d },
                    3 => Behaviour::Notification { operation: a, expression: b },
                    4 => Behaviour::SolicitResponse { operation: a, expression: b, into: c },
                    5 => Behaviour::If { condition: a, then: b, otherwise: c },
                    6 => Behaviour::While { condition: a, body: b },
                    7 => Behaviour::Sequence(a, b),
                    8 => Behaviour::Parallel(a, b),
                    9 => Behaviour::Assign { path: a, expression: b },
                    10 => Behaviour::Choice { branches: a..a + b },
                    _ => Behaviour::Branch { input: a, then: b },
                }
            })
            .collect();

        let operations = tables
            .operations
            .iter()
            .map(|row| Operation {
                service: number(row.service.into()),
                direction: if row.direction == 0 { Direction::In } else { Direction::Out },
                id: row.id,
                location: row.location,
                request: number(row.request),
                reply: (row.two_way == 1).then_some(number(row.reply)),
            })
            .collect();

        let link = |row: u16| (row != NONE).then_some(number(row));
        let services = tables
            .services
            .iter()
            .map(|row| Service {
                location: row.location,
                starter: link(row.starter),
                client: link(row.client),
                key: (row.key != 0).then_some(row.key),
            })
            .collect();

        Network {
            paths: tables.paths.iter().map(|&ids| Path::new(ids).expect("a path that the rules let pass")).collect(),
            types,
            expressions,
            behaviours,
            operations,
            services,
            data: tables.data,
            layout,
        }
    }
}

const CHOICE: u8 = 10;
const BRANCH: u8 = 11;

/// Refusal 4: each rule is judged by itself and the lowest place broken is kept.
struct Rules<'a> {
    tables: &'a Tables,
    layout: Layout,
    /// A rule that is not tried.
    spared: Option<Cause>,
    lowest: Option<(usize, Cause)>,
}

impl Rules<'_> {
    fn judge(&mut self) {
        self.paths();
        self.types();
        self.expressions();
        self.behaviours();
        self.uses();
        self.operations();
        self.services();
    }

    fn require(&mut self, holds: bool, place: usize, cause: Cause) {
        let broken = !holds && self.spared != Some(cause);
        if broken && self.lowest.is_none_or(|(lowest, _)| place < lowest) {
            self.lowest = Some((place, cause));
        }
    }

    fn field(&mut self, holds: bool, place: usize) {
        self.require(holds, place, Cause::Field);
    }

    fn count(&self, section: Section) -> usize {
        self.layout.count(section)
    }

    fn paths(&mut self) {
        for (row, ids) in self.tables.paths.iter().enumerate() {
            let start = self.layout.row(Section::Paths, row);
            self.field(ids[0] != 0, start);
            for step in 1..4 {
                self.field(ids[step] == 0 || ids[step - 1] != 0, start + 2 * step);
            }
        }
    }

    fn types(&mut self) {
        let rows = &self.tables.types;
        for (row, node) in rows.iter().enumerate() {
            let start = self.layout.row(Section::Types, row);
            self.field(node.cardinality <= 1, start + 2);
            self.field(Basic::from_byte(node.basic).is_some(), start + 3);
            if node.child_count == 0 {
                self.field(node.first_child == 0, start + 4);
                continue;
            }
            let first = usize::from(node.first_child);
            let end = first + usize::from(node.child_count);
            self.require(first > row && end <= rows.len(), start + 4, Cause::TypeRun);
            // The existing rows of a broken run are children all the same.
            let mut before = 0;
            for (child, node) in rows.iter().enumerate().take(end).skip(first) {
                self.require(node.id > before, self.layout.row(Section::Types, child), Cause::ChildId);
                before = node.id;
            }
        }
    }

    fn expressions(&mut self) {
        let paths = self.count(Section::Paths);
        for (row, expression) in self.tables.expressions.iter().enumerate() {
            let start = self.layout.row(Section::Expressions, row);
            let [a, b, _] = expression.fields.map(usize::from);
            let named = match expression.kind {
                0 => {
                    match Basic::from_byte(expression.basic) {
                        Some(basic) => self.constant(basic, a..a + b, start + 2),
                        None => self.field(false, start + 1),
                    }
                    2
                }
                1 | 2 => {
                    self.field(a < paths, start + 2);
                    1
                }
                3 | 4 => {
                    self.field(a < row, start + 2);
                    1
                }
                5..=9 => {
                    self.field(a < row, start + 2);
                    self.field(b < row, start + 4);
                    2
                }
                _ => {
                    self.field(false, start);
                    continue;
                }
            };
            if expression.kind != 0 {
                self.field(expression.basic == 0, start + 1);
            }
            for unused in named..3 {
                self.field(expression.fields[unused] == 0, start + 2 + 2 * unused);
            }
        }
    }

    /// The constant's bytes are a value of its type. Of a string that is in the data and not too long, only the text
    /// can be wrong.
    fn constant(&mut self, basic: Basic, run: Range<usize>, place: usize) {
        let bytes = self.tables.data.get(run);
        let text = basic == Basic::String && bytes.is_some_and(|bytes| Basic::Raw.holds(bytes));
        let cause = if text { Cause::BrokenText } else { Cause::Constant };
        self.require(bytes.is_some_and(|bytes| basic.holds(bytes)), place, cause);
    }

    fn behaviours(&mut self) {
        let rows = &self.tables.behaviours;
        for (row, behaviour) in rows.iter().enumerate() {
            let start = self.layout.row(Section::Behaviours, row);
            let Some(named) = fields(behaviour.kind) else {
                self.field(false, start);
                continue;
            };
            self.field(behaviour.unused == 0, start + 1);
            let values = behaviour.fields.map(usize::from);
            for (index, &value) in values.iter().enumerate() {
                let place = start + 2 + 2 * index;
                match named.get(index) {
                    None => self.field(value == 0, place),
                    Some(Field::Row(section)) => self.field(value < self.count(*section), place),
                    Some(Field::Behaviour) => {
                        let later = value > row && rows.get(value).is_some_and(|sub| sub.kind != BRANCH);
                        self.field(later, place);
                    }
                    Some(Field::Input) => {
                        let input = value > row && rows.get(value).is_some_and(|sub| matches!(sub.kind, 1 | 2));
                        self.field(input, place);
                    }
                    Some(Field::FirstBranch) => {
                        let fits = value > row
                            && rows
                                .get(value..value + values[index + 1])
                                .is_some_and(|run| run.iter().all(|sub| sub.kind == BRANCH));
                        self.require(fits, place, Cause::ChoiceRun);
                    }
                    Some(Field::BranchCount) => self.field((1..=8).contains(&value), place),
                }
            }
        }
    }

    /// Each behaviour row is used exactly once; uses count in file order.
    fn uses(&mut self) {
        let rows = &self.tables.behaviours;
        let mut used = vec![false; rows.len()];
        for (row, behaviour) in rows.iter().enumerate() {
            let place = self.layout.row(Section::Behaviours, row);
            let Some(named) = fields(behaviour.kind) else { continue };
            let values = behaviour.fields.map(usize::from);
            for (index, field) in named.iter().enumerate() {
                let value = values[index];
                match field {
                    Field::Behaviour | Field::Input => self.using(&mut used, value..value + 1, place),
                    Field::FirstBranch => self.using(&mut used, value..value + values[index + 1], place),
                    Field::Row(_) | Field::BranchCount => {}
                }
            }
        }
        for (row, service) in self.tables.services.iter().enumerate() {
            let place = self.layout.row(Section::Services, row);
            for link in [service.starter, service.client].map(usize::from) {
                self.using(&mut used, link..link + 1, place);
            }
        }
        for (row, used) in used.into_iter().enumerate() {
            self.require(used, self.layout.row(Section::Behaviours, row), Cause::NeverUsed);
        }
    }

    /// One use of the existing rows of a run, by the row at `place`.
    fn using(&mut self, used: &mut [bool], run: Range<usize>, place: usize) {
        for row in run.start..run.end.min(used.len()) {
            self.require(!used[row], place, Cause::SecondUse);
            used[row] = true;
        }
    }

    fn operations(&mut self) {
        let rows = &self.tables.operations;
        for (row, operation) in rows.iter().enumerate() {
            let start = self.layout.row(Section::Operations, row);
            self.field(usize::from(operation.service) < self.count(Section::Services), start);
            self.field(operation.direction <= 1, start + 1);
            self.field(operation.two_way <= 1, start + 2);
            self.field(operation.unused == 0, start + 3);
            self.field(operation.id != 0, start + 4);
            match operation.direction {
                0 => self.field(operation.location == 0, start + 6),
                1 => self.field(operation.location != 0, start + 6),
                _ => {}
            }
            self.require(self.is_root(operation.request), start + 8, Cause::TypeRoot);
            match operation.two_way {
                0 => self.field(operation.reply == 0, start + 10),
                1 => self.require(self.is_root(operation.reply), start + 10, Cause::TypeRoot),
                _ => {}
            }
            let mut alike = rows[..row].iter().filter(|earlier| {
                earlier.service == operation.service
                    && earlier.direction == operation.direction
                    && earlier.id == operation.id
            });
            match operation.direction {
                0 => {
                    let repeated = alike.next().is_some();
                    self.require(!repeated, start, Cause::RepeatedInput);
                }
                1 => {
                    let repeated = alike.any(|earlier| earlier.location == operation.location);
                    self.require(!repeated, start, Cause::RepeatedOutput);
                }
                _ => {}
            }
        }
    }

    fn is_root(&self, row: u16) -> bool {
        self.tables.types.get(usize::from(row)).is_some_and(|node| node.id == 0 && node.cardinality == 1)
    }

    fn services(&mut self) {
        let rows = &self.tables.services;
        let kind = |link: u16| self.tables.behaviours.get(usize::from(link)).map(|row| row.kind);
        for (row, service) in rows.iter().enumerate() {
            let start = self.layout.row(Section::Services, row);
            self.field(service.location != 0, start);
            let repeated = rows[..row].iter().any(|earlier| earlier.location == service.location);
            self.require(!repeated, start, Cause::RepeatedLocation);
            self.field(service.starter == NONE || kind(service.starter) == Some(CHOICE), start + 2);
            let client = service.client == NONE || kind(service.client).is_some_and(|kind| kind != BRANCH);
            self.field(client, start + 4);
        }
    }
}

/// What a field of a behaviour row names.
enum Field {
    Row(Section),
    /// A later row that is no branch.
    Behaviour,
    /// A later row of kind 1 or 2.
    Input,
    FirstBranch,
    BranchCount,
}

/// The named fields of a behaviour kind, in order; the others are unused.
fn fields(kind: u8) -> Option<&'static [Field]> {
    use Field::*;
    const OPERATION: Field = Row(Section::Operations);
    const PATH: Field = Row(Section::Paths);
    const EXPRESSION: Field = Row(Section::Expressions);
    Some(match kind {
        0 => &[],
        1 => &[OPERATION, PATH],
        2 => &[OPERATION, PATH, PATH, Behaviour],
        3 => &[OPERATION, EXPRESSION],
        4 => &[OPERATION, EXPRESSION, PATH],
        5 => &[EXPRESSION, Behaviour, Behaviour],
        6 => &[EXPRESSION, Behaviour],
        7 | 8 => &[Behaviour, Behaviour],
        9 => &[PATH, EXPRESSION],
        CHOICE => &[FirstBranch, BranchCount],
        BRANCH => &[Input, Behaviour],
        _ => return None,
    })
}
