//! The text's syntax tree. Names of ids, locations and child types are resolved by the parser.

use second::Basic;
use types::Types;

use crate::source::Spot;

pub enum Item {
    Path {
        spot: Spot,
        ids: [u16; 4],
    },
    Type {
        spot: Spot,
        name: String,
        tree: Tree,
    },
    /// What a file of type declarations has.
    Types {
        spot: Spot,
        types: Types,
    },
    /// A single type row.
    Node {
        spot: Spot,
        name: String,
        id: u16,
        optional: bool,
        basic: Basic,
        first_child: u16,
        child_count: u16,
    },
    Expression {
        spot: Spot,
        name: String,
        expression: Expression,
    },
    Data {
        spot: Spot,
        bytes: Vec<u8>,
    },
    Service {
        spot: Spot,
        location: u16,
        /// 0 for none.
        key: u16,
        parts: Vec<Part>,
    },
}

#[derive(Clone)]
pub struct Tree {
    pub spot: Spot,
    pub basic: Basic,
    pub children: Vec<Child>,
}

impl Tree {
    /// How many rows it makes.
    pub fn rows(&self) -> usize {
        1 + self.children.iter().map(|child| child.tree.rows()).sum::<usize>()
    }
}

#[derive(Clone)]
pub struct Child {
    pub id: u16,
    pub optional: bool,
    pub tree: Tree,
}

pub enum TypeUse {
    Name { spot: Spot, name: String },
    Row(u16),
    Tree(Tree),
}

pub enum Part {
    Operation {
        spot: Spot,
        label: Option<u16>,
        id: u16,
        /// None for an input.
        location: Option<u16>,
        request: TypeUse,
        reply: Option<TypeUse>,
    },
    Starter(Statement),
    Client(Statement),
}

pub enum PathUse {
    Ids { spot: Spot, ids: [u16; 4] },
    Row(u16),
}

pub struct Expression {
    pub spot: Spot,
    pub kind: ExpressionKind,
}

pub enum ExpressionKind {
    Constant {
        basic: Basic,
        bytes: Vec<u8>,
        start: Option<u16>,
    },
    Path(PathUse),
    Present(PathUse),
    /// Kind 3 or 4.
    Unary(u8, Box<Expression>),
    /// Kinds 5 to 9.
    Binary(u8, Box<Expression>, Box<Expression>),
    Named(String),
}

pub enum OperationUse {
    Row(u16),
    Input { spot: Spot, id: u16 },
    Output { spot: Spot, id: u16, location: u16 },
}

pub struct Statement {
    pub spot: Spot,
    pub label: Option<u16>,
    pub kind: StatementKind,
}

pub enum StatementKind {
    Nil,
    Receive { operation: OperationUse, into: PathUse },
    Answer { operation: OperationUse, into: PathUse, body: Box<Statement>, reply: PathUse },
    Send { operation: OperationUse, expression: Expression },
    Ask { operation: OperationUse, expression: Expression, into: PathUse },
    If { condition: Expression, then: Box<Statement>, otherwise: Box<Statement> },
    While { condition: Expression, body: Box<Statement> },
    Sequence(Box<Statement>, Box<Statement>),
    Parallel(Box<Statement>, Box<Statement>),
    Assign { path: PathUse, expression: Expression },
    Choice(Vec<Branch>),
}

pub struct Branch {
    pub spot: Spot,
    pub label: Option<u16>,
    pub input: Statement,
    pub then: Statement,
}
