//! Types of 16 nodes for which the search is long, for timing and for the stack.

use second::tables::{ServiceRow, Tables, NONE};
use second::Basic;

use super::types::Type;

/// Two types, a root with 15 children or with five chains of three: equal, or with another last node.
pub struct Largest {
    pub name: &'static str,
    pub types: [Type; 2],
    /// Nodes of the message, 0 for none.
    pub nodes: usize,
}

pub fn all() -> Vec<Largest> {
    let shapes: [(&str, Type, &str, usize); 4] = [
        ("15 optional, none", wide(true), "15 optional, the last", 2),
        ("15 mandatory, none", wide(false), "15 mandatory, the last", 16),
        ("5 x 3 optional, none", deep(true), "5 x 3 optional, the last", 4),
        ("5 x 3 mandatory, none", deep(false), "5 x 3 mandatory, the last", 16),
    ];
    let pairs = shapes.into_iter().flat_map(|(none, shape, last, nodes)| {
        let mut other = shape.clone();
        other.last().basic = Basic::Void;
        [
            Largest { name: none, types: [shape.clone(), shape.clone()], nodes: 0 },
            Largest { name: last, types: [shape, other], nodes },
        ]
    });
    pairs.collect()
}

impl Largest {
    /// A file with nothing but the two types; their roots are rows 0 and 16.
    pub fn file(&self) -> Vec<u8> {
        let services = vec![ServiceRow { location: 1, starter: NONE, client: NONE, key: 0 }];
        let mut tables = Tables { services, ..Tables::default() };
        for of in &self.types {
            of.write(&mut tables.types);
        }
        tables.write()
    }
}

fn node(id: u16, optional: bool, children: Vec<Type>) -> Type {
    Type { id, optional, basic: Basic::Double, children }
}

fn wide(optional: bool) -> Type {
    node(0, false, (1..=15).map(|id| node(id, optional, Vec::new())).collect())
}

/// Five children, each with a child that has one.
fn deep(optional: bool) -> Type {
    let chain = |id| node(id, optional, vec![node(1, optional, vec![node(1, optional, Vec::new())])]);
    node(0, false, (1..=5).map(chain).collect())
}
