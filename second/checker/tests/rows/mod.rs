//! Short writing of rows for tests.
#![allow(dead_code)]

use second::tables::{BehaviourRow, ExpressionRow, OperationRow, ServiceRow, Tables, TypeRow, NONE};
use second::{check, report, Basic};

pub const BOOL: u8 = 0;
pub const INT: u8 = 1;
pub const DOUBLE: u8 = 2;
pub const LONG: u8 = 3;
pub const STRING: u8 = 4;
pub const RAW: u8 = 5;
pub const VOID: u8 = 6;

pub fn path(ids: &[u16]) -> [u16; 4] {
    std::array::from_fn(|step| ids.get(step).copied().unwrap_or(0))
}

pub fn root(basic: u8, first_child: u16, child_count: u16) -> TypeRow {
    TypeRow { id: 0, cardinality: 1, basic, first_child, child_count }
}

pub fn mandatory(id: u16, basic: u8) -> TypeRow {
    TypeRow { id, cardinality: 1, basic, ..TypeRow::default() }
}

pub fn optional(id: u16, basic: u8) -> TypeRow {
    TypeRow { id, cardinality: 0, basic, ..TypeRow::default() }
}

pub fn expression(kind: u8, a: u16, b: u16) -> ExpressionRow {
    ExpressionRow { kind, basic: 0, fields: [a, b, 0] }
}

pub fn behaviour(kind: u8, fields: &[u16]) -> BehaviourRow {
    BehaviourRow { kind, unused: 0, fields: path(fields) }
}

pub fn input(service: u8, id: u16, request: u16, reply: Option<u16>) -> OperationRow {
    OperationRow {
        service,
        direction: 0,
        two_way: reply.is_some().into(),
        unused: 0,
        id,
        location: 0,
        request,
        reply: reply.unwrap_or(0),
    }
}

pub fn output(service: u8, id: u16, location: u16, request: u16, reply: Option<u16>) -> OperationRow {
    OperationRow { direction: 1, location, ..input(service, id, request, reply) }
}

pub fn service(location: u16, starter: Option<u16>, client: Option<u16>) -> ServiceRow {
    ServiceRow { location, starter: starter.unwrap_or(NONE), client: client.unwrap_or(NONE), key: 0 }
}

/// Adds a constant's bytes and row.
pub fn constant(tables: &mut Tables, basic: u8, bytes: &[u8]) -> u16 {
    assert!(Basic::from_byte(basic).is_some_and(|basic| basic.holds(bytes)), "no value of its type");
    let fields = [tables.data.len() as u16, bytes.len() as u16, 0];
    tables.data.extend(bytes);
    tables.expressions.push(ExpressionRow { kind: 0, basic, fields });
    tables.expressions.len() as u16 - 1
}

pub fn verdict(tables: &Tables) -> String {
    report(&check(&tables.write())).trim_end().to_string()
}
