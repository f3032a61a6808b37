//! The paths, types, expressions and operations that nests use.

use second::tables::{ExpressionRow, OperationRow, Tables, TypeRow};
use second::Basic;

/// The service's own location, and one outside.
pub const LOCATION: u16 = 1;
const OUTSIDE: u16 = 100;

/// Path rows.
pub const ROOT: u16 = 0;
pub const OTHER: u16 = 1;
pub const NOWHERE: u16 = 2;
pub const FOUR_STEPS: u16 = 3;

/// Expression rows.
pub const TRUE: u16 = 0;
pub const FALSE: u16 = 1;
const ONE: u16 = 2;
const TWO: u16 = 3;
/// Of 8 levels, whose two operands share theirs, down to 128 leaves.
pub const DEEP_BOOL: u16 = 16;
pub const DEEP_INT: u16 = 17;
pub const READ: u16 = 18;
pub const READ_MISSING: u16 = 19;
pub const NOT_OF_INT: u16 = 20;

/// Operation rows of one message type.
#[derive(Clone, Copy, Debug)]
pub struct Operations {
    pub one_way: u16,
    pub answer: u16,
    pub notify: u16,
    pub ask: u16,
    pub notify_outside: u16,
    pub ask_outside: u16,
}

/// An int.
pub const SMALL: Operations = operations(0);
/// The largest message.
pub const LARGE: Operations = operations(6);

const fn operations(first: u16) -> Operations {
    Operations {
        one_way: first,
        answer: first + 1,
        notify: first + 2,
        ask: first + 3,
        notify_outside: first + 4,
        ask_outside: first + 5,
    }
}

/// Everything but behaviours and the service.
pub fn tables() -> Tables {
    let mut tables = Tables {
        paths: vec![[1, 0, 0, 0], [2, 0, 0, 0], [3, 0, 0, 0], [4, 5, 6, 7]],
        types: types(),
        data: vec![1, 0, 0, 0, 2, 0, 0, 0, 0],
        ..Tables::default()
    };
    tables.expressions = [constant(Basic::Bool, 0, 1), constant(Basic::Bool, 1, 1)].to_vec();
    tables.expressions.extend([constant(Basic::Int, 0, 4), constant(Basic::Int, 4, 4)]);
    ladder(&mut tables.expressions, ONE, TWO);
    tables.expressions.extend([unary(1, ROOT), unary(1, NOWHERE), unary(3, ONE)]);
    for (request, id) in [(0, 1), (1, 3)] {
        tables.operations.extend(of_type(request, id));
    }
    tables
}

fn constant(basic: Basic, start: u16, length: u16) -> ExpressionRow {
    ExpressionRow { kind: 0, basic: basic.byte(), fields: [start, length, 0] }
}

fn unary(kind: u8, a: u16) -> ExpressionRow {
    ExpressionRow { kind, basic: 0, fields: [a, 0, 0] }
}

/// Adds rows of levels 2 to 8 over two leaves, two rows a level: each row has both rows of the level
/// below as its operands. The last two are a less and a sum.
pub fn ladder(rows: &mut Vec<ExpressionRow>, left: u16, right: u16) {
    let (mut a, mut b) = (left, right);
    for level in 2..=8 {
        let next = rows.len() as u16;
        let first = if level == 8 { 7 } else { 5 };
        rows.push(ExpressionRow { kind: first, basic: 0, fields: [a, b, 0] });
        rows.push(ExpressionRow { kind: if level == 8 { 5 } else { 6 }, basic: 0, fields: [b, a, 0] });
        (a, b) = (next, next + 1);
    }
}

/// An int, and from row 1 on a type of 16 raw nodes and four levels.
fn types() -> Vec<TypeRow> {
    let node = |id, basic: Basic, first_child, child_count| TypeRow {
        id,
        cardinality: 1,
        basic: basic.byte(),
        first_child,
        child_count,
    };
    let mut rows = vec![node(0, Basic::Int, 0, 0), node(0, Basic::Raw, 2, 3)];
    rows.extend((0..3).map(|child| node(child + 1, Basic::Raw, 5 + 2 * child, 2)));
    rows.extend((0..6).map(|child| node(child % 2 + 1, Basic::Raw, 11 + child, 1)));
    rows.extend((0..6).map(|_| node(7, Basic::Raw, 0, 0)));
    rows
}

/// In the order of `Operations`, with ids `id` and, for requests, the next one.
fn of_type(request: u16, id: u16) -> [OperationRow; 6] {
    let row = |direction: u8, two_way: u8, location: u16| OperationRow {
        service: 0,
        direction,
        two_way,
        unused: 0,
        id: id + u16::from(two_way),
        location,
        request,
        reply: request * u16::from(two_way),
    };
    [row(0, 0, 0), row(0, 1, 0), row(1, 0, LOCATION), row(1, 1, LOCATION), row(1, 0, OUTSIDE), row(1, 1, OUTSIDE)]
}
