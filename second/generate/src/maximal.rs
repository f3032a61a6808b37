//! The largest accepted network and message that the limits allow, for timing.

use second::tables::{BehaviourRow, ExpressionRow, OperationRow, ServiceRow, Tables, TypeRow, NONE};
use second::Basic;

const INT: u8 = 1;
const VOID: u8 = 6;

/// 256 rows in P, T, E and B, 64 in O, 4 in S; every environment has 48 nodes.
pub fn tables() -> Tables {
    let mut tables = Tables::default();
    types(&mut tables);
    operations(&mut tables);
    paths(&mut tables);
    expressions(&mut tables);
    for service in 0..4 {
        client(&mut tables, service);
    }
    tables
}

/// Sixteen types of sixteen nodes: a root, five children, two leaves under each.
fn types(tables: &mut Tables) {
    for first in (0..256).step_by(16) {
        let row = |id, basic, first_child, child_count| TypeRow { id, cardinality: 1, basic, first_child, child_count };
        tables.types.push(row(0, VOID, first + 1, 5));
        tables.types.extend((0..5).map(|child| row(child + 1, VOID, first + 6 + 2 * child, 2)));
        tables.types.extend((0..10).map(|leaf| row(leaf % 2 + 1, INT, 0, 0)));
    }
}

/// For each service eight inputs, and eight outputs to the next service's.
fn operations(tables: &mut Tables) {
    for service in 0..4u8 {
        for id in 1..=8u16 {
            let two_way = u8::from(id > 4);
            let (request, reply) = (16 * (id % 16), if id > 4 { 16 * (id + 1) } else { 0 });
            let input = OperationRow { service, direction: 0, two_way, unused: 0, id, location: 0, request, reply };
            let location = u16::from((service + 1) % 4) + 1;
            tables.operations.extend([input, OperationRow { direction: 1, location, ..input }]);
        }
    }
}

/// The roots 1 to 3, their children and leaves (48 paths), then paths that nobody uses.
fn paths(tables: &mut Tables) {
    for root in 1..=3 {
        tables.paths.push([root, 0, 0, 0]);
        tables.paths.extend((1..=5).map(|child| [root, child, 0, 0]));
        tables.paths.extend((0..10).map(|leaf| [root, leaf / 2 + 1, leaf % 2 + 1, 0]));
    }
    tables.paths.extend((48..256).map(|row| [row, row, row, row]));
}

/// Groups of eight rows: a path, then seven sums of the row before with itself.
fn expressions(tables: &mut Tables) {
    for group in 0..32u16 {
        let leaf = 16 * (group % 3) + 6 + group % 10;
        tables.expressions.push(ExpressionRow { kind: 1, basic: 0, fields: [leaf, 0, 0] });
        for row in 0..7 {
            let below = 8 * group + row;
            tables.expressions.push(ExpressionRow { kind: 5 + (row % 2) as u8, basic: 0, fields: [below, below, 0] });
        }
    }
    // A condition, and the three roots for sending.
    tables.expressions[7].kind = 7;
    for (row, root) in [(9, 0), (10, 16), (11, 32)] {
        tables.expressions[row] = ExpressionRow { kind: 1, basic: 0, fields: [root, 0, 0] };
    }
    for row in 12..16 {
        tables.expressions[row].fields = [8, 8, 0];
    }
}

/// 64 rows: 32 statements in a row and the body of a while among them.
fn client(tables: &mut Tables, service: u16) {
    let start = 64 * service;
    let location = service + 1;
    tables.services.push(ServiceRow { location, starter: NONE, client: start, key: 0 });
    let operation = |id: u16, output: bool| 16 * service + 2 * (id - 1) + u16::from(output);
    let push = |tables: &mut Tables, kind: u8, fields: [u16; 4]| {
        tables.behaviours.push(BehaviourRow { kind, unused: 0, fields });
    };
    // Rows 0, 2, 4, .. are sequences, 1, 3, 5, .. their first parts; the last one is a while.
    for statement in 0..31 {
        let row = start + 2 * statement;
        push(tables, 7, [row + 1, row + 2, 0, 0]);
        match statement {
            0..=2 => push(tables, 1, [operation(1 + statement, false), 16 * statement, 0, 0]),
            _ if statement % 3 == 0 => push(tables, 3, [operation(statement % 4 + 1, true), 9 + statement % 3, 0, 0]),
            _ if statement % 3 == 1 => {
                push(tables, 4, [operation(statement % 4 + 5, true), 9 + statement % 3, 16 * (statement % 3), 0])
            }
            _ => push(tables, 9, [6 + statement % 10, 8 * (statement % 30 + 2) + 7, 0, 0]),
        }
    }
    push(tables, 6, [7, start + 63, 0, 0]);
    push(tables, 9, [6, 8 * 3 + 7, 0, 0]);
}

/// A message of sixteen nodes, four levels and the longest values; a path to its last node.
pub fn message() -> (Vec<u8>, [u16; 4]) {
    let mut bytes = Vec::new();
    let mut node = |id: u16, children: u8| {
        bytes.extend(id.to_le_bytes());
        bytes.extend([Basic::Raw.byte(), children, 16]);
        bytes.extend([0xA5; 16]);
    };
    node(0, 3);
    for child in 1..=3 {
        node(child, 2);
        for grandchild in 1..=2 {
            node(grandchild, 1);
            node(7, 0);
        }
    }
    (bytes, [3, 2, 7, 0])
}

#[cfg(test)]
mod tests {
    use super::*;

    #[test]
    fn the_largest_network_is_accepted() {
        let tables = tables();
        let layout = tables.layout();
        assert_eq!(layout.counts[..6], [256, 256, 256, 256, 64, 4]);
        let services = second::check(&tables.write()).unwrap_or_else(|refusal| panic!("{refusal:?}"));
        for service in services {
            assert_eq!(service.client.expect("a client").nodes().len(), 48);
        }
    }

    #[test]
    fn the_largest_message_has_the_part() {
        let (message, path) = message();
        assert_eq!(message.len(), 16 * 21);
        assert_eq!(second::part_range(&message, path), message.len() - 21..message.len());
    }
}
