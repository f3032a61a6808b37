//! Files in which some table is as costly as its limits allow.

use second::tables::{BehaviourRow, ExpressionRow, OperationRow, ServiceRow, Tables, TypeRow, NONE};
use second::Basic;

use crate::nests::kit::ladder;

pub fn all() -> Vec<(&'static str, Tables)> {
    let mut equal_at_end = operations(64, |row| row + 1);
    equal_at_end.operations[63].id = equal_at_end.operations[62].id;
    vec![
        ("roots", roots(false)),
        ("roots_shared", roots(true)),
        ("starter_whiles", starter_whiles()),
        ("type_chain", type_chain()),
        ("type_runs", type_runs()),
        ("types_full", types_full()),
        ("expression_chain", expression_chain()),
        ("choices_of_8", choices()),
        ("choice_runs", choice_runs()),
        ("operations_equal", operations(64, |_| 1)),
        ("operations_equal_at_end", equal_at_end),
    ]
}

fn row(kind: u8, fields: [u16; 4]) -> BehaviourRow {
    BehaviourRow { kind, unused: 0, fields }
}

fn leaf_type(id: u16, basic: Basic) -> TypeRow {
    TypeRow { id, cardinality: 1, basic: basic.byte(), first_child: 0, child_count: 0 }
}

fn input(service: u8, id: u16, request: u16) -> OperationRow {
    OperationRow { service, id, request, ..OperationRow::default() }
}

fn client(location: u16, client: u16) -> ServiceRow {
    ServiceRow { location, starter: NONE, client, key: 0 }
}

/// The constants 1 and 2, and ladders over them: the last two rows are a less and a sum.
fn constants(tables: &mut Tables) {
    tables.data = vec![1, 0, 0, 0, 2, 0, 0, 0];
    let constant = |start| ExpressionRow { kind: 0, basic: Basic::Int.byte(), fields: [start, 4, 0] };
    tables.expressions = vec![constant(0), constant(4)];
    ladder(&mut tables.expressions, 0, 1);
}

/// In each of four services 31 parallels in one another over 32 assigns, whose roots are all above 1,024
/// and whose expressions have 128 leaves; the last two perhaps of one root.
fn roots(shared: bool) -> Tables {
    let mut tables = Tables::default();
    constants(&mut tables);
    let sum = tables.expressions.len() as u16 - 1;
    tables.paths = (0..32).map(|leaf| [1_100 + 2_000 * leaf, 0, 0, 0]).collect();
    for service in 0..4u16 {
        let start = 63 * service;
        tables.services.push(client(service + 1, start));
        for level in 0..31 {
            let at = start + 2 * level;
            tables.behaviours.push(row(8, [at + 1, at + 2, 0, 0]));
            tables.behaviours.push(row(9, [level, sum, 0, 0]));
        }
        let last = if shared && service == 3 { 30 } else { 31 };
        tables.behaviours.push(row(9, [last, sum, 0, 0]));
    }
    tables
}

/// Paths at which three messages of 16 nodes make 48, and the paths of the last two of these.
const NESTED: [[u16; 4]; 5] = [[1, 0, 0, 0], [1, 20, 0, 0], [1, 20, 20, 0], [1, 20, 20, 14], [1, 20, 20, 15]];

/// A service's input of such messages, and ladders over the last two paths: the last rows are a less and a
/// sum of 128 leaves.
fn nested() -> Tables {
    let mut tables = Tables { paths: NESTED.to_vec(), operations: vec![input(0, 1, 0)], ..Tables::default() };
    tables.types = vec![TypeRow { first_child: 1, child_count: 15, ..leaf_type(0, Basic::Int) }];
    tables.types.extend((1..=15).map(|id| leaf_type(id, Basic::Int)));
    let path = |row| ExpressionRow { kind: 1, basic: 0, fields: [row, 0, 0] };
    tables.expressions = vec![path(3), path(4)];
    ladder(&mut tables.expressions, 0, 1);
    tables
}

/// Eight starter branches, each with three messages of 16 nodes and then 24 whiles in one another over an
/// expression of 128 leaves, each of which is looked up at the end of the environment.
fn starter_whiles() -> Tables {
    let mut tables = nested();
    let less = tables.expressions.len() as u16 - 2;
    tables.services = vec![ServiceRow { location: 1, starter: 0, client: NONE, key: 0 }];
    tables.behaviours = vec![row(10, [1, 8, 0, 0])];
    let first = |branch: u16| 9 + 30 * branch;
    tables.behaviours.extend((0..8).map(|branch| row(11, [first(branch), first(branch) + 1, 0, 0])));
    for at in (0..8).map(first) {
        tables.behaviours.push(row(1, [0, 0, 0, 0]));
        for path in [1, 2] {
            let here = at + 2 * path - 1;
            tables.behaviours.extend([row(7, [here + 1, here + 2, 0, 0]), row(1, [0, path, 0, 0])]);
        }
        tables.behaviours.extend((0..24).map(|level| row(6, [less, at + 6 + level, 0, 0])));
        tables.behaviours.push(row(0, [0; 4]));
    }
    tables
}

/// Every type row but the last has the next one as its child: 256 levels.
fn type_chain() -> Tables {
    let mut tables = type_runs();
    tables.types.iter_mut().take(255).for_each(|node| node.child_count = 1);
    tables
}

/// Every expression row but the first two is the sum of the two before it: 255 levels.
fn expression_chain() -> Tables {
    let mut tables = Tables { services: vec![client(1, NONE)], ..Tables::default() };
    constants(&mut tables);
    tables.expressions.truncate(2);
    let sum = |row: u16| ExpressionRow { kind: 5, basic: 0, fields: [row - 1, row - 2, 0] };
    tables.expressions.extend((2..256).map(sum));
    tables
}

/// Every type row but the last has all later ones as its children: 2^255 nodes.
fn type_runs() -> Tables {
    let run = |row: u16| TypeRow { first_child: row + 1, child_count: 255 - row, ..leaf_type(row, Basic::Int) };
    let mut types: Vec<TypeRow> = (0..255).map(run).collect();
    types.push(leaf_type(255, Basic::Int));
    Tables { types, services: vec![client(1, NONE)], ..Tables::default() }
}

/// 241 types with the same 15 children, 64 operations of them, and nothing else.
fn types_full() -> Tables {
    let root = TypeRow { first_child: 241, child_count: 15, ..leaf_type(0, Basic::Int) };
    let mut tables = operations(64, |row| row + 1);
    tables.types = vec![root; 241];
    tables.types.extend((1..=15).map(|id| leaf_type(id, Basic::Raw)));
    for (row, operation) in tables.operations.iter_mut().enumerate() {
        operation.request = 3 * row as u16;
    }
    tables
}

/// Ten choices of eight branches in one another; each branch receives the same.
fn choices() -> Tables {
    let mut tables = operations(1, |_| 1);
    tables.paths = vec![[1, 0, 0, 0]];
    tables.services = vec![client(1, 0)];
    for level in 0..10u16 {
        let at = tables.behaviours.len() as u16;
        tables.behaviours.push(row(10, [at + 1, 8, 0, 0]));
        for branch in 0..8 {
            // The next choice stands after this one's rows, in the last branch.
            tables.behaviours.push(row(11, [at + 9 + branch, at + 17 + branch, 0, 0]));
        }
        tables.behaviours.extend(vec![row(1, [0, 0, 0, 0]); 8]);
        let nils = if level == 9 { 8 } else { 7 };
        tables.behaviours.extend(vec![row(0, [0; 4]); nils]);
    }
    tables
}

/// 256 choices, each with the next eight rows as its branches.
fn choice_runs() -> Tables {
    let behaviours = (0..256).map(|at| row(10, [at + 1, 8, 0, 0])).collect();
    Tables { behaviours, services: vec![client(1, 0)], ..Tables::default() }
}

/// So many inputs of one service with these ids, all of one type.
fn operations(count: u16, id: impl Fn(u16) -> u16) -> Tables {
    Tables {
        types: vec![leaf_type(0, Basic::Int)],
        operations: (0..count).map(|row| input(0, id(row), 0)).collect(),
        services: vec![client(1, NONE)],
        ..Tables::default()
    }
}

/// A client that receives as these starters and then assigns, tests, loops and sends by that expression.
pub fn expression() -> Tables {
    let mut tables = nested();
    let (less, sum) = (tables.expressions.len() as u16 - 2, tables.expressions.len() as u16 - 1);
    tables.types.push(leaf_type(0, Basic::Int));
    let output = OperationRow { direction: 1, location: 100, ..input(0, 2, 16) };
    tables.operations.extend([output, OperationRow { id: 3, two_way: 1, reply: 16, ..output }]);
    let mut statements: Vec<BehaviourRow> = (0..3).map(|path| row(1, [0, path, 0, 0])).collect();
    // After the statements and the sequences between them there stand three nils.
    statements.extend([row(9, [3, sum, 0, 0]), row(5, [less, 15, 16, 0]), row(6, [less, 17, 0, 0])]);
    statements.extend([row(3, [1, sum, 0, 0]), row(4, [2, sum, 3, 0])]);
    let last = statements.len() - 1;
    for (number, statement) in statements.into_iter().enumerate() {
        let at = 2 * number as u16;
        tables.behaviours.extend((number < last).then_some(row(7, [at + 1, at + 2, 0, 0])));
        tables.behaviours.push(statement);
    }
    tables.behaviours.extend([row(0, [0; 4]); 3]);
    tables.services = vec![client(1, 0)];
    tables
}

/// Four services with client and starter that send each other and outside the largest messages, every node of
/// this basic type, of which `constant` is one; of keyed services the last child is the key.
pub fn talkers(basic: &str, constant: &str, keyed: bool) -> Vec<u8> {
    let (last, keyed) = if keyed { ("int", "keyed by 3") } else { (basic, "") };
    let below = format!("{{ 1: {basic} {{ 7: {basic} }}, 2: {basic} {{ 7: {basic} }} }}");
    let mut text = format!(
        "type Third = {basic} {below}
        type Big = {basic} {{ 1: Third, 2: Third, 3: {last} {below} }}\n"
    );
    for service in 1..=4 {
        let next = service % 4 + 1;
        text += &format!(
            "location s{service} = {service}
            service s{service} {keyed} {{
                input 1: Big input 2: Big -> Big
                output 1 to {next}: Big output 1 to {service}: Big output 1 to 100: Big
                output 2 to {next}: Big -> Big output 2 to 100: Big -> Big
                client {{
                    receive 1 into 1; receive 1 into 2; receive 1 into 3; set 1.1 = {constant};
                    if present 1.1 then nil else nil; while false do nil;
                    send 1 to {next} with 1; send 1 to {service} with 2;
                    choice {{ on receive 1 into 1 then nil }}; answer 2 into 2 do nil reply 2;
                    ask 2 to {next} with 3 into 3; ask 2 to 100 with 1 into 1
                }}
                starter choice {{
                    on receive 1 into 1 then {{
                        receive 1 into 2; receive 1 into 3; while true do nil; if false then nil else nil;
                        send 1 to {next} with 1; send 1 to 100 with 3; ask 2 to 100 with 1 into 1
                    }}
                    on answer 2 into 1 do nil reply 1 then nil
                }}
            }}\n"
        );
    }
    net::assemble(&text).unwrap_or_else(|error| panic!("{error}\n{text}")).file
}

#[cfg(test)]
mod tests {
    use super::*;

    #[test]
    fn verdicts() {
        let number = |file: &[u8]| second::check(file).map_or_else(|refusal| refusal.number, |_| 0);
        let verdicts: Vec<(&str, u8)> = all().iter().map(|(name, tables)| (*name, number(&tables.write()))).collect();
        assert_eq!(
            verdicts,
            [
                ("roots", 0),
                ("roots_shared", 11),
                ("starter_whiles", 0),
                ("type_chain", 5),
                ("type_runs", 5),
                ("types_full", 0),
                ("expression_chain", 5),
                ("choices_of_8", 0),
                ("choice_runs", 4),
                ("operations_equal", 4),
                ("operations_equal_at_end", 4),
            ]
        );
        let talkers = [
            talkers("raw", "raw { 01 }", false),
            talkers("string", "\"a\"", false),
            talkers("raw", "raw { 01 }", true),
        ];
        assert_eq!(talkers.map(|file| number(&file)), [0, 0, 0]);
        assert_eq!(number(&expression().write()), 0);
    }
}
