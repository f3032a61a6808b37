//! Messages that break a type, by hand.

use counterexample::{counterexample, Cause, Refusal};
use second::tables::{OperationRow, ServiceRow, Tables, TypeRow, NONE};
use second::{Basic, Network};

/// A file with an input of each type, and their rows.
fn file(first: &str, second: &str) -> (Vec<u8>, u16, u16) {
    let text = format!("service 1 {{ input 1: {first} input 2: {second} }}");
    let made = net::assemble(&text).unwrap_or_else(|error| panic!("{error}\n{text}"));
    let network = Network::read(&made.file).expect("a file that passes 2 to 5");
    let [first, second] = [0, 1].map(|row: usize| network.operations[row].request as u16);
    (made.file, first, second)
}

/// The message, or the empty one for none.
fn message(first: &str, second: &str) -> Vec<u8> {
    let (file, first, second) = file(first, second);
    let mut out = [0xa5; 600];
    let count = counterexample(&file, first, second, &mut out).expect("no refusal");
    assert!(out[count..].iter().all(|&byte| byte == 0xa5));
    out[..count].to_vec()
}

fn node(id: u16, basic: Basic, children: &[Vec<u8>]) -> Vec<u8> {
    let length = match basic {
        Basic::Bool => 1,
        Basic::Int => 4,
        Basic::Double | Basic::Long => 8,
        Basic::String | Basic::Raw | Basic::Void => 0,
    };
    let header = [id.to_le_bytes().to_vec(), vec![basic.byte(), children.len() as u8, length]];
    [header.concat(), vec![0; length.into()], children.concat()].concat()
}

const NONE_FOUND: Vec<u8> = Vec::new();

#[test]
fn a_clipped_lift_is_no_weight() {
    let (lift, weight) = ("void { 1: double, 2?: bool }", "void { 1: double }");
    let clipped = [0, 0, 6, 2, 0, 1, 0, 2, 0, 8, 0, 0, 0, 0, 0, 0, 0, 0, 2, 0, 0, 0, 1, 0];
    assert_eq!(message(lift, weight), clipped);
    assert_eq!(message(weight, lift), NONE_FOUND);
}

/// Cases a, b and c.
#[test]
fn the_papers_cases() {
    let a = "int { 1: string, 2: bool }";
    let b = "int { 1?: string, 2: bool }";
    let c = "int { 2: bool }";
    assert_eq!(message(a, b), NONE_FOUND);
    assert_eq!(message(b, a), node(0, Basic::Int, &[node(2, Basic::Bool, &[])]));
    assert_eq!(message(c, b), NONE_FOUND);
    let string = node(1, Basic::String, &[]);
    assert_eq!(message(b, c), node(0, Basic::Int, &[string, node(2, Basic::Bool, &[])]));
    assert_eq!(message("int", "long"), node(0, Basic::Int, &[]));
}

#[test]
fn other_roots_give_the_mandatory_nodes_alone() {
    let first = "raw { 1: string { 4: long, 5?: int }, 2?: bool { 3: int }, 7: void }";
    let string = node(1, Basic::String, &[node(4, Basic::Long, &[])]);
    assert_eq!(message(first, "string"), node(0, Basic::Raw, &[string, node(7, Basic::Void, &[])]));
}

/// As many nodes: the low byte of an id stands first.
#[test]
fn bytes_decide_between_ids() {
    for (ids, chosen) in [([1, 256], 256), ([1, 257], 1), ([2, 257], 257), ([255, 65_280], 65_280), ([512, 513], 512)] {
        let [low, high] = ids;
        let first = format!("void {{ {low}?: bool, {high}?: bool }}");
        assert_eq!(message(&first, "void"), node(0, Basic::Void, &[node(chosen, Basic::Bool, &[])]), "{ids:?}");
    }
    // Where 1 could stand, the other message has 3, which is there in any case.
    let first = "void { 1?: bool, 3: void, 256?: bool }";
    let kept = node(3, Basic::Void, &[]);
    assert_eq!(message(first, "void { 3: void }"), node(0, Basic::Void, &[node(1, Basic::Bool, &[]), kept]));
}

/// Fewer nodes come before lower bytes, and a child count before what is below it.
#[test]
fn nodes_decide_before_bytes() {
    let void = |id, children: &[Vec<u8>]| node(id, Basic::Void, children);
    let first = "void { 1?: void { 5: void }, 2?: string }";
    assert_eq!(message(first, "void"), void(0, &[node(2, Basic::String, &[])]));
    let first = "void { 1?: void, 2: void { 3?: void } }";
    assert_eq!(message(first, "void { 2: void }"), void(0, &[void(2, &[void(3, &[])])]));
    let first = "void { 1: void { 3?: void }, 2: void { 3?: void } }";
    assert_eq!(message(first, "void { 1: void, 2: void }"), void(0, &[void(1, &[]), void(2, &[void(3, &[])])]));
}

#[test]
fn below_an_optional_child() {
    let optional = |children: &[Vec<u8>]| node(0, Basic::Void, &[node(1, Basic::Int, children)]);
    let (with, without) = ("void { 1?: int { 2: raw } }", "void { 1?: int }");
    assert_eq!(message(without, with), optional(&[]));
    assert_eq!(message(with, without), optional(&[node(2, Basic::Raw, &[])]));
    let deep = "void { 1?: int { 2: raw { 3?: bool } } }";
    assert_eq!(message(deep, with), optional(&[node(2, Basic::Raw, &[node(3, Basic::Bool, &[])])]));
    assert_eq!(message(with, deep), NONE_FOUND);
}

/// Any row is a root, with id 0; its own id and cardinality do not matter.
#[test]
fn rows_of_children() {
    let row = |id, cardinality, basic: Basic, first_child, child_count| TypeRow {
        id,
        cardinality,
        basic: basic.byte(),
        first_child,
        child_count,
    };
    let types = vec![
        row(0, 1, Basic::Void, 1, 2),
        row(300, 0, Basic::Int, 3, 1),
        row(301, 1, Basic::Int, 0, 0),
        row(7, 0, Basic::Bool, 0, 0),
    ];
    let services = vec![ServiceRow { location: 1, starter: NONE, client: NONE, key: 0 }];
    let file = Tables { types, services, ..Tables::default() }.write();
    let answer = |first, second| {
        let mut out = [0; 512];
        let count = counterexample(&file, first, second, &mut out).expect("no refusal");
        out[..count].to_vec()
    };
    assert_eq!(answer(1, 2), node(0, Basic::Int, &[node(7, Basic::Bool, &[])]));
    assert_eq!(answer(2, 1), NONE_FOUND);
    assert_eq!(answer(3, 0), node(0, Basic::Bool, &[]));
    assert_eq!([0, 1, 2, 3].map(|same| answer(same, same)), [const { Vec::new() }; 4]);
}

/// 1, then 2 to 5, then 15; nothing is written.
#[test]
fn refusals_in_their_order() {
    let (good, first, second) = file("int", "long");
    let (tables, _) = Tables::read(&good).expect("sections");
    let broken = |change: &dyn Fn(&mut Tables)| {
        let mut tables = tables.clone();
        change(&mut tables);
        tables.write()
    };
    let refused = |file: &[u8], first: u16, second: u16, size: usize| {
        let mut out = vec![0xa5; size];
        let Refusal { number, place, cause } = counterexample(file, first, second, &mut out).expect_err("a refusal");
        assert!(out.iter().all(|&byte| byte == 0xa5));
        assert_eq!(number, cause.number());
        (number, place)
    };
    assert_eq!(refused(&good[1..], 9, 9, 511), (1, 0));
    assert_eq!(refused(&good[1..], 9, 9, 512), (2, 0));
    assert_eq!(refused(&broken(&|tables| tables.services.clear()), 9, 9, 512), (3, 0));
    assert_eq!(refused(&broken(&|tables| tables.types[1].basic = 7), 9, 9, 512), (4, 11));
    let deep = |tables: &mut Tables| {
        for level in 2..=6 {
            let below = if level < 6 { (level + 1, 1) } else { (0, 0) };
            let row = TypeRow { id: 1, first_child: below.0, child_count: below.1, ..TypeRow::default() };
            tables.types.push(row);
        }
    };
    assert_eq!(refused(&broken(&deep), 9, 9, 512), (5, 16));
    for (first, second) in [(2, second), (first, 2), (65_535, 65_535)] {
        assert_eq!(refused(&good, first, second, 512), (15, 0));
    }
    let cause = |first, second| counterexample(&good, first, second, &mut [0; 512]).map_err(|refusal| refusal.cause);
    assert_eq!(cause(2, 2), Err(Cause::FirstRow));
    assert_eq!(cause(0, 2), Err(Cause::SecondRow));
}

/// A file that 13 refuses is the one that needs an example.
#[test]
fn files_that_later_rules_refuse_are_answered() {
    let (good, first, second) = file("void { 1?: int }", "void");
    let (mut tables, _) = Tables::read(&good).expect("sections");
    tables.operations.push(OperationRow {
        direction: 1,
        id: 2,
        location: 1,
        request: first,
        ..OperationRow::default()
    });
    let file = tables.write();
    assert_eq!(second::check(&file).map_err(|refusal| refusal.number), Err(13));
    let mut out = [0; 512];
    assert_eq!(counterexample(&file, first, second, &mut out), Ok(14));
    assert_eq!(out[..14], node(0, Basic::Void, &[node(1, Basic::Int, &[])]));
}
