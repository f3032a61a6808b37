//! Int and long sums that leave their range (22), and the order of 15, 16, 18, 22 and 19.

mod run;

use run::*;
use second::Value;
use stepper::{Move, Reason, Refused};

const MAX: &str = "int 2147483647";
const MIN: &str = "int -2147483648";

fn local(row: u16) -> Move {
    Move::Local { service: 0, session: 0, row }
}

fn send(row: u16, target: u16) -> Move {
    Move::Send { service: 0, session: 0, row, target }
}

fn number(result: Result<stepper::Made, Refused>) -> u8 {
    result.map_or_else(|refused| refused.number, |_| 0)
}

/// The number that a client gives for its first assign, if or while, or for its send to outside.
fn given(behaviour: &str) -> u8 {
    let mut run = Run::wrong(&format!(
        "location a = 1 location out = 100 type Int = int type Flag = bool type Long = long \
         service a {{ output 3 to out: Int output 4 to out: Flag output 5 to out: Int -> Int client {behaviour} }}"
    ));
    let rows = |kinds: [u8; 3]| kinds.iter().flat_map(|&kind| run.rows(kind)).min();
    let named = match rows([ASSIGN, IF, WHILE]) {
        Some(row) => local(row),
        None => send(rows([SEND, ASK, SEND]).expect("a row that moves"), 0),
    };
    number(run.try_move(named, &[]))
}

/// What an assign of an expression gives.
fn assigned(expression: &str) -> u8 {
    given(&format!("set 5 = {expression}"))
}

#[test]
fn case_h_is_two_refusals() {
    assert_eq!(assigned("int 2147483647 + int 1"), 22);
    assert_eq!(assigned("- int -2147483648"), 22);
    let mut run = Run::new("location a = 1 service a { client set 5 = int 2147483647 + int 1 }");
    let refused = run.try_move(local(0), &[]).expect_err("22");
    assert_eq!((refused.number, refused.place, refused.reason), (22, 0, Reason::Beyond));
    assert_eq!(refused.to_string(), "refused 22 0 (Beyond)");
    assert_eq!(run.session(0, 0).expect("live").tree.nodes(), 1);
}

#[test]
fn each_operator_at_both_ends_of_int_and_long() {
    for (expression, number) in [
        ("int 2147483646 + int 1", 0),
        ("int 2147483647 + int 0", 0),
        ("int -2147483648 + int -1", 22),
        ("int -2147483648 - int 1", 22),
        ("int -2147483647 - int 1", 0),
        ("int 2147483647 - int -1", 22),
        ("int 0 - int -2147483648", 22),
        ("- int -2147483647", 0),
        ("- int 2147483647", 0),
        ("long 2147483647 + long 1", 0),
        ("- long -2147483648", 0),
        ("long 9223372036854775807 + long 1", 22),
        ("long 9223372036854775806 + long 1", 0),
        ("long -9223372036854775808 - long 1", 22),
        ("long -9223372036854775807 - long 1", 0),
        ("- long -9223372036854775808", 22),
        ("- long 9223372036854775807", 0),
        ("double 1.7976931348623157e308 + double 1.7976931348623157e308", 0),
    ] {
        assert_eq!(assigned(expression), number, "{expression}");
    }
}

#[test]
fn every_operator_counts_by_itself() {
    assert_eq!(assigned(&format!("({MAX} + int 1) - int 1")), 22);
    assert_eq!(assigned(&format!("{MAX} + (int 1 - int 1)")), 0);
    assert_eq!(assigned(&format!("- - {MIN}")), 22);
    assert_eq!(assigned(&format!("({MAX} + {MAX}) + ({MIN} + {MIN})")), 22);
}

#[test]
fn both_operands_are_worked_out_below_every_operator() {
    for expression in [
        format!("{MAX} + int 1 < int 0"),
        format!("int 0 < {MAX} + int 1"),
        format!("{MAX} + int 1 == {MAX} + int 1"),
        format!("int 0 == - {MIN}"),
        format!("not ({MAX} + int 1 < int 0)"),
        format!("false and ({MAX} + int 1 < int 0)"),
        format!("({MAX} + int 1 < int 0) and false"),
        format!("not (false and not (- {MIN} == int 0))"),
    ] {
        assert_eq!(assigned(&expression), 22, "{expression}");
        assert_eq!(given(&format!("if {expression} then nil else nil")), 22, "if {expression}");
        assert_eq!(given(&format!("while {expression} do nil")), 22, "while {expression}");
        assert_eq!(given(&format!("send 4 to out with {expression}")), 22, "send {expression}");
    }
    assert_eq!(given(&format!("send 3 to out with {MAX} + int 1")), 22);
    assert_eq!(given(&format!("ask 5 to out with {MAX} + int 1 into 5")), 22);
}

/// A value that is missing and an operand of a wrong kind, on either side: 18 first.
#[test]
fn eighteen_of_the_expression_comes_first() {
    for expression in [
        // A value read is missing.
        format!("({MAX} + int 1) + 9"),
        format!("9 + ({MAX} + int 1)"),
        format!("({MAX} + int 1 < int 0) and 9"),
        format!("9 and ({MAX} + int 1 < int 0)"),
        format!("(- {MIN} == int 0) and (true and 9)"),
        // An operand of the wrong kind.
        format!("({MAX} + int 1 < int 0) and not int 1"),
        format!("not int 1 and ({MAX} + int 1 < int 0)"),
        format!("({MAX} + int 1) + true"),
        format!("true + ({MAX} + int 1)"),
        // An operand outside its range keeps its kind.
        format!("not ({MAX} + int 1)"),
        format!("({MAX} + int 1) + long 5"),
        format!("long 5 - ({MAX} + int 1)"),
        format!("({MAX} + int 1) < long 5"),
        format!("({MAX} + int 1) == long 5"),
        format!("({MAX} + int 1) == (long 9223372036854775807 + long 1)"),
        format!("({MAX} + int 1) and true"),
        format!("- ({MAX} + int 1 < int 0)"),
        format!("({MAX} + int 1 == int 0) < false"),
        format!("({MAX} + int 1) == void"),
    ] {
        assert_eq!(assigned(&expression), 18, "{expression}");
        assert_eq!(given(&format!("if {expression} then nil else nil")), 18, "if {expression}");
        assert_eq!(given(&format!("send 3 to out with {expression}")), 18, "send {expression}");
        assert_eq!(given(&format!("ask 5 to out with {expression} into 5")), 18, "ask {expression}");
    }
    assert_eq!(assigned(&format!("({MAX} + int 1 == int 0) == ({MAX} + int 1 < int 0)")), 22, "two bools");
    assert_eq!(assigned(&format!("- ({MAX} + int 1)")), 22, "an int");
}

#[test]
fn a_condition_that_is_no_bool_is_18() {
    for condition in [format!("{MAX} + int 1"), format!("- {MIN}"), "long 9223372036854775807 + long 1".into()] {
        assert_eq!(given(&format!("if {condition} then nil else nil")), 18, "{condition}");
        assert_eq!(given(&format!("while {condition} do nil")), 18, "{condition}");
    }
}

/// An assign past 48 nodes is 18 also where its value is outside its range.
#[test]
fn an_assign_past_48_nodes_is_18() {
    let mut run = Run::new("location a = 1 service a { client { set 1 = int 2147483647; set 100.1 = 1 + int 1 } }");
    let rows = run.rows(ASSIGN);
    run.local(0, 0, rows[0]);
    for (nodes, number) in [(48, 18), (47, 18), (46, 22)] {
        run.change(0, 0, |session| {
            session.tree.children.truncate(1);
            (2..=nodes).for_each(|id| session.tree.assign(&[id], &Value::Void));
        });
        assert_eq!(run.refused(local(rows[1]), &[]), number, "{nodes} nodes");
    }
    // A path that is there makes no node.
    run.change(0, 0, |session| session.tree.assign(&[100, 1], &Value::Bool(true)));
    assert_eq!(run.session(0, 0).expect("live").tree.nodes() - 1, 48);
    assert_eq!(run.refused(local(rows[1]), &[]), 22);
    run.change(0, 0, |session| session.tree.assign(&[1], &int(1)));
    run.local(0, 0, rows[1]);
    assert_eq!(run.value(0, 0, &[100, 1]), Some(int(2)));
}

const TALK: &str = "location a = 1 location b = 2 location out = 100 type Int = int type Flag = bool";

/// 22, then 19: inside and outside, one-way and two-way.
#[test]
fn twenty_two_comes_before_19() {
    let mut run = Run::wrong(&format!(
        "{TALK} service a {{ output 3 to b: Int output 4 to b: Int -> Int output 5 to out: Flag \
         output 6 to out: Flag -> Int client parallel \
         {{ parallel {{ send 3 to b with 7 + int 1 }} {{ ask 4 to b with 8 + int 1 into 18 }} }} \
         {{ parallel {{ send 5 to out with 9 + int 1 }} {{ ask 6 to out with 10 + int 1 into 20 }} }} }} \
         service b {{ input 3: Flag input 4: Flag -> Int client nil }}"
    ));
    let rows = [run.rows(SEND), run.rows(ASK)].concat();
    for (value, number) in [(int(i32::MAX), 22), (int(1), 19), (Value::Bool(true), 18)] {
        run.change(0, 0, |session| (7..=10).for_each(|root| session.tree.assign(&[root], &value)));
        for &row in &rows {
            assert_eq!(run.refused(send(row, 0), &[]), number, "{value:?}");
        }
    }
}

/// 15 and 16 come before 18 and 22.
#[test]
fn fifteen_and_sixteen_come_first() {
    let mut run = Run::new(&format!(
        "{TALK} service a {{ output 3 to b: Int output 5 to out: Int client {{ set 7 = int 2147483647; \
         send 3 to b with 7 + int 1; send 5 to out with 7 + int 1; set 7 = 7 + int 1 }} }} \
         service b {{ input 3: Int client receive 3 into 6 }}"
    ));
    let (sends, assigns) = (run.rows(SEND), run.rows(ASSIGN));
    assert_eq!(run.refused(send(sends[0], 0), &[]), 15, "not ready");
    run.local(0, 0, assigns[0]);
    assert_eq!(run.refused(local(assigns[1]), &[]), 15, "not ready");
    assert_eq!(run.refused(local(sends[0]), &[]), 15, "no local row");
    for target in [1, 4] {
        assert_eq!(run.refused(send(sends[0], target), &[]), 15, "no target");
    }
    assert_eq!(run.refused(send(sends[0], 0), &[]), 22);
    for _ in 0..4 {
        run.outer(1, 3, 0, 0, &leaf(int(1)));
    }
    assert_eq!(run.refused(send(sends[0], 0), &[]), 16);
    run.change(0, 0, |session| session.progress[usize::from(sends[0])] = stepper::state::Progress::Done);
    assert_eq!(run.refused(send(sends[1], 1), &[]), 15, "to outside the target is 0");
    assert_eq!(run.refused(send(sends[1], 0), &[]), 22);
    run.out.truncate(511);
    assert_eq!(run.refused(send(sends[1], 0), &[]), 1);
}

/// A send of such a value starts no session. Its tree would never be too large: a value is a single node.
#[test]
fn a_refused_send_starts_nothing() {
    let mut run = Run::new(&format!(
        "{TALK} service a {{ output 3 to b: Int output 4 to b: Int -> Int client {{ set 7 = int 2147483647; \
         send 3 to b with 7 + int 1; ask 4 to b with - (- int 1 - 7) into 8 }} }} \
         service b {{ input 3: Int input 4: Int -> Int starter choice {{ on receive 3 into 1.2.3.4 then nil \
         on answer 4 into 5 do nil reply 5 then nil }} }}"
    ));
    run.local(0, 0, run.row(ASSIGN, 0));
    let rows = [run.row(SEND, 0), run.row(ASK, 0)];
    for row in rows {
        assert_eq!(run.refused(send(row, 0), &[]), 15);
        for target in 1..=3 {
            assert_eq!(run.refused(send(row, target), &[]), 22);
            assert_eq!(run.session(1, target.into()), None);
        }
        run.change(0, 0, |session| session.progress[usize::from(row)] = stepper::state::Progress::Done);
    }
}

/// "A session whose ready row gives 22 stays where it is": others go on, and so does it when the value is another.
#[test]
fn a_session_at_the_end_of_its_range_stays() {
    let mut run = Run::new(
        "location a = 1 location b = 2 type Int = int \
         service a { client { set 5 = int 2147483646; parallel { while true do set 5 = 5 + int 1 } \
         { set 6 = int 1; set 6 = 6 + int 1 } } } \
         service b { client set 5 = int 1 }",
    );
    let (turn, rows) = (run.row(WHILE, 0), run.rows(ASSIGN));
    run.local(0, 0, rows[0]);
    run.local(0, 0, turn);
    run.local(0, 0, rows[1]);
    run.local(0, 0, turn);
    for _ in 0..3 {
        assert_eq!(run.refused(local(rows[1]), &[]), 22);
        assert_eq!(run.value(0, 0, &[5]), Some(int(i32::MAX)));
    }
    assert_eq!(run.refused(Move::Close { service: 0, session: 0 }, &[]), 15);
    run.local(0, 0, rows[2]);
    run.local(0, 0, rows[3]);
    run.local(1, 0, rows[4]);
    run.close(1, 0);
    run.change(0, 0, |session| session.tree.assign(&[5], &int(-1)));
    run.local(0, 0, rows[1]);
    assert_eq!(run.value(0, 0, &[5]), Some(int(0)));
}

/// The lines of docs/NETWORKS.md that test before they add: no move is refused, wherever the counter starts.
#[test]
fn who_tests_before_adding_is_never_refused() {
    let path = concat!(env!("CARGO_MANIFEST_DIR"), "/../../docs/NETWORKS.md");
    let page = std::fs::read_to_string(path).expect("docs/NETWORKS.md");
    let lines = page.lines().skip_while(|line| !line.starts_with("    if lifts < int 2147483647 then"));
    let tests: Vec<&str> = lines.take_while(|line| line.starts_with("    ")).collect();
    assert_eq!(tests.len(), 4);
    for start in [i32::MIN, i32::MIN + 1, -1, 0, 1, i32::MAX - 1, i32::MAX] {
        for step in [0, 1, 2, i32::MAX] {
            let mut run = Run::new(&format!(
                "id lifts = 5 id step = 6 service 1 {{ client {{ set lifts = int {start}; set step = int {step};\n{}\n}} }}",
                tests.join("\n")
            ));
            let network = run.network();
            let rows = stepper::rows::Rows::of(&network);
            for _ in 0..2 + tests.len() * 2 {
                let Some(ready) = rows.ready(&run.session(0, 0).expect("live"), 0).first().copied() else { break };
                run.local(0, 0, ready.row as u16);
            }
            run.close(0, 0);
        }
    }
}
