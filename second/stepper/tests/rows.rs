//! Local moves and the order of rows: assign, if, while, sequence, parallel.

mod run;

use run::*;
use second::Value;
use stepper::Move;

fn local(row: u16) -> Move {
    Move::Local { service: 0, session: 0, row }
}

#[test]
fn a_while_runs_twice() {
    let mut run = Run::new(
        "location a = 1 service a { client { set 6 = false; set 5 = int 0; \
         while 5 < int 2 do { set 5 = 5 + int 1; set 6 = true }; set 7 = 5 } }",
    );
    let assigns = run.rows(ASSIGN);
    let turn = run.row(WHILE, 0);
    assert_eq!(run.refused(local(turn), &[]), 15);
    run.local(0, 0, assigns[0]);
    run.local(0, 0, assigns[1]);
    assert_eq!(run.refused(local(assigns[2]), &[]), 15);
    for round in 1..=2 {
        run.local(0, 0, turn);
        assert_eq!(run.refused(local(turn), &[]), 15, "its body is not done");
        assert_eq!(run.refused(local(assigns[3]), &[]), 15);
        run.local(0, 0, assigns[2]);
        assert_eq!(run.refused(local(assigns[4]), &[]), 15);
        run.local(0, 0, assigns[3]);
        assert_eq!(run.value(0, 0, &[5]), Some(int(round)));
        assert_eq!(run.refused(Move::Close { service: 0, session: 0 }, &[]), 15);
    }
    run.local(0, 0, turn);
    // "When its condition is false the while is done and the rows below keep what they have."
    let progress = run.session(0, 0).expect("live").progress;
    assert_eq!(progress[usize::from(assigns[3])], stepper::state::Progress::Done);
    assert_eq!(progress[usize::from(turn)], stepper::state::Progress::Done);
    run.local(0, 0, assigns[4]);
    assert_eq!(run.value(0, 0, &[7]), Some(int(2)));
    run.close(0, 0);
    assert_eq!(run.session(0, 0), None);
}

#[test]
fn an_if_takes_one_side() {
    for (condition, value) in [("true", 1), ("false", 2), ("present 9 and true", 2), ("not present 9", 1)] {
        let text = format!(
            "location a = 1 service a {{ client {{ if true then nil else set 9 = true; \
             if {condition} then set 5 = int 1 else set 5 = int 2 }} }}"
        );
        let mut run = Run::wrong(&text);
        let ifs = run.rows(IF);
        run.local(0, 0, ifs[0]);
        run.local(0, 0, ifs[1]);
        let assigns = run.rows(ASSIGN);
        let (taken, other) = if value == 1 { (assigns[1], assigns[2]) } else { (assigns[2], assigns[1]) };
        assert_eq!(run.refused(local(other), &[]), 15);
        assert_eq!(run.refused(local(ifs[1]), &[]), 15);
        run.local(0, 0, taken);
        assert_eq!(run.value(0, 0, &[5]), Some(int(value)), "{condition}");
        run.close(0, 0);
    }
}

#[test]
fn both_sides_of_a_parallel_are_ready() {
    let text = "location a = 1 service a { client { parallel { set 5 = int 1; set 5 = int 2 } { set 6 = int 3 }; \
                set 7 = int 4 } }";
    let mut run = Run::new(text);
    let rows = run.rows(ASSIGN);
    assert_eq!(run.refused(local(rows[1]), &[]), 15);
    run.local(0, 0, rows[2]);
    run.local(0, 0, rows[0]);
    assert_eq!(run.refused(local(rows[3]), &[]), 15, "one side is not done");
    run.local(0, 0, rows[1]);
    run.local(0, 0, rows[3]);
    run.close(0, 0);
}

#[test]
fn assigning_keeps_children() {
    let mut run = Run::new("location a = 1 service a { client { set 5.7 = int 12; set 5 = void; set 6 = 5.7 } }");
    for row in run.rows(ASSIGN) {
        run.local(0, 0, row);
    }
    assert_eq!(run.value(0, 0, &[5, 7]), Some(int(12)));
    assert_eq!(run.value(0, 0, &[6]), Some(int(12)));
}

#[test]
fn false_and_missing_is_18() {
    let text = |expression: &str| format!("location a = 1 service a {{ client set 5 = {expression} }}");
    for (expression, number) in [
        ("false and 9", 18),
        ("9 and false", 18),
        ("true and int 1", 18),
        ("not int 1", 18),
        ("int 1 + long 1", 18),
        ("void == void", 18),
        ("- \"a\"", 18),
        ("true < false", 18),
        ("9", 18),
        ("present 9", 0),
        ("false and present 9", 0),
        ("\"a\" == \"a\"", 0),
    ] {
        let mut run = Run::wrong(&text(expression));
        let result = run.try_move(local(run.row(ASSIGN, 0)), &[]);
        assert_eq!(result.map_or_else(|refused| refused.number, |_| 0), number, "{expression}");
    }
    let mut run = Run::wrong("location a = 1 service a { client { if 9 then nil else nil; while int 1 do nil } }");
    assert_eq!(run.refused(local(run.row(IF, 0)), &[]), 18);
    run.change(0, 0, |session| session.tree.assign(&[9], &Value::Bool(true)));
    run.local(0, 0, run.row(IF, 0));
    assert_eq!(run.refused(local(run.row(WHILE, 0)), &[]), 18);
}

#[test]
fn an_assign_past_48_nodes_is_18() {
    let mut run = Run::new("location a = 1 service a { client { set 1 = int 1; set 100.1 = int 2 } }");
    let rows = run.rows(ASSIGN);
    run.local(0, 0, rows[0]);
    for nodes in [47, 46] {
        run.change(0, 0, |session| {
            session.tree.children.truncate(1);
            (2..=nodes).for_each(|id| session.tree.assign(&[id], &Value::Void));
        });
        let result = run.try_move(local(rows[1]), &[]);
        assert_eq!(result.map_or_else(|refused| refused.number, |_| 0), if nodes == 47 { 18 } else { 0 });
    }
    assert_eq!(run.session(0, 0).expect("live").tree.nodes(), 49);
}

#[test]
fn wrong_numbers_are_15() {
    let mut run = Run::new(
        "location a = 1 location b = 2 service a { client { nil; set 5 = int 1 } } service b { client set 5 = int 1 }",
    );
    let rows = run.rows(ASSIGN);
    for (service, session, row) in
        [(2, 0, rows[0]), (65_535, 0, rows[0]), (0, 1, rows[0]), (0, 4, rows[0]), (0, 0, rows[1]), (1, 0, rows[0])]
    {
        assert_eq!(run.refused(Move::Local { service, session, row }, &[]), 15, "{service} {session} {row}");
    }
    for row in [0, 1, 99, 65_535] {
        assert_eq!(run.refused(Move::Local { service: 0, session: 0, row }, &[]), 15);
        assert_eq!(run.refused(Move::Receive { service: 0, session: 0, row }, &[]), 15);
        assert_eq!(run.refused(Move::Send { service: 0, session: 0, row, target: 0 }, &[]), 15);
        assert_eq!(run.refused(Move::Reply { service: 0, session: 0, row }, &[]), 15);
        assert_eq!(run.refused(Move::OuterReply { service: 0, session: 0, row }, &[]), 15);
    }
    run.local(0, 0, rows[0]);
    run.local(1, 0, rows[1]);
}
