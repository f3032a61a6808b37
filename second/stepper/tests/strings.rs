//! Strings are well-formed UTF-8: in what comes from outside (17) and in states (14). Raw is any bytes.

mod run;

use run::*;
use second::{Basic, Value};
use stepper::state::Queued;
use stepper::{Misshape, Move, Reason, Tree};

const BROKEN: &[u8] = b"a\xED\xA0\x80";

const TEXT: &str =
    "location a = 1 location out = 100 type Text = string type Bytes = raw type Label = void { 1: string } \
    service a { input 3: Text input 4: Bytes output 5 to out: Text -> Label \
        client { receive 3 into 5; receive 4 into 6; ask 5 to out with 5 into 7; set 8 = 5 == 7.1 } }";

/// A node of any bytes.
fn any_node(basic: Basic, bytes: &[u8]) -> Tree {
    Tree { basic, value: bytes.to_vec(), ..Tree::void(0) }
}

fn text(bytes: &[u8]) -> Vec<u8> {
    any_node(Basic::String, bytes).bytes()
}

fn label(bytes: &[u8]) -> Vec<u8> {
    Tree { children: vec![Tree { id: 1, ..any_node(Basic::String, bytes) }], ..Tree::void(0) }.bytes()
}

fn outer(id: u16) -> Move {
    Move::OuterMessage { service: 0, id, target: 0, number: 0 }
}

#[test]
fn a_broken_string_from_outside_is_17() {
    let mut run = Run::new(TEXT);
    let (receives, ask) = (run.rows(RECEIVE), run.row(ASK, 0));
    assert_eq!(run.refused(outer(3), &text(BROKEN)), 17);
    assert_eq!(run.refused(outer(3), &label(BROKEN)), 17, "before 19");
    assert_eq!(run.refused(outer(3), &label("é".as_bytes())), 19);
    assert_eq!(run.refused(outer(9), &text(BROKEN)), 15, "after 15");
    run.make(outer(3), &text("é".as_bytes()));
    run.make(outer(4), &any_node(Basic::Raw, BROKEN).bytes());
    receives.iter().for_each(|&row| run.receive(0, 0, row));
    assert_eq!(run.value(0, 0, &[6]), Some(Value::Raw(BROKEN.to_vec())));
    let reply = Move::OuterReply { service: 0, session: 0, row: ask };
    assert_eq!(run.refused(reply, &label(BROKEN)), 15, "it does not wait yet");
    assert_eq!(run.send(0, 0, ask, 0), text("é".as_bytes()));
    assert_eq!(run.refused(reply, &label(BROKEN)), 17);
    assert_eq!(run.refused(reply, &text(BROKEN)), 17, "before 19");
    assert_eq!(run.refused(reply, &text("é".as_bytes())), 19);
    // The same letter as two characters: another string.
    run.make(reply, &label("e\u{301}".as_bytes()));
    run.local(0, 0, run.row(ASSIGN, 0));
    assert_eq!(run.value(0, 0, &[8]), Some(Value::Bool(false)));
}

#[test]
fn a_full_queue_is_told_before_a_broken_string() {
    let mut run = Run::new(TEXT);
    (0..4).for_each(|_| run.outer(0, 3, 0, 0, &text(b"a")));
    assert_eq!(run.refused(outer(3), &text(BROKEN)), 16);
}

/// What a state with this in its tree or queue gives for a move that is not allowed.
fn state_with(change: impl FnOnce(&mut stepper::state::Session)) -> Reason {
    let mut run = Run::new(TEXT);
    run.change(0, 0, change);
    run.try_move(Move::Close { service: 9, session: 0 }, &[]).expect_err("no such service").reason
}

#[test]
fn a_broken_string_in_a_state_is_14() {
    let in_tree = |basic: Basic, bytes: &[u8]| {
        state_with(|session| {
            *session.tree.reach(&[40_000, 7]) = Tree { id: 7, ..any_node(basic, bytes) };
        })
    };
    let in_queue = |basic: Basic, bytes: &[u8]| {
        let queued = Queued { operation: 0, message: any_node(basic, bytes), destination: None };
        state_with(|session| session.queue.extend([Queued { message: Tree::void(0), ..queued.clone() }, queued]))
    };
    assert_eq!(in_tree(Basic::String, BROKEN), Reason::State(Misshape::Tree));
    assert_eq!(in_queue(Basic::String, BROKEN), Reason::State(Misshape::QueueMessage));
    for (basic, bytes) in [(Basic::String, "\0荷\u{10ffff}".as_bytes()), (Basic::Raw, BROKEN)] {
        for reason in [in_tree(basic, bytes), in_queue(basic, bytes)] {
            assert!(matches!(reason, Reason::NotAllowed(_)), "{reason:?}");
        }
    }
}
