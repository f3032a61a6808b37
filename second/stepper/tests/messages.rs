//! Messages between services, from outside and to outside; replies.

mod run;

use run::*;
use second::Value;
use stepper::state::{Destination, Progress};
use stepper::Move;

const LOCATIONS: &str = "location a = 1 location b = 2 location out = 100 type Int = int type Flag = bool \
                         type Pair = void { 1: int, 2?: bool }";

fn run(services: &str) -> Run {
    Run::new(&format!("{LOCATIONS} {services}"))
}

fn wrong(services: &str) -> Run {
    Run::wrong(&format!("{LOCATIONS} {services}"))
}

#[test]
fn four_messages_queue_and_the_fifth_gives_16() {
    let mut run = run("service a { output 3 to b: Int client { send 3 to b with int 1; send 3 to b with int 2; \
                       send 3 to b with int 3; send 3 to b with int 4; send 3 to b with int 5 } } \
                       service b { input 3: Int client { receive 3 into 7; receive 3 into 8 } }");
    let sends = run.rows(SEND);
    for &row in &sends[..4] {
        assert_eq!(run.send(0, 0, row, 0), []);
    }
    let fifth = Move::Send { service: 0, session: 0, row: sends[4], target: 0 };
    assert_eq!(run.refused(fifth, &[]), 16);
    // 16 comes before 17.
    let outer = Move::OuterMessage { service: 1, id: 3, target: 0, number: 0 };
    assert_eq!(run.refused(outer, &[]), 16);
    let receives = run.rows(RECEIVE);
    run.receive(1, 0, receives[0]);
    assert_eq!(run.value(1, 0, &[7]), Some(int(1)));
    assert_eq!(run.send(0, 0, sends[4], 0), []);
    run.receive(1, 0, receives[1]);
    assert_eq!(run.value(1, 0, &[8]), Some(int(2)));
    let left: Vec<_> = run.session(1, 0).expect("live").queue.iter().map(|queued| queued.message.clone()).collect();
    assert_eq!(left.iter().map(|tree| tree.root_value()).collect::<Vec<_>>(), [3, 4, 5].map(|n| Some(int(n))));
    // Closing a done session drops its queue.
    run.close(1, 0);
    run.close(0, 0);
    assert!(run.state.iter().all(|&byte| byte == 0));
}

/// A client asks, a session is started, works and replies; the client goes on.
#[test]
fn a_request_starts_a_session_and_is_answered() {
    let mut run = run("service a { output 3 to b: Pair -> Int client { set 5.1 = int 20; ask 3 to b with 5 into 6; \
                       set 7 = 6 + int 1 } } \
                       service b { input 3: Pair -> Int starter choice { on answer 3 into 8 do { set 9 = 8.1 + 8.1 } \
                       reply 9 then set 10 = int 0 } }");
    let (ask, answer, assigns) = (run.row(ASK, 0), run.row(ANSWER, 0), run.rows(ASSIGN));
    assert_eq!(run.refused(Move::Send { service: 0, session: 0, row: ask, target: 2 }, &[]), 15);
    run.local(0, 0, assigns[0]);
    for target in [0, 4, 65_535] {
        assert_eq!(run.refused(Move::Send { service: 0, session: 0, row: ask, target }, &[]), 15);
    }
    assert_eq!(run.send(0, 0, ask, 2), []);
    assert_eq!(run.refused(Move::Send { service: 0, session: 0, row: ask, target: 3 }, &[]), 15);
    assert_eq!(run.session(1, 1), None);
    let started = run.session(1, 2).expect("a started session");
    assert_eq!(started.tree.find(&[8, 1]).and_then(|node| node.root_value()), Some(int(20)));
    let from = Destination::Row { service: 0, session: 0, row: ask.into() };
    assert_eq!(started.progress[usize::from(answer)], Progress::Received(from));
    assert_eq!(started.progress[usize::from(run.row(CHOICE, 0))], Progress::Taken(0));
    assert_eq!(run.session(0, 0).expect("live").progress[usize::from(ask)], Progress::Waiting);
    let reply = Move::Reply { service: 1, session: 2, row: answer };
    assert_eq!(run.refused(reply, &[]), 15, "the body is not done");
    assert_eq!(run.refused(Move::Local { service: 1, session: 2, row: assigns[3] }, &[]), 15);
    // An outer reply is for rows that wait on an outside location.
    let outer = Move::OuterReply { service: 0, session: 0, row: ask };
    assert_eq!(run.refused(outer, &leaf(int(1))), 15);
    run.local(1, 2, assigns[2]);
    assert_eq!(run.refused(Move::Local { service: 0, session: 0, row: assigns[1] }, &[]), 15, "it waits");
    assert_eq!(run.reply(1, 2, answer), []);
    assert_eq!(run.refused(reply, &[]), 15);
    assert_eq!(run.value(0, 0, &[6]), Some(int(40)));
    run.local(0, 0, assigns[1]);
    assert_eq!(run.value(0, 0, &[7]), Some(int(41)));
    run.close(0, 0);
    assert_eq!(run.refused(Move::Close { service: 1, session: 2 }, &[]), 15);
    run.local(1, 2, assigns[3]);
    run.close(1, 2);
}

/// Closing the asker leaves nobody to answer; "requesters in it go on waiting".
#[test]
fn a_reply_needs_its_waiting_row() {
    let services = "service a { output 3 to b: Int -> Int client ask 3 to b with int 1 into 6 } \
                    service b { input 3: Int -> Int client { answer 3 into 8 do nil reply 8 } }";
    let mut run = run(services);
    let (ask, answer) = (run.row(ASK, 0), run.row(ANSWER, 0));
    run.send(0, 0, ask, 0);
    let destination = run.session(1, 0).expect("live").queue[0].destination;
    assert_eq!(destination, Some(Destination::Row { service: 0, session: 0, row: ask.into() }));
    run.receive(1, 0, answer);
    let waiting = run.state.clone();
    run.change(0, 0, |session| session.progress[usize::from(ask)] = Progress::Done);
    let reply = Move::Reply { service: 1, session: 0, row: answer };
    assert_eq!(run.refused(reply, &[]), 15);
    run.close(0, 0);
    assert_eq!(run.refused(reply, &[]), 15);
    run.state = waiting;
    run.reply(1, 0, answer);
    assert_eq!(run.value(0, 0, &[6]), Some(int(1)));
    // The answering session may be closed with requests in its queue; who asked waits on.
    let mut run = self::run(services);
    run.send(0, 0, ask, 0);
    run.change(1, 0, |session| session.progress[usize::from(answer)] = Progress::Done);
    run.close(1, 0);
    assert_eq!(run.refused(Move::Close { service: 0, session: 0 }, &[]), 15);
    assert_eq!(run.session(0, 0).expect("live").progress[usize::from(ask)], Progress::Waiting);
}

#[test]
fn an_outsider_is_answered_with_its_number() {
    let mut run = run("service b { input 3: Pair -> Int input 4: Int starter choice { \
                       on answer 3 into 8 do set 9 = 8.1 reply 9 then nil on receive 4 into 10 then nil } }");
    let answer = run.row(ANSWER, 0);
    let outer = |target| Move::OuterMessage { service: 0, id: 3, target, number: 0xfedc_ba98 };
    let pair = void(&[(&[1], int(7))]);
    assert_eq!(run.refused(outer(0), &pair), 15);
    assert_eq!(run.refused(outer(1), &[0, 0, 6, 1]), 17);
    assert_eq!(run.refused(outer(1), &[]), 17);
    assert_eq!(run.refused(outer(1), &leaf(int(7))), 19);
    // "Checking only a message's root" is a wrong turn: children are judged too.
    assert_eq!(run.refused(outer(1), &void(&[])), 19);
    assert_eq!(run.refused(outer(1), &void(&[(&[1], Value::Long(7))])), 19);
    assert_eq!(run.refused(outer(1), &void(&[(&[1], int(7)), (&[2], int(1))])), 19);
    assert_eq!(run.refused(outer(1), &void(&[(&[1], int(7)), (&[3], int(1))])), 19);
    run.outer(0, 3, 1, 0xfedc_ba98, &pair);
    let received = Progress::Received(Destination::Outsider(0xfedc_ba98));
    assert_eq!(run.session(0, 1).expect("live").progress[usize::from(answer)], received);
    run.local(0, 1, run.row(ASSIGN, 0));
    let mut expected = vec![0x98, 0xba, 0xdc, 0xfe];
    expected.extend(leaf(int(7)));
    assert_eq!(run.reply(0, 1, answer), expected);
    run.close(0, 1);
    // A one-way message's number is forgotten, also in the queue.
    run.outer(0, 4, 3, 77, &leaf(int(1)));
    run.outer(0, 4, 3, 78, &leaf(int(2)));
    let session = run.session(0, 3).expect("live");
    assert_eq!((session.queue.len(), session.queue[0].destination), (1, None));
    assert_eq!(run.refused(Move::OuterMessage { service: 0, id: 5, target: 1, number: 0 }, &pair), 15);
    assert_eq!(run.refused(Move::OuterMessage { service: 1, id: 3, target: 1, number: 0 }, &pair), 15);
}

#[test]
fn messages_and_requests_go_outside() {
    let mut run = run("service a { output 3 to out: Pair output 4 to out: Int -> Pair client { set 5.1 = int 2; \
                       send 3 to out with 5; ask 4 to out with 5.1 into 6; set 7 = 6.1 } }");
    run.local(0, 0, run.row(ASSIGN, 0));
    let (send, ask) = (run.row(SEND, 0), run.row(ASK, 0));
    assert_eq!(run.refused(Move::Send { service: 0, session: 0, row: send, target: 1 }, &[]), 15);
    assert_eq!(run.send(0, 0, send, 0), void(&[(&[1], int(2))]));
    let reply = Move::OuterReply { service: 0, session: 0, row: ask };
    let pair = void(&[(&[1], int(9)), (&[2], Value::Bool(true))]);
    assert_eq!(run.refused(reply, &pair), 15, "it does not wait yet");
    assert_eq!(run.send(0, 0, ask, 0), leaf(int(2)));
    assert_eq!(run.refused(reply, &[1]), 17);
    assert_eq!(run.refused(reply, &leaf(int(2))), 19);
    assert_eq!(run.make(reply, &pair), []);
    assert_eq!(run.refused(reply, &pair), 15);
    run.local(0, 0, run.row(ASSIGN, 1));
    assert_eq!(run.value(0, 0, &[7]), Some(int(9)));
    run.close(0, 0);
}

/// A receive in a choice names the input row and settles the branch; "replaces the subtree".
#[test]
fn a_choice_is_settled_by_its_input() {
    let mut run = run("service a { input 3: Pair input 4: Pair client { choice { \
                       on receive 3 into 5 then set 6 = int 3 on receive 4 into 5 then set 6 = int 4 }; \
                       set 7 = 6 } }");
    let (inputs, assigns) = (run.rows(RECEIVE), run.rows(ASSIGN));
    let receive = |row| Move::Receive { service: 0, session: 0, row };
    assert_eq!(run.refused(receive(inputs[1]), &[]), 15, "nothing is queued");
    run.outer(0, 4, 0, 0, &void(&[(&[1], int(9))]));
    assert_eq!(run.refused(receive(inputs[0]), &[]), 15, "nothing is queued for this one");
    assert_eq!(run.refused(Move::Local { service: 0, session: 0, row: assigns[1] }, &[]), 15);
    run.change(0, 0, |session| session.tree.assign(&[5, 2], &Value::Bool(true)));
    run.receive(0, 0, inputs[1]);
    assert_eq!(run.value(0, 0, &[5, 2]), None, "the subtree is replaced");
    assert_eq!(run.session(0, 0).expect("live").progress[usize::from(run.row(CHOICE, 0))], Progress::Taken(1));
    run.outer(0, 3, 0, 0, &void(&[(&[1], int(9))]));
    assert_eq!(run.refused(receive(inputs[0]), &[]), 15, "the other branch is taken");
    assert_eq!(run.refused(Move::Local { service: 0, session: 0, row: assigns[0] }, &[]), 15);
    run.local(0, 0, assigns[1]);
    run.local(0, 0, assigns[2]);
    assert_eq!(run.value(0, 0, &[7]), Some(int(4)));
    run.close(0, 0);
}

/// "The first starter branch of that operation receives it."
#[test]
fn the_first_branch_of_the_operation_starts() {
    let mut run = run("service b { input 3: Int input 4: Int starter choice { on receive 4 into 5 then nil \
                       on receive 3 into 6 then nil on receive 3 into 7 then nil } client nil }");
    run.outer(0, 3, 2, 0, &leaf(int(1)));
    let session = run.session(0, 2).expect("live");
    assert_eq!(session.progress[usize::from(run.row(CHOICE, 0))], Progress::Taken(1));
    assert_eq!((run.value(0, 2, &[6]), run.value(0, 2, &[7])), (Some(int(1)), None));
    run.close(0, 2);
    // A free session 0 starts nothing.
    run.close(0, 0);
    assert_eq!(run.refused(Move::OuterMessage { service: 0, id: 3, target: 0, number: 0 }, &leaf(int(1))), 15);
}

/// 19 of sends and replies, in states and files that the checker would refuse.
#[test]
fn what_does_not_fit_is_19() {
    let mut run = wrong(
        "service a { output 3 to b: Int output 4 to out: Int client { send 3 to b with true; \
                         send 4 to out with true; send 4 to out with 9 } } service b { input 3: Flag client nil }",
    );
    let sends = run.rows(SEND);
    // To a service the input's type counts, outbound the sender's.
    assert_eq!(run.send(0, 0, sends[0], 0), []);
    let outside = |row| Move::Send { service: 0, session: 0, row, target: 0 };
    assert_eq!(run.refused(outside(sends[1]), &[]), 19);
    run.change(0, 0, |session| session.progress[usize::from(sends[1])] = Progress::Done);
    assert_eq!(run.refused(outside(sends[2]), &[]), 18, "nothing is at 9");
    run.change(0, 0, |session| (1..=16).for_each(|id| session.tree.assign(&[9, id], &Value::Void)));
    assert_eq!(run.refused(outside(sends[2]), &[]), 19, "17 nodes are no message");
    run.change(0, 0, |session| session.tree.assign(&[9], &int(1)));
    assert_eq!(run.refused(outside(sends[2]), &[]), 19);

    let mut run = wrong(
        "service a { output 3 to b: Int -> Int client ask 3 to b with int 1 into 6 } \
                         service b { input 3: Int -> Int client answer 3 into 8 do nil reply 9 }",
    );
    let (ask, answer) = (run.row(ASK, 0), run.row(ANSWER, 0));
    run.send(0, 0, ask, 0);
    run.receive(1, 0, answer);
    let reply = Move::Reply { service: 1, session: 0, row: answer };
    assert_eq!(run.refused(reply, &[]), 18);
    run.change(1, 0, |session| session.tree.assign(&[9], &Value::Bool(true)));
    assert_eq!(run.refused(reply, &[]), 19);
    run.change(1, 0, |session| session.progress[usize::from(answer)] = Progress::Received(Destination::Outsider(1)));
    assert_eq!(run.refused(reply, &[]), 19);
    run.change(1, 0, |session| session.tree.assign(&[9], &int(1)));
    assert_eq!(run.reply(1, 0, answer).len(), 4 + 9);
}

/// 18 comes before 19: the value sent is worked out first.
#[test]
fn what_can_not_be_worked_out_is_18() {
    for expression in ["int 1 + long 1", "not 9", "9.1 + int 1", "- true"] {
        let mut run = wrong(&format!(
            "service a {{ output 3 to b: Int output 4 to out: Int client {{ parallel {{ send 3 to b with {expression} }} \
             {{ send 4 to out with {expression} }} }} }} service b {{ input 3: Int client nil }}"
        ));
        for row in run.rows(SEND) {
            assert_eq!(run.refused(Move::Send { service: 0, session: 0, row, target: 0 }, &[]), 18, "{expression}");
        }
    }
}

/// 18 for trees that would pass 48 nodes or 6 levels: by a receive, a start, a reply.
#[test]
fn what_would_be_too_large_is_18() {
    let deep = "type Deep = void { 1: void { 1: void { 1: int } } }";
    let mut run = Run::wrong(&format!(
        "{LOCATIONS} {deep} service a {{ output 3 to out: Int -> Deep input 4: Deep \
         starter choice {{ on receive 4 into 7.7.7.7 then nil }} \
         client {{ ask 3 to out with int 1 into 6; receive 4 into 5 }} }}"
    ));
    let message = void(&[(&[1, 1, 1], int(1))]);
    assert_eq!(run.refused(Move::OuterMessage { service: 0, id: 4, target: 1, number: 0 }, &message), 18);
    assert_eq!(run.refused(Move::OuterMessage { service: 0, id: 4, target: 1, number: 0 }, &leaf(int(1))), 19);
    run.send(0, 0, run.row(ASK, 0), 0);
    run.change(0, 0, |session| (100..145).for_each(|id| session.tree.assign(&[id], &Value::Void)));
    let reply = Move::OuterReply { service: 0, session: 0, row: run.row(ASK, 0) };
    assert_eq!(run.refused(reply, &message), 18, "45 and 4 nodes");
    run.change(0, 0, |session| session.tree.assign(&[6], &Value::Void));
    run.change(0, 0, |session| session.tree.children.truncate(45));
    assert_eq!(run.make(reply, &message), [], "the one at 6 is replaced: 44 and 4 nodes");
    run.outer(0, 4, 0, 0, &message);
    let receive = Move::Receive { service: 0, session: 0, row: run.row(RECEIVE, 1) };
    assert_eq!(run.refused(receive, &[]), 18);
    run.change(0, 0, |session| session.tree.children.truncate(10));
    assert_eq!(run.make(receive, &[]), []);
}

/// Rows whose operation 6 refuses give 15.
#[test]
fn a_row_with_a_wrong_operation_is_15() {
    let mut run = wrong(
        "service a { input 3: Int output 4 to b: Int client { send 4 to b with int 1 } } \
                         service b { input 4: Int -> Int input 5: Int starter choice { on receive 4 into 7 then nil \
                         on receive 5 into 7 then nil on answer 4 into 7 do nil reply 7 then nil } client { receive 4 into 6 } }",
    );
    let send = Move::Send { service: 0, session: 0, row: run.row(SEND, 0), target: 0 };
    assert_eq!(run.refused(send, &[]), 15, "the input is two-way");
    run.outer(1, 4, 0, 9, &leaf(int(1)));
    let receive = Move::Receive { service: 1, session: 0, row: run.row(RECEIVE, 2) };
    assert_eq!(run.refused(receive, &[]), 15);
    let start = |id| Move::OuterMessage { service: 1, id, target: 1, number: 0 };
    assert_eq!(run.refused(start(4), &leaf(int(1))), 15, "the first branch of 4 receives what is to be answered");
    assert_eq!(run.make(start(5), &leaf(int(1))), []);
}

/// The same for rows that send, answer and wait: the operation's service, direction or kind is wrong.
#[test]
fn every_row_of_a_move_has_its_own_operation() {
    let mut run = run("service a { input 3: Int -> Int output 3 to b: Int -> Int output 4 to b: Int \
                       output 5 to out: Int -> Int client { ask 3 to b with int 1 into 5; send 4 to b with int 2; \
                       ask 5 to out with int 3 into 6 } } \
                       service b { input 3: Int -> Int input 4: Int output 4 to out: Int \
                       client answer 3 into 7 do nil reply 7 }");
    // Operations: 0 to 3 are those of a, 4 to 6 those of b.
    let (asks, send, answer) = (run.rows(ASK), run.row(SEND, 0), run.row(ANSWER, 0));
    let right = run.file.clone();
    let all_wrong = |run: &mut Run, row: u16, operations: &[u16], named: Move, outside: &[u8]| {
        for &operation in operations {
            run.rename(row, operation);
            assert_eq!(run.refused(named, outside), 15, "{named:?} with operation {operation}");
            run.file = right.clone();
        }
    };
    let first = Move::Send { service: 0, session: 0, row: asks[0], target: 0 };
    all_wrong(&mut run, asks[0], &[0, 2, 4, 5, 6], first, &[]);
    run.make(first, &[]);
    run.receive(1, 0, answer);
    let reply = Move::Reply { service: 1, session: 0, row: answer };
    all_wrong(&mut run, answer, &[0, 1, 5, 6], reply, &[]);
    all_wrong(&mut run, asks[0], &[0, 2, 4, 5, 6], reply, &[]);
    run.make(reply, &[]);
    let second = Move::Send { service: 0, session: 0, row: send, target: 0 };
    all_wrong(&mut run, send, &[0, 1, 3, 4, 5, 6], second, &[]);
    run.make(second, &[]);
    run.send(0, 0, asks[1], 0);
    let outer = Move::OuterReply { service: 0, session: 0, row: asks[1] };
    all_wrong(&mut run, asks[1], &[0, 1, 2, 4, 5, 6], outer, &leaf(int(1)));
    run.make(outer, &leaf(int(1)));
    run.close(0, 0);
}

#[test]
fn a_service_may_send_to_itself() {
    let mut run = run("service a { input 3: Int -> Int output 3 to a: Int -> Int client { parallel \
                       { ask 3 to a with int 5 into 6 } { answer 3 into 7 do nil reply 7 } } }");
    let (ask, answer) = (run.row(ASK, 0), run.row(ANSWER, 0));
    run.send(0, 0, ask, 0);
    run.receive(0, 0, answer);
    assert_eq!(run.reply(0, 0, answer), []);
    assert_eq!(run.value(0, 0, &[6]), Some(int(5)));
    run.close(0, 0);
}
