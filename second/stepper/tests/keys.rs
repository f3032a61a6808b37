//! Keyed services: which session a message goes to (15, after 19), and which states hold keys (14).

mod run;

use run::*;
use second::Value;
use stepper::NotAllowed::{KeyHeld, KeylessTarget, NoKey, OtherKey};
use stepper::{Misshape, Move, Reason};

/// A recorder keyed by child 1; its sessions take lifts and answer, and its client does nothing.
const RECORDER: &str = "location recorder = 2 location out = 100 \
    type Lift = void { 1: int, 2?: bool } \
    service recorder keyed by 1 { input 3: Lift input 4: Lift -> Lift \
        starter choice { on receive 3 into 5 then { receive 3 into 6; set 5.1 = int 99 } \
                         on answer 4 into 5 do nil reply 5 then nil } \
        client nil }";

fn lift(key: i32) -> Vec<u8> {
    void(&[(&[1], int(key))])
}

/// A message from outside to a session of service 0.
fn to(target: u16, id: u16) -> Move {
    Move::OuterMessage { service: 0, id, target, number: 9 }
}

/// Why a message is refused.
fn why(run: &mut Run, named: Move, message: &[u8]) -> Reason {
    let refused = run.try_move(named, message).expect_err("a refusal");
    assert_eq!(refused.place, 0);
    refused.reason
}

fn key(run: &Run, session: usize) -> Option<i32> {
    run.session(0, session).expect("live").key
}

#[test]
fn a_message_goes_to_the_session_with_its_key() {
    let mut run = Run::new(RECORDER);
    for (session, number) in [(2, 7), (1, -7), (3, 0)] {
        run.make(to(session, 3), &lift(number));
    }
    assert_eq!([1, 2, 3].map(|session| key(&run, session)), [Some(-7), Some(7), Some(0)]);
    assert_eq!(key(&run, 0), None);
    assert_eq!(run.state[2 * 4096 + 4..2 * 4096 + 8], [7, 0, 0, 0]);
    assert_eq!(run.state[4096 + 4..4096 + 8], [0xf9, 0xff, 0xff, 0xff]);
    for (number, own) in [(-7, 1), (7, 2), (0, 3)] {
        for session in 1..=3 {
            let result = run.try_move(to(session, 3), &lift(number));
            let found = result.err().map(|refused| refused.reason);
            assert_eq!(found, (session != own).then_some(Reason::NotAllowed(OtherKey)), "{number} to {session}");
        }
        assert_eq!(why(&mut run, to(0, 3), &lift(number)), Reason::NotAllowed(KeylessTarget));
    }
    let queued: Vec<_> = (1..=3).map(|session| run.session(0, session).expect("live").queue.len()).collect();
    assert_eq!(queued, [1, 1, 1]);
}

/// No second session for a key that one has; after a close there may be.
#[test]
fn a_key_starts_one_session() {
    let mut run = Run::new(RECORDER);
    run.make(to(1, 4), &lift(5));
    for session in [2, 3] {
        assert_eq!(why(&mut run, to(session, 3), &lift(5)), Reason::NotAllowed(KeyHeld));
        assert_eq!(why(&mut run, to(session, 4), &lift(5)), Reason::NotAllowed(KeyHeld));
    }
    run.make(to(2, 3), &lift(6));
    assert_eq!(run.reply(0, 1, run.row(ANSWER, 0)).len(), 4 + 14);
    run.close(0, 1);
    assert!(run.state[4096..8192].iter().all(|&byte| byte == 0), "close frees the key");
    run.make(to(3, 3), &lift(5));
    assert_eq!((key(&run, 3), key(&run, 2)), (Some(5), Some(6)));
}

/// "A started session keeps the key of its first message": neither its tree nor its messages change it.
#[test]
fn the_key_stays_whatever_the_tree_holds() {
    let mut run = Run::new(RECORDER);
    run.make(to(1, 3), &lift(5));
    run.make(to(1, 3), &lift(5));
    run.receive(0, 1, run.row(RECEIVE, 1));
    run.local(0, 1, run.row(ASSIGN, 0));
    assert_eq!((run.value(0, 1, &[5, 1]), key(&run, 1)), (Some(int(99)), Some(5)));
    run.make(to(1, 3), &lift(5));
    assert_eq!(why(&mut run, to(1, 3), &lift(99)), Reason::NotAllowed(OtherKey));
    run.make(to(2, 3), &lift(99));
    assert_eq!(key(&run, 2), Some(99));
}

/// 15 and 16 by the target, 17, 19, 15 for the key; 18 for a tree comes last.
#[test]
fn the_key_is_tried_after_19_and_before_the_size_of_a_tree() {
    let mut run = Run::new(RECORDER);
    run.make(to(1, 3), &lift(5));
    let (unfit, no_message) = (leaf(int(5)), &lift(5)[1..]);
    for target in 0..=3 {
        assert_eq!(run.refused(to(target, 3), no_message), 17, "{target}");
        assert_eq!(run.refused(to(target, 3), &unfit), 19, "{target}");
    }
    assert_eq!(run.refused(to(4, 3), no_message), 15);
    for _ in 0..4 {
        run.make(to(1, 3), &lift(5));
    }
    for message in [&lift(5)[..], &lift(6), &unfit, no_message] {
        assert_eq!(run.refused(to(1, 3), message), 16);
    }

    let mut deep = Run::wrong(
        "type Deep = void { 1: int { 1: void { 1: int } } } service 2 keyed by 1 { input 3: Deep \
         starter choice { on receive 3 into 5.5.5.5 then nil } }",
    );
    let message = |key| void(&[(&[1, 1, 1], int(1)), (&[1], int(key))]);
    assert_eq!(why(&mut deep, to(1, 3), &message(5)), Reason::TreeSize);
    deep.state[2 * 4096..2 * 4096 + 19].copy_from_slice(&[1, 0, 5, 0, 5, 0, 0, 0, 0, 0, 0, 0, 0, 0, 0, 0, 0, 0, 6]);
    assert_eq!(why(&mut deep, to(1, 3), &message(5)), Reason::NotAllowed(KeyHeld));
    assert_eq!(why(&mut deep, to(1, 3), &message(6)), Reason::TreeSize);
}

/// Files that 23 refuses: a message may fit and have no int. Fresh gives 23, moves do not.
#[test]
fn a_message_without_the_int_goes_nowhere() {
    for (child, messages) in [
        ("1?: int", vec![void(&[])]),
        ("1: long", vec![void(&[(&[1], Value::Long(5))])]),
        ("3: void { 1: int }", vec![void(&[(&[3, 1], int(5))])]),
        ("1?: bool", vec![void(&[]), void(&[(&[1], Value::Bool(true))])]),
    ] {
        let text = format!(
            "service 2 keyed by 1 {{ input 3: void {{ {child} }} client nil \
             starter choice {{ on receive 3 into 5 then nil }} }}"
        );
        let mut run = Run::wrong(&text);
        let refused = stepper::fresh(&run.file, &mut run.state.clone()).expect_err("an unfit input");
        assert_eq!((refused.number, refused.place), (23, 0), "{child}");
        for message in messages {
            for target in 0..=3 {
                assert_eq!(why(&mut run, to(target, 3), &message), Reason::NotAllowed(NoKey), "{child}");
            }
        }
    }
    // An optional int that is there is the key.
    let mut run = Run::wrong(
        "service 2 keyed by 1 { input 3: void { 1?: int } starter choice { on receive 3 into 5 then nil } }",
    );
    run.make(to(1, 3), &lift(5));
    assert_eq!(key(&run, 1), Some(5));
    assert_eq!(why(&mut run, to(1, 3), &void(&[])), Reason::NotAllowed(NoKey));
}

/// The key's own children are free, and so are ints of the same id elsewhere.
#[test]
fn the_key_is_the_root_s_own_child() {
    let mut run = Run::new(
        "service 2 keyed by 1 { input 3: int { 1: int { 1: int, 2?: bool } } \
         starter choice { on receive 3 into 5 then nil } }",
    );
    let mut message = stepper::Tree::leaf(&int(77));
    message.assign(&[1, 1], &int(88));
    message.assign(&[1], &int(-3));
    run.make(to(1, 3), &message.bytes());
    assert_eq!(key(&run, 1), Some(-3));
    message.assign(&[1, 1], &int(89));
    message.assign(&[1, 2], &Value::Bool(true));
    run.make(to(1, 3), &message.bytes());
}

/// A hall whose client tells and asks a keyed recorder, whose sessions tell themselves and start others.
const HALL: &str = "location hall = 1 location recorder = 2 type Lift = void { 1: int } \
    service hall { output 3 to recorder: Lift output 4 to recorder: Lift -> Lift \
        client { set 5.1 = int 7; send 3 to recorder with 5; ask 4 to recorder with 5 into 6 } } \
    service recorder keyed by 1 { input 3: Lift input 4: Lift -> Lift output 3 to recorder: Lift \
        client { set 8.1 = int 7; send 3 to recorder with 8 } \
        starter choice { on receive 3 into 5 then { send 3 to recorder with 5; set 5.1 = int 8; \
                                                   send 3 to recorder with 5; answer 4 into 6 do nil reply 6 } } }";

#[test]
fn sends_go_by_their_key_too() {
    let mut run = Run::new(HALL);
    let (sends, ask) = (run.rows(SEND), run.row(ASK, 0));
    run.local(0, 0, run.row(ASSIGN, 0));
    let send = |row, target| Move::Send { service: 0, session: 0, row, target };
    assert_eq!(why(&mut run, send(sends[0], 0), &[]), Reason::NotAllowed(KeylessTarget));
    run.make(send(sends[0], 2), &[]);
    assert_eq!(run.session(1, 2).expect("live").key, Some(7));
    // A client tells a session of its own service, and starts none with the same key.
    let client = run.rows(ASSIGN)[2];
    run.local(1, 0, client);
    let own = |row, target| Move::Send { service: 1, session: 0, row, target };
    assert_eq!(why(&mut run, own(sends[3], 1), &[]), Reason::NotAllowed(KeyHeld));
    run.make(own(sends[3], 2), &[]);
    assert_eq!(run.session(1, 2).expect("live").queue.len(), 1);
    assert_eq!(run.refused(send(ask, 3), &[]), 15);
    run.make(send(ask, 2), &[]);
}

#[test]
fn the_sender_s_own_session_counts() {
    let mut run = Run::new(HALL);
    let (sends, ask, answer) = (run.rows(SEND), run.row(ASK, 0), run.row(ANSWER, 0));
    run.local(0, 0, run.row(ASSIGN, 0));
    run.send(0, 0, sends[0], 1);
    let own = |row, target| Move::Send { service: 1, session: 1, row, target };
    for target in [2, 3] {
        assert_eq!(why(&mut run, own(sends[1], target), &[]), Reason::NotAllowed(KeyHeld));
    }
    assert_eq!(why(&mut run, own(sends[1], 0), &[]), Reason::NotAllowed(KeylessTarget));
    run.make(own(sends[1], 1), &[]);
    // With another int in its tree it starts another session, and tells itself no more.
    run.local(1, 1, run.row(ASSIGN, 1));
    assert_eq!(why(&mut run, own(sends[2], 1), &[]), Reason::NotAllowed(OtherKey));
    run.make(own(sends[2], 3), &[]);
    assert_eq!([1, 3].map(|session| run.session(1, session).expect("live").key), [Some(7), Some(8)]);
    // A reply looks at no key.
    run.send(0, 0, ask, 1);
    run.receive(1, 1, answer);
    run.change(1, 1, |session| session.tree.assign(&[6, 1], &int(1234)));
    run.reply(1, 1, answer);
    assert_eq!(run.value(0, 0, &[6, 1]), Some(int(1234)));
}

/// Session 0 of a keyed service sends and takes replies, from sessions and from outside.
#[test]
fn a_client_of_a_keyed_service_takes_replies() {
    let mut run = Run::new(
        "location a = 1 location out = 100 type Lift = void { 1: int } service a keyed by 1 { \
         input 4: Lift -> Lift output 4 to a: Lift -> Lift output 5 to out: Lift -> Lift \
         client { set 5.1 = int 3; ask 4 to a with 5 into 6; ask 5 to out with 6 into 7 } \
         starter choice { on answer 4 into 5 do nil reply 5 then nil } }",
    );
    run.local(0, 0, run.row(ASSIGN, 0));
    run.send(0, 0, run.row(ASK, 0), 2);
    run.reply(0, 2, run.row(ANSWER, 0));
    assert_eq!(run.send(0, 0, run.row(ASK, 1), 0), lift(3), "outside there is no key");
    run.make(Move::OuterReply { service: 0, session: 0, row: run.row(ASK, 1) }, &lift(9));
    run.close(0, 0);
    assert_eq!(key(&run, 2), Some(3));
}

#[test]
fn services_do_not_share_keys() {
    let service = |number: u16, keyed: &str| {
        format!(
            "service {number} {keyed} {{ input 3: void {{ 1: int, 2: int }} \
             starter choice {{ on receive 3 into {number} then nil }} }}"
        )
    };
    let text = [service(1, "keyed by 1"), service(2, "keyed by 2"), service(3, "")].concat();
    let mut run = Run::new(&text);
    let message = void(&[(&[1], int(5)), (&[2], int(5))]);
    let to = |service, target| Move::OuterMessage { service, id: 3, target, number: 0 };
    for target in 1..=3 {
        let numbers = [0, 1, 2]
            .map(|service| run.try_move(to(service, target), &message).map_or_else(|refused| refused.number, |_| 0));
        assert_eq!(numbers, if target == 1 { [0, 0, 0] } else { [15, 15, 0] });
    }
    let keys = [0, 1, 2].map(|service| run.session(service, 1).expect("live").key);
    assert_eq!(keys, [Some(5), Some(5), None]);
}

/// Two services, of which the second is keyed: keys stand in its sessions 1 to 3 alone.
const SHAPE: &str =
    "service 1 { input 3: void { 1: int } client nil starter choice { on receive 3 into 5 then nil } } \
    service 2 keyed by 1 { input 3: void { 1: int } client nil starter choice { on receive 3 into 5 then nil } }";

/// The rule that a state breaks with this key in a slot; None if it stands for a state.
fn broken(live: &[usize], slot: usize, key: i32) -> Option<Misshape> {
    let mut run = Run::new(SHAPE);
    for &slot in live {
        (run.state[4096 * slot], run.state[4096 * slot + 2], run.state[4096 * slot + 18]) = (1, 5, 6);
    }
    run.state[4096 * slot + 4..4096 * slot + 8].copy_from_slice(&key.to_le_bytes());
    let refused = run.try_move(Move::Close { service: 9, session: 0 }, &[]).expect_err("no such service");
    match refused.reason {
        Reason::State(misshape) => Some(misshape),
        _ => None,
    }
}

#[test]
fn keys_stand_only_where_they_are_held() {
    for byte in 0..4 {
        let key = 1 << (8 * byte);
        assert_eq!(broken(&[5, 7], 5, key), None);
        assert_eq!(broken(&[], 5, key), Some(Misshape::Slot), "a free slot");
        assert_eq!(broken(&[], 15, key), Some(Misshape::Slot), "a service that is not there");
        assert_eq!(broken(&[], 4, key), Some(Misshape::Key), "session 0");
        assert_eq!(broken(&[], 0, key), Some(Misshape::Key), "session 0 of a service without a key");
        assert_eq!(broken(&[2], 2, key), Some(Misshape::Key), "a session of a service without a key");
    }
    for key in [0, 1, -1, i32::MAX, i32::MIN] {
        assert_eq!(broken(&[6], 6, key), None, "{key}");
    }
}

#[test]
fn no_two_live_sessions_of_a_keyed_service_have_one_key() {
    for [a, b] in [[5, 6], [5, 7], [6, 7]] {
        assert_eq!(broken(&[a, b], a, 0), Some(Misshape::TwinKeys), "two keys 0");
        assert_eq!(broken(&[a, b], b, -5), None);
    }
    assert_eq!(broken(&[5, 6, 7], 6, 1), Some(Misshape::TwinKeys), "5 and 7");
    assert_eq!(broken(&[1, 2, 3], 5, 0), None, "a service without a key");
}

/// Bytes 8 to 15 are kept 0 as before.
#[test]
fn the_bytes_after_the_key_are_kept() {
    let mut run = Run::new(RECORDER);
    run.make(to(1, 3), &lift(5));
    for at in 8..16 {
        run.state[4096 + at] = 1;
        assert_eq!(why(&mut run, to(1, 3), &lift(5)), Reason::State(Misshape::KeptZero), "{at}");
        run.state[4096 + at] = 0;
    }
    run.make(to(1, 3), &lift(5));
}

/// A state's key need not be that of its tree or its messages.
#[test]
fn a_state_s_key_is_its_own() {
    let mut run = Run::new(RECORDER);
    run.make(to(1, 3), &lift(5));
    run.make(to(1, 3), &lift(5));
    run.change(0, 1, |session| session.key = Some(1000));
    assert_eq!(why(&mut run, to(1, 3), &lift(5)), Reason::NotAllowed(OtherKey));
    run.make(to(1, 3), &lift(1000));
    run.receive(0, 1, run.row(RECEIVE, 1));
    run.make(to(2, 3), &lift(5));
}
