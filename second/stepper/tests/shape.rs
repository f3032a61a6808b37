//! Which bytes stand for a state (14), by the rules of docs/STATE.md.

mod run;

use run::*;
use stepper::{Misshape, Move, Reason};

const TEXT: &str = "location a = 1 location b = 2 type Int = int \
    service a { input 3: Int input 4: Int -> Int output 4 to a: Int -> Int \
        client { while true do { receive 3 into 5 }; ask 4 to a with int 1 into 6; \
                 choice { on answer 4 into 7 do nil reply 7 then nil on receive 3 into 7 then nil } } \
        starter choice { on receive 3 into 5 then nil } } \
    service b { client if true then set 5 = int 1 else set 5 = int 2 }";

const QUEUE: usize = 1_040;
const ROWS: usize = 2_416;

fn run() -> Run {
    Run::wrong(TEXT)
}

/// The rule that the bytes break after some changes; None if they stand for a state.
fn broken(run: &mut Run, changes: &[(usize, u8)]) -> Option<Misshape> {
    let before = run.state.clone();
    changes.iter().for_each(|&(at, byte)| run.state[at] = byte);
    let result = run.try_move(Move::Close { service: 3, session: 0 }, &[]).expect_err("no such service");
    run.state = before;
    match result.reason {
        Reason::State(misshape) => {
            assert_eq!((result.number, result.place), (14, 0));
            Some(misshape)
        }
        _ => {
            assert_eq!(result.number, 15);
            None
        }
    }
}

#[test]
fn slots_and_zeros() {
    let mut run = run();
    assert_eq!(broken(&mut run, &[]), None);
    for (changes, misshape) in [
        (vec![(0, 2)], Misshape::Slot),
        (vec![(0, 0)], Misshape::Slot),
        (vec![(4096 + 5, 1)], Misshape::Slot),
        (vec![(65_535, 1)], Misshape::Slot),
        (vec![(1, 1)], Misshape::KeptZero),
        (vec![(15, 1)], Misshape::KeptZero),
        (vec![(3952, 1)], Misshape::KeptZero),
        (vec![(4095, 1)], Misshape::KeptZero),
    ] {
        assert_eq!(broken(&mut run, &changes), Some(misshape), "{changes:?}");
    }
    let live = |slot: usize| vec![(4096 * slot, 1), (4096 * slot + 2, 5), (4096 * slot + 18, 6)];
    assert_eq!(broken(&mut run, &live(3)), None, "a starter's session");
    assert_eq!(broken(&mut run, &live(5)), Some(Misshape::NobodyRuns), "b has no starter");
    assert_eq!(broken(&mut run, &live(8)), Some(Misshape::NobodyRuns), "no such service");
}

#[test]
fn trees() {
    let mut run = run();
    let node = [(2, 10), (19, 1), (21, 9), (23, 6)];
    assert_eq!(broken(&mut run, &node), None);
    for change in [(2, 4), (2, 6), (2, 255), (3, 4), (16, 1), (18, 0), (19, 1), (20, 1), (21, 1), (1039, 1)] {
        assert_eq!(broken(&mut run, &[change]), Some(Misshape::Tree), "{change:?}");
    }
    assert_eq!(broken(&mut run, &[(2, 10), (19, 1), (23, 6)]), Some(Misshape::Tree), "a child with id 0");
    assert_eq!(broken(&mut run, &[(2, 10), (19, 1), (21, 9), (23, 1)]), Some(Misshape::Tree), "an int of no bytes");
}

#[test]
fn queues() {
    let mut run = run();
    let entry = |entry: usize, operation: u8| {
        let at = QUEUE + 344 * entry;
        vec![(at, operation), (at + 2, 9), (at + 10, 1), (at + 12, 4)]
    };
    let with = |mut changes: Vec<(usize, u8)>, more: &[(usize, u8)]| {
        changes.extend(more);
        changes
    };
    assert_eq!(broken(&mut run, &entry(0, 1)), None);
    assert_eq!(broken(&mut run, &with(entry(0, 1), &entry(1, 1))), None);
    assert_eq!(broken(&mut run, &entry(1, 1)), Some(Misshape::QueueOrder));
    assert_eq!(broken(&mut run, &[(QUEUE + 343, 1)]), Some(Misshape::QueueOrder));
    for operation in [3, 4, 64, 255] {
        assert_eq!(broken(&mut run, &entry(0, operation)), Some(Misshape::QueueOperation), "an output, or none");
    }
    let outsider = [(QUEUE + 1, 1), (QUEUE + 7, 255)];
    assert_eq!(broken(&mut run, &entry(0, 2)), Some(Misshape::QueueDestination));
    assert_eq!(broken(&mut run, &with(entry(0, 1), &outsider)), Some(Misshape::QueueDestination));
    assert_eq!(broken(&mut run, &with(entry(0, 1), &[(QUEUE + 7, 1)])), Some(Misshape::QueueDestination));
    assert_eq!(broken(&mut run, &with(entry(0, 2), &[(QUEUE + 1, 3)])), Some(Misshape::QueueDestination));
    assert_eq!(broken(&mut run, &with(entry(0, 2), &outsider)), None);
    for change in [(QUEUE + 2, 8), (QUEUE + 3, 2), (QUEUE + 8, 1), (QUEUE + 10, 7), (QUEUE + 343, 1)] {
        assert_eq!(broken(&mut run, &with(entry(0, 1), &[change])), Some(Misshape::QueueMessage), "{change:?}");
    }
    let row = |service, session, row| {
        with(entry(0, 2), &[(QUEUE + 1, 2), (QUEUE + 4, service), (QUEUE + 5, session), (QUEUE + 6, row)])
    };
    let rows = run.network().behaviours.len() as u8;
    assert_eq!(broken(&mut run, &row(1, 3, rows - 1)), None, "nothing is asked of the row");
    for (service, session, number) in [(2, 0, 0), (0, 4, 0), (0, 0, rows)] {
        assert_eq!(broken(&mut run, &row(service, session, number)), Some(Misshape::Destination));
    }
    assert_eq!(broken(&mut run, &with(row(0, 0, 0), &[(QUEUE + 7, 1)])), Some(Misshape::Destination));
}

/// Byte 0 and byte 1 of a row's progress against the table of docs/STATE.md.
#[test]
fn progress() {
    let mut run = run();
    let (tables, _) = second::Tables::read(&run.file).expect("a file");
    let network = run.network();
    let rows = stepper::rows::Rows::of(&network);
    for (row, behaviour) in tables.behaviours.iter().enumerate() {
        for (slot, service, session) in [(0, 0, 0), (4, 1, 0)] {
            let own = rows.belongs(service, session, row);
            for first in 1..=6 {
                for second in 0..=2 {
                    let at = 4096 * slot + ROWS + 6 * row;
                    let parts = match behaviour.kind {
                        5 => 2,
                        6 => 1,
                        10 => behaviour.fields[1],
                        _ => 0,
                    };
                    let suits = match (first, behaviour.kind) {
                        (1, 1 | 2 | 3 | 4 | 6 | 9) | (2, 4) | (4 | 5, 2) => second == 0,
                        (3, _) => u16::from(second) < parts,
                        _ => false,
                    };
                    let allowed = own && suits;
                    let found = broken(&mut run, &[(at, first), (at + 1, second)]);
                    assert_eq!(found.is_none(), allowed, "row {row} {behaviour:?}: {first} {second} {found:?}");
                    let received = matches!(first, 4);
                    let found = broken(&mut run, &[(at, first), (at + 1, second), (at + 5, 1)]);
                    assert_eq!(found.is_none(), allowed && received, "{first} {second} with a number");
                }
            }
        }
    }
}

#[test]
fn progress_of_no_row_and_of_no_part() {
    let mut run = run();
    let past = ROWS + 6 * run.network().behaviours.len();
    assert_eq!(broken(&mut run, &[(past, 1)]), Some(Misshape::OtherRow));
    assert_eq!(broken(&mut run, &[(3951, 1)]), Some(Misshape::OtherRow));
    let undone = ROWS + 6 * usize::from(run.row(ANSWER, 0));
    assert_eq!(broken(&mut run, &[(undone + 3, 1)]), Some(Misshape::Progress));
    // The starter's rows stand before the client's.
    let choice = ROWS + 6 * usize::from(run.row(CHOICE, 1));
    assert_eq!(broken(&mut run, &[(choice, 3), (choice + 1, 2)]), Some(Misshape::Part));
}

/// 14 comes before 15 and after 5; the state is read before the move's numbers.
#[test]
fn fourteen_before_fifteen() {
    let mut run = run();
    run.state[1] = 1;
    assert_eq!(run.refused(Move::Local { service: 9, session: 9, row: 9 }, &[]), 14);
    run.file.pop();
    assert_eq!(run.refused(Move::Local { service: 9, session: 9, row: 9 }, &[]), 2);
}

/// Bytes that decode are what the state encodes to, whatever the bytes are.
#[test]
fn one_byte_form() {
    let mut run = run();
    run.outer(0, 3, 2, 0, &leaf(int(1)));
    run.outer(0, 4, 0, 99, &leaf(int(1)));
    let network = run.network();
    let mut accepted = 0;
    for at in (0..5000).chain(8192..12_288) {
        for byte in [0, 1, 2, 3, 4, 5, 255] {
            let mut bytes = run.state.clone();
            bytes[at] = byte;
            if let Ok(state) = stepper::decode::decode(&network, &bytes) {
                let mut again = vec![9; 65_536];
                stepper::encode::encode(&state, &mut again);
                assert!(again == bytes, "byte {at} as {byte}");
                accepted += usize::from(bytes != run.state);
            }
        }
    }
    assert!(accepted > 50, "{accepted}");
}
