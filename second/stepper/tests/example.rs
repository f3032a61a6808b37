//! The example of docs/STATE.md, byte by byte.

mod run;

use run::*;
use stepper::Move;

const CASE_D: &str = "0500070000000000 0001000004000000 09000000000000000000 0100ffff00000000 0c000000
    00000100 08000000 08000100 10000100 1a000000 1a000100 22000400";

fn bytes(hex: &str) -> Vec<u8> {
    let digits: Vec<u8> = hex.bytes().filter(u8::is_ascii_hexdigit).collect();
    let digit = |digit: u8| char::from(digit).to_digit(16).expect("a digit") as u8;
    digits.chunks(2).map(|pair| 16 * digit(pair[0]) + digit(pair[1])).collect()
}

/// All bytes that are not 0, with their places.
fn written(state: &[u8]) -> Vec<(usize, u8)> {
    state.iter().copied().enumerate().filter(|(_, byte)| *byte != 0).collect()
}

fn example() -> Run {
    let mut run = Run { file: bytes(CASE_D), state: vec![7; 65_536], out: vec![7; 512] };
    stepper::fresh(&run.file, &mut run.state).expect("an accepted file");
    run
}

#[test]
fn fresh_assign_and_close() {
    let mut run = example();
    assert_eq!(written(&run.state), [(0, 1), (2, 5), (18, 6)]);
    run.local(0, 0, 0);
    let mut expected = vec![0; 65_536];
    expected[0] = 1;
    expected[2] = 0x13;
    expected[16..21].copy_from_slice(&[0, 0, 6, 1, 0]);
    expected[21..26].copy_from_slice(&[5, 0, 6, 1, 0]);
    expected[26..35].copy_from_slice(&[7, 0, 1, 0, 4, 12, 0, 0, 0]);
    expected[2416] = 1;
    assert_eq!(written(&run.state), written(&expected));
    assert_eq!(run.refused(Move::Local { service: 0, session: 0, row: 0 }, &[]), 15);
    run.close(0, 0);
    assert_eq!(written(&run.state), []);
    assert_eq!(run.refused(Move::Close { service: 0, session: 0 }, &[]), 15);
}

#[test]
fn fresh_tries_1_to_13() {
    let mut run = example();
    for size in [0, 65_535, 65_537] {
        let mut state = vec![7; size];
        let refused = stepper::fresh(&run.file[1..], &mut state).expect_err("1 before 2");
        assert_eq!((refused.number, refused.place, state), (1, 0, vec![7; size]));
    }
    // Case d with another basic type of the constant: int needs four bytes, a long eight.
    run.file[9] = 3;
    let refused = stepper::fresh(&run.file, &mut run.state).expect_err("4");
    assert_eq!((refused.number, refused.place), (4, 10));
    assert_eq!(written(&run.state), [(0, 1), (2, 5), (18, 6)]);
    let text = "location a = 1 service a { client { set 5 = int 1; set 5 = true } }";
    let refused = stepper::fresh(&assemble(text), &mut run.state).expect_err("9");
    assert_eq!((refused.number, refused.place), (9, 2));
    assert_eq!(written(&run.state), [(0, 1), (2, 5), (18, 6)]);
}

#[test]
fn moves_try_1_to_5_and_not_6_to_13() {
    let mut run = example();
    let named = Move::Local { service: 0, session: 0, row: 0 };
    run.out.truncate(511);
    assert_eq!(run.refused(named, &[]), 1);
    run.out.push(0);
    run.state.push(0);
    assert_eq!(run.refused(named, &[]), 1);
    run.state.pop();
    let file = run.file.clone();
    run.file.pop();
    assert_eq!(run.refused(named, &[]), 2);
    run.file = vec![0; 28];
    assert_eq!(run.refused(named, &[]), 3);
    run.file = file;
    run.file[9] = 3;
    let refused = run.try_move(named, &[]).expect_err("4");
    assert_eq!((refused.number, refused.place), (4, 10));
    let mut large = Run::wrong("location a = 1 service a { client nil }");
    large.file = {
        let (mut tables, _) = second::Tables::read(&large.file).expect("a file");
        for level in 0..5u16 {
            let (first_child, child_count) = if level < 4 { (level + 1, 1) } else { (0, 0) };
            let row = second::tables::TypeRow { id: level, cardinality: 1, basic: 6, first_child, child_count };
            tables.types.push(row);
        }
        tables.write()
    };
    assert_eq!(large.refused(named, &[]), 5);
    // 9 is no refusal of a move: the second assign changes the basic type.
    let mut run = Run::wrong("location a = 1 service a { client { set 5 = int 1; set 5 = true } }");
    let [first, second] = run.rows(ASSIGN)[..] else { panic!("two assigns") };
    run.local(0, 0, first);
    run.local(0, 0, second);
    assert_eq!(run.value(0, 0, &[5]), Some(second::Value::Bool(true)));
}

/// The bytes of a queue entry and of a received row, by the tables of docs/STATE.md.
#[test]
fn bytes_of_a_queue_entry_and_of_a_destination() {
    let mut run = Run::new(
        "location a = 1 location b = 2 type Int = int \
         service a { input 8: Int input 9: Int -> Int client answer 9 into 5 do nil reply 5 } \
         service b { output 9 to a: Int -> Int client ask 9 to a with int 7 into 6 }",
    );
    let (ask, answer) = (run.row(ASK, 0), run.row(ANSWER, 0));
    run.send(1, 0, ask, 0);
    let mut entry = vec![2, 2, 9, 0, 1, 0, ask as u8, 0];
    entry.extend([0, 0, 1, 0, 4, 7, 0, 0, 0]);
    assert_eq!(run.state[1_040..1_040 + 17], entry);
    assert_eq!(run.state[16_384 + 2_416 + 6 * usize::from(ask)..][..6], [2, 0, 0, 0, 0, 0]);
    run.make(Move::OuterMessage { service: 0, id: 9, target: 0, number: 0x0403_0201 }, &entry[8..]);
    assert_eq!(run.state[1_384..1_384 + 8], [2, 1, 9, 0, 1, 2, 3, 4]);
    run.receive(0, 0, answer);
    assert_eq!(run.state[2_416 + 6 * usize::from(answer)..][..6], [5, 0, 1, 0, ask as u8, 0]);
    assert_eq!(run.state[1_040..1_040 + 8], [2, 1, 9, 0, 1, 2, 3, 4]);
    assert!(run.state[1_384..2_416].iter().all(|&byte| byte == 0));
    run.reply(0, 0, answer);
    assert_eq!(run.state[2_416 + 6 * usize::from(answer)..][..6], [1, 0, 0, 0, 0, 0]);
}
