//! `hostile [write] FOLDER`: the set of `generate::hostile` beside what is stored of it.
//!
//! The folder has each case's file and the answers to it: check, fresh and every move of the case.
//! Answers of the library and of the proved code (feature `proved`; else of the library behind the same
//! interface) must be the stored ones; the first other line is printed and the exit code is 1. With
//! `write` the folder is written, with the library's answers.

use std::fs;
use std::path::Path;
use std::process::ExitCode;

use compare::{beside_stored, other, Second, Side, UNTOUCHED};
use generate::hostile::{self, Case};
use generate::walks::Call;
use stepper::Move;

/// A checksum, FNV-1a of 64 bits: each byte is added by exclusive or, then the sum is multiplied.
fn sum<'a>(bytes: impl IntoIterator<Item = &'a u8>) -> u64 {
    bytes.into_iter().fold(0xCBF2_9CE4_8422_2325, |sum, &byte| (sum ^ u64::from(byte)).wrapping_mul(0x100_0000_01B3))
}

fn check(side: &dyn Side, file: &[u8]) -> String {
    let answer = side.check(file);
    let text = answer.to_string();
    format!("check: {} {}, {} nodes, {:016x}", answer.number, answer.place, answer.nodes.len(), sum(text.as_bytes()))
}

fn fresh(side: &dyn Side, file: &[u8]) -> String {
    let mut state = vec![UNTOUCHED; 65_536];
    let answer = side.fresh(file, &mut state);
    format!("fresh: {} {}, {:016x}", answer.number, answer.place, sum(&state))
}

/// The move, the sum of the state before it, its answer, and the sum of state and out buffer after it.
fn step(side: &dyn Side, call: &Call) -> String {
    let (mut state, mut out) = (call.state.clone(), vec![UNTOUCHED; call.out_size]);
    let answer = side.step(&call.file, &mut state, &mut out, &call.named, &call.outside);
    let (before, after) = (sum(&call.state), sum(state.iter().chain(&out)));
    let named = named(&call.named);
    format!("{named} {before:016x}: {} {} {}, {after:016x}", answer.number, answer.place, answer.bytes)
}

/// The name of a move and its numbers.
fn named(named: &Move) -> String {
    let numbers = match *named {
        Move::Local { service, session, row }
        | Move::Receive { service, session, row }
        | Move::Reply { service, session, row }
        | Move::OuterReply { service, session, row } => format!("{service} {session} {row}"),
        Move::Send { service, session, row, target } => format!("{service} {session} {row} {target}"),
        Move::OuterMessage { service, id, target, number } => format!("{service} {id} {target} {number}"),
        Move::Close { service, session } => format!("{service} {session}"),
    };
    format!("{} {numbers}", named.name())
}

/// The lines of a case, each shown as soon as it is there.
fn lines(side: &dyn Side, case: &Case, see: &mut dyn FnMut(String)) {
    see(check(side, &case.file));
    see(fresh(side, &case.file));
    case.each(&mut |call| see(step(side, &call)));
}

fn write(folder: &Path) -> Result<(), String> {
    for case in hostile::all() {
        let put = |ending: &str, bytes: &[u8]| {
            let name = folder.join(format!("{}.{ending}", case.name));
            fs::write(&name, bytes).map_err(|error| format!("{}: {error}", name.display()))
        };
        let mut text = String::new();
        lines(&Second, &case, &mut |line| text += &(line + "\n"));
        put("bin", &case.file)?;
        put("txt", text.as_bytes())?;
    }
    Ok(())
}

/// How many lines there are, or what differs.
fn compare(folder: &Path, case: &Case, side: &dyn Side) -> Result<usize, String> {
    let read = |ending: &str| {
        let name = folder.join(format!("{}.{ending}", case.name));
        fs::read(&name).map_err(|error| format!("{}: {error}", name.display()))
    };
    if read("bin")? != case.file {
        return Err(format!("{}: the stored file is another", case.name));
    }
    let text = String::from_utf8_lossy(&read("txt")?).into_owned();
    let mut stored = text.lines();
    let (mut count, mut difference) = (0, None);
    lines(side, case, &mut |line| {
        count += 1;
        let expected = stored.next().unwrap_or("nothing");
        if difference.is_none() && line != expected {
            difference = Some(format!("{}, line {count}\nstored: {expected}\n{}: {line}", case.name, side.name()));
        }
    });
    match difference.or(stored.next().map(|line| format!("{}: no more is made, stored: {line}", case.name))) {
        Some(difference) => Err(difference),
        None => Ok(count),
    }
}

fn run(arguments: &[String]) -> Result<(), String> {
    let folder = match arguments {
        [word, folder] if word == "write" => return write(Path::new(folder)),
        [folder] => Path::new(folder),
        _ => return Err("hostile [write] FOLDER".into()),
    };
    let (cases, other) = (hostile::all(), other());
    let stored = fs::read_dir(folder).map_err(|error| format!("{}: {error}", folder.display()))?.count();
    if stored != 2 * cases.len() {
        return Err(format!("{}: {stored} files stored for {} cases", folder.display(), cases.len()));
    }
    let mut count = 0;
    for case in &cases {
        for side in [&Second as &dyn Side, &other] {
            count += compare(folder, case, side)?;
        }
    }
    println!("{} hostile files, {count} answers of {} and {} as stored", cases.len(), Second.name(), other.name());
    Ok(())
}

fn main() -> ExitCode {
    beside_stored(run)
}

#[cfg(test)]
mod tests {
    use super::*;
    use compare::moves::StepAnswer;
    use compare::Answer;
    use std::ops::Range;

    /// A side that gives one byte too many for moves that are made.
    struct Wrong;

    impl Side for Wrong {
        fn name(&self) -> &'static str {
            "wrong"
        }

        fn verdict(&self, file: &[u8]) -> (u32, usize) {
            Second.verdict(file)
        }

        fn check(&self, file: &[u8]) -> Answer {
            Second.check(file)
        }

        fn part(&self, message: &[u8], ids: [u16; 4]) -> Range<usize> {
            Second.part(message, ids)
        }

        fn fresh(&self, file: &[u8], state: &mut [u8]) -> StepAnswer {
            Second.fresh(file, state)
        }

        fn step(&self, file: &[u8], state: &mut [u8], out: &mut [u8], named: &Move, outside: &[u8]) -> StepAnswer {
            let mut answer = Second.step(file, state, out, named, outside);
            answer.bytes += usize::from(answer.number == 0);
            answer
        }

        fn types(&self, text: &[u8], out: &mut [u8]) -> StepAnswer {
            Second.types(text, out)
        }

        fn counterexample(&self, file: &[u8], first: u16, second: u16, out: &mut [u8]) -> StepAnswer {
            Second.counterexample(file, first, second, out)
        }
    }

    #[test]
    fn a_difference_from_what_is_stored_is_seen() {
        let folder = Path::new(env!("CARGO_MANIFEST_DIR")).join("../../hostile");
        let cases = hostile::all();
        let case = cases.iter().find(|case| case.name == "expression").expect("a case");
        assert!(compare(&folder, case, &Second).is_ok_and(|count| count > 10));
        let difference = compare(&folder, case, &Wrong).expect_err("a difference");
        assert!(
            difference.starts_with("expression, line ") && difference.contains("\nwrong: receive "),
            "{difference}"
        );
        assert!(compare(Path::new("nowhere"), case, &Second).is_err());
    }

    #[test]
    fn the_known_sums() {
        assert_eq!([sum(b""), sum(b"a")], [0xCBF2_9CE4_8422_2325, 0xAF63_DC4C_8601_EC8C]);
    }
}
