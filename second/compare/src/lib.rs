//! Answers of the checker, the readers and the stepper, from either side, in one form.

pub mod cases;
pub mod interface;
pub mod itself;
pub mod moves;
pub mod pairs;
#[cfg(feature = "proved")]
pub mod proved;
pub mod script;
pub mod stack;
pub mod texts;
pub mod walks;
pub mod written;

use std::fmt;
use std::ops::Range;
use std::process::ExitCode;

use generate::keys;
use generate::strings::decide::{wrong_part, wrong_refusal};
use second::ServiceEnvironments;
use stepper::{Move, Refused};

use moves::StepAnswer;

/// What lent buffers hold before a call, to see what the call leaves alone.
pub const UNTOUCHED: u8 = 0xa5;

/// The proved code, each function on the stack that it may use.
#[cfg(feature = "proved")]
pub fn other() -> interface::Interface {
    proved::proved(stack::Stacks::stated())
}

/// The library behind the interface of the proved code.
#[cfg(not(feature = "proved"))]
pub fn other() -> interface::Interface {
    itself::itself()
}

/// Stack for the library, which goes down nested rows as it likes.
const LIBRARY_STACK: usize = 64 << 20;

/// Does some work in a thread with room for the library.
pub fn with_large_stack<T: Send + 'static>(
    work: impl FnOnce() -> Result<T, String> + Send + 'static,
) -> Result<T, String> {
    let thread = std::thread::Builder::new().stack_size(LIBRARY_STACK).spawn(work);
    let thread = thread.map_err(|error| error.to_string())?;
    thread.join().map_err(|_| "the work has panicked".to_string())?
}

/// A program that sets both sides beside what is stored: the first difference is printed, and the exit code is 1.
pub fn beside_stored(run: fn(&[String]) -> Result<(), String>) -> ExitCode {
    let arguments: Vec<String> = std::env::args().skip(1).collect();
    match with_large_stack(move || run(&arguments)) {
        Ok(()) => ExitCode::SUCCESS,
        Err(message) => {
            println!("{message}");
            ExitCode::FAILURE
        }
    }
}

/// An environment node as the interface gives it.
#[derive(Clone, Copy, PartialEq, Eq, Debug)]
pub struct AnswerNode {
    pub service: u8,
    pub client: bool,
    pub mandatory: bool,
    pub basic: u8,
    /// The path's ids and how many there are.
    pub path: [u16; 6],
    pub length: u8,
}

#[derive(Clone, PartialEq, Eq, Debug)]
pub struct Answer {
    /// 0 for accepted.
    pub number: u32,
    pub place: usize,
    pub nodes: Vec<AnswerNode>,
}

impl fmt::Display for Answer {
    fn fmt(&self, f: &mut fmt::Formatter) -> fmt::Result {
        if self.number != 0 {
            return writeln!(f, "refused {} {}", self.number, self.place);
        }
        writeln!(f, "accepted")?;
        for node in &self.nodes {
            let path: Vec<String> = node.path[..usize::from(node.length.min(6))].iter().map(u16::to_string).collect();
            let letter = if node.client { 'C' } else { 'S' };
            let mark = if node.mandatory { '!' } else { '?' };
            writeln!(f, "{} {letter} {} {mark} {}", node.service, path.join("."), node.basic)?;
        }
        Ok(())
    }
}

/// One side of a comparison.
pub trait Side {
    fn name(&self) -> &'static str;
    /// Number and place alone.
    fn verdict(&self, file: &[u8]) -> (u32, usize);
    fn check(&self, file: &[u8]) -> Answer;
    fn part(&self, message: &[u8], ids: [u16; 4]) -> Range<usize>;
    fn fresh(&self, file: &[u8], state: &mut [u8]) -> StepAnswer;
    fn step(&self, file: &[u8], state: &mut [u8], out: &mut [u8], named: &Move, outside: &[u8]) -> StepAnswer;
    fn types(&self, text: &[u8], out: &mut [u8]) -> StepAnswer;
    fn counterexample(&self, file: &[u8], first: u16, second: u16, out: &mut [u8]) -> StepAnswer;
}

/// The library, called directly.
pub struct Second;

impl Side for Second {
    fn name(&self) -> &'static str {
        "second"
    }

    fn verdict(&self, file: &[u8]) -> (u32, usize) {
        match second::check(file) {
            Ok(_) => (0, 0),
            Err(refusal) => (refusal.number.into(), refusal.place),
        }
    }

    fn check(&self, file: &[u8]) -> Answer {
        match second::check(file) {
            Ok(services) => Answer { number: 0, place: 0, nodes: nodes(&services) },
            Err(refusal) => Answer { number: refusal.number.into(), place: refusal.place, nodes: Vec::new() },
        }
    }

    fn part(&self, message: &[u8], ids: [u16; 4]) -> Range<usize> {
        second::part_range(message, ids)
    }

    fn fresh(&self, file: &[u8], state: &mut [u8]) -> StepAnswer {
        answer(stepper::fresh(file, state).map(|()| 0))
    }

    fn step(&self, file: &[u8], state: &mut [u8], out: &mut [u8], named: &Move, outside: &[u8]) -> StepAnswer {
        answer(stepper::step(file, state, out, named, outside).map(|made| made.bytes))
    }

    fn types(&self, text: &[u8], out: &mut [u8]) -> StepAnswer {
        match types::write_types(text, out) {
            Ok(bytes) => StepAnswer { number: 0, place: 0, bytes },
            Err(refusal) => StepAnswer { number: refusal.number.into(), place: refusal.place, bytes: 0 },
        }
    }

    fn counterexample(&self, file: &[u8], first: u16, second: u16, out: &mut [u8]) -> StepAnswer {
        match counterexample::counterexample(file, first, second, out) {
            Ok(bytes) => StepAnswer { number: 0, place: 0, bytes },
            Err(refusal) => StepAnswer { number: refusal.number.into(), place: refusal.place, bytes: 0 },
        }
    }
}

/// Number, place and byte count of a result.
pub fn answer(result: Result<usize, Refused>) -> StepAnswer {
    match result {
        Ok(bytes) => StepAnswer { number: 0, place: 0, bytes },
        Err(refused) => StepAnswer { number: refused.number.into(), place: refused.place, bytes: 0 },
    }
}

/// Every environment node, by service, starter first, in preorder.
pub fn nodes(services: &[ServiceEnvironments]) -> Vec<AnswerNode> {
    let mut nodes = Vec::new();
    for (service, environments) in services.iter().enumerate() {
        for (client, environment) in [(false, &environments.starter), (true, &environments.client)] {
            let Some(environment) = environment else { continue };
            environment.visit(|ids, node| {
                nodes.push(AnswerNode {
                    service: service as u8,
                    client,
                    mandatory: node.mandatory,
                    basic: node.basic.byte(),
                    path: std::array::from_fn(|step| ids.get(step).copied().unwrap_or(0)),
                    length: ids.len() as u8,
                });
            });
        }
    }
    nodes
}

pub fn hex(bytes: &[u8]) -> String {
    bytes.iter().map(|byte| format!("{byte:02x}")).collect()
}

/// What the two sides say where they differ.
pub fn differing_check(file: &[u8], left: &dyn Side, right: &dyn Side) -> Option<String> {
    let (a, b) = (left.check(file), right.check(file));
    (a != b).then(|| format!("file {}\n{}: {a}{}: {b}", hex(file), left.name(), right.name()))
}

pub fn differing_part(message: &[u8], ids: [u16; 4], left: &dyn Side, right: &dyn Side) -> Option<String> {
    let (a, b) = (left.part(message, ids), right.part(message, ids));
    (a != b).then(|| format!("message {} path {ids:?}\n{}: {a:?}\n{}: {b:?}", hex(message), left.name(), right.name()))
}

/// The library's verdict where the string constants of a file ask for another.
pub fn wrong_by_constants(file: &[u8]) -> Option<String> {
    let wrong = wrong_refusal(file, second::check(file).as_ref().err());
    wrong.then(|| format!("file {}\nnot by its string constants: {}", hex(file), Second.check(file)))
}

/// The library's verdict where the keys of a file ask for another.
pub fn wrong_by_keys(file: &[u8]) -> Option<String> {
    let wrong = keys::decide::wrong_refusal(file, second::check(file).as_ref().err());
    wrong.then(|| format!("file {}\nnot by its keys: {}", hex(file), Second.check(file)))
}

/// The library's part where the strings of a message ask for another.
pub fn wrong_by_strings(message: &[u8], ids: [u16; 4]) -> Option<String> {
    let part = Second.part(message, ids);
    let wrong = wrong_part(message, ids, part.is_empty());
    wrong.then(|| format!("message {} path {ids:?}\nnot by its strings: {part:?}", hex(message)))
}

#[cfg(test)]
mod tests {
    use super::*;
    use crate::itself::itself;

    /// A side that is wrong in one thing.
    struct Wrong(fn(&mut Answer));

    impl Side for Wrong {
        fn name(&self) -> &'static str {
            "wrong"
        }

        fn verdict(&self, file: &[u8]) -> (u32, usize) {
            Second.verdict(file)
        }

        fn check(&self, file: &[u8]) -> Answer {
            let mut answer = Second.check(file);
            (self.0)(&mut answer);
            answer
        }

        fn part(&self, message: &[u8], ids: [u16; 4]) -> Range<usize> {
            let part = Second.part(message, ids);
            part.start..part.end.saturating_sub(1)
        }

        fn fresh(&self, file: &[u8], state: &mut [u8]) -> StepAnswer {
            Second.fresh(file, state)
        }

        fn step(&self, file: &[u8], state: &mut [u8], out: &mut [u8], named: &Move, outside: &[u8]) -> StepAnswer {
            Second.step(file, state, out, named, outside)
        }

        fn types(&self, text: &[u8], out: &mut [u8]) -> StepAnswer {
            Second.types(text, out)
        }

        fn counterexample(&self, file: &[u8], first: u16, second: u16, out: &mut [u8]) -> StepAnswer {
            Second.counterexample(file, first, second, out)
        }
    }

    const CASE_D: [u8; 66] = [
        5, 0, 7, 0, 0, 0, 0, 0, 0, 1, 0, 0, 4, 0, 0, 0, 9, 0, 0, 0, 0, 0, 0, 0, 0, 0, 1, 0, 255, 255, 0, 0, 0, 0, 12,
        0, 0, 0, 0, 0, 1, 0, 8, 0, 0, 0, 8, 0, 1, 0, 16, 0, 1, 0, 26, 0, 0, 0, 26, 0, 1, 0, 34, 0, 4, 0,
    ];

    #[test]
    fn the_interface_gives_what_the_library_gives() {
        assert_eq!(differing_check(&CASE_D, &Second, &itself()), None);
        assert_eq!(Second.check(&CASE_D).nodes.len(), 2);
        assert_eq!(differing_check(&CASE_D[1..], &Second, &itself()), None);
        assert_eq!(Second.check(&CASE_D[1..]).number, 2);
        let (message, ids) = generate::maximal::message();
        assert_eq!(differing_part(&message, ids, &Second, &itself()), None);
        assert_eq!(differing_part(&message, [9, 0, 0, 0], &Second, &itself()), None);
    }

    #[test]
    fn every_difference_is_seen() {
        let changes: [fn(&mut Answer); 8] = [
            |answer| answer.number = 4,
            |answer| answer.place = 1,
            |answer| answer.nodes.truncate(1),
            |answer| answer.nodes[1].path[1] = 8,
            |answer| answer.nodes[1].mandatory = false,
            |answer| answer.nodes[1].basic = 3,
            |answer| answer.nodes[1].client = false,
            |answer| answer.nodes[1].service = 1,
        ];
        for change in changes {
            let report = differing_check(&CASE_D, &Second, &Wrong(change)).expect("a difference");
            assert!(report.starts_with("file 05000700") && report.contains("second: accepted"), "{report}");
        }
        let (message, ids) = generate::maximal::message();
        assert!(differing_part(&message, ids, &Second, &Wrong(|_| {})).is_some());
    }
}
