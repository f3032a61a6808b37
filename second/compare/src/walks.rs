//! Walks by both sides: fresh and each move, with the whole state and out buffer; and what holds from fresh.

use generate::walks::{encounters, keys, meetings, property, strings, Call, Walk, WalkHits};
use generate::Random;
use stepper::decode::decode;
use stepper::{Made, Refused};

use crate::moves::StepAnswer;
use crate::{answer, hex, Second, Side, UNTOUCHED};

/// An answer with the buffers that the call has left.
#[derive(Clone, PartialEq, Eq)]
pub struct Left {
    pub answer: StepAnswer,
    pub state: Vec<u8>,
    pub out: Vec<u8>,
}

/// The bytes of a buffer that are not as they were, each with its place.
fn changes(before: &[u8], after: &[u8]) -> String {
    let differing = before.iter().zip(after).enumerate().filter(|(_, (old, new))| old != new);
    let text: Vec<String> = differing.map(|(at, (_, new))| format!("{at}:{new:02x}")).collect();
    text.join(" ")
}

fn report(side: &dyn Side, left: &Left, state: &[u8], out: &[u8]) -> String {
    let StepAnswer { number, place, bytes } = left.answer;
    format!(
        "{}: number {number} place {place} bytes {bytes}\n  state changed: {}\n  out changed: {}\n",
        side.name(),
        changes(state, &left.state),
        changes(out, &left.out)
    )
}

/// The hex of a buffer without the zeros at its end.
fn hex_without_end(bytes: &[u8]) -> String {
    let end = bytes.iter().rposition(|&byte| byte != 0).map_or(0, |last| last + 1);
    format!("{} and {} zeros", hex(&bytes[..end]), bytes.len() - end)
}

fn fresh_left(side: &dyn Side, file: &[u8], size: usize) -> Left {
    let mut state = vec![UNTOUCHED; size];
    let answer = side.fresh(file, &mut state);
    Left { answer, state, out: Vec::new() }
}

/// Fresh by both sides; the report of a difference.
pub fn differing_fresh(file: &[u8], size: usize, left: &dyn Side, right: &dyn Side) -> Option<String> {
    let (a, b) = (fresh_left(left, file, size), fresh_left(right, file, size));
    let before = vec![UNTOUCHED; size];
    (a != b).then(|| {
        let reports = report(left, &a, &before, &[]) + &report(right, &b, &before, &[]);
        format!("fresh of file {}\nstate of {size} bytes\n{reports}", hex(file))
    })
}

fn step_left(side: &dyn Side, call: &Call) -> Left {
    let mut state = call.state.clone();
    let mut out = vec![UNTOUCHED; call.out_size];
    let answer = side.step(&call.file, &mut state, &mut out, &call.named, &call.outside);
    Left { answer, state, out }
}

/// A move and everything that it was given.
fn given(call: &Call) -> String {
    format!(
        "file {}\nstate {}\nmove {:?}, out buffer of {} bytes\noutside {}\n",
        hex(&call.file),
        hex_without_end(&call.state),
        call.named,
        call.out_size,
        hex(&call.outside)
    )
}

/// A move by both sides; the report of a difference.
pub fn differing_step(call: &Call, left: &dyn Side, right: &dyn Side) -> Option<String> {
    let (a, b) = (step_left(left, call), step_left(right, call));
    let out = vec![UNTOUCHED; call.out_size];
    (a != b).then(|| given(call) + &report(left, &a, &call.state, &out) + &report(right, &b, &call.state, &out))
}

/// What the library has done: its result, the state after it and the bytes that went out.
struct Stepped {
    result: Result<Made, Refused>,
    state: Vec<u8>,
    written: Vec<u8>,
}

/// A move by the library, which leaves every buffer as it was if it is refused, refuses a broken string and does what the
/// keys ask for.
fn second_step(call: &Call) -> Result<Stepped, String> {
    let mut state = call.state.clone();
    let mut out = vec![UNTOUCHED; call.out_size];
    let result = stepper::step(&call.file, &mut state, &mut out, &call.named, &call.outside);
    let written = result.map_or(0, |made| made.bytes);
    let kept = result.is_ok() || state == call.state;
    if !kept || out[written..].iter().any(|&byte| byte != UNTOUCHED) {
        return Err(format!("{}second: {result:?} changes a buffer that it should leave\n", given(call)));
    }
    if strings::wrong(call, &result) {
        return Err(format!("{}second: {result:?} for a broken string\n", given(call)));
    }
    out.truncate(written);
    if let Some(what) = keys::wrong(call, &result, &state, &out) {
        return Err(format!("{}second: {result:?}, but {what}\n", given(call)));
    }
    Ok(Stepped { result, state, written: out })
}

/// One walk. An error is the report of a difference, or of a result that breaks property 3.
pub fn walk(random: &mut Random, hits: &mut WalkHits, other: &dyn Side) -> Result<usize, String> {
    for file in [generate::file(random), generate::file(random), generate::blunder(random)] {
        fresh(&file, if random.one_in(20) { random.below(70_000) } else { 65_536 }, hits, other)?;
    }
    for _ in 0..4 {
        let _ = compared(&meetings::call(random), hits, other)?;
        let _ = compared(&encounters::call(random), hits, other)?;
    }
    let mut walk = Walk::begin(random);
    hits.feature(walk.is_keyed(), "a walk over a network with a keyed service");
    fresh(&walk.file, 65_536, hits, other)?;
    let accepted = walk.from_fresh;
    for _ in 0..walk.moves {
        let call = walk.call(random);
        let stepped = compared(&call, hits, other)?;
        hits.feature(!accepted, "a move on a file that 6 to 23 refuse");
        hits.feature(walk.starts_anew(&call, &stepped.state), "a session started with the key of one that was closed");
        if call.keeps {
            keeps_strings(&call, &stepped)?;
        }
        if walk.from_fresh && call.keeps {
            from_fresh(&walk, &call, &stepped, hits)?;
        }
        walk.made(&call, stepped.state);
        if walk.from_fresh && random.one_in(16) {
            sweep(random, &walk)?;
        }
    }
    if walk.from_fresh {
        hits.feature(true, "a walk from fresh");
        hits.feature(walk.is_keyed(), "a walk from fresh over a network with a keyed service");
        sweep(random, &walk)?;
    }
    Ok(walk.moves)
}

/// The report of a string that is broken after a move on a state, from fresh or not.
fn keeps_strings(call: &Call, stepped: &Stepped) -> Result<(), String> {
    match property::broken_string(&call.named, &stepped.state, &stepped.written) {
        Some(what) => Err(format!("{}second: {what}\n", given(call))),
        None => Ok(()),
    }
}

/// A move on a state from fresh, counted; the report of a result that breaks property 3 or of keys that do.
fn from_fresh(walk: &Walk, call: &Call, stepped: &Stepped, hits: &mut WalkHits) -> Result<(), String> {
    let Stepped { result, state, written } = stepped;
    let after = property::strings_after(&call.named, state, written);
    hits.from_fresh(walk, &call.named, result, state, &after);
    if let Some(what) = keys::broken(&walk.file, state) {
        return Err(format!("{}from fresh: {what}\n", given(call)));
    }
    let number = answer(result.map(|made| made.bytes)).number;
    let before = decode(&walk.network, &call.state).map_err(|wrong| format!("{}{wrong:?}", given(call)))?;
    match property::broken(&walk.network, &before, &call.named, call.out_size, number) {
        Some(what) => Err(format!("{}property 3: {what}\n", given(call))),
        None => Ok(()),
    }
}

/// A move by both sides, counted; what the library has done.
fn compared(call: &Call, hits: &mut WalkHits, other: &dyn Side) -> Result<Stepped, String> {
    if let Some(difference) = differing_step(call, &Second, other) {
        return Err(difference);
    }
    let stepped = second_step(call)?;
    hits.call(call, &stepped.result);
    Ok(stepped)
}

fn fresh(file: &[u8], size: usize, hits: &mut WalkHits, other: &dyn Side) -> Result<(), String> {
    if let Some(difference) = differing_fresh(file, size, &Second, other) {
        return Err(difference);
    }
    hits.fresh(fresh_left(&Second, file, size).answer.number);
    Ok(())
}

/// Every move that the state seems to allow, by the library.
fn sweep(random: &mut Random, walk: &Walk) -> Result<(), String> {
    match property::sweep(random, &walk.file, &walk.network, &walk.state) {
        None => Ok(()),
        Some((named, outside, what)) => Err(format!(
            "file {}\nstate {}\nmove {named:?}\noutside {}\nfrom fresh: {what}\n",
            hex(&walk.file),
            hex_without_end(&walk.state),
            hex(&outside)
        )),
    }
}

#[cfg(test)]
mod tests {
    use super::*;
    use crate::itself::itself;
    use crate::Answer;
    use std::ops::Range;
    use stepper::Move;

    /// A side that is wrong in one thing.
    struct Wrong(fn(&mut Left));

    impl Side for Wrong {
        fn name(&self) -> &'static str {
            "wrong"
        }

        fn verdict(&self, file: &[u8]) -> (u32, usize) {
            Second.verdict(file)
        }

        fn check(&self, file: &[u8]) -> Answer {
            Second.check(file)
        }

        fn part(&self, message: &[u8], ids: [u16; 4]) -> Range<usize> {
            Second.part(message, ids)
        }

        fn fresh(&self, file: &[u8], state: &mut [u8]) -> StepAnswer {
            let answer = Second.fresh(file, state);
            let mut left = Left { answer, state: state.to_vec(), out: vec![0; 512] };
            (self.0)(&mut left);
            state.copy_from_slice(&left.state);
            left.answer
        }

        fn step(&self, file: &[u8], state: &mut [u8], out: &mut [u8], named: &Move, outside: &[u8]) -> StepAnswer {
            let answer = Second.step(file, state, out, named, outside);
            let mut left = Left { answer, state: state.to_vec(), out: out.to_vec() };
            (self.0)(&mut left);
            state.copy_from_slice(&left.state);
            out.copy_from_slice(&left.out);
            left.answer
        }

        fn types(&self, text: &[u8], out: &mut [u8]) -> StepAnswer {
            Second.types(text, out)
        }

        fn counterexample(&self, file: &[u8], first: u16, second: u16, out: &mut [u8]) -> StepAnswer {
            Second.counterexample(file, first, second, out)
        }
    }

    fn call() -> Call {
        let file = include_bytes!("../../../examples/assign.bin").to_vec();
        let mut state = vec![0; 65_536];
        stepper::fresh(&file, &mut state).expect("an accepted file");
        let named = Move::Local { service: 0, session: 0, row: 0 };
        Call { file, state, out_size: 512, named, outside: Vec::new(), keeps: true }
    }

    #[test]
    fn every_difference_is_seen() {
        let changes: [fn(&mut Left); 6] = [
            |left| left.answer.number = 15,
            |left| left.answer.place += 1,
            |left| left.answer.bytes += 1,
            |left| left.state[40_000] ^= 1,
            |left| left.state[65_535] ^= 1,
            |left| left.out[511] ^= 1,
        ];
        for (number, change) in changes.iter().enumerate() {
            let report = differing_step(&call(), &Second, &Wrong(*change)).expect("a difference");
            assert!(report.starts_with("file 0500") && report.contains("second: number 0"), "{report}");
            let fresh = differing_fresh(&call().file, 65_536, &Second, &Wrong(*change));
            assert_eq!(fresh.is_some(), number < 5, "{number}");
        }
        assert_eq!(differing_step(&call(), &Second, &Wrong(|_| {})), None);
    }

    #[test]
    fn walks_agree_behind_the_interface_and_end_at_a_difference() {
        let mut random = Random::new(2);
        let mut hits = WalkHits::default();
        for _ in 0..20 {
            walk(&mut random, &mut hits, &itself()).unwrap_or_else(|report| panic!("{report}"));
        }
        let wrong = Wrong(|left| left.answer.bytes += usize::from(left.answer.number == 19));
        assert!((0..100).any(|_| walk(&mut random, &mut hits, &wrong).is_err()));
    }
}
