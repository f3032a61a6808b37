//! Pairs of type rows by both sides, each with the whole out buffer.

use generate::pairs::judge::judge;
use generate::pairs::{pair, Pair, PairHits};
use generate::Random;

use crate::written::Written;
use crate::{hex, Second, Side, UNTOUCHED};

fn written(side: &dyn Side, pair: &Pair) -> Written {
    Written::by(pair.out_size, |out| side.counterexample(&pair.file, pair.first, pair.second, out))
}

fn given(pair: &Pair) -> String {
    let Pair { file, first, second, out_size, .. } = pair;
    format!("file {}\ntype rows {first} and {second}, out buffer of {out_size} bytes\n", hex(file))
}

/// A pair by both sides; the report of a difference.
pub fn differing_pair(pair: &Pair, left: &dyn Side, right: &dyn Side) -> Option<String> {
    let (a, b) = (written(left, pair), written(right, pair));
    (a != b).then(|| given(pair) + &a.report(left) + &b.report(right))
}

/// One pair. An error is the report of a difference, or of an answer of the library that is wrong.
fn one(pair: &Pair, hits: &mut PairHits, other: &dyn Side) -> Result<(), String> {
    if let Some(difference) = differing_pair(pair, &Second, other) {
        return Err(difference);
    }
    let mut out = vec![UNTOUCHED; pair.out_size];
    let result = counterexample::counterexample(&pair.file, pair.first, pair.second, &mut out);
    let (message, rest) = out.split_at(result.unwrap_or(0));
    let wrong = |what: &str| format!("{}second: {result:?} with {}: {what}\n", given(pair), hex(message));
    if rest.iter().any(|&byte| byte != UNTOUCHED) {
        return Err(wrong("bytes are changed that should stay"));
    }
    let answer = result.map(|_| message);
    let fewest = judge(pair, answer.map_err(|refusal| (refusal.number, refusal.place))).map_err(|what| wrong(&what))?;
    hits.pair(pair, answer, fewest.as_deref());
    Ok(())
}

/// So many pairs, each of which has a seed of its own.
pub fn pairs(seed: u64, count: usize, hits: &mut PairHits, other: &dyn Side) -> Result<(), String> {
    for index in 0..count {
        let mut random = Random::new(seed.wrapping_mul(1 << 32).wrapping_add(index as u64));
        let pair = pair(&mut random);
        one(&pair, hits, other).map_err(|report| format!("pair number {index} of seed {seed}\n{report}"))?;
    }
    Ok(())
}

#[cfg(test)]
mod tests {
    use super::*;
    use crate::itself::itself;
    use crate::moves::StepAnswer;
    use crate::Answer;
    use std::ops::Range;
    use stepper::Move;

    /// A side that is wrong in one thing.
    struct Wrong(fn(&mut Written));

    impl Side for Wrong {
        fn name(&self) -> &'static str {
            "wrong"
        }

        fn verdict(&self, file: &[u8]) -> (u32, usize) {
            Second.verdict(file)
        }

        fn check(&self, file: &[u8]) -> Answer {
            Second.check(file)
        }

        fn part(&self, message: &[u8], ids: [u16; 4]) -> Range<usize> {
            Second.part(message, ids)
        }

        fn fresh(&self, file: &[u8], state: &mut [u8]) -> StepAnswer {
            Second.fresh(file, state)
        }

        fn step(&self, file: &[u8], state: &mut [u8], out: &mut [u8], named: &Move, outside: &[u8]) -> StepAnswer {
            Second.step(file, state, out, named, outside)
        }

        fn types(&self, text: &[u8], out: &mut [u8]) -> StepAnswer {
            Second.types(text, out)
        }

        fn counterexample(&self, file: &[u8], first: u16, second: u16, out: &mut [u8]) -> StepAnswer {
            let answer = Second.counterexample(file, first, second, out);
            let mut written = Written { answer, out: out.to_vec() };
            (self.0)(&mut written);
            out.copy_from_slice(&written.out);
            written.answer
        }
    }

    #[test]
    fn every_difference_is_seen() {
        let changes: [fn(&mut Written); 5] = [
            |written| written.answer.number += 1,
            |written| written.answer.place += 1,
            |written| written.answer.bytes += 1,
            |written| written.out[0] ^= 1,
            |written| written.out[513] ^= 1,
        ];
        let file = net::assemble("service 1 { input 1: int input 2: long }").expect("a file").file;
        for (first, second) in [(0, 1), (1, 1), (2, 1)] {
            let pair = Pair { file: file.clone(), first, second, out_size: 514, edits: None };
            for change in changes {
                let report = differing_pair(&pair, &Second, &Wrong(change)).expect("a difference");
                let head = format!("file {}\ntype rows {first} and {second}, out buffer of 514 bytes\n", hex(&file));
                assert!(report.starts_with(&head), "{report}");
                assert!(report.contains("\nsecond: number ") && report.contains("\nwrong: number "), "{report}");
            }
            assert_eq!(differing_pair(&pair, &Second, &Wrong(|_| {})), None);
        }
    }

    #[test]
    fn pairs_agree_behind_the_interface_and_end_at_a_difference() {
        let mut hits = PairHits::default();
        pairs(2, 300, &mut hits, &itself()).unwrap_or_else(|report| panic!("{report}"));
        let wrong = Wrong(|written| written.answer.place += usize::from(written.answer.number == 15));
        let report = pairs(2, 300, &mut hits, &wrong).expect_err("a pair that is 15");
        assert!(report.starts_with("pair number ") && report.contains(" of seed 2\nfile "), "{report}");
    }
}
