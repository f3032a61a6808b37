//! Texts of type declarations by both sides, each with the whole out buffer.

use generate::declarations::{fixed, sample, DeclarationHits, Sample};
use generate::Random;

use crate::written::Written;
use crate::{hex, Second, Side, UNTOUCHED};

fn written(side: &dyn Side, sample: &Sample) -> Written {
    Written::by(sample.out_size, |out| side.types(&sample.text, out))
}

fn given(sample: &Sample) -> String {
    let Sample { text, out_size, .. } = sample;
    format!("text \"{}\"\nin bytes {}\nout buffer of {out_size} bytes\n", text.escape_ascii(), hex(text))
}

/// A text by both sides; the report of a difference.
pub fn differing_types(sample: &Sample, left: &dyn Side, right: &dyn Side) -> Option<String> {
    let (a, b) = (written(left, sample), written(right, sample));
    (a != b).then(|| given(sample) + &a.report(left) + &b.report(right))
}

/// One text. An error is the report of a difference, or of bytes that the library should leave.
fn text(sample: &Sample, hits: &mut DeclarationHits, other: &dyn Side) -> Result<(), String> {
    if let Some(difference) = differing_types(sample, &Second, other) {
        return Err(difference);
    }
    let mut out = vec![UNTOUCHED; sample.out_size];
    let result = types::write_types(&sample.text, &mut out);
    if out[result.unwrap_or(0)..].iter().any(|&byte| byte != UNTOUCHED) {
        return Err(format!("{}second: {result:?} changes bytes that it should leave\n", given(sample)));
    }
    hits.sample(sample, &result);
    Ok(())
}

/// The fixed texts and so many others, each of which has a seed of its own; how many texts those are.
pub fn texts(seed: u64, count: usize, hits: &mut DeclarationHits, other: &dyn Side) -> Result<usize, String> {
    let mut tried = 0;
    for sample in fixed() {
        text(&sample, hits, other).map_err(|report| format!("fixed text number {tried}\n{report}"))?;
        tried += 1;
    }
    for index in 0..count {
        let mut random = Random::new(seed.wrapping_mul(1 << 32).wrapping_add(index as u64));
        let sample = sample(&mut random);
        text(&sample, hits, other).map_err(|report| format!("text number {index} of seed {seed}\n{report}"))?;
    }
    Ok(tried + count)
}

#[cfg(test)]
mod tests {
    use super::*;
    use crate::itself::itself;
    use crate::moves::StepAnswer;
    use crate::Answer;
    use generate::declarations::Kind;
    use std::ops::Range;
    use stepper::Move;

    /// A side that is wrong in one thing.
    struct Wrong(fn(&mut Written));

    impl Side for Wrong {
        fn name(&self) -> &'static str {
            "wrong"
        }

        fn verdict(&self, file: &[u8]) -> (u32, usize) {
            Second.verdict(file)
        }

        fn check(&self, file: &[u8]) -> Answer {
            Second.check(file)
        }

        fn part(&self, message: &[u8], ids: [u16; 4]) -> Range<usize> {
            Second.part(message, ids)
        }

        fn fresh(&self, file: &[u8], state: &mut [u8]) -> StepAnswer {
            Second.fresh(file, state)
        }

        fn step(&self, file: &[u8], state: &mut [u8], out: &mut [u8], named: &Move, outside: &[u8]) -> StepAnswer {
            Second.step(file, state, out, named, outside)
        }

        fn types(&self, text: &[u8], out: &mut [u8]) -> StepAnswer {
            let answer = Second.types(text, out);
            let mut written = Written { answer, out: out.to_vec() };
            (self.0)(&mut written);
            out.copy_from_slice(&written.out);
            written.answer
        }

        fn counterexample(&self, file: &[u8], first: u16, second: u16, out: &mut [u8]) -> StepAnswer {
            Second.counterexample(file, first, second, out)
        }
    }

    fn given(text: &str) -> Sample {
        Sample { text: text.into(), out_size: 2050, kind: Kind::Fixed, features: Vec::new() }
    }

    #[test]
    fn every_difference_is_seen() {
        let changes: [fn(&mut Written); 5] = [
            |written| written.answer.number += 1,
            |written| written.answer.place += 1,
            |written| written.answer.bytes += 1,
            |written| written.out[0] ^= 1,
            |written| written.out[2049] ^= 1,
        ];
        for sample in [given("type a:int"), given("type a"), given("%")] {
            for change in changes {
                let report = differing_types(&sample, &Second, &Wrong(change)).expect("a difference");
                let text = String::from_utf8_lossy(&sample.text);
                assert!(report.starts_with(&format!("text \"{text}\"\nin bytes ")), "{report}");
                assert!(report.contains("\nsecond: number ") && report.contains("\nwrong: number "), "{report}");
            }
            assert_eq!(differing_types(&sample, &Second, &Wrong(|_| {})), None);
        }
    }

    #[test]
    fn texts_agree_behind_the_interface_and_end_at_a_difference() {
        let mut hits = DeclarationHits::default();
        let tried = texts(2, 500, &mut hits, &itself()).unwrap_or_else(|report| panic!("{report}"));
        assert_eq!(tried, 500 + fixed().count());
        let wrong = Wrong(|written| written.answer.place += usize::from(written.answer.number == 5));
        let report = texts(2, 500, &mut hits, &wrong).expect_err("a text that is 5");
        assert!(report.starts_with("text number ") && report.contains(" of seed 2\ntext \""), "{report}");
    }
}
