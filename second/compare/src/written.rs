//! What a call that writes to an out buffer alone leaves there.

use crate::moves::StepAnswer;
use crate::{hex, Side, UNTOUCHED};

/// An answer with the out buffer that the call has left.
#[derive(PartialEq, Eq)]
pub struct Written {
    pub answer: StepAnswer,
    pub out: Vec<u8>,
}

impl Written {
    /// Makes a call with an out buffer of so many bytes.
    pub fn by(out_size: usize, call: impl FnOnce(&mut [u8]) -> StepAnswer) -> Written {
        let mut out = vec![UNTOUCHED; out_size];
        let answer = call(&mut out);
        Written { answer, out }
    }

    /// The answer, and the buffer up to the last byte that was changed.
    pub fn report(&self, side: &dyn Side) -> String {
        let StepAnswer { number, place, bytes } = self.answer;
        let end = self.out.iter().rposition(|&byte| byte != UNTOUCHED).map_or(0, |last| last + 1);
        format!("{}: number {number} place {place} bytes {bytes}\n  out {}\n", side.name(), hex(&self.out[..end]))
    }
}
