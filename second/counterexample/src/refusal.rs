//! Refusals: the papers' number and place, and the rule behind them.

use std::fmt;

#[derive(Clone, Copy, PartialEq, Eq, Debug, PartialOrd, Ord, Hash)]
pub enum Cause {
    /// 1
    OutBuffer,
    /// 2 to 5
    File(second::Cause),
    /// 15: the first number is no type row.
    FirstRow,
    /// 15: only the second number is no type row.
    SecondRow,
}

impl Cause {
    pub fn number(self) -> u8 {
        match self {
            Cause::OutBuffer => 1,
            Cause::File(cause) => cause.number(),
            Cause::FirstRow | Cause::SecondRow => 15,
        }
    }
}

#[derive(Clone, Copy, PartialEq, Eq, Debug)]
pub struct Refusal {
    pub number: u8,
    pub place: usize,
    pub cause: Cause,
}

impl Refusal {
    pub fn new(cause: Cause, place: usize) -> Refusal {
        Refusal { number: cause.number(), place, cause }
    }
}

impl From<second::Refusal> for Refusal {
    fn from(refusal: second::Refusal) -> Refusal {
        Refusal::new(Cause::File(refusal.cause), refusal.place)
    }
}

impl fmt::Display for Refusal {
    fn fmt(&self, f: &mut fmt::Formatter) -> fmt::Result {
        write!(f, "refused {} {}", self.number, self.place)
    }
}
