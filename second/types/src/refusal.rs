//! Refusals of a text: the papers' number and place, and the rule behind them.

use std::fmt;

/// What is wrong with a text or its buffer.
#[derive(Clone, Copy, PartialEq, Eq, Debug, PartialOrd, Ord, Hash)]
pub enum Cause {
    TextLength,
    ForeignByte,
    EndsTooSoon,
    NoTypeWord,
    NoName,
    NameStart,
    NameLength,
    BasicName,
    RepeatedType,
    RepeatedChild,
    NoColon,
    NoBasic,
    NoTree,
    UnknownType,
    NoChild,
    ListGoesOn,
    Cardinality,
    OutBuffer,
    TooManyRows,
    TypeSize,
}

impl Cause {
    pub const ALL: [Cause; 20] = {
        use Cause::*;
        [
            TextLength,
            ForeignByte,
            EndsTooSoon,
            NoTypeWord,
            NoName,
            NameStart,
            NameLength,
            BasicName,
            RepeatedType,
            RepeatedChild,
            NoColon,
            NoBasic,
            NoTree,
            UnknownType,
            NoChild,
            ListGoesOn,
            Cardinality,
            OutBuffer,
            TooManyRows,
            TypeSize,
        ]
    };

    pub fn number(self) -> u8 {
        match self {
            Cause::OutBuffer => 1,
            Cause::TextLength => 2,
            Cause::TooManyRows => 3,
            Cause::TypeSize => 5,
            Cause::ForeignByte => 20,
            _ => 21,
        }
    }

    /// One line for a fitter.
    pub fn sentence(self) -> &'static str {
        use Cause::*;
        match self {
            TextLength => "the text has more than 8192 bytes",
            ForeignByte => "no text of types has this byte",
            EndsTooSoon => "the text ends too soon",
            NoTypeWord => "`type` expected",
            NoName => "a name expected",
            NameStart => "a name starts with a letter",
            NameLength => "a name has at most 16 letters, digits and underscores",
            BasicName => "a basic type's word names no type",
            RepeatedType => "a type of this name is declared already",
            RepeatedChild => "a child of this name stands in this list already",
            NoColon => "`:` expected",
            NoBasic => "a basic type expected: bool, int, double, long, string, raw or void",
            NoTree => "a basic type or the name of a type expected",
            UnknownType => "no type of this name is declared before",
            NoChild => "a child expected, which starts with `.`",
            ListGoesOn => "`.` or `}` expected",
            Cardinality => "`[0,1]` or `[1,1]` expected, without blanks",
            OutBuffer => "the out buffer has fewer than 2048 bytes",
            TooManyRows => "the types up to this one make more than 256 rows",
            TypeSize => "the type written out has more than 16 nodes or 4 levels",
        }
    }
}

#[derive(Clone, Copy, PartialEq, Eq, Debug)]
pub struct Refusal {
    pub number: u8,
    pub place: usize,
    pub cause: Cause,
    /// The byte of the text that shows what is wrong.
    pub spot: usize,
}

impl Refusal {
    pub fn new(cause: Cause, place: usize, spot: usize) -> Refusal {
        Refusal { number: cause.number(), place, cause, spot }
    }

    /// Of 20 and 21, whose place is the offending byte.
    pub fn at(cause: Cause, spot: usize) -> Refusal {
        Refusal::new(cause, spot, spot)
    }
}

impl fmt::Display for Refusal {
    fn fmt(&self, f: &mut fmt::Formatter) -> fmt::Result {
        write!(f, "refused {} {}", self.number, self.place)
    }
}
