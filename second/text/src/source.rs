//! Reading a text sign by sign, and errors with line and column.

use std::fmt;

use second::Refusal;

/// A place in the text, as a byte offset.
pub type Spot = usize;

#[derive(Clone, PartialEq, Eq, Debug)]
pub struct Error {
    /// From 1.
    pub line: usize,
    /// From 1, in characters.
    pub column: usize,
    pub message: String,
    /// The file that line and column are of, where it is not the text.
    pub file: Option<String>,
    /// The text or the file can be read, and it is refused by number.
    pub refusal: Option<Refused>,
}

/// A refusal of what an assembler makes or reads.
#[derive(Clone, Copy, PartialEq, Eq, Debug)]
pub enum Refused {
    /// The rows of the text break a rule of 2 to 5.
    Rows(Refusal),
    /// The file of type declarations is refused.
    Types(types::Refusal),
}

impl Refused {
    /// One line for a fitter.
    pub fn sentence(&self) -> &'static str {
        match self {
            Refused::Rows(refusal) => refusal.cause.sentence(),
            Refused::Types(refusal) => refusal.cause.sentence(),
        }
    }
}

impl fmt::Display for Refused {
    fn fmt(&self, f: &mut fmt::Formatter) -> fmt::Result {
        match self {
            Refused::Rows(refusal) => refusal.fmt(f),
            Refused::Types(refusal) => refusal.fmt(f),
        }
    }
}

impl Error {
    pub fn at(text: &str, spot: Spot, message: impl Into<String>) -> Error {
        let (line, column) = line_and_column(text, spot);
        Error { line, column, message: message.into(), file: None, refusal: None }
    }
}

impl fmt::Display for Error {
    fn fmt(&self, f: &mut fmt::Formatter) -> fmt::Result {
        write!(f, "line {}, column {}: {}", self.line, self.column, self.message)
    }
}

pub fn line_and_column(text: &str, spot: Spot) -> (usize, usize) {
    let before = &text[..spot.min(text.len())];
    let start = before.rfind('\n').map_or(0, |newline| newline + 1);
    (1 + before.matches('\n').count(), 1 + before[start..].chars().count())
}

/// The text that bytes stand for: UTF-8 without a byte order mark.
pub fn decode(bytes: &[u8]) -> Result<&str, Error> {
    match std::str::from_utf8(bytes) {
        Ok(text) if text.starts_with('\u{feff}') => Err(Error::at(text, 0, "the text starts with a byte order mark")),
        Ok(text) => Ok(text),
        Err(error) => {
            let before = String::from_utf8_lossy(&bytes[..error.valid_up_to()]);
            Err(Error::at(&before, before.len(), "bytes that are no UTF-8"))
        }
    }
}

/// A text and how far it is read. Blanks and `//` comments are passed over before each token.
pub struct Scanner<'a> {
    pub text: &'a str,
    at: usize,
}

impl<'a> Scanner<'a> {
    pub fn new(text: &'a str) -> Scanner<'a> {
        Scanner::at(text, 0)
    }

    /// From a place of the text on.
    pub fn at(text: &'a str, at: Spot) -> Scanner<'a> {
        Scanner { text, at }
    }

    pub fn error<T>(&self, spot: Spot, message: impl Into<String>) -> Result<T, Error> {
        Err(Error::at(self.text, spot, message))
    }

    pub fn rest(&self) -> &'a str {
        &self.text[self.at..]
    }

    /// Where the next token starts.
    pub fn spot(&mut self) -> Spot {
        loop {
            self.at += self.rest().len() - self.rest().trim_start().len();
            if !self.rest().starts_with("//") {
                return self.at;
            }
            self.at += self.rest().find('\n').unwrap_or(self.rest().len());
        }
    }

    pub fn ended(&mut self) -> bool {
        self.spot();
        self.rest().is_empty()
    }

    /// Takes a mark if it comes next.
    pub fn takes(&mut self, mark: &str) -> bool {
        self.spot();
        let found = self.rest().starts_with(mark);
        if found {
            self.at += mark.len();
        }
        found
    }

    pub fn comes(&mut self, mark: &str) -> bool {
        self.spot();
        self.rest().starts_with(mark)
    }

    pub fn expect(&mut self, mark: &str) -> Result<(), Error> {
        let spot = self.spot();
        if self.takes(mark) {
            Ok(())
        } else {
            self.error(spot, format!("`{mark}` expected"))
        }
    }

    /// The word that comes next, not taken; empty if none does.
    pub fn peek_word(&mut self) -> &'a str {
        self.spot();
        let rest = self.rest();
        if rest.starts_with(|sign: char| sign.is_ascii_alphabetic() || sign == '_') {
            &rest[..span(rest, |sign| sign.is_ascii_alphanumeric() || sign == '_')]
        } else {
            ""
        }
    }

    pub fn takes_word(&mut self, word: &str) -> bool {
        let found = self.peek_word() == word;
        if found {
            self.at += word.len();
        }
        found
    }

    pub fn expect_word(&mut self, word: &str) -> Result<(), Error> {
        let spot = self.spot();
        if self.takes_word(word) {
            Ok(())
        } else {
            self.error(spot, format!("`{word}` expected"))
        }
    }

    /// Takes a word or number; empty if neither comes next.
    pub fn take_name(&mut self) -> &'a str {
        self.spot();
        self.take_while(|sign| sign.is_ascii_alphanumeric() || sign == '_')
    }

    /// Takes the longest run of such signs.
    pub fn take_while(&mut self, sign: impl Fn(char) -> bool) -> &'a str {
        let taken = &self.rest()[..span(self.rest(), sign)];
        self.at += taken.len();
        taken
    }

    /// Takes one sign, blanks too.
    pub fn take_sign(&mut self) -> Option<char> {
        let sign = self.rest().chars().next()?;
        self.at += sign.len_utf8();
        Some(sign)
    }

    /// A decimal number up to 65535, if a digit comes next.
    pub fn number(&mut self) -> Result<Option<u16>, Error> {
        let spot = self.spot();
        let digits = self.take_while(|sign| sign.is_ascii_digit());
        if digits.is_empty() {
            return Ok(None);
        }
        match digits.parse() {
            Ok(number) => Ok(Some(number)),
            Err(_) => self.error(spot, "a number is at most 65535"),
        }
    }

    pub fn expect_number(&mut self) -> Result<u16, Error> {
        let spot = self.spot();
        match self.number()? {
            Some(number) => Ok(number),
            None => self.error(spot, "a number expected"),
        }
    }
}

fn span(text: &str, sign: impl Fn(char) -> bool) -> usize {
    text.find(|next| !sign(next)).unwrap_or(text.len())
}
