//! Words, marks and blanks of a text.

use crate::refusal::{Cause, Refusal};

fn is_blank(byte: u8) -> bool {
    matches!(byte, b' ' | b'\n')
}

fn is_of_words(byte: u8) -> bool {
    byte.is_ascii_alphanumeric() || byte == b'_'
}

/// Whether the grammar uses a byte anywhere.
pub fn is_used(byte: u8) -> bool {
    is_blank(byte) || is_of_words(byte) || b":{}.?[],".contains(&byte)
}

/// A text and how far it is read.
pub struct Scanner<'a> {
    text: &'a [u8],
    at: usize,
}

impl<'a> Scanner<'a> {
    pub fn new(text: &'a [u8]) -> Scanner<'a> {
        Scanner { text, at: 0 }
    }

    /// The next byte, whatever it is.
    fn next(&self) -> Option<u8> {
        self.text.get(self.at).copied()
    }

    /// Where the next word or mark starts, or the text's length.
    pub fn spot(&mut self) -> usize {
        while self.next().is_some_and(is_blank) {
            self.at += 1;
        }
        self.at
    }

    pub fn ended(&mut self) -> bool {
        self.spot() == self.text.len()
    }

    /// The refusal for a byte with which no text goes on; the cause is for a byte that the grammar uses.
    pub fn offends(&self, spot: usize, cause: Cause) -> Refusal {
        match self.text.get(spot) {
            None => Refusal::at(Cause::EndsTooSoon, spot),
            Some(&byte) if is_used(byte) => Refusal::at(cause, spot),
            Some(_) => Refusal::at(Cause::ForeignByte, spot),
        }
    }

    /// Takes a mark if it comes next.
    pub fn takes(&mut self, mark: u8) -> bool {
        self.spot();
        self.takes_close(mark)
    }

    /// The same without blanks before it: inside a mark of several bytes.
    pub fn takes_close(&mut self, mark: u8) -> bool {
        let found = self.next() == Some(mark);
        self.at += usize::from(found);
        found
    }

    pub fn expect(&mut self, mark: u8, cause: Cause) -> Result<(), Refusal> {
        self.spot();
        self.expect_close(mark, cause)
    }

    pub fn expect_close(&mut self, mark: u8, cause: Cause) -> Result<(), Refusal> {
        if self.takes_close(mark) {
            Ok(())
        } else {
            Err(self.offends(self.at, cause))
        }
    }

    /// Takes a word, the longest run of its bytes, empty where none comes next; and where it starts.
    pub fn word(&mut self) -> (usize, &'a str) {
        let start = self.spot();
        while self.next().is_some_and(is_of_words) {
            self.at += 1;
        }
        (start, std::str::from_utf8(&self.text[start..self.at]).expect("words are ASCII"))
    }
}
