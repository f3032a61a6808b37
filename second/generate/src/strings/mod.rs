//! Text for strings: well-formed UTF-8 as in RFC 3629, or broken in one way; of at most 16 bytes.

pub mod decide;
pub mod held;
pub mod hits;

use second::value::LONGEST;

use crate::random::Random;

pub use hits::StringHits;

/// The characters of one, two, three and four bytes, in ranges; once more those from a noncharacter up to the byte order
/// mark.
const CHARACTERS: [&[(char, char)]; 4] = [
    &[('\0', '\u{7F}')],
    &[('\u{80}', '\u{7FF}')],
    &[('\u{800}', '\u{D7FF}'), ('\u{E000}', '\u{FFFF}'), ('\u{FDD0}', '\u{FEFF}')],
    &[('\u{10000}', '\u{10FFFF}')],
];

/// How text is broken.
#[derive(Clone, Copy, PartialEq, Eq, Debug, PartialOrd, Ord)]
pub enum Break {
    /// 80 to BF where a character should begin.
    LoneTail,
    /// A character without its last bytes, at the end of the text.
    CutAtEnd,
    /// The same before another character.
    CutBefore,
    /// Three or four bytes where fewer do: E0 80 to E0 9F, F0 80 to F0 8F.
    Overlong,
    /// D800 to DFFF: ED A0 to ED BF.
    Surrogate,
    /// Past 10FFFF: F4 90 to F4 BF.
    PastLast,
    /// C0, C1 and F5 to FF occur nowhere.
    NeverByte,
}

impl Break {
    pub const ALL: [Break; 7] = {
        use Break::*;
        [LoneTail, CutAtEnd, CutBefore, Overlong, Surrogate, PastLast, NeverByte]
    };

    pub fn name(self) -> &'static str {
        match self {
            Break::LoneTail => "a lone tail",
            Break::CutAtEnd => "a cut character at the end",
            Break::CutBefore => "a cut character before another",
            Break::Overlong => "an overlong character",
            Break::Surrogate => "a surrogate",
            Break::PastLast => "a character past 10FFFF",
            Break::NeverByte => "a byte that never occurs",
        }
    }

    /// The fewest bytes of text that is broken so.
    pub fn least(self) -> usize {
        match self {
            Break::LoneTail | Break::CutAtEnd | Break::NeverByte => 1,
            Break::CutBefore => 2,
            Break::Overlong | Break::Surrogate => 3,
            Break::PastLast => 4,
        }
    }

    /// Bytes that break text so, wherever they stand; a cut character where it may.
    fn piece(self, random: &mut Random) -> Vec<u8> {
        match self {
            Break::LoneTail => vec![tail(random)],
            Break::CutAtEnd | Break::CutBefore => {
                let length = random.between(2, 4);
                let mut piece = character(random, length).to_string().into_bytes();
                piece.truncate(random.between(1, length - 1));
                piece
            }
            Break::Overlong if random.one_in(2) => vec![0xE0, within(random, 0x80, 0x9F), tail(random)],
            Break::Overlong => vec![0xF0, within(random, 0x80, 0x8F), tail(random), tail(random)],
            Break::Surrogate => vec![0xED, within(random, 0xA0, 0xBF), tail(random)],
            Break::PastLast => vec![0xF4, within(random, 0x90, 0xBF), tail(random), tail(random)],
            Break::NeverByte => {
                let lead = if random.one_in(2) { within(random, 0xC0, 0xC1) } else { within(random, 0xF5, 0xFF) };
                // Alone, or with the tails that it asks for.
                let tails = if random.one_in(2) { 0 } else { tails(lead) };
                [lead].into_iter().chain((0..tails).map(|_| tail(random))).collect()
            }
        }
    }

    /// Text of so many bytes, which is not below the least, that is broken so in one place.
    pub fn text(self, random: &mut Random, length: usize) -> Vec<u8> {
        let after = usize::from(self == Break::CutBefore);
        let piece = loop {
            let piece = self.piece(random);
            if piece.len() + after <= length {
                break piece;
            }
        };
        let around = length - piece.len();
        let before = if self == Break::CutAtEnd { around } else { random.between(0, around - after) };
        [text_of(random, before), piece, text_of(random, around - before)].concat()
    }
}

/// One of the bytes of a range, its ends often.
fn within(random: &mut Random, first: u8, last: u8) -> u8 {
    match random.below(4) {
        0 => first,
        1 => last,
        _ => random.between(first.into(), last.into()) as u8,
    }
}

fn tail(random: &mut Random) -> u8 {
    within(random, 0x80, 0xBF)
}

/// How many tails a first byte asks for, by its highest bits.
fn tails(lead: u8) -> usize {
    match lead.leading_ones() {
        ones @ 2..=6 => ones as usize - 1,
        _ => 0,
    }
}

/// A character of so many bytes, often at an end of its range.
fn character(random: &mut Random, bytes: usize) -> char {
    let &(first, last) = random.pick(CHARACTERS[bytes - 1]).expect("a range");
    match random.below(4) {
        0 => first,
        1 => last,
        _ => char::from_u32(random.between(first as usize, last as usize) as u32).expect("a range of characters"),
    }
}

/// Well-formed text of exactly so many bytes.
pub fn text_of(random: &mut Random, length: usize) -> Vec<u8> {
    let mut text = String::new();
    while text.len() < length {
        let bytes = random.between(1, (length - text.len()).min(4));
        text.push(character(random, bytes));
    }
    text.into_bytes()
}

/// Well-formed text, often of 16 bytes.
pub fn well_formed(random: &mut Random) -> Vec<u8> {
    let length = some_length(random, 0);
    text_of(random, length)
}

/// Broken text of any kind, often of 16 bytes.
pub fn broken(random: &mut Random) -> Vec<u8> {
    let kind = *random.pick(&Break::ALL).expect("a kind");
    let length = some_length(random, kind.least());
    kind.text(random, length)
}

fn some_length(random: &mut Random, least: usize) -> usize {
    if random.one_in(4) {
        LONGEST
    } else {
        random.between(least, LONGEST)
    }
}

/// What some text holds: characters by their length in bytes, and the ways in which it is broken.
#[derive(Clone, Copy, PartialEq, Eq, Debug, Default)]
pub struct Seen {
    pub characters: [bool; 4],
    pub breaks: [bool; Break::ALL.len()],
}

impl Seen {
    /// What one text holds.
    pub fn of(text: &[u8]) -> Seen {
        let mut seen = Seen::default();
        seen.text(text);
        seen
    }

    pub fn is_broken(&self) -> bool {
        self.breaks.contains(&true)
    }

    pub fn text(&mut self, text: &[u8]) {
        let mut rest = text;
        while !rest.is_empty() {
            let (length, kind) = first(rest);
            match kind {
                Some(kind) => self.breaks[kind as usize] = true,
                None => self.characters[length - 1] = true,
            }
            rest = &rest[length..];
        }
    }
}

/// The first character of some bytes, or what stands for one: its length, and how it breaks the text.
fn first(bytes: &[u8]) -> (usize, Option<Break>) {
    let lead = bytes[0];
    let after = bytes[1..].iter().take(tails(lead));
    let length = 1 + after.take_while(|byte| matches!(byte, 0x80..=0xBF)).count();
    let kind = match lead {
        0x80..=0xBF => Some(Break::LoneTail),
        0xC0 | 0xC1 | 0xF5..=0xFF => Some(Break::NeverByte),
        _ if length <= tails(lead) && length == bytes.len() => Some(Break::CutAtEnd),
        _ if length <= tails(lead) => Some(Break::CutBefore),
        0xE0 if bytes[1] < 0xA0 => Some(Break::Overlong),
        0xF0 if bytes[1] < 0x90 => Some(Break::Overlong),
        0xED if bytes[1] > 0x9F => Some(Break::Surrogate),
        0xF4 if bytes[1] > 0x8F => Some(Break::PastLast),
        _ => None,
    };
    (length, kind)
}

#[cfg(test)]
mod tests {
    use super::*;
    use std::str::from_utf8;

    #[test]
    fn well_formed_text_is_utf8_with_characters_of_each_length_and_their_ends() {
        let ends = "\0\u{7F}\u{80}\u{7FF}\u{800}\u{D7FF}\u{E000}\u{FFFF}\u{FDD0}\u{FEFF}\u{10000}\u{10FFFF}";
        let mut random = Random::new(1);
        let (mut lengths, mut sizes, mut at_ends) = ([0; 4], [0; LONGEST + 1], [0; 12]);
        for _ in 0..10_000 {
            let bytes = well_formed(&mut random);
            let text = from_utf8(&bytes).unwrap_or_else(|error| panic!("{bytes:02x?}: {error}"));
            sizes[text.len()] += 1;
            for sign in text.chars() {
                lengths[sign.len_utf8() - 1] += 1;
                ends.chars().position(|end| end == sign).into_iter().for_each(|end| at_ends[end] += 1);
            }
        }
        assert!(lengths.iter().all(|&count| count > 5_000), "{lengths:?}");
        assert!(at_ends.iter().all(|&count| count > 500), "{at_ends:?}");
        assert!(sizes.iter().all(|&count| count > 300) && sizes[LONGEST] > 2_500, "{sizes:?}");
    }

    #[test]
    fn each_kind_of_broken_text_is_no_utf8_whatever_its_length() {
        let mut random = Random::new(2);
        for kind in Break::ALL {
            for length in kind.least()..=LONGEST {
                for _ in 0..500 {
                    let text = kind.text(&mut random, length);
                    assert_eq!((text.len(), from_utf8(&text).is_err()), (length, true), "{kind:?} {text:02x?}");
                }
            }
        }
    }

    /// The fault that std finds stands anywhere, and is the text's end for a character cut there alone.
    #[test]
    fn broken_text_is_broken_in_its_way_alone_at_any_place() {
        let mut random = Random::new(3);
        let (mut kinds, mut places) = ([0; Break::ALL.len()], [0; LONGEST]);
        for _ in 0..20_000 {
            let text = broken(&mut random);
            let error = from_utf8(&text).expect_err("broken text");
            let found = Seen::of(&text).breaks;
            assert_eq!(found.iter().filter(|&&found| found).count(), 1, "{text:02x?}");
            kinds[found.iter().position(|&found| found).expect("a kind")] += 1;
            places[error.valid_up_to()] += 1;
            assert_eq!(found[Break::CutAtEnd as usize], error.error_len().is_none(), "{text:02x?}");
        }
        assert!(kinds.iter().all(|&count| count > 2_500), "{kinds:?}");
        assert!(places.iter().all(|&count| count > 100), "{places:?}");
    }

    /// Every text of up to three bytes, the second and third at both sides of each border.
    #[test]
    fn text_is_seen_as_broken_exactly_if_it_is_no_utf8() {
        let borders =
            [0, 0x7F, 0x80, 0x8F, 0x90, 0x9F, 0xA0, 0xBF, 0xC0, 0xC1, 0xC2, 0xE0, 0xED, 0xF0, 0xF4, 0xF5, 0xFF];
        let agrees = |text: &[u8]| assert_eq!(Seen::of(text).is_broken(), from_utf8(text).is_err(), "{text:02x?}");
        agrees(&[]);
        for first in 0..=255 {
            agrees(&[first]);
            for second in borders {
                agrees(&[first, second]);
                for third in borders {
                    agrees(&[first, second, third]);
                    borders.iter().for_each(|&fourth| agrees(&[first, second, third, fourth]));
                }
            }
        }
    }

    #[test]
    fn each_kind_is_told_from_the_others() {
        let kinds = |text: &[u8]| {
            let found = Seen::of(text).breaks;
            Break::ALL.into_iter().filter(|&kind| found[kind as usize]).collect::<Vec<_>>()
        };
        for (text, kind) in [
            (&b"a\x80"[..], Break::LoneTail),
            (b"\xC3\xA9\xBF", Break::LoneTail),
            (b"a\xC3", Break::CutAtEnd),
            (b"\xF0\x90\x80", Break::CutAtEnd),
            (b"\xE2\x82a", Break::CutBefore),
            (b"\xF4\x8F\xC3\xA9", Break::CutBefore),
            (b"\xE0\x9F\xBF", Break::Overlong),
            (b"\xF0\x8F\xBF\xBF", Break::Overlong),
            (b"\xED\xA0\x80", Break::Surrogate),
            (b"\xF4\x90\x80\x80", Break::PastLast),
            (b"\xC0\x80", Break::NeverByte),
            (b"\xFFa", Break::NeverByte),
            (b"\xF5\x80\x80\x80", Break::NeverByte),
        ] {
            assert_eq!(kinds(text), [kind], "{text:02x?}");
        }
        assert_eq!(kinds(b"\x80\xED\xA0\x80"), [Break::LoneTail, Break::Surrogate]);
    }
}
