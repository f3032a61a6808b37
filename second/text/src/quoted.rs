//! String constants in quotes: text as itself, and `\xNN` for bytes that are none or could not be seen.

use std::fmt::Write;

/// Characters that show nothing or turn what stands beside them, controls and blanks apart: marks of joining, of
/// direction and of variants, the byte order mark, fillers, private use.
const UNSEEN: [(char, char); 19] = [
    ('\u{ad}', '\u{ad}'),
    ('\u{34f}', '\u{34f}'),
    ('\u{61c}', '\u{61c}'),
    ('\u{115f}', '\u{1160}'),
    ('\u{17b4}', '\u{17b5}'),
    ('\u{180b}', '\u{180f}'),
    ('\u{200b}', '\u{200f}'),
    ('\u{202a}', '\u{202e}'),
    ('\u{2060}', '\u{206f}'),
    ('\u{3164}', '\u{3164}'),
    ('\u{e000}', '\u{f8ff}'),
    ('\u{fdd0}', '\u{fdef}'),
    ('\u{fe00}', '\u{fe0f}'),
    ('\u{feff}', '\u{feff}'),
    ('\u{ffa0}', '\u{ffa0}'),
    ('\u{fff0}', '\u{fffb}'),
    ('\u{1bca0}', '\u{1bca3}'),
    ('\u{1d173}', '\u{1d17a}'),
    ('\u{e0000}', '\u{10ffff}'),
];

fn is_seen(sign: char) -> bool {
    let blank = sign.is_whitespace() && sign != ' ';
    let noncharacter = sign as u32 & 0xfffe == 0xfffe;
    let unseen = UNSEEN.iter().any(|&(first, last)| (first..=last).contains(&sign));
    !(sign.is_control() || blank || noncharacter || unseen)
}

/// The text of a string constant, which stands for exactly these bytes.
pub fn quoted(bytes: &[u8]) -> String {
    let mut text = String::from("\"");
    for chunk in bytes.utf8_chunks() {
        chunk.valid().chars().for_each(|sign| put(&mut text, sign));
        escape(&mut text, chunk.invalid());
    }
    text + "\""
}

fn put(text: &mut String, sign: char) {
    match sign {
        '"' | '\\' => text.extend(['\\', sign]),
        _ if is_seen(sign) => text.push(sign),
        _ => escape(text, sign.encode_utf8(&mut [0; 4]).as_bytes()),
    }
}

fn escape(text: &mut String, bytes: &[u8]) {
    bytes.iter().for_each(|byte| write!(text, "\\x{byte:02x}").expect("a string"));
}

#[cfg(test)]
mod tests {
    use super::*;

    #[test]
    fn text_is_shown_as_itself() {
        for text in ["", "a b~", "ტონა", "φορτίο", "荷重", "حمولة", "भार", "e\u{301}", "\u{1f3d7}"]
        {
            assert_eq!(quoted(text.as_bytes()), format!("\"{text}\""));
        }
    }

    #[test]
    fn what_cannot_be_seen_is_escaped_byte_by_byte() {
        for (text, shown) in [
            ("a\"b\\", r#"a\"b\\"#),
            ("\0\n\u{7f}\u{85}", r"\x00\x0a\x7f\xc2\x85"),
            ("\u{a0}\u{3000}", r"\xc2\xa0\xe3\x80\x80"),
            ("\u{2028}\u{2029}", r"\xe2\x80\xa8\xe2\x80\xa9"),
            ("\u{200f}\u{202e}\u{2066}", r"\xe2\x80\x8f\xe2\x80\xae\xe2\x81\xa6"),
            ("\u{feff}\u{ffff}", r"\xef\xbb\xbf\xef\xbf\xbf"),
            ("\u{1fffe}\u{10ffff}", r"\xf0\x9f\xbf\xbe\xf4\x8f\xbf\xbf"),
        ] {
            assert_eq!(quoted(text.as_bytes()), format!("\"{shown}\""));
        }
    }

    #[test]
    fn of_broken_text_the_bytes_that_are_none_are_escaped() {
        assert_eq!(quoted(b"a\xffb"), r#""a\xffb""#);
        assert_eq!(quoted(b"\xe8\x8d\xb7\xe9\x87"), r#""荷\xe9\x87""#);
        assert_eq!(quoted(b"\xed\xa0\x80"), r#""\xed\xa0\x80""#);
    }
}
