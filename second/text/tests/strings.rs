//! String constants: their text stands for exactly their bytes, well formed or not.

use net::{assemble, disassemble};
use second::tables::{ExpressionRow, ServiceRow, Tables, NONE};
use second::{Basic, Cause};

/// A file with a string constant of each text, which nobody uses.
fn file(texts: &[&[u8]]) -> Vec<u8> {
    let mut tables = Tables::default();
    for text in texts {
        let fields = [tables.data.len() as u16, text.len() as u16, 0];
        tables.expressions.push(ExpressionRow { kind: 0, basic: Basic::String.byte(), fields });
        tables.data.extend(*text);
    }
    tables.services.push(ServiceRow { location: 1, starter: NONE, client: NONE, key: 0 });
    tables.write()
}

/// The text of a file, which assembles to the file.
fn there_and_back(file: &[u8]) -> String {
    let text = disassemble(file).unwrap_or_else(|refusal| panic!("{refusal}"));
    let again = assemble(&text).unwrap_or_else(|error| panic!("{error}\n{text}")).file;
    assert!(again == file, "{text}");
    text
}

/// Every character, four to a constant.
#[test]
fn every_character_comes_back() {
    let characters: Vec<char> = ('\0'..=char::MAX).collect();
    let texts: Vec<String> = characters.chunks(4).map(|four| four.iter().collect()).collect();
    let texts: Vec<&[u8]> = texts.iter().map(String::as_bytes).collect();
    for texts in texts.chunks(256) {
        let file = file(texts);
        assert!(second::check(&file).is_ok());
        there_and_back(&file);
    }
}

/// Every byte and every pair of bytes, most of which are no text.
#[test]
fn every_pair_of_bytes_comes_back() {
    let bytes: Vec<[u8; 1]> = (0..=255).map(|byte| [byte]).collect();
    there_and_back(&file(&bytes.iter().map(|byte| &byte[..]).collect::<Vec<_>>()));
    for first in 0..=255 {
        let pairs: Vec<[u8; 2]> = (0..=255).map(|second| [first, second]).collect();
        there_and_back(&file(&pairs.iter().map(|pair| &pair[..]).collect::<Vec<_>>()));
    }
}

#[test]
fn well_formed_text_is_shown_and_broken_text_escaped() {
    let text = there_and_back(&file(&["φορτίο".as_bytes(), b"a\xe8\x8d\xb7\xe9\x87", "\u{feff}\u{202e}x".as_bytes()]));
    let shown: Vec<&str> = text.lines().filter_map(|line| line.split_once(" = ")).map(|pair| pair.1).collect();
    assert_eq!(shown, ["\"φορτίο\"", r#""a荷\xe9\x87""#, r#""\xef\xbb\xbf\xe2\x80\xaex""#]);
}

/// Broken text alone is no reason to make or show no file; any other fault of 2 to 5 is.
#[test]
fn broken_text_is_left_to_the_checker() {
    let broken = file(&[b"ab", b"\xff"]);
    there_and_back(&broken);
    assert_eq!(second::check(&broken).expect_err("broken text").cause, Cause::BrokenText);
    let (mut tables, _) = Tables::read(&broken).expect("sections");
    tables.expressions[1].fields[2] = 1;
    let refusal = disassemble(&tables.write()).expect_err("a field that is not 0");
    assert_eq!((refusal.number, refusal.cause), (4, Cause::BrokenText), "as the checker says");
    let error = assemble("expression $e = \"\\xff\" service 1 {} service 1 {}").expect_err("a location twice");
    assert!(error.message.contains("refused 4 2"), "{error}");
}
