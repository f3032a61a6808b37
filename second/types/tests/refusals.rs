//! Numbers and places of refused texts.

use types::Cause::*;
use types::{read_types, write_types, Cause, Refusal};

fn refusal(text: &[u8], size: usize) -> Option<Refusal> {
    write_types(text, &mut vec![0; size]).err()
}

/// The text is refused with this cause at this place.
fn refused(text: &str, cause: Cause, place: usize) {
    let refusal = refusal(text.as_bytes(), 2048).unwrap_or_else(|| panic!("done: {text}"));
    assert_eq!((refusal.cause, refusal.place), (cause, place), "{text}");
}

#[test]
fn marks_and_words_that_are_missing_or_too_many() {
    for (text, cause, place) in [
        ("a", NoTypeWord, 0),
        ("type a:int}", NoTypeWord, 10),
        ("type a:int:", NoTypeWord, 10),
        ("type a:int.b:int", NoTypeWord, 10),
        ("type a:int b", NoTypeWord, 11),
        ("type a:int{.b:int}{", NoTypeWord, 18),
        ("type :int", NoName, 5),
        ("type {", NoName, 5),
        ("type a:int{.:int}", NoName, 12),
        ("type a:int{..b:int}", NoName, 12),
        ("type a int", NoColon, 7),
        ("type a{", NoColon, 6),
        ("type a?:int", NoColon, 6),
        ("type a[0,1]:int", NoColon, 6),
        ("type a:int{.b int}", NoColon, 14),
        ("type a:int{.b??:int}", NoColon, 14),
        ("type a:int{.b?[0,1]:int}", NoColon, 14),
        ("type a:int{.b[0,1]?:int}", NoColon, 18),
        ("type a::int", NoBasic, 7),
        ("type a:{.b:int}", NoBasic, 7),
        ("type a:int{.b:}", NoTree, 14),
        ("type a:int{.b:[0,1]:int}", NoTree, 14),
        ("type a:int{}", NoChild, 11),
        ("type a:int{b:int}", NoChild, 11),
        ("type a:int{{", NoChild, 11),
        ("type a:int{.b:int,.c:int}", ListGoesOn, 17),
        ("type a:int{.b:int c:int}", ListGoesOn, 18),
        ("type a:int{.b:int{.c:int}{", ListGoesOn, 25),
        ("type a:int{.b:int]", ListGoesOn, 17),
    ] {
        refused(text, cause, place);
    }
}

#[test]
fn a_word_is_taken_whole() {
    for (text, cause, place) in [
        ("typ", NoTypeWord, 0),
        ("typea:int", NoTypeWord, 0),
        ("typ %", NoTypeWord, 0),
        ("typ%", NoTypeWord, 0),
        ("  Type a:int", NoTypeWord, 2),
        ("type_ a:int", NoTypeWord, 0),
        ("0", NoTypeWord, 0),
        ("type a:in", NoBasic, 7),
        ("type a:in\t", NoBasic, 7),
        ("type a:inttype b:int", NoBasic, 7),
        ("type a:Int", NoBasic, 7),
        ("type a:int_{", NoBasic, 7),
        ("type a:int{.b:intt}", UnknownType, 14),
    ] {
        refused(text, cause, place);
    }
}

#[test]
fn a_text_that_ends_too_soon_offends_at_its_length() {
    for text in [
        "type",
        "type \n ",
        "type a",
        "type a:",
        "type a:int{",
        "type a:int{.",
        "type a:int{.b",
        "type a:int{.b?",
        "type a:int{.b[",
        "type a:int{.b[0",
        "type a:int{.b[1",
        "type a:int{.b[0,",
        "type a:int{.b[0,1",
        "type a:int{.b[0,1]",
        "type a:int{.b:",
        "type a:int{.b:int",
        "type a:int{.b:int{.c:int}",
        "type a:int type",
    ] {
        refused(text, EndsTooSoon, text.len());
    }
}

#[test]
fn a_cardinality_offends_where_it_departs() {
    for (mark, at) in [
        ("[0, 1]", 3),
        ("[ 0,1]", 1),
        ("[0 ,1]", 2),
        ("[0,1 ]", 4),
        ("[0,\n1]", 3),
        ("[0,2]", 3),
        ("[0,0]", 3),
        ("[2,1]", 1),
        ("[01]", 2),
        ("[0a", 2),
        ("[00,1]", 2),
        ("[0,11]", 4),
        ("[0,1,1]", 4),
        ("[0.1]", 2),
        ("[1,]", 3),
        ("[,1]", 1),
        ("[]", 1),
        ("[?]", 1),
        ("[0}", 2),
        ("[a,1]", 1),
    ] {
        refused(&format!("type a:int{{.b{mark}:int}}"), Cardinality, 13 + at);
    }
    refused("type a:int{.b[0,*]:int}", ForeignByte, 16);
    refused("type a:int{.b[0\t,1]:int}", ForeignByte, 15);
    refused("type a:int{.b[0;1]:int}", ForeignByte, 15);
    // Where none may stand, the bracket itself offends, whatever follows.
    refused("type a:int{.b:int[0,*]}", ListGoesOn, 17);
    refused("[0,*]", NoTypeWord, 0);
    refused("type[0,1]", NoName, 4);
    refused("type a:int{[0,1].b:int}", NoChild, 11);
}

#[test]
fn bytes_that_the_grammar_uses_nowhere() {
    let used = "ABCDEFGHIJKLMNOPQRSTUVWXYZabcdefghijklmnopqrstuvwxyz0123456789_:{}.?[], \n";
    for byte in 0..=255u8 {
        let foreign = !used.as_bytes().contains(&byte);
        let number = refusal(&[byte], 2048).map(|refusal| (refusal.number, refusal.place));
        let blank = matches!(byte, b' ' | b'\n');
        assert_eq!(number, if blank { None } else { Some((if foreign { 20 } else { 21 }, 0)) }, "byte {byte}");
    }
    for (text, place) in [
        ("type%", 4),
        ("type\ta:int", 4),
        ("type a\r\n:int", 6),
        ("type a:int/", 10),
        ("type a:int{.b:int}\u{e4}", 18),
        ("type a:int{.b-c:int}", 13),
        ("type a:int // a\n", 11),
        ("type a:int{\t.b:int}", 11),
        ("type a\u{e4}:int", 6),
    ] {
        refused(text, ForeignByte, place);
    }
    // One scan: what offends first counts.
    refused("type a:int{} \t", NoChild, 11);
    refused("\t type a:int{}", ForeignByte, 0);
}

#[test]
fn names() {
    let (sixteen, seventeen) = ("abcdefghijklmnop", "abcdefghijklmnopq");
    assert_eq!(refusal(format!("type {sixteen}:int{{.{sixteen}:int}}").as_bytes(), 2048), None);
    refused(&format!("type {seventeen}:int"), NameLength, 5);
    refused(&format!("type a:int{{.{seventeen}:int}}"), NameLength, 12);
    refused(&format!("type a:int{{.b:{seventeen}}}"), UnknownType, 14);
    refused(&format!("type {seventeen}\t"), NameLength, 5);
    for (text, cause, place) in [
        ("type 1a:int", NameStart, 5),
        ("type _a:int", NameStart, 5),
        ("type a:int{.1:int}", NameStart, 12),
        ("type a:int{._:int}", NameStart, 12),
        ("type int:int", BasicName, 5),
        ("type  void", BasicName, 6),
        ("type a:int type a:int", RepeatedType, 16),
        ("type a:int type b:int type a", RepeatedType, 27),
        ("type a:int{.b:int.b:int}", RepeatedChild, 18),
        ("type a:int{.b:int{.b:int}.b", RepeatedChild, 26),
        ("type a:int{.b:c}", UnknownType, 14),
        ("type a:int{.b:a}", UnknownType, 14),
        ("type a:int{.b:c}type c:int", UnknownType, 14),
        ("type a:int{.b:type}", UnknownType, 14),
        ("type a:int{.b:1}", UnknownType, 14),
        ("type a:int type b:a", NoBasic, 18),
        ("type a:int type b:int{.c:a{.d:int}}", ListGoesOn, 26),
    ] {
        refused(text, cause, place);
    }
}

/// So many declarations of one node.
fn ones(count: usize) -> String {
    (0..count).map(|number| format!("type t{number}:int ")).collect()
}

/// A declaration of so many nodes in two levels.
fn wide(name: &str, nodes: usize) -> String {
    let children: String = (1..nodes).map(|number| format!(".c{number}:int")).collect();
    format!("type {name}:int{{{children}}}")
}

/// A declaration of one node in each of so many levels.
fn deep(name: &str, levels: usize) -> String {
    format!("type {name}:int{}{}", "{.a:int".repeat(levels - 1), "}".repeat(levels - 1))
}

#[test]
fn the_limits_of_types() {
    assert_eq!(refusal((wide("a", 16) + &deep("b", 4)).as_bytes(), 2048), None);
    refused(&wide("a", 17), TypeSize, 0);
    refused(&deep("a", 5), TypeSize, 0);
    refused(&(ones(3) + &wide("a", 16) + &deep("b", 5) + &wide("c", 17)), TypeSize, 8 * 19);
    refused("type a:int{.a:int{.a:int}}type b:int{.a:a}type c:int{.a:b}", TypeSize, 8 * 7);
    assert_eq!(read_types(ones(256).as_bytes()).map(|types| types.rows.len()), Ok(256));
    refused(&ones(257), TooManyRows, 0);
    refused(&wide("a", 300), TooManyRows, 0);
    refused(&(wide("a", 17) + &ones(240)), TooManyRows, 0);
    assert_eq!(refusal((wide("a", 17) + &ones(239)).as_bytes(), 2048).map(|refusal| refusal.number), Some(5));
}

#[test]
fn the_order_of_refusals() {
    let number = |text: &str, size| refusal(text.as_bytes(), size).map_or(0, |refusal| refusal.number);
    let long = |text: &str| format!("{text}{}", " ".repeat(8193 - text.len()));
    assert_eq!([number(&long("%"), 0), number(&long(""), 2048), number(&long("type")[..8192], 0)], [2, 2, 21]);
    assert_eq!([number("%", 2047), number("type", 0), number("", 2047), number("", 2048)], [20, 21, 1, 0]);
    assert_eq!([number(&ones(257), 2047), number(&deep("a", 5), 0), number(&ones(256), 2048)], [1, 1, 0]);
    let large = wide("a", 17) + &ones(250);
    assert_eq!([number(&large, 2048), number(&(large + "%"), 0)], [3, 20]);
}

#[test]
fn what_the_refusal_shows_in_the_text() {
    let spot = |text: &str| refusal(text.as_bytes(), 2048).map(|refusal| refusal.spot);
    assert_eq!(spot("type a:int type b:a"), Some(18));
    assert_eq!(spot(&(ones(2) + &deep("large", 5))), Some(29));
    assert_eq!(spot(&ones(257)), Some(ones(256).len() + 5));
    assert_eq!(spot(&" ".repeat(8193)), Some(8192));
}

/// Braces in one another as deep as a text allows, open and closed, on a stack of half a MiB.
#[test]
fn the_deepest_texts_are_read() {
    let work = || {
        let open = "type a:int".to_string() + &"{.a:int".repeat(1168);
        assert_eq!(open.len(), 8186);
        refused(&open, EndsTooSoon, 8186);
        refused(&deep("a", 257), TooManyRows, 0);
        assert_eq!(deep("a", 1023).len(), 8186);
        refused(&deep("a", 1023), TooManyRows, 0);
        refused(&deep("a", 256), TypeSize, 0);
    };
    let thread = std::thread::Builder::new().stack_size(512 << 10).spawn(work).expect("a thread");
    thread.join().expect("no test fails");
}

/// Trees that would have more than 3 to the power of 199 nodes.
#[test]
fn named_trees_are_not_written_out_before_they_are_counted() {
    let mut text = "type t0:int ".to_string();
    for number in 1..200 {
        let below = number - 1;
        text += &format!("type t{number}:int{{.a:t{below}.b:t{below}.c:t{below}}}");
    }
    assert!(text.len() <= 8192);
    refused(&text, TooManyRows, 0);
}

/// Texts of the most child names and of the most type names: the best of ten runs.
#[test]
fn the_most_names_take_no_more_than_5_milliseconds() {
    let name = |number: usize| {
        let letters = b"abcdefghijklmnopqrstuvwxyz";
        format!("{}{}", letters[number / 26 % 26] as char, letters[number % 26] as char)
    };
    let types: String = (0..676).map(|number| format!("type {}:int ", name(number))).collect();
    let children: String = (0..676).map(|number| format!(".{}:int", name(number))).collect();
    for text in [types, format!("type a:int{{{children}}}"), "type a:int{.".to_string() + &"a:int{.".repeat(1168)] {
        let run = || {
            let start = std::time::Instant::now();
            let number = refusal(text.as_bytes(), 2048).map(|refusal| refusal.number);
            assert!(matches!(number, Some(3 | 21)), "{number:?}");
            start.elapsed()
        };
        let best = (0..10).map(|_| run()).min().expect("ten runs");
        assert!(best.as_millis() < 5, "{best:?} for {} bytes", text.len());
    }
}
