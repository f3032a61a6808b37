//! Keyed services: their text, what `net check` says of an unfit input, and its note for a client that waits.

use net::keys::notes;
use net::sentences::sentence;
use net::{assemble, disassemble, rows, Assembled};
use second::tables::Tables;

fn made(text: &str) -> Assembled {
    assemble(text).unwrap_or_else(|error| panic!("{error}\n{text}"))
}

fn keys(file: &[u8]) -> Vec<u16> {
    Tables::read(file).expect("sections").0.services.iter().map(|service| service.key).collect()
}

#[test]
fn a_key_is_an_id_by_name_or_number() {
    let text = "id hoist = 7 location recorder = 3 \
                service recorder keyed by hoist { } service 4 keyed by 65535 { } service 5 { }";
    let file = made(text).file;
    assert_eq!(keys(&file), [7, 65_535, 0]);
    let back = disassemble(&file).expect("rows");
    assert_eq!(back, "service 3 keyed by 7 {\n}\n\nservice 4 keyed by 65535 {\n}\n\nservice 5 {\n}\n");
    let listed = rows(&file).expect("rows");
    let expected = "service 0: location 3, starter none, client none, keyed by 7\n\
                    service 1: location 4, starter none, client none, keyed by 65535\n\
                    service 2: location 5, starter none, client none\n";
    assert_eq!(listed, expected);
}

/// Every number survives the round trip, also one that no child has and one that 23 refuses.
#[test]
fn every_key_comes_back() {
    let file = made("service 1 { input 3: void { 7: int } client nil }").file;
    let (tables, _) = Tables::read(&file).expect("sections");
    for key in (0..=300).chain([32_767, 32_768, 65_534, 65_535]) {
        let mut keyed = tables.clone();
        keyed.services[0].key = key;
        let text = disassemble(&keyed.write()).expect("a file that passes 2 to 5");
        assert_eq!(text.contains("keyed by"), key != 0);
        assert!(made(&text).file == keyed.write(), "{key}");
    }
}

/// `keyed` and `by` are names as well, as they were.
#[test]
fn the_words_stay_names() {
    let text = "id keyed = 7 id by = 8 location keyed = 3 location by = 4 type keyed = void { keyed: int, by: int } \
                service keyed keyed by keyed { input by: keyed } \
                service by keyed by by { input keyed: keyed client set by.keyed = int 1 }";
    assert_eq!(keys(&made(text).file), [7, 8]);
}

/// What is said of a text that 23 refuses, with its line and column.
fn refused(text: &str) -> (usize, usize, usize, String) {
    let made = made(text);
    let refusal = second::check(&made.file).expect_err("a refusal");
    assert_eq!(refusal.number, 23);
    let (line, column) = made.origin(text, &refusal).expect("a place");
    (refusal.place, line, column, sentence(&made, text, &refusal))
}

fn recorder(lift: &str) -> String {
    format!(
        "id hoist = 1 id lift = 11 location recorder = 3 type Right = void {{ hoist: int }}\n\
         service recorder keyed by hoist {{\n  input 12: Right\n  input lift: void {{ {lift} }}\n}}"
    )
}

#[test]
fn an_unfit_input_is_told_in_the_words_of_the_text() {
    for (lift, wrong) in [
        ("2: int", "has no child hoist"),
        ("2: void { hoist: int }", "has no child hoist"),
        ("hoist?: int", "has hoist only as an optional child"),
        ("hoist: long", "has hoist as a long, not an int"),
        ("hoist: void { 1: int }", "has hoist as a void, not an int"),
        ("hoist?: string", "has hoist only as an optional child, and as a string, not an int"),
    ] {
        let head = "service recorder is keyed by hoist, but the request type of its input lift ";
        assert_eq!(refused(&recorder(lift)), (1, 4, 3, format!("{head}{wrong}")), "{lift}");
    }
    let made = made(&recorder("hoist: int { 2: bool }"));
    assert!(second::check(&made.file).is_ok());
}

/// Numbers, comments and row labels between the words.
#[test]
fn an_unfit_input_is_told_however_it_is_written() {
    let text = "service // one\n 1 keyed\nby 0007 { @1 input 3: void @0 // two\n input 0005 : void }";
    let wrong = "service 1 is keyed by 0007, but the request type of its input 0005 has no child 0007";
    assert_eq!(refused(text), (0, 3, 28, wrong.into()));
}

/// Another refusal keeps its sentence.
#[test]
fn other_refusals_are_told_as_before() {
    let text = "service 1 keyed by 7 { input 3: void client set 5 = 6 }";
    let made = made(text);
    let refusal = second::check(&made.file).expect_err("a refusal");
    assert_eq!((refusal.number, sentence(&made, text, &refusal)), (7, refusal.cause.sentence().into()));
}

fn noted(text: &str) -> Vec<(usize, usize, String)> {
    notes(&made(text), text).into_iter().map(|note| (note.line, note.column, note.message)).collect()
}

#[test]
fn a_client_that_waits_for_good_is_noted_once() {
    let text = |keyed: &str, client: &str| {
        format!(
            "location recorder = 3 type Lift = void {{ 1: int }}\nservice recorder {keyed} {{\n\
             input 3: Lift input 4: Lift -> Lift output 4 to recorder: Lift -> Lift\nclient {client}\n\
             starter choice {{ on receive 3 into 5 then receive 3 into 5 }} }}"
        )
    };
    let note = "note: service recorder is keyed: nothing is ever queued at its client, so this input waits for good";
    for client in [
        "receive 3 into 5",
        "{ set 5.1 = int 1; while true do { receive 3 into 5; receive 3 into 5 } }",
        "answer 4 into 5 do nil reply 5",
        "choice { on receive 3 into 5 then nil on answer 4 into 5 do nil reply 5 then nil }",
        "parallel { nil } { if true then nil else { answer 4 into 5 do nil reply 5; nil } }",
    ] {
        let first = ["receive", "answer"].iter().filter_map(|word| client.find(word)).min().expect("an input");
        let column = "client ".len() + first + 1;
        assert_eq!(noted(&text("keyed by 1", client)), [(4, column, note.into())], "{client}");
        assert_eq!(noted(&text("", client)), [], "{client}");
    }
    assert_eq!(noted(&text("keyed by 1", "{ set 5.1 = int 1; ask 4 to recorder with 5 into 6 }")), []);
    assert_eq!(noted("service 1 keyed by 7 { } service 2 { input 3: int client receive 3 into 5 }"), []);
    let both = "service 1 keyed by 7 { input 3: int client receive 3 into 5 }\n\
                service 2 keyed by 7 { input 3: int client receive 3 into 5 }";
    assert_eq!(noted(both).iter().map(|note| note.0).collect::<Vec<_>>(), [1, 2]);
}
