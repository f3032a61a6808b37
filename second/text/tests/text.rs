//! Errors with line and column, and texts that keep row numbers.

use net::{assemble, disassemble};
use second::tables::Tables;

fn error(text: &str) -> (usize, usize, String) {
    let error = assemble(text).expect_err("an error");
    (error.line, error.column, error.message)
}

fn tables(text: &str) -> Tables {
    Tables::read(&assemble(text).unwrap_or_else(|error| panic!("{error}")).file).expect("sections").0
}

/// Texts with line, column and a part of their error.
const ERRORS: [(&str, usize, usize, &str); 40] = [
    ("", 1, 1, "a network has a service"),
    ("servic 1 {}", 1, 1, "service expected"),
    ("service 0 {}", 1, 9, "not 0"),
    ("service 1 {\n  client set 5.70000 = int 1\n}", 2, 16, "at most 65535"),
    ("service 1 {\n  client set 1.2.3.4.5 = int 1\n}", 2, 21, "at most four"),
    ("service 1 {\n  client set x = int 1\n}", 2, 14, "no id `x`"),
    ("service 1 {\n  client set 5 = int 3000000000\n}", 2, 22, "an int"),
    ("service 1 {\n  client set 5 = \"12345678901234567\"\n}", 2, 18, "at most 16"),
    // A string's 16 are bytes, a column is of characters.
    ("service 1 {\n  client set 5 = \"荷重荷重荷重\"\n}", 2, 18, "at most 16 bytes, this one has 18"),
    ("service 1 {\n  client set 5 = \"荷重\" == \"荷重荷重荷é\"\n}", 2, 26, "at most 16 bytes, this one has 17"),
    ("service 1 {\n  client set 5 = \"abc\n}", 2, 18, "does not end"),
    ("service 1 {\n  client set 5 =\n}", 3, 1, "an expression expected"),
    ("service 1 {\n  client receive 3 into 5\n}", 2, 18, "no such input"),
    ("service 1 { client nil client nil }", 1, 31, "one client"),
    ("service 1 { starter nil }", 1, 21, "a starter is a choice"),
    ("service 1 {\n  client set 5 = $x }", 2, 18, "no expression `$x`"),
    ("service 1 keyed 7 {}", 1, 17, "`by` expected"),
    ("service 1 keyed by {}", 1, 20, "an id expected"),
    ("service 1 keyed by 0 {}", 1, 20, "not 0"),
    ("location a = 1\nservice a keyed by hoist {}", 2, 20, "no id `hoist`"),
    ("service 1 keyed by 7 keyed by 7 {}", 1, 22, "`{` expected"),
    ("id a = 1 id a = 2", 1, 10, "declared already"),
    ("id set = 1", 1, 4, "no name"),
    ("type A = void { 3: int, 3: bool }", 1, 25, "stands here already"),
    ("type A = void { }", 1, 10, "not empty"),
    ("type A = B", 1, 10, "no type `B`"),
    ("service 1 { input 3: A }", 1, 22, "no type `A`"),
    ("service 1 {}\n// é\n /* */", 3, 2, "expected"),
    ("service 1 { client choice { on nil then nil } }", 1, 32, "receive or answer"),
    ("service 1 { client parallel { nil } }", 1, 37, "two or more sides"),
    ("service 1 { client @0 { nil; @2 nil } }", 1, 25, "all of the behaviours"),
    ("service 1 { client @0 { @1 nil; @1 nil } }", 1, 33, "taken already"),
    ("service 1 { client @1 nil }", 1, 1, "no statement has the row label @0"),
    ("data { 0c } service 1 { client set 5 = int 12 }", 1, 40, "where it stands"),
    ("data { 0c } service 1 { client set 5 = true at 0 }", 1, 40, "is not this constant"),
    ("data { 0 }\nservice 1 {}", 2, 1, "two hexadecimal digits"),
    // Refusals 4 and 5 at the line of their row.
    ("service 1 {}\nservice 1 {}", 2, 1, "refused 4"),
    ("service 1 {\n  input 3: int\n  input 3: int\n}", 3, 3, "an input of this id already"),
    ("type A = void { 1: void { 1: void { 1: void { 1: int } } } }\nservice 1 {}", 1, 1, "refused 5"),
    ("service 1 {\nclient set 5 = -(-(-(-(-(-(-(-int 1))))))) }", 2, 16, "more than 8 levels"),
];

#[test]
fn errors_name_line_and_column() {
    for (text, line, column, part) in ERRORS {
        let found = error(text);
        assert_eq!((found.0, found.1), (line, column), "{text:?}: {}", found.2);
        assert!(found.2.contains(part), "{text:?}: {}", found.2);
    }
}

#[test]
fn operators_bind_as_they_should() {
    let rows = |text: &str| {
        let text = format!("service 1 {{ client set 9 = {text} }}");
        tables(&text).expressions.iter().map(|row| row.kind).collect::<Vec<_>>()
    };
    assert_eq!(rows("not 1 < 2 and 3 == 4 + 5 - -6"), [1, 1, 7, 3, 1, 1, 1, 5, 1, 4, 6, 8, 9]);
    assert_eq!(rows("not (1 and present 2)"), [1, 2, 9, 3]);
    assert_eq!(rows("1 - (2 - 3)"), [1, 1, 1, 6, 6]);
    assert_eq!(rows("int -3 - int 4"), [0, 0, 6]);
}

#[test]
fn constants_have_their_bytes() {
    let data = |text: &str| tables(&format!("service 1 {{ client set 9 = {text} }}")).data;
    assert_eq!(data("true"), [1]);
    assert_eq!(data("false"), [0]);
    assert_eq!(data("int -2"), [254, 255, 255, 255]);
    assert_eq!(data("long -2"), [254, 255, 255, 255, 255, 255, 255, 255]);
    assert_eq!(data("double 0.1"), 0.1f64.to_le_bytes());
    assert_eq!(data("double -0.0"), [0, 0, 0, 0, 0, 0, 0, 128]);
    assert_eq!(data("double nan"), [0, 0, 0, 0, 0, 0, 0xf8, 0x7f]);
    assert_eq!(data("double -inf"), [0, 0, 0, 0, 0, 0, 0xf0, 0xff]);
    assert_eq!(data("double 1e-3"), 1e-3f64.to_le_bytes());
    assert_eq!(data("\"a\\\"\\\\\\x00é\""), [b'a', b'"', b'\\', 0, 0xc3, 0xa9]);
    assert_eq!(data("\"荷重荷重荷\\x80\""), ["荷重荷重荷".as_bytes(), &[0x80]].concat());
    assert_eq!(data("raw { 00 ff1 2 }"), [0, 255, 0x12]);
    assert_eq!(data("void"), []);
}

#[test]
fn equal_paths_share_a_row_and_named_expressions_too() {
    let tables = tables("expression $half = 1 + 1.2 service 1 { client { set 1 = $half; set 1.2 = $half } }");
    assert_eq!(tables.paths, [[1, 0, 0, 0], [1, 2, 0, 0]]);
    assert_eq!(tables.expressions.len(), 3);
}

/// Texts in which the order of rows is not the order of the text.
#[test]
fn row_numbers_survive_the_round_trip() {
    for text in [
        // Behaviours in another order.
        "service 1 { client @0 { @2 nil; @1 nil } }",
        "service 1 { input 1: int starter @1 choice { @3 on @5 receive 1 into 1 then @6 nil } client @0 parallel { @2 nil } { @4 nil } }",
        // Operations in another order.
        "service 1 { @1 input 1: int @0 output 2 to 5: int }",
        // Operations of another service, direction or kind.
        "service 1 { input 1: int client receive O#1 into 4 } service 2 { output 3 to 1: int -> int client send O#0 with int 1 }",
        // Paths that repeat, paths and expressions that nobody uses, in any order.
        "path 7 path 8 path 7 service 1 { client { set P#2 = int 1; set 8 = int 2 } }",
        "expression $a = int 1 expression $b = $a + $a expression $c = not $b service 1 { client set 5 = $b }",
        "expression $a = int 1 expression $b = int 2 service 1 { client { set 5 = $b; set 6 = $a } }",
        // Data that constants share, overlap or leave out.
        "data { 01 00 00 00 00 00 00 00 09 } service 1 { client { set 5 = int 1 at 0; set 6 = long 1 at 0; set 7 = true at 0; set 8 = void at 9 } }",
        // Types: shared and overlapping runs, rows that nobody names.
        "node a = 0: void children T#2 2 node b = 0: int children T#3 1 node c = 1: int node d = 2?: bool service 1 { input 1: a input 2: b }",
        "node x = 0?: int node y = 9: raw type z = void { 1: int { 2: int }, 3?: int { 1: bool } } service 1 { input 1: z }",
        // Sequences and parallels to the left.
        "service 1 { client { { nil; nil }; { nil; { nil; nil }; nil } } }",
        "service 1 { client parallel { parallel { nil } { nil } } { parallel { nil } { { nil; nil } } } }",
    ] {
        let file = assemble(text).unwrap_or_else(|error| panic!("{text}: {error}")).file;
        let back = disassemble(&file).expect("a file that passes 2 to 5");
        let again = assemble(&back).unwrap_or_else(|error| panic!("{back}: {error}")).file;
        assert!(again == file, "{text}\n{back}");
    }
}

/// 256 rows of statements, each inside the one before it, and an expression of 8 levels.
#[test]
fn the_deepest_file_survives_the_round_trip() {
    let around = ["while $yes do ", "choice { on receive 1 into 1 then ", "parallel {} { ", "{ nil; "];
    for (around, rows, end) in [(around[0], 1, ""), (around[1], 3, " }"), (around[2], 2, " }"), (around[3], 2, " }")] {
        let deep = 255 / rows;
        let inner = "set 5 = -(-(-(-(-(-(-int 1))))))";
        let statement = [around.repeat(deep), inner.to_string(), end.repeat(deep)].concat();
        let text = format!("expression $yes = true service 1 {{ input 1: int client {statement} }}");
        let file = assemble(&text).unwrap_or_else(|error| panic!("{around}: {error}")).file;
        let back = disassemble(&file).expect("a file that passes 2 to 5");
        assert!(assemble(&back).unwrap_or_else(|error| panic!("{around}: {error}")).file == file, "{around}");
    }
}

#[test]
fn files_that_break_rules_are_not_disassembled() {
    assert_eq!(disassemble(&[0; 28]).expect_err("no service").number, 3);
}
