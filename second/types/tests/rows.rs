//! The rows of right texts.

use second::Basic;
use types::{read_types, write_types, Cause, Declaration, Types};

/// A row: id, cardinality, basic type, first child, child count.
type Row = (u16, u8, Basic, u16, u16);

fn read(text: &str) -> Types {
    read_types(text.as_bytes()).unwrap_or_else(|refusal| panic!("{refusal} {:?}: {text}", refusal.cause))
}

fn rows(text: &str) -> Vec<Row> {
    let row = |row: &second::tables::TypeRow| {
        let basic = Basic::from_byte(row.basic).expect("a basic type");
        (row.id, row.cardinality, basic, row.first_child, row.child_count)
    };
    read(text).rows.iter().map(row).collect()
}

use Basic::{Bool, Double, Int, Long, Raw, Void};

#[test]
fn each_basic_word_is_its_type() {
    for basic in Basic::ALL {
        assert_eq!(rows(&format!("type a:{}", basic.name())), [(0, 1, basic, 0, 0)]);
    }
}

#[test]
fn marks_are_cardinalities() {
    let text = "type a:void{.a:int.b?:int.c[0,1]:int.d[1,1]:int}";
    let cardinalities: Vec<u8> = rows(text).iter().skip(1).map(|row| row.1).collect();
    assert_eq!(cardinalities, [1, 0, 0, 1]);
}

#[test]
fn rows_go_level_by_level() {
    let text = "type a : void { .b : int { .c : bool { .d : raw } } .e? : long { .f : double } } type g : int";
    let expected = [
        (0, 1, Void, 1, 2),
        (1, 1, Int, 3, 1),
        (4, 0, Long, 4, 1),
        (2, 1, Bool, 5, 1),
        (5, 1, Double, 0, 0),
        (3, 1, Raw, 0, 0),
        (0, 1, Int, 0, 0),
    ];
    assert_eq!(rows(text), expected);
}

#[test]
fn children_are_written_by_rising_id() {
    // In the second list b (2) and a (1) stand in another order than they are written.
    let text = "type t : void { .a : int .b : bool } type u : void { .c : raw .b? : long .a : void }";
    let second = [(0, 1, Void, 4, 3), (1, 1, Void, 0, 0), (2, 0, Long, 0, 0), (3, 1, Raw, 0, 0)];
    assert_eq!(rows(text)[3..], second);
}

#[test]
fn a_named_tree_is_copied_with_its_ids() {
    let text = "type t : int { .a? : bool } type u : void { .b : t .c : t .a : t }";
    let expected = [
        (0, 1, Int, 1, 1),
        (1, 0, Bool, 0, 0),
        (0, 1, Void, 3, 3),
        (1, 1, Int, 6, 1),
        (2, 1, Int, 7, 1),
        (3, 1, Int, 8, 1),
        (1, 0, Bool, 0, 0),
        (1, 0, Bool, 0, 0),
        (1, 0, Bool, 0, 0),
    ];
    assert_eq!(rows(text), expected);
}

#[test]
fn ids_go_by_first_use_in_the_whole_text() {
    let text = "type t : void { .x : int { .y : int } .z : int } type u : void { .y : int .w : int .x : int }";
    let read = read(text);
    assert_eq!(read.children, ["x", "y", "z", "w"]);
    let declaration = |name: &str, row| Declaration { name: name.into(), row };
    assert_eq!(read.declarations, [declaration("t", 0), declaration("u", 4)]);
    assert_eq!(read.rows[5..].iter().map(|row| row.id).collect::<Vec<_>>(), [1, 2, 4]);
}

#[test]
fn a_text_says_nothing_by_its_blanks() {
    let close = "type a:int{.b[0,1]:bool{.c:raw}.d?:void}type e:long";
    let wide = "\n type\n\na  :\nint { . b [0,1] : bool\n{\n.\nc : raw } .d ? : void } \n type e:long \n";
    assert_eq!(rows(close), rows(wide));
    let expected =
        vec![(0, 1, Int, 1, 2), (1, 0, Bool, 3, 1), (3, 0, Void, 0, 0), (2, 1, Raw, 0, 0), (0, 1, Long, 0, 0)];
    assert_eq!(rows(close), expected);
}

#[test]
fn words_of_the_grammar_name_what_they_may() {
    let text = "type type : void { .type : int .int : bool .void : void } type Int : int { .type : type }";
    let read = read(text);
    assert_eq!(read.children, ["type", "int", "void"]);
    assert_eq!(read.declarations.iter().map(|declared| declared.name.as_str()).collect::<Vec<_>>(), ["type", "Int"]);
    // Case counts, a type and a child may share a name, and 16 bytes are not too many.
    read_types(b"type a:int type A:int type abcdefghijklmno_:int type a23456789012345 :int{.a23456789012345:A .a:a}")
        .expect("a right text");
}

#[test]
fn an_inner_list_may_use_an_outer_child_s_name() {
    let expected = [(0, 1, Void, 1, 1), (1, 1, Int, 2, 1), (1, 1, Int, 0, 0)];
    assert_eq!(rows("type t:void{.a:int{.a:int}}"), expected);
}

#[test]
fn a_text_without_declarations_is_done() {
    for text in ["", " ", "\n", " \n  \n"] {
        let mut out = [0xa5; 2048];
        assert_eq!(write_types(text.as_bytes(), &mut out), Ok(0));
        assert_eq!(out, [0xa5; 2048]);
    }
}

#[test]
fn the_bytes_of_the_rows_are_written_and_those_past_them_stay() {
    let mut out = [0xa5; 2050];
    let text = b"type t : void { .a? : int .b : string }";
    assert_eq!(write_types(text, &mut out), Ok(24));
    let expected = [0, 0, 1, 6, 1, 0, 2, 0, 1, 0, 0, 1, 0, 0, 0, 0, 2, 0, 1, 4, 0, 0, 0, 0];
    assert_eq!(out[..24], expected);
    assert_eq!(out[24..], [0xa5; 2026]);
}

#[test]
fn a_refusal_leaves_the_buffer() {
    let many = "type a:int{.a:int.b:int.c:int}type b:int{.a:a.b:a.c:a}type c:int{.a:b.b:b.c:b}type d:int{.a:c.b:c.c:c}";
    for (text, size, cause) in [
        ("type a", 2048, Cause::EndsTooSoon),
        ("type a:int", 2047, Cause::OutBuffer),
        (&many[..78], 2048, Cause::TypeSize),
        (&(many.to_string() + "type e:int{.a:d}"), 2048, Cause::TooManyRows),
        (&" ".repeat(8193), 2048, Cause::TextLength),
    ] {
        let mut out = vec![0xa5; size];
        assert_eq!(write_types(text.as_bytes(), &mut out).expect_err(text).cause, cause, "{text}");
        assert!(out.iter().all(|&byte| byte == 0xa5), "{text}");
    }
}
