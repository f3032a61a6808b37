//! The statement `types`: rows, names and errors of a file of type declarations.

use net::{assemble, assemble_with, Assembled, Error, NamedFile, Refused};
use second::tables::{Tables, TypeRow};
use second::Basic;

/// Assembles a text beside one file, a.types.
fn with(types: &str, text: &str) -> Result<Assembled, Error> {
    assemble_with(text, &mut |name| match name {
        b"a.types" => Ok(NamedFile { name: "here/a.types".into(), bytes: types.into() }),
        _ => Err(format!("{}: not there", String::from_utf8_lossy(name))),
    })
}

fn tables(types: &str, text: &str) -> Tables {
    let made = with(types, text).unwrap_or_else(|error| panic!("{error}: {text}"));
    Tables::read(&made.file).expect("sections").0
}

/// File, line, column and message of an error, which is refused by no number.
fn error(types: &str, text: &str) -> (Option<String>, usize, usize, String) {
    let error = with(types, text).expect_err("an error");
    assert_eq!(error.refusal, None);
    (error.file, error.line, error.column, error.message)
}

fn row(id: u16, cardinality: u8, basic: Basic, first_child: u16, child_count: u16) -> TypeRow {
    TypeRow { id, cardinality, basic: basic.byte(), first_child, child_count }
}

const LIFT: &str = "type Lift : void { .load : double .clipped? : bool }\ntype Top : void { .lift : Lift }";

#[test]
fn the_file_s_rows_come_first_and_its_names_are_known() {
    let text = "id reading = 9\ntypes \"a.types\"\ntype Own = int { lift: Lift, 7?: long }\n\
                service 1 { input reading: Top input 8: Own client set clipped.load = int 1 }";
    let tables = tables(LIFT, text);
    let expected = [
        row(0, 1, Basic::Void, 1, 2),
        row(1, 1, Basic::Double, 0, 0),
        row(2, 0, Basic::Bool, 0, 0),
        row(0, 1, Basic::Void, 4, 1),
        row(3, 1, Basic::Void, 5, 2),
        row(1, 1, Basic::Double, 0, 0),
        row(2, 0, Basic::Bool, 0, 0),
        row(0, 1, Basic::Int, 8, 2),
        row(3, 1, Basic::Void, 10, 2),
        row(7, 0, Basic::Long, 0, 0),
        row(1, 1, Basic::Double, 0, 0),
        row(2, 0, Basic::Bool, 0, 0),
    ];
    assert_eq!(tables.types, expected);
    assert_eq!(tables.operations.iter().map(|row| row.request).collect::<Vec<_>>(), [3, 7]);
    assert_eq!(tables.paths, [[2, 1, 0, 0]]);
}

#[test]
fn a_network_that_declares_the_same_types_has_the_same_bytes() {
    let rest = "type Own = int { lift: Lift } service 1 { input 9: Top client set load.clipped = int 1 }";
    let own = "id load = 1 id clipped = 2 id lift = 3 type Lift = void { clipped?: bool, load: double } \
               type Top = void { lift: Lift }";
    let made = with(LIFT, &format!("types \"a.types\" {rest}")).expect("a right text");
    assert_eq!(made.file, assemble(&format!("{own} {rest}")).expect("a right text").file);
}

#[test]
fn a_file_without_types_changes_nothing() {
    let text = "service 1 { client set 5 = int 1 }";
    let made = with("\n \n", &format!("types \"a.types\" {text}")).expect("a right text");
    assert_eq!(made.file, assemble(text).expect("a right text").file);
}

#[test]
fn a_name_that_is_a_word_of_the_language_is_reached_by_number() {
    let types = "type data : void { .if : int .int : bool .to : raw }";
    let tables = tables(types, "types \"a.types\" service 1 { client set 1.3 = int 1 }");
    assert_eq!(tables.types[1..].iter().map(|row| row.id).collect::<Vec<_>>(), [1, 2, 3]);
    let used = error(types, "types \"a.types\"\nservice 1 { client set if = int 1 }");
    assert_eq!(used, (None, 2, 24, "`if` is a word of the language and no name".into()));
}

#[test]
fn it_stands_once_before_every_type() {
    let message = || "`types` stands once, before every type".to_string();
    for (text, line, column) in [
        ("types \"a.types\"\ntypes \"a.types\"", 2, 1),
        ("types \"a.types\" types \"b.types\"", 1, 17),
        ("type A = int\n types \"a.types\"", 2, 2),
        ("node a = 1: int\ntypes \"a.types\"", 2, 1),
        ("service 1 { input 1: int }\n  types \"a.types\"", 2, 3),
    ] {
        assert_eq!(error("", text), (None, line, column, message()), "{text}");
    }
    assert!(with("", "id a = 1 location b = 2 path 5 types \"a.types\" service b {}").is_ok());
}

#[test]
fn names_that_are_declared_already_are_errors() {
    let child = "the id `load` is declared already, and here/a.types has a child of that name";
    assert_eq!(error(LIFT, "id load = 1\ntypes \"a.types\""), (None, 2, 7, child.into()));
    let id = "this name is declared already";
    assert_eq!(error(LIFT, "types \"a.types\"\nid x = 4 id clipped = 2"), (None, 2, 10, id.into()));
    let named = "a type of this name is declared already";
    assert_eq!(error(LIFT, "types \"a.types\"\n\ntype Lift = void"), (None, 3, 1, named.into()));
    assert_eq!(error(LIFT, "types \"a.types\"\nnode Top = 1: void"), (None, 2, 1, named.into()));
    // Locations and expressions have names of their own.
    assert!(with(LIFT, "types \"a.types\" location load = 3 expression $Lift = int 1 service load {}").is_ok());
}

#[test]
fn a_refused_file_is_told_with_its_line_and_column() {
    for (types, number, place, line, column, sentence) in [
        ("type A : int\ntype B : A", 21, 22, 2, 10, "a basic type expected"),
        ("type A : int {\n    .b\t: int }", 20, 21, 2, 7, "no text of types has this byte"),
        ("type A : int\n\ntype", 21, 18, 3, 5, "the text ends too soon"),
        ("type A:int\ntype B:int{.a:int{.b:int{.c:int{.d:int}}}}", 5, 8, 2, 6, "the type written out has more"),
        (&" ".repeat(8193), 2, 0, 1, 8193, "the text has more than 8192 bytes"),
    ] {
        let error = with(types, "\n\ntypes \"a.types\" service 1 {}").expect_err("a refusal");
        assert_eq!((error.file.as_deref(), error.line, error.column), (Some("here/a.types"), line, column), "{types}");
        let Some(Refused::Types(refusal)) = error.refusal else { panic!("{error}") };
        assert_eq!((refusal.number, refusal.place), (number, place), "{types}");
        assert!(error.message.starts_with(&format!("refused {number} {place}: {sentence}")), "{error}");
    }
}

#[test]
fn other_errors_are_told_in_the_text() {
    assert_eq!(error("", "types \"b.types\""), (None, 1, 7, "b.types: not there".into()));
    assert_eq!(error("", "types a.types").2, 7);
    assert_eq!(error("", "types \"a.types\nservice 1 {}").3, "the string does not end on its line");
    assert_eq!(assemble("types \"a.types\"").expect_err("no file").message, "this text can name no file");
    let many: String = (0..250).map(|number| format!("type t{number}:int ")).collect();
    let own: String = (0..7).map(|number| format!("type O{number} = int\n")).collect();
    let text = format!("types \"a.types\"\n{own}service 1 {{}}");
    assert_eq!(error(&many, &text), (None, 8, 11, "there are at most 256 T rows".into()));
    assert_eq!(tables(&many, &text.replace("type O6 = int\n", "")).types.len(), 256);
}
