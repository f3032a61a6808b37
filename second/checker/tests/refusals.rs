//! Every refusal of the checker, with each kind of place.

mod rows;

use rows::*;
use second::tables::Section::{
    self, Behaviours as B, Expressions as E, Operations as O, Paths as P, Services as S, Types as T,
};
use second::tables::{Tables, NONE};
use second::Cause::{self, *};
use second::{check, Refusal};

/// Two services: the first has a starter with a one-way and a request-response branch, the
/// second a client that asks it.
fn base() -> Tables {
    let mut tables = Tables {
        paths: vec![path(&[5]), path(&[5, 7]), path(&[6]), path(&[8, 1])],
        types: vec![
            root(VOID, 1, 2),
            mandatory(7, INT),
            optional(9, BOOL),
            mandatory(4, INT),
            root(INT, 0, 0),
            root(BOOL, 0, 0),
        ],
        ..Tables::default()
    };
    (tables.types[2].first_child, tables.types[2].child_count) = (3, 1);
    constant(&mut tables, INT, &[12, 0, 0, 0]);
    tables.expressions.extend([expression(1, 1, 0), expression(5, 1, 0), expression(7, 1, 0), expression(2, 1, 0)]);
    tables.behaviours = vec![
        behaviour(10, &[1, 2]),      // 0 starter
        behaviour(11, &[3, 4]),      // 1
        behaviour(11, &[5, 8]),      // 2
        behaviour(1, &[0, 0]),       // 3 receive into 5
        behaviour(7, &[6, 7]),       // 4
        behaviour(2, &[1, 2, 2, 9]), // 5 answer, into and from 6
        behaviour(9, &[3, 2]),       // 6 8.1 = 5.7 + 12
        behaviour(3, &[2, 1]),       // 7 send 5.7
        behaviour(0, &[]),           // 8
        behaviour(0, &[]),           // 9
        behaviour(7, &[11, 12]),     // 10 client
        behaviour(9, &[1, 0]),       // 11 5.7 = 12
        behaviour(4, &[3, 1, 2]),    // 12 ask 5.7 into 6
    ];
    tables.operations =
        vec![input(0, 1, 0, None), input(0, 2, 4, Some(4)), output(0, 7, 99, 4, None), output(1, 2, 10, 4, Some(4))];
    tables.services = vec![service(10, Some(0), None), service(20, None, Some(10))];
    tables
}

fn refusal(tables: &Tables) -> Refusal {
    check(&tables.write()).expect_err("a refusal")
}

/// A change of the base network is refused at a byte of a row.
fn at_byte(change: impl Fn(&mut Tables), section: Section, row: usize, offset: usize, cause: Cause) {
    let mut tables = base();
    change(&mut tables);
    let place = tables.layout().row(section, row) + offset;
    let found = refusal(&tables);
    let expected = Refusal::new(cause, place);
    assert_eq!(found, expected, "{:?} instead of {section:?} {row} + {offset}", tables.layout().locate(found.place));
}

/// A change of the base network is refused at a row number.
fn at_row(change: impl Fn(&mut Tables), row: usize, cause: Cause) {
    let mut tables = base();
    change(&mut tables);
    assert_eq!(refusal(&tables), Refusal::new(cause, row));
}

#[test]
fn the_base_network_is_accepted() {
    let expected = "accepted\n0 S 5 ! void\n0 S 5.7 ! int\n0 S 5.9 ? bool\n0 S 5.9.4 ! int\n0 S 6 ! int\n\
                    0 S 8 ! void\n0 S 8.1 ! int\n1 C 5 ! void\n1 C 5.7 ! int\n1 C 6 ! int";
    assert_eq!(verdict(&base()), expected);
}

#[test]
fn two_length_and_trailer() {
    let file = base().write();
    let refused = |file: &[u8]| check(file).expect_err("a refusal");
    assert_eq!(refused(&[]), Refusal::new(Length, 0));
    assert_eq!(refused(&[0; 27]), Refusal::new(Length, 0));
    assert_eq!(refused(&[0; 32_769]), Refusal::new(Length, 0));
    assert_eq!(refused(&file[1..]), Refusal::new(Trailer, 0));
    for byte in file.len() - 28..file.len() {
        let mut damaged = file.clone();
        damaged[byte] ^= 1;
        assert_eq!(refused(&damaged), Refusal::new(Trailer, 0), "byte {byte}");
    }
    // Counts are compared as numbers: 65535 rows of 8 bytes and 65535 bytes do not wrap around.
    for section in 0..7 {
        let mut damaged = file.clone();
        let count = file.len() - 28 + 4 * section + 2;
        damaged[count..count + 2].fill(255);
        assert_eq!(refused(&damaged), Refusal::new(Trailer, 0), "section {section}");
    }
}

#[test]
fn three_too_many_rows_or_no_service() {
    assert_eq!(check(&[0; 28]), Err(Refusal::new(NoService, 0)));
    let too_many = |change: fn(&mut Tables, usize), most: usize| {
        for (count, expected) in [(most, false), (most + 1, true)] {
            let mut tables = base();
            change(&mut tables, count);
            assert_eq!(check(&tables.write()).err().map(|refusal| refusal.number) == Some(3), expected, "{count}");
        }
    };
    too_many(|tables, count| tables.paths.resize(count, path(&[1])), 256);
    too_many(|tables, count| tables.types.resize(count, root(VOID, 0, 0)), 256);
    too_many(|tables, count| tables.expressions.resize(count, expression(1, 0, 0)), 256);
    too_many(|tables, count| tables.behaviours.resize(count, behaviour(0, &[])), 256);
    too_many(|tables, count| tables.operations.resize(count, input(0, 1, 0, None)), 64);
    too_many(|tables, count| tables.services.resize(count, service(1, None, None)), 4);
    // The data has no limit but the file's length.
    let mut tables = base();
    tables.data.resize(32_768 - 28 - tables.layout().start(Section::Data), 0);
    assert_eq!(tables.write().len(), 32_768);
    assert!(check(&tables.write()).is_ok());
}

#[test]
fn four_fields_of_paths() {
    at_byte(|t| t.paths[2] = [0; 4], P, 2, 0, Field);
    at_byte(|t| t.paths[2] = [5, 0, 7, 0], P, 2, 4, Field);
    at_byte(|t| t.paths[2] = [5, 0, 0, 7], P, 2, 6, Field);
    at_byte(|t| t.paths[2] = [0, 5, 0, 0], P, 2, 0, Field);
}

#[test]
fn four_fields_of_types() {
    at_byte(|t| t.types[1].cardinality = 2, T, 1, 2, Field);
    at_byte(|t| t.types[1].basic = 7, T, 1, 3, Field);
    at_byte(|t| t.types[1].first_child = 2, T, 1, 4, Field);
    // A run: not later, itself, past the end.
    at_byte(|t| (t.types[5].first_child, t.types[5].child_count) = (3, 1), T, 5, 4, TypeRun);
    at_byte(|t| t.types[2].child_count = 4, T, 2, 4, TypeRun);
    at_byte(|t| (t.types[3].first_child, t.types[3].child_count) = (3, 1), T, 3, 4, TypeRun);
    at_byte(|t| (t.types[5].first_child, t.types[5].child_count) = (65_535, 65_535), T, 5, 4, TypeRun);
    // The existing rows of a broken run are children all the same: here row 0 with id 0.
    at_byte(|t| (t.types[5].first_child, t.types[5].child_count) = (0, 1), T, 0, 0, ChildId);
    // Child ids.
    at_byte(|t| t.types[1].id = 0, T, 1, 0, ChildId);
    at_byte(|t| t.types[1].id = 9, T, 2, 0, ChildId);
    at_byte(|t| t.types[2].id = 6, T, 2, 0, ChildId);
    at_byte(|t| t.types[0].child_count = 3, T, 3, 0, ChildId);
}

#[test]
fn four_fields_of_expressions() {
    at_byte(|t| t.expressions[1].kind = 10, E, 1, 0, Field);
    at_byte(|t| t.expressions[0].basic = 7, E, 0, 1, Field);
    at_byte(|t| t.expressions[1].basic = 1, E, 1, 1, Field);
    at_byte(|t| t.expressions[1].fields[0] = 4, E, 1, 2, Field);
    at_byte(|t| t.expressions[4].fields[0] = 4, E, 4, 2, Field);
    at_byte(|t| t.expressions[1].fields[1] = 1, E, 1, 4, Field);
    at_byte(|t| t.expressions[1].fields[2] = 1, E, 1, 6, Field);
    at_byte(|t| t.expressions[2].fields[0] = 2, E, 2, 2, Field);
    at_byte(|t| t.expressions[2].fields[1] = 2, E, 2, 4, Field);
    at_byte(|t| t.expressions[2].fields[2] = 1, E, 2, 6, Field);
    at_byte(|t| t.expressions[3] = expression(3, 3, 0), E, 3, 2, Field);
    at_byte(|t| t.expressions[3] = expression(3, 2, 1), E, 3, 4, Field);
    at_byte(|t| t.expressions[0].fields[2] = 1, E, 0, 6, Field);
}

#[test]
fn four_constants() {
    at_byte(|t| t.expressions[0].fields[0] = 1, E, 0, 2, Constant);
    at_byte(|t| t.expressions[0].fields[1] = 3, E, 0, 2, Constant);
    at_byte(|t| t.expressions[0].fields = [65_535, 65_535, 0], E, 0, 2, Constant);
    at_byte(|t| t.expressions[0] = with_basic(BOOL, 0, 1), E, 0, 2, Constant);
    at_byte(|t| t.expressions[0] = with_basic(VOID, 5, 0), E, 0, 2, Constant);
    at_byte(
        |t| {
            t.data.extend((second::value::NAN_BITS + 1).to_le_bytes());
            t.expressions[0] = with_basic(DOUBLE, 4, 8);
        },
        E,
        0,
        2,
        Constant,
    );
    // An empty constant may start anywhere up to the end of the data.
    let mut tables = base();
    tables.expressions.push(with_basic(STRING, 4, 0));
    tables.expressions.push(with_basic(VOID, 2, 0));
    assert!(check(&tables.write()).is_ok());
}

/// The base network with one more constant, which nobody uses, and the place of its start field.
fn with_constant(basic: u8, bytes: &[u8]) -> (Tables, usize) {
    let mut tables = base();
    tables.expressions.push(with_basic(basic, tables.data.len() as u16, bytes.len() as u16));
    tables.data.extend(bytes);
    let place = tables.layout().row(E, tables.expressions.len() - 1) + 2;
    (tables, place)
}

#[test]
fn four_texts_of_constants() {
    for text in [&b"\x80"[..], b"abc\xc3", b"\xed\xa0\x80", b"0123456789abcde\xff"] {
        let (tables, place) = with_constant(STRING, text);
        assert_eq!(refusal(&tables), Refusal::new(BrokenText, place), "{text:02x?}");
        assert!(check(&with_constant(RAW, text).0.write()).is_ok(), "raw stays free");
    }
    for text in ["\0", "\u{feff}", "\u{ffff}\u{10ffff}", "荷荷荷荷荷a"] {
        assert!(check(&with_constant(STRING, text.as_bytes()).0.write()).is_ok(), "{text:?}");
    }
    // Too long, or past the data, is no matter of the text.
    let (tables, place) = with_constant(STRING, "荷荷荷荷荷é".as_bytes());
    assert_eq!(refusal(&tables), Refusal::new(Constant, place));
    let (mut tables, place) = with_constant(STRING, b"\xff");
    tables.data.pop();
    assert_eq!(refusal(&tables), Refusal::new(Constant, place));
}

/// Only the text of string constants is let pass, and only where nothing else is refused.
#[test]
fn any_text_is_read_where_that_is_all() {
    use second::Network;
    let (tables, place) = with_constant(STRING, b"a\xff");
    let network = Network::read_any_text(&tables.write()).expect("a network");
    assert_eq!(network.data[4..], *b"a\xff");
    for (change, cause) in [
        ((|tables| tables.services[0].location = 0) as fn(&mut Tables), BrokenText),
        (|tables| tables.types[2].first_child = 9, TypeRun),
        (|tables| tables.expressions[0].fields[1] = 3, Constant),
        (|tables| tables.types.extend(vec![mandatory(1, INT); 300]), TooManyRows),
    ] {
        let mut tables = tables.clone();
        change(&mut tables);
        let found = Network::read_any_text(&tables.write()).expect_err("a refusal");
        assert_eq!((found, found.cause), (refusal(&tables), cause));
    }
    assert_eq!(refusal(&tables), Refusal::new(BrokenText, place));
}

fn with_basic(basic: u8, start: u16, length: u16) -> second::tables::ExpressionRow {
    second::tables::ExpressionRow { kind: 0, basic, fields: [start, length, 0] }
}

#[test]
fn four_fields_of_behaviours() {
    at_byte(|t| t.behaviours[8].kind = 12, B, 8, 0, Field);
    at_byte(|t| t.behaviours[8].unused = 1, B, 8, 1, Field);
    for field in 0..4 {
        at_byte(|t| t.behaviours[8].fields[field] = 1, B, 8, 2 + 2 * field, Field);
    }
    at_byte(|t| t.behaviours[3].fields[0] = 4, B, 3, 2, Field);
    at_byte(|t| t.behaviours[3].fields[1] = 4, B, 3, 4, Field);
    at_byte(|t| t.behaviours[3].fields[2] = 1, B, 3, 6, Field);
    at_byte(|t| t.behaviours[3].fields[3] = 1, B, 3, 8, Field);
    at_byte(|t| t.behaviours[5].fields[2] = 4, B, 5, 6, Field);
    at_byte(|t| t.behaviours[5].fields[3] = 13, B, 5, 8, Field);
    at_byte(|t| t.behaviours[7].fields[1] = 5, B, 7, 4, Field);
    at_byte(|t| t.behaviours[12].fields[2] = 4, B, 12, 6, Field);
    at_byte(|t| t.behaviours[6].fields[0] = 4, B, 6, 2, Field);
    at_byte(|t| t.behaviours[6].fields[1] = 5, B, 6, 4, Field);
    at_byte(|t| t.behaviours[10].fields[1] = 13, B, 10, 4, Field);
    // A link to an unknown kind passes, the kind is the defect.
    at_byte(|t| t.behaviours[9].kind = 200, B, 9, 0, Field);
    // A branch's input must be an input.
    at_byte(|t| t.behaviours[3] = behaviour(0, &[]), B, 1, 2, Field);
    at_byte(|t| t.behaviours[3].kind = 99, B, 1, 2, Field);
    // A condition's row.
    at_byte(|t| t.behaviours[10] = behaviour(6, &[5, 11]), B, 10, 2, Field);
}

#[test]
fn four_choices() {
    at_byte(|t| t.behaviours[0].fields[1] = 0, B, 0, 4, Field);
    at_byte(|t| t.behaviours[0].fields = [0, 0, 0, 0], B, 0, 2, ChoiceRun);
    at_byte(|t| t.behaviours[0].fields[1] = 3, B, 0, 2, ChoiceRun);
    at_byte(|t| t.behaviours[0].fields[1] = 65_535, B, 0, 2, ChoiceRun);
    at_byte(|t| t.behaviours[0].fields[0] = 0, B, 0, 2, ChoiceRun);
    // Nine branches that fit: the count's own rule, at its field.
    let mut tables = Tables { paths: vec![path(&[1])], types: vec![root(VOID, 0, 0)], ..Tables::default() };
    tables.behaviours.push(behaviour(10, &[1, 9]));
    tables.behaviours.extend((0..9).map(|row| behaviour(11, &[10 + 2 * row, 11 + 2 * row])));
    for _ in 0..9 {
        tables.behaviours.extend([behaviour(1, &[0, 0]), behaviour(0, &[])]);
    }
    tables.operations = vec![input(0, 1, 0, None)];
    tables.services = vec![service(1, Some(0), None)];
    let count = tables.layout().row(B, 0) + 4;
    assert_eq!(refusal(&tables), Refusal::new(Field, count));
    // Eight: the rest of the rows is not used.
    tables.behaviours[0].fields[1] = 8;
    assert_eq!(refusal(&tables), Refusal::new(NeverUsed, tables.layout().row(B, 9)));
}

#[test]
fn four_uses() {
    at_byte(|t| t.behaviours.push(behaviour(0, &[])), B, 13, 0, NeverUsed);
    at_byte(|t| t.services[1].client = NONE, B, 10, 0, NeverUsed);
    // One row uses another twice.
    at_byte(|t| t.behaviours[10].fields[0] = 12, B, 10, 0, SecondUse);
    // Rows 2 and 4 use row 8.
    at_byte(|t| t.behaviours[4].fields[1] = 8, B, 4, 0, SecondUse);
    // A branch used outside a choice: the field, unless a second use comes before it.
    at_byte(|t| t.services[1].client = 2, B, 10, 0, NeverUsed);
    at_byte(|t| t.behaviours[4].fields = [6, 2, 0, 0], B, 4, 0, SecondUse);
    // An earlier row is used too.
    at_byte(|t| t.behaviours[10].fields[0] = 7, B, 10, 0, SecondUse);
    // A service uses a row again.
    at_byte(|t| t.services[1].starter = 0, S, 1, 0, SecondUse);
    at_byte(|t| t.services[0].client = 9, S, 0, 0, SecondUse);
    // Itself.
    at_byte(|t| t.behaviours[10].fields[0] = 10, B, 10, 2, Field);
}

#[test]
fn four_a_branch_outside_a_choice() {
    // The field that names it: by a row, by a client.
    at_byte(
        |t| {
            t.behaviours[0] = behaviour(7, &[1, 2]);
        },
        B,
        0,
        2,
        Field,
    );
    let mut tables = base();
    tables.behaviours.extend([behaviour(11, &[14, 15]), behaviour(1, &[0, 0]), behaviour(0, &[])]);
    tables.services[0].client = 13;
    assert_eq!(refusal(&tables), Refusal::new(Field, tables.layout().row(S, 0) + 4));
}

#[test]
fn four_operations() {
    at_byte(|t| t.operations[2].service = 2, O, 2, 0, Field);
    at_byte(|t| t.operations[2].direction = 2, O, 2, 1, Field);
    at_byte(|t| t.operations[2].two_way = 2, O, 2, 2, Field);
    at_byte(|t| t.operations[2].unused = 1, O, 2, 3, Field);
    at_byte(|t| t.operations[2].id = 0, O, 2, 4, Field);
    at_byte(|t| t.operations[2].location = 0, O, 2, 6, Field);
    at_byte(|t| t.operations[0].location = 1, O, 0, 6, Field);
    at_byte(|t| t.operations[2].reply = 4, O, 2, 10, Field);
    at_byte(|t| t.operations[2].request = 6, O, 2, 8, TypeRoot);
    at_byte(|t| t.operations[2].request = 1, O, 2, 8, TypeRoot);
    at_byte(|t| t.operations[3].reply = 6, O, 3, 10, TypeRoot);
    at_byte(|t| t.operations[3].reply = 1, O, 3, 10, TypeRoot);
    at_byte(|t| t.types[4].cardinality = 0, O, 1, 8, TypeRoot);
    at_byte(|t| t.types[4].id = 3, O, 1, 8, TypeRoot);
    at_byte(|t| t.operations[1].id = 1, O, 1, 0, RepeatedInput);
    at_byte(|t| t.operations.push(output(0, 7, 99, 4, None)), O, 4, 0, RepeatedOutput);
    // Another location, or another service, is another output.
    let mut tables = base();
    tables.operations.extend([output(0, 7, 98, 4, None), output(1, 7, 99, 4, None), input(1, 1, 0, None)]);
    assert!(check(&tables.write()).is_ok());
}

#[test]
fn four_services() {
    at_byte(|t| t.services[1].location = 0, S, 1, 0, Field);
    at_byte(|t| t.services[1].location = 10, S, 1, 0, RepeatedLocation);
    at_byte(|t| t.services[0].starter = 13, B, 0, 0, NeverUsed);
    at_byte(|t| t.services[1].client = 13, B, 10, 0, NeverUsed);
    // A starter that is no choice, a client past the rows.
    at_byte(|t| t.services[1] = service(20, Some(10), None), S, 1, 2, Field);
    at_byte(|t| t.services[0].client = 13, S, 0, 4, Field);
    at_byte(|t| t.services[1].starter = 13, S, 1, 2, Field);
}

#[test]
fn four_the_lowest_place_of_all() {
    at_byte(
        |t| {
            t.services[1].location = 0;
            t.operations[2].id = 0;
            t.expressions[1].kind = 10;
            t.behaviours[8].unused = 1;
        },
        E,
        1,
        0,
        Field,
    );
    // 4 comes before 5 even where the place of 5 is lower.
    at_byte(
        |t| {
            chain_of_types(t, 5);
            t.services[1].location = 0;
        },
        S,
        1,
        0,
        Field,
    );
}

/// Adds a type of some levels.
fn chain_of_types(tables: &mut Tables, levels: u16) {
    let start = tables.types.len() as u16;
    for level in 0..levels {
        let mut row = mandatory(level, VOID);
        if level + 1 < levels {
            (row.first_child, row.child_count) = (start + level + 1, 1);
        }
        tables.types.push(row);
    }
}

#[test]
fn five_types() {
    let mut tables = base();
    chain_of_types(&mut tables, 4);
    assert!(check(&tables.write()).is_ok());
    at_byte(|t| chain_of_types(t, 5), T, 6, 0, TypeSize);
    let wide = |t: &mut Tables, nodes: u16| {
        t.types.push(root(VOID, 7, nodes - 1));
        t.types.extend((1..nodes).map(|id| mandatory(id, VOID)));
    };
    let mut tables = base();
    wide(&mut tables, 16);
    assert!(check(&tables.write()).is_ok());
    at_byte(|t| wide(t, 17), T, 6, 0, TypeSize);
    // A shared row counts each time it is written out: 1 + 2 * (1 + 7) = 17 nodes.
    at_byte(
        |t| {
            t.types.push(root(VOID, 7, 2));
            t.types.extend([mandatory(1, VOID), mandatory(2, VOID)]);
            for row in [7, 8] {
                (t.types[row].first_child, t.types[row].child_count) = (9, 7);
            }
            t.types.extend((1..8).map(|id| mandatory(id, VOID)));
        },
        T,
        6,
        0,
        TypeSize,
    );
    // Written out sizes that no machine number holds.
    let mut tables = base();
    let start = tables.types.len() as u16;
    for pair in 0..120 {
        for id in [1, 2] {
            let mut row = mandatory(id, VOID);
            (row.first_child, row.child_count) = if pair < 119 { (start + 2 * pair + 2, 2) } else { (0, 0) };
            tables.types.push(row);
        }
    }
    assert_eq!(refusal(&tables), Refusal::new(TypeSize, tables.layout().row(T, start.into())));
}

#[test]
fn five_expressions() {
    let deep = |t: &mut Tables, levels: u16| {
        let start = t.expressions.len() as u16;
        t.expressions.push(expression(1, 1, 0));
        t.expressions.extend((1..levels).map(|level| expression(5, start + level - 1, start + level - 1)));
    };
    let mut tables = base();
    deep(&mut tables, 8);
    assert!(check(&tables.write()).is_ok());
    at_byte(|t| deep(t, 9), E, 5 + 8, 0, ExpressionSize);
    // Types come first.
    at_byte(
        |t| {
            deep(t, 9);
            chain_of_types(t, 5);
        },
        T,
        6,
        0,
        TypeSize,
    );
}

#[test]
fn six_operations() {
    at_row(|t| t.behaviours[7].fields[0] = 3, 7, OtherService);
    at_row(|t| t.behaviours[7].fields[0] = 0, 7, OtherDirection);
    at_row(|t| t.operations[2] = output(0, 7, 99, 4, Some(4)), 7, OtherKind);
    at_row(|t| t.behaviours[3].fields[0] = 1, 3, OtherKind);
    at_row(|t| t.behaviours[3].fields[0] = 2, 3, OtherDirection);
    at_row(|t| t.behaviours[5].fields[0] = 0, 5, OtherKind);
    at_row(|t| t.behaviours[12].fields[0] = 1, 12, OtherService);
    // The operation is tried before the expression.
    at_row(
        |t| {
            t.paths.push(path(&[77]));
            t.expressions.push(expression(1, 4, 0));
            t.behaviours[7].fields = [3, 5, 0, 0];
        },
        7,
        OtherService,
    );
}

#[test]
fn seven_paths() {
    let one_more = |t: &mut Tables, ids: &[u16], kind: u8| {
        t.paths.push(path(ids));
        let row = t.paths.len() as u16 - 1;
        t.expressions.push(expression(kind, row, 0));
        (row, t.expressions.len() as u16 - 1)
    };
    // Row 8 follows the answer, with 6 alone; row 4 follows the receive, with 5, 5.7, 5.9? and 5.9.4.
    let with = |ids: &'static [u16], kind: u8| {
        move |t: &mut Tables| {
            let (_, read) = one_more(t, ids, kind);
            t.behaviours[6].fields[1] = read;
        }
    };
    at_row(with(&[5, 8], 1), 6, ReadMissing);
    at_row(with(&[5, 9], 1), 6, ReadNotFirm);
    at_row(with(&[5, 9, 4], 1), 6, ReadNotFirm);
    at_row(with(&[5, 9, 5], 2), 6, PresenceMissing);
    let written = |ids: &'static [u16], basic: u8, value: &'static [u8]| {
        move |t: &mut Tables| {
            t.paths.push(path(ids));
            let value = constant(t, basic, value);
            t.behaviours[6] = behaviour(9, &[t.paths.len() as u16 - 1, value]);
        }
    };
    at_row(written(&[5, 9, 4], INT, &[0; 4]), 6, AboveNotFirm);
    at_row(written(&[5, 9, 5], INT, &[0; 4]), 6, PartNotFirm);
    at_row(written(&[5, 9], BOOL, &[0]), 6, OptionalKeepsMandatory);
    // The basic type is tried before the mandatory child.
    at_row(written(&[5, 9], INT, &[0; 4]), 6, AssignedBasic);
    // Placing under an optional node.
    at_row(|t| (t.behaviours[7], t.paths[2]) = (behaviour(1, &[0, 2]), path(&[5, 9, 4])), 7, AboveNotFirm);
    at_row(|t| (t.behaviours[7], t.paths[2]) = (behaviour(1, &[0, 2]), path(&[5, 9, 5])), 7, PartNotFirm);
    // The reply path.
    at_row(|t| t.behaviours[5].fields[2] = 0, 5, ReplyMissing);
    at_row(
        |t| {
            t.operations[1].request = 0;
            t.paths.push(path(&[6, 9]));
            t.behaviours[5].fields[2] = 4;
        },
        5,
        ReplyNotFirm,
    );
}

#[test]
fn an_optional_node_without_mandatory_children_may_be_assigned_and_stays_optional() {
    let mut tables = base();
    tables.types[3].cardinality = 0;
    tables.paths.push(path(&[5, 9]));
    let yes = constant(&mut tables, BOOL, &[1]);
    tables.behaviours[6] = behaviour(9, &[4, yes]);
    let text = verdict(&tables);
    assert!(text.starts_with("accepted\n0 S 5 ! void\n0 S 5.7 ! int\n0 S 5.9 ? bool\n0 S 5.9.4 ? int\n"), "{text}");
}

/// No operator takes void; generate/tests/operators.rs has each with every type and every pair of them.
#[test]
fn eight_operands() {
    for kind in 3..=9 {
        at_row(
            |t| {
                let void = constant(t, VOID, b"");
                t.expressions.push(expression(kind, void, if kind < 5 { 0 } else { void }));
                t.behaviours[6].fields[1] = void + 1;
            },
            6,
            Operand,
        );
    }
}

#[test]
fn eight_conditions_and_order() {
    // 5.7 is an int.
    for (kind, subs) in [(6, 1), (5, 2)] {
        at_row(
            |t| {
                t.behaviours[12] = behaviour(kind, &[1, 13, 14][..1 + subs]);
                t.behaviours.extend(vec![behaviour(0, &[]); subs]);
            },
            12,
            Condition,
        );
    }
    // The operands are typed before the operator's rule: a string and a missing path give 7.
    at_row(
        |t| {
            t.paths.push(path(&[77]));
            t.expressions.push(expression(1, 4, 0));
            let text = constant(t, STRING, b"x");
            t.expressions.push(expression(5, text, 5));
            t.behaviours[6].fields[1] = 7;
        },
        6,
        ReadMissing,
    );
}

#[test]
fn nine_types_that_do_not_fit() {
    // A second receive into 5, of an int.
    at_row(
        |t| {
            t.operations.push(input(0, 3, 4, None));
            t.behaviours[7] = behaviour(1, &[4, 0]);
        },
        7,
        PlacedType,
    );
    at_row(|t| (t.behaviours[7], t.expressions[4]) = (behaviour(3, &[2, 4]), expression(1, 0, 0)), 7, SentType);
    at_row(|t| t.operations[1].reply = 5, 5, ReplyType);
    at_row(|t| t.paths[3] = path(&[5]), 6, AssignedBasic);
    // A whole tree is sent, though as an operand it is its root value.
    at_row(
        |t| {
            t.paths.push(path(&[5, 7, 1]));
            t.behaviours[6].fields[0] = 4;
        },
        7,
        SentType,
    );
}

#[test]
fn ten_environments_that_differ() {
    let sides = |kind_of_right: fn() -> second::tables::BehaviourRow| {
        move |t: &mut Tables| {
            let yes = constant(t, BOOL, &[1]);
            t.behaviours[7] = behaviour(5, &[yes, 13, 14]);
            t.paths.push(path(&[30]));
            t.behaviours.extend([behaviour(9, &[4, yes]), kind_of_right()]);
        }
    };
    at_row(sides(|| behaviour(0, &[])), 7, IfSides);
    at_row(sides(|| behaviour(9, &[4, 0])), 7, IfSides);
    // A 7 in the second side comes before 10.
    at_row(
        |t| {
            sides(|| behaviour(0, &[]))(t);
            t.paths.push(path(&[31]));
            t.expressions.push(expression(1, 5, 0));
            t.behaviours[14] = behaviour(9, &[4, t.expressions.len() as u16 - 1]);
        },
        14,
        ReadMissing,
    );
    at_row(
        |t| {
            let yes = constant(t, BOOL, &[1]);
            t.behaviours[7] = behaviour(6, &[yes, 13]);
            t.paths.push(path(&[30]));
            t.behaviours.push(behaviour(9, &[4, yes]));
        },
        7,
        WhileBody,
    );
    // The starter: the same root with other types.
    at_row(|t| t.behaviours[5].fields = [1, 0, 0, 9], 0, StarterRoots);
}

#[test]
fn ten_a_client_choice_must_agree() {
    let network = |paths: Vec<[u16; 4]>| Tables {
        paths,
        types: vec![root(VOID, 0, 0)],
        behaviours: vec![
            behaviour(10, &[1, 2]),
            behaviour(11, &[3, 4]),
            behaviour(11, &[5, 6]),
            behaviour(1, &[0, 0]),
            behaviour(0, &[]),
            behaviour(1, &[1, 1]),
            behaviour(0, &[]),
        ],
        operations: vec![input(0, 1, 0, None), input(0, 2, 0, None)],
        services: vec![service(1, None, Some(0))],
        ..Tables::default()
    };
    assert_eq!(refusal(&network(vec![path(&[1]), path(&[2])])), Refusal::new(ChoiceBranches, 0));
    assert_eq!(verdict(&network(vec![path(&[1]), path(&[1])])), "accepted\n0 C 1 ! void");
    let mut starter = network(vec![path(&[1]), path(&[2])]);
    starter.services[0] = service(1, Some(0), None);
    assert_eq!(verdict(&starter), "accepted\n0 S 1 ! void\n0 S 2 ! void");
}

#[test]
fn eleven_shared_roots() {
    // Both sides read 5; the outer parallel is tried before the inner one and before any side.
    at_row(|t| t.behaviours[4].kind = 8, 4, SharedRoot);
    at_row(
        |t| {
            t.behaviours[10].kind = 8;
            t.paths.push(path(&[77]));
            t.expressions.push(expression(1, 4, 0));
            t.behaviours[11].fields[1] = 5;
        },
        10,
        SharedRoot,
    );
    // A presence counts too.
    at_row(
        |t| {
            t.behaviours[10].kind = 8;
            t.behaviours[12] = behaviour(9, &[2, 4]);
        },
        10,
        SharedRoot,
    );
    // Left, then right.
    let mut tables = base();
    let yes = constant(&mut tables, BOOL, &[1]);
    tables.behaviours[10].kind = 8;
    tables.behaviours[12] = behaviour(9, &[2, yes]);
    assert!(verdict(&tables).ends_with("1 C 5 ! void\n1 C 5.7 ! int\n1 C 6 ! bool"));
}

#[test]
fn twelve_the_union_of_a_starter() {
    // Two branches with 48 and 1 nodes.
    let mut tables = Tables { services: vec![service(1, Some(0), None)], ..Tables::default() };
    let yes = constant(&mut tables, BOOL, &[1]);
    tables.types = vec![root(VOID, 0, 0)];
    tables.operations = vec![input(0, 1, 0, None), input(0, 2, 0, None)];
    tables.paths = (1..=49).map(|id| path(&[id])).collect();
    tables.behaviours = vec![
        behaviour(10, &[1, 2]),
        behaviour(11, &[3, 5]),
        behaviour(11, &[4, 6]),
        behaviour(1, &[0, 0]),
        behaviour(1, &[1, 48]),
        behaviour(7, &[7, 8]),
        behaviour(0, &[]),
    ];
    // 2 to 48 as a chain of sequences from row 5.
    for id in 1..47 {
        let row = tables.behaviours.len() as u16;
        tables.behaviours.push(behaviour(9, &[id, yes]));
        if id < 46 {
            tables.behaviours.push(behaviour(7, &[row + 2, row + 3]));
        } else {
            tables.behaviours.push(behaviour(9, &[47, yes]));
        }
    }
    assert_eq!(refusal(&tables), Refusal::new(UnionNodes, 0));
    tables.behaviours[4].fields[1] = 0;
    assert_eq!(verdict(&tables).lines().count(), 49);
}

#[test]
fn thirteen_outputs() {
    at_row(|t| t.operations.push(output(0, 7, 20, 4, None)), 4, NoInput);
    at_row(|t| t.operations.push(output(0, 1, 10, 4, None)), 4, InputRequest);
    at_row(|t| t.operations.push(output(0, 2, 10, 4, None)), 4, InputKind);
    at_row(|t| t.operations.push(output(0, 1, 10, 0, Some(4))), 4, InputKind);
    at_row(|t| t.operations.push(output(0, 2, 10, 4, Some(5))), 4, InputReply);
    // To itself and fitting, or to a location outside: fine.
    let mut tables = base();
    tables.operations.extend([output(0, 2, 10, 4, Some(4)), output(0, 55, 56, 4, None)]);
    assert!(check(&tables.write()).is_ok());
    // After all services.
    at_row(
        |t| {
            t.operations.push(output(0, 7, 20, 4, None));
            t.behaviours[12].fields[0] = 2;
        },
        12,
        OtherService,
    );
}

/// The base network with another child of the first input's request type, and 7 in the second's.
fn keyed(child: second::tables::TypeRow) -> Tables {
    let mut tables = base();
    // 0: void { child, 7: int, 9?: bool { 4: int } }, 7: int { 7: int }
    tables.types = vec![
        root(VOID, 1, 3),
        child,
        mandatory(7, INT),
        optional(9, BOOL),
        mandatory(4, INT),
        root(BOOL, 0, 0),
        root(INT, 7, 1),
        mandatory(7, INT),
    ];
    (tables.types[3].first_child, tables.types[3].child_count) = (4, 1);
    tables.operations = vec![input(0, 1, 0, None), input(0, 2, 6, None), output(0, 7, 99, 5, None)];
    tables.behaviours = vec![behaviour(10, &[1, 1]), behaviour(11, &[2, 3]), behaviour(1, &[0, 0]), behaviour(0, &[])];
    tables.services = vec![service(10, Some(0), None), service(20, None, None)];
    tables
}

#[test]
fn twenty_three_by_the_child() {
    let verdict = |key: u16, child| {
        let mut tables = keyed(child);
        tables.services[0].key = key;
        check(&tables.write()).err()
    };
    let int = mandatory(3, INT);
    assert_eq!(verdict(0, int), None);
    assert_eq!(verdict(7, int), None, "both inputs have it");
    assert_eq!(verdict(3, int), Some(Refusal::new(KeyMissing, 1)), "the second input has it not");
    assert_eq!(verdict(7, mandatory(3, LONG)), None, "only the key counts");
    assert_eq!(verdict(3, mandatory(3, LONG)), Some(Refusal::new(KeyBasic, 0)));
    assert_eq!(verdict(3, optional(3, INT)), Some(Refusal::new(KeyOptional, 0)));
    assert_eq!(verdict(3, optional(3, LONG)), Some(Refusal::new(KeyOptional, 0)));
    assert_eq!(verdict(9, int), Some(Refusal::new(KeyOptional, 0)));
    // Only the root's own children count; any id is one.
    assert_eq!(verdict(4, int), Some(Refusal::new(KeyMissing, 0)));
    assert_eq!(verdict(65_535, int), Some(Refusal::new(KeyMissing, 0)));
}

#[test]
fn twenty_three_by_the_operation() {
    let verdict = |change: &dyn Fn(&mut Tables)| {
        let mut tables = keyed(mandatory(3, INT));
        change(&mut tables);
        check(&tables.write()).err()
    };
    // A service without inputs may have any key; outputs are not judged.
    assert_eq!(verdict(&|t| t.services[1].key = 3), None);
    let outputs = |t: &mut Tables| t.operations.retain(|row| row.direction == 1);
    let idle = |t: &mut Tables| (t.services[0], t.behaviours) = (service(10, None, None), vec![]);
    assert_eq!(
        verdict(&|t| {
            outputs(t);
            idle(t);
            t.services[0].key = 3;
        }),
        None
    );
    // No behaviour uses the second input.
    assert_eq!(verdict(&|t| t.services[0].key = 3), Some(Refusal::new(KeyMissing, 1)));
    // The lowest O row over all services, the second one's here.
    assert_eq!(
        verdict(&|t| {
            (t.services[0].key, t.services[1].key) = (3, 3);
            t.operations.insert(0, input(1, 5, 5, None));
            t.behaviours[2].fields[0] = 1;
        }),
        Some(Refusal::new(KeyMissing, 0))
    );
    // The key's own children are free.
    assert_eq!(
        verdict(&|t| {
            t.services[0].key = 7;
            (t.types[2].first_child, t.types[2].child_count) = (4, 1);
        }),
        None
    );
}

#[test]
fn twenty_three_after_thirteen() {
    let both = |change: fn(&mut Tables)| {
        let mut tables = keyed(mandatory(3, INT));
        tables.services[0].key = 3;
        change(&mut tables);
        refusal(&tables)
    };
    assert_eq!(both(|_| ()), Refusal::new(KeyMissing, 1));
    assert_eq!(both(|t| t.operations.push(output(1, 9, 10, 5, None))), Refusal::new(NoInput, 3));
    assert_eq!(both(|t| t.operations[0].id = 2), Refusal::new(RepeatedInput, keyed_row(1)));
}

/// The first byte of an O row of `keyed`.
fn keyed_row(row: usize) -> usize {
    keyed(mandatory(3, INT)).layout().row(O, row)
}

/// Whatever the last field of an S row is, 4 does not judge it.
#[test]
fn four_not_for_a_key() {
    for key in [0, 1, 7, 255, 256, 65_535] {
        let mut tables = base();
        tables.services[1].key = key;
        assert!(check(&tables.write()).is_ok(), "{key}: the second service has no input");
    }
}
