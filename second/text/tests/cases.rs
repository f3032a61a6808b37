//! The networks in cases/: each file is what its text assembles to, or is damaged as said here, and
//! the checker prints the text beside it.

use std::collections::{BTreeMap, BTreeSet};
use std::path::PathBuf;

use net::{assemble, disassemble};
use second::tables::{BehaviourRow, ExpressionRow, OperationRow, Tables, TypeRow, TRAILER};
use second::Cause;

fn folder() -> PathBuf {
    PathBuf::from(env!("CARGO_MANIFEST_DIR")).join("../../cases")
}

/// The files of cases/ with an extension, by name.
fn files(extension: &str) -> BTreeMap<String, Vec<u8>> {
    let entries = std::fs::read_dir(folder()).expect("cases/").map(|entry| entry.expect("an entry").path());
    entries
        .filter(|path| path.extension().is_some_and(|found| found == extension))
        .map(|path| {
            (path.file_stem().expect("a name").to_string_lossy().into_owned(), std::fs::read(path).expect("bytes"))
        })
        .collect()
}

fn texts(extension: &str) -> BTreeMap<String, String> {
    files(extension).into_iter().map(|(name, bytes)| (name, String::from_utf8(bytes).expect("text"))).collect()
}

#[test]
fn each_file_is_its_text_assembled_or_damaged() {
    let mut made: BTreeMap<String, Vec<u8>> = BTreeMap::new();
    for (name, text) in texts("net") {
        let file = assemble(&text).unwrap_or_else(|error| panic!("{name}: {error}")).file;
        made.insert(name, file);
    }
    for (name, file) in damaged_sections().into_iter().chain(damaged_rows()) {
        assert!(made.insert(name.to_string(), file).is_none(), "{name} has a text and is damaged");
    }
    let files = files("bin");
    assert_eq!(made.keys().collect::<Vec<_>>(), files.keys().collect::<Vec<_>>());
    for (name, file) in &files {
        assert!(made[name] == *file, "{name}.bin is not what its text or its damage gives");
    }
}

#[test]
fn each_report_is_as_written() {
    let texts = texts("txt");
    let files = files("bin");
    assert_eq!(texts.keys().collect::<Vec<_>>(), files.keys().collect::<Vec<_>>());
    for (name, file) in &files {
        assert_eq!(second::report(&second::check(file)), texts[name], "{name}");
    }
}

#[test]
fn each_file_that_passes_2_to_5_survives_the_round_trip() {
    for (name, file) in files("bin") {
        match disassemble(&file) {
            Ok(text) => assert!(assemble(&text).expect("a right text").file == file, "{name}"),
            Err(refusal) => assert!(refusal.number <= 5, "{name}"),
        }
    }
}

/// Every rule behind 6 to 13 and 23 refuses a file, at each kind of row that it can refuse. A nil (0), a
/// sequence (7) and a branch (11) have no premise of their own.
#[test]
fn each_rule_and_each_kind_that_it_can_refuse_has_a_file() {
    let mut causes = BTreeSet::new();
    let mut kinds: BTreeMap<u8, BTreeSet<u8>> = BTreeMap::new();
    for file in files("bin").values() {
        let Err(refusal) = second::check(file) else { continue };
        causes.insert(refusal.cause);
        if (6..=12).contains(&refusal.number) {
            let row = Tables::read(file).expect("sections").0.behaviours[refusal.place];
            kinds.entry(refusal.number).or_default().insert(row.kind);
        }
    }
    let expected = Cause::ALL.into_iter().filter(|cause| cause.number() >= 6);
    assert_eq!(expected.filter(|cause| !causes.contains(cause)).collect::<Vec<_>>(), []);
    let expected: [(u8, &[u8]); 7] = [
        (6, &[1, 2, 3, 4]),
        (7, &[1, 2, 3, 4, 5, 6, 9]),
        (8, &[3, 4, 5, 6, 9]),
        (9, &[1, 2, 3, 4, 9]),
        (10, &[5, 6, 10]),
        (11, &[8]),
        (12, &[1, 2, 4, 9, 10]),
    ];
    let expected = expected.map(|(number, kinds)| (number, kinds.iter().copied().collect()));
    assert_eq!(kinds, BTreeMap::from(expected));
}

#[test]
fn each_kind_of_row_is_accepted() {
    let (mut behaviours, mut expressions) = (BTreeSet::new(), BTreeSet::new());
    for file in files("bin").values().filter(|file| second::check(file).is_ok()) {
        let tables = Tables::read(file).expect("sections").0;
        behaviours.extend(tables.behaviours.iter().map(|row| row.kind));
        expressions.extend(tables.expressions.iter().map(|row| row.kind));
    }
    assert_eq!(behaviours, (0..=11).collect());
    assert_eq!(expressions, (0..=9).collect());
}

/// The table in cases/README.md: for each file what it shows, the sentence of 01 (or `02: ` and one of 02) and the
/// answer.
fn table() -> BTreeMap<String, [String; 3]> {
    let page = std::fs::read_to_string(folder().join("README.md")).expect("cases/README.md");
    let mut rows = BTreeMap::new();
    for line in page.lines().filter(|line| line.starts_with("| ")).skip(1) {
        let cells: Vec<String> = line.trim_matches('|').split('|').map(|cell| cell.trim().to_string()).collect();
        let [name, shows, sentence, answer]: [String; 4] = cells.try_into().expect("four cells");
        assert!(rows.insert(name.clone(), [shows, sentence, answer]).is_none(), "{name} twice");
    }
    rows
}

#[test]
fn the_table_says_what_the_files_say() {
    let (texts, answers, table) = (texts("net"), texts("txt"), table());
    assert_eq!(table.keys().collect::<Vec<_>>(), answers.keys().collect::<Vec<_>>());
    for (name, [shows, sentence, answer]) in &table {
        assert_eq!(answers[name].lines().next(), Some(answer.as_str()), "{name}");
        if let Some(text) = texts.get(name) {
            let (paper, sentence) =
                sentence.strip_prefix("02: ").map_or(("01", sentence.as_str()), |of_02| ("02", of_02));
            assert_eq!(text.lines().next(), Some(format!("// {shows}. {paper}: \"{sentence}\"").as_str()), "{name}");
        }
    }
}

/// Each refused text but those with two faults names one.
#[test]
fn each_neighbour_is_accepted() {
    let answers = texts("txt");
    for (name, text) in texts("net") {
        let near = text.lines().nth(1).and_then(|line| line.strip_prefix("// Accepted neighbour: "));
        assert_eq!(near.is_some(), !name.starts_with("ok_") && !name.starts_with("order_"), "{name}");
        if let Some(near) = near {
            assert!(answers[near.trim_end_matches('.')].starts_with("accepted"), "{name}");
        }
    }
}

fn tables(text: &str) -> Tables {
    Tables::read(&assemble(text).unwrap_or_else(|error| panic!("{error}")).file).expect("sections").0
}

/// The rows of an accepted case, changed.
fn changed(name: &str, change: fn(&mut Tables)) -> Vec<u8> {
    let text = std::fs::read_to_string(folder().join(format!("{name}.net"))).expect("a text");
    let mut tables = tables(&text);
    change(&mut tables);
    tables.write()
}

/// A type row with 16 children, so of 17 nodes, and the children.
fn seventeen(tables: &mut Tables) {
    let child = |id| TypeRow { id, cardinality: 1, basic: 1, ..TypeRow::default() };
    tables.types = (0..=16).map(child).collect();
    tables.types[0] = TypeRow { basic: 6, first_child: 1, child_count: 16, ..tables.types[0] };
}

/// A child under the last of four levels.
fn fifth_level(tables: &mut Tables) {
    (tables.types[3].first_child, tables.types[3].child_count) = (4, 1);
    tables.types.push(TypeRow { id: 1, cardinality: 1, basic: 1, first_child: 0, child_count: 0 });
}

/// The client's expression negated once more.
fn ninth_level(tables: &mut Tables) {
    tables.expressions.push(ExpressionRow { kind: 4, basic: 0, fields: [7, 0, 0] });
    tables.behaviours[0].fields[1] = 8;
}

/// A client that reads a path that is not there, changed.
fn unread(change: fn(&mut Tables)) -> Vec<u8> {
    let mut tables = tables("service 1 { client set 5 = 7 }");
    change(&mut tables);
    tables.write()
}

/// A client that does nothing inside 256 whiles.
fn whiles(tables: &mut Tables) {
    tables.data.push(1);
    tables.expressions.push(ExpressionRow { kind: 0, basic: 0, fields: [0, 1, 0] });
    let around = |row| BehaviourRow { kind: 6, unused: 0, fields: [0, row, 0, 0] };
    tables.behaviours = (1..=256).map(around).chain([BehaviourRow::default()]).collect();
}

/// The files without a text that break 2 or 3: what the assembler makes passes 2 to 5, but for texts of constants.
fn damaged_sections() -> Vec<(&'static str, Vec<u8>)> {
    let steps = changed("ok_steps", |_| ());
    let (sections, trailer) = steps.split_at(steps.len() - TRAILER);
    let types: fn(&mut Tables) = |tables| {
        tables.types = vec![TypeRow { cardinality: 1, basic: 1, ..TypeRow::default() }; 257];
    };
    let expressions: fn(&mut Tables) = |tables| {
        tables.expressions = vec![ExpressionRow { basic: 6, ..ExpressionRow::default() }; 257];
    };
    let operations: fn(&mut Tables) = |tables| {
        tables.operations.push(OperationRow { id: 65, ..tables.operations[63] });
    };
    vec![
        ("02_one_byte_short", steps[..65].to_vec()),
        ("02_one_byte_more", [sections, &[0], trailer].concat()),
        ("02_count", [&steps[..64], &[5, 0]].concat()),
        ("02_before_03", vec![0; 29]),
        ("03_before_04", changed("ok_steps", |tables| tables.services.clear())),
        ("03_types", changed("ok_nil", types)),
        ("03_expressions", changed("ok_nil", expressions)),
        ("03_behaviours", changed("ok_nil", whiles)),
        ("03_operations", changed("ok_operations_64", operations)),
    ]
}

/// Those that break 4 or 5.
fn damaged_rows() -> Vec<(&'static str, Vec<u8>)> {
    let field: fn(&mut Tables) = |tables| tables.behaviours[0].fields[3] = 1;
    let service: fn(&mut Tables) = |tables| tables.services[0].location = 0;
    let service_and_row: fn(&mut Tables) = |tables| {
        tables.services[0].location = 0;
        tables.behaviours[0].unused = 7;
    };
    let seventeen_and_row: fn(&mut Tables) = |tables| {
        seventeen(tables);
        tables.behaviours[0].unused = 7;
    };
    let seventeen_and_text: fn(&mut Tables) = |tables| {
        seventeen(tables);
        tables.data.push(0xff);
        tables.expressions.push(ExpressionRow { kind: 0, basic: 4, fields: [0, 1, 0] });
    };
    let seventeen_and_ninth: fn(&mut Tables) = |tables| {
        seventeen(tables);
        ninth_level(tables);
    };
    vec![
        ("04_unused_field", changed("ok_steps", field)),
        ("04_before_05", changed("ok_type_nodes", seventeen_and_row)),
        ("04_before_07", unread(service)),
        ("04_lowest_place", unread(service_and_row)),
        ("04_text_before_05", changed("ok_type_nodes", seventeen_and_text)),
        ("05_type_nodes", changed("ok_type_nodes", seventeen)),
        ("05_type_levels", changed("ok_type_levels", fifth_level)),
        ("05_expression_levels", changed("ok_expression_levels", ninth_level)),
        ("05_before_07", unread(seventeen)),
        ("05_lowest_place", changed("ok_expression_levels", seventeen_and_ninth)),
    ]
}
