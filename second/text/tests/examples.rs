//! The networks in examples/: each file is what its text assembles to, with the verdict here.

use std::collections::BTreeSet;
use std::path::PathBuf;

use net::{assemble, assemble_with, disassemble, rows, NamedFile};

fn folder() -> PathBuf {
    PathBuf::from(env!("CARGO_MANIFEST_DIR")).join("../../examples")
}

/// Name, first line of the report, lines of the report, line and column of a refusal.
type Verdict = (&'static str, &'static str, usize, Option<(usize, usize)>);

const VERDICTS: [Verdict; 12] = [
    ("assign", "accepted", 3, None),
    ("branches", "accepted", 5, None),
    ("counter", "accepted", 9, None),
    ("flag_refused", "refused 7 3", 1, Some((18, 13))),
    ("hall", "accepted", 18, None),
    ("hall_refused", "refused 9 5", 1, Some((21, 53))),
    ("keyed", "accepted", 16, None),
    ("labels", "accepted", 9, None),
    ("lift", "accepted", 12, None),
    ("nested", "accepted", 15, None),
    ("parallel", "accepted", 4, None),
    ("scale", "accepted", 13, None),
];

/// A file that an example names.
fn beside(name: &[u8]) -> Result<NamedFile, String> {
    let name = String::from_utf8_lossy(name).into_owned();
    let bytes = std::fs::read(folder().join(&name)).map_err(|error| error.to_string())?;
    Ok(NamedFile { name, bytes })
}

#[test]
fn each_example_has_its_verdict() {
    for (name, first, lines, place) in VERDICTS {
        let text = std::fs::read_to_string(folder().join(format!("{name}.net"))).expect("a text");
        let file = std::fs::read(folder().join(format!("{name}.bin"))).expect("a file");
        let made = assemble_with(&text, &mut beside).unwrap_or_else(|error| panic!("{name}: {error}"));
        assert!(made.file == file, "{name}.bin is not what {name}.net assembles to");
        let verdict = second::check(&file);
        let report = second::report(&verdict);
        assert_eq!(report.lines().next(), Some(first), "{name}");
        assert_eq!(report.lines().count(), lines, "{name}");
        assert_eq!(std::fs::read_to_string(folder().join(format!("{name}.txt"))).expect("an answer"), report, "{name}");
        assert_eq!(verdict.err().and_then(|refusal| made.origin(&text, &refusal)), place, "{name}");
    }
}

#[test]
fn each_example_is_in_the_table() {
    let mut names = BTreeSet::new();
    for entry in std::fs::read_dir(folder()).expect("examples/") {
        let path = entry.expect("an entry").path();
        if path.is_dir() {
            continue; // messages for the reader
        }
        names.insert(path.file_stem().expect("a name").to_string_lossy().into_owned());
    }
    let expected: BTreeSet<String> = VERDICTS.iter().map(|row| row.0.to_string()).collect();
    assert_eq!(names, expected);
}

#[test]
fn each_example_survives_the_round_trip_without_row_numbers() {
    for (name, ..) in VERDICTS {
        let file = std::fs::read(folder().join(format!("{name}.bin"))).expect("a file");
        let text = disassemble(&file).expect("a file that passes 2 to 5");
        assert!(assemble(&text).expect("a right text").file == file, "{name}");
        assert!(!text.contains('@') && !text.contains("data") && !text.contains('#'), "{name}:\n{text}");
    }
}

#[test]
fn the_paper_s_case_d_is_66_bytes() {
    let file = assemble("service 1 { client set 5.7 = int 12 }").expect("a right text").file;
    let expected = "0500070000000000000100000400000009000000000000000000\
                    0100ffff000000000c000000\
                    00000100080000000800010010000100\
                    1a0000001a00010022000400";
    assert_eq!(file.iter().map(|byte| format!("{byte:02x}")).collect::<String>(), expected);
    assert_eq!(disassemble(&file).expect("rows"), "service 1 {\n    client set 5.7 = int 12\n}\n");
}

/// The indented block of docs/NETWORKS.md that starts with a line.
fn block(first: &str) -> String {
    let path = PathBuf::from(env!("CARGO_MANIFEST_DIR")).join("../../docs/NETWORKS.md");
    let page = std::fs::read_to_string(path).expect("docs/NETWORKS.md");
    let lines = page.lines().skip_while(|line| line.trim() != first);
    lines
        .take_while(|line| line.is_empty() || line.starts_with("    "))
        .map(|line| format!("{}\n", line.trim_start_matches("    ")))
        .collect::<String>()
        .trim_end()
        .to_string()
}

#[test]
fn the_worked_example_of_the_page_is_as_it_says() {
    let text = block("id load = 1                     // children of messages");
    let made = assemble(&text).unwrap_or_else(|error| panic!("{error}\n{text}"));
    assert_eq!(second::report(&second::check(&made.file)).trim_end(), block("accepted"));
}

#[test]
fn the_broken_label_of_the_page_is_refused_as_it_says() {
    let [text, told] = ["service 1 { client set 5 = \"φ\\xcf\" }", "refused 4 10"].map(block);
    let text = text.lines().next().expect("a line");
    let made = assemble(text).unwrap_or_else(|error| panic!("{error}"));
    let refusal = second::check(&made.file).expect_err("broken text");
    let (line, column) = made.origin(text, &refusal).expect("a row");
    assert_eq!(told, format!("{refusal}\na.net: line {line}, column {column}: {}", refusal.cause.sentence()));
}

#[test]
fn the_unfit_key_of_the_page_is_refused_as_it_says() {
    let [text, told] = ["service 3 keyed by 1 { input 11: void { 1?: int } }", "refused 23 0"].map(block);
    let text = text.lines().next().expect("a line");
    let made = assemble(text).unwrap_or_else(|error| panic!("{error}"));
    let refusal = second::check(&made.file).expect_err("an unfit input");
    let (line, column) = made.origin(text, &refusal).expect("a row");
    let sentence = net::sentences::sentence(&made, text, &refusal);
    assert_eq!(told, format!("{refusal}\na.net: line {line}, column {column}: {sentence}"));
}

#[test]
fn the_types_of_the_page_are_those_of_the_example() {
    let [page, example] = [block("type Lift : void {").into_bytes(), beside(b"lift.types").expect("a file").bytes]
        .map(|text| types::read_types(&text).expect("a right text"));
    assert_eq!(page, example);
    assert_eq!(page.children, ["load", "clipped", "hoist", "lift"]);
}

#[test]
fn rows_are_listed_with_the_numbers_that_moves_name() {
    let file = std::fs::read(folder().join("hall.bin")).expect("a file");
    let listed = rows(&file).expect("the file keeps to the rules");
    let lines: Vec<&str> = listed.lines().collect();
    assert_eq!(lines.len(), 4 + 11 + 36);
    assert_eq!(lines[2], "service 2: location 3, starter 20, client none");
    assert_eq!(lines[4 + 7], "operation 7: service 2, out, one-way, id 12, location 100");
    assert_eq!(lines[15], "row 0: choice, branches 1 to 1");
    assert_eq!(lines[15 + 4], "row 4: if, then 5, else 6");
    assert_eq!(lines[15 + 26], "row 26: notification, operation 7");
}
