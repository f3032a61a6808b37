//! The cases of operators: stored in cases/operators as they are made, with the checker's answers.

use std::collections::{BTreeMap, BTreeSet};
use std::path::Path;

use generate::operators::{all, folder};
use second::{check, report, Basic, Cause};

#[test]
fn the_folder_is_what_is_made() {
    let entries = std::fs::read_dir(Path::new(env!("CARGO_MANIFEST_DIR")).join("../../cases/operators"));
    let stored: BTreeMap<String, Vec<u8>> = entries
        .expect("cases/operators")
        .map(|entry| entry.expect("an entry"))
        .map(|entry| (entry.file_name().to_string_lossy().into_owned(), std::fs::read(entry.path()).expect("bytes")))
        .collect();
    let made = folder();
    let names: BTreeSet<&String> = stored.keys().chain(made.keys()).collect();
    let other: Vec<_> = names.into_iter().filter(|name| stored.get(*name) != made.get(*name)).collect();
    assert!(other.is_empty(), "not stored as made: {other:?}");
}

#[test]
fn the_checker_gives_each_answer() {
    for case in all() {
        let verdict = check(&case.file);
        assert_eq!(report(&verdict).trim_end().replace('\n', " "), case.answer, "{}", case.name);
        assert!(verdict.err().is_none_or(|refusal| refusal.cause == Cause::Operand), "{}", case.name);
    }
}

/// How many of each operator are accepted and refused, and that no two have one name.
#[test]
fn each_operator_has_each_type_and_each_pair() {
    let cases = all();
    let mut counts: BTreeMap<&str, [usize; 2]> = BTreeMap::new();
    for case in &cases {
        let operator = case.name.split('_').next().expect("an operator");
        counts.entry(operator).or_default()[usize::from(case.answer.starts_with("refused"))] += 1;
    }
    let types = Basic::ALL.len();
    let pairs = types * types;
    let expected = [
        ("not", [1, types - 1]),
        ("negate", [3, types - 3]),
        ("add", [3, pairs - 3]),
        ("subtract", [3, pairs - 3]),
        ("less", [3, pairs - 3]),
        ("equal", [types - 1, pairs - (types - 1)]),
        ("and", [1, pairs - 1]),
    ];
    assert_eq!(counts, BTreeMap::from(expected));
    assert_eq!(folder().len(), 2 * types + 5 * pairs + 1, "a file each, and the answers");
}
