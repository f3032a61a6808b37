//! Pairs of type rows, for messages that fit the first and not the second: of files made for them, of any other
//! files, and of damaged ones.

pub mod choices;
pub mod hits;
pub mod judge;
pub mod largest;
pub mod types;

pub use hits::PairHits;
pub use types::{Edit, Type};

use counterexample::LEAST_OUT;
use second::network::TYPE_NODES;
use second::tables::{OperationRow, Section, ServiceRow, Tables, NONE};

use crate::damage;
use crate::random::Random;

/// Two rows of a file, and the size of the out buffer.
#[derive(Clone, Debug)]
pub struct Pair {
    pub file: Vec<u8>,
    pub first: u16,
    pub second: u16,
    pub out_size: usize,
    /// The changes that make one type of the other, where nothing else was changed.
    pub edits: Option<Vec<Edit>>,
}

/// One pair: half are of related types.
pub fn pair(random: &mut Random) -> Pair {
    let mut pair = match random.below(20) {
        0 => general(random, crate::file),
        1 => general(random, crate::blunder),
        2..=8 => made(random, false),
        _ => made(random, true),
    };
    rename_rows(random, &mut pair);
    pair.out_size = match random.below(24) {
        0 => LEAST_OUT - 1,
        1 => random.below(LEAST_OUT),
        2 | 3 => random.between(LEAST_OUT + 1, 3 * LEAST_OUT),
        _ => LEAST_OUT,
    };
    pair
}

/// Any two rows of a file that was made for something else.
fn general(random: &mut Random, file: fn(&mut Random) -> Vec<u8>) -> Pair {
    let file = file(random);
    let rows = type_rows(&file).unwrap_or(3).max(1);
    let (first, second) = (random.below(rows) as u16, random.below(rows) as u16);
    Pair { file, first, second, out_size: LEAST_OUT, edits: None }
}

/// How many type rows a file has, by its trailer.
pub fn type_rows(file: &[u8]) -> Option<usize> {
    let trailer = &file[file.len().checked_sub(28)?..];
    let at = 4 * Section::Types as usize + 2;
    Some(u16::from_le_bytes([trailer[at], trailer[at + 1]]).into())
}

/// A small file with two types, sometimes damaged.
fn made(random: &mut Random, related: bool) -> Pair {
    let most = match random.below(6) {
        0 => TYPE_NODES,
        1 | 2 => random.between(6, 12),
        _ => random.between(1, 6),
    };
    let first = Type::some(random, most);
    let (second, edits) = if related { edited(random, &first) } else { (Type::some(random, most), Vec::new()) };
    let mut types = [first, second];
    if random.one_in(2) {
        types.reverse();
    }
    let mut tables = Tables::default();
    let rows = types.map(|of| {
        if random.one_in(4) {
            Type::some(random, 5).write(&mut tables.types);
        }
        of.write(&mut tables.types) as u16
    });
    let [first, second] = if random.one_in(2) { rows } else { [rows[1], rows[0]] };
    services(random, &mut tables, first, second);
    let whole = tables.write();
    let file = damaged(random, tables);
    let edits = (related && file == whole).then_some(edits);
    Pair { file, first, second, out_size: LEAST_OUT, edits }
}

/// A type after up to three changes.
fn edited(random: &mut Random, first: &Type) -> (Type, Vec<Edit>) {
    let mut changed = first.clone();
    let mut edits = Vec::new();
    for _ in 0..random.below(4) {
        let edit = *random.pick(&Edit::ALL).expect("an edit");
        if (0..10).any(|_| edit.make(random, &mut changed)) {
            edits.push(edit);
        }
    }
    (changed, edits)
}

/// A service, alone or with an output of the first type that meets an input of the second.
fn services(random: &mut Random, tables: &mut Tables, first: u16, second: u16) {
    let key = if random.one_in(6) { random.between(1, 3) as u16 } else { 0 };
    tables.services.push(ServiceRow { location: 1, starter: NONE, client: NONE, key });
    if random.one_in(3) {
        let input = OperationRow { id: 9, request: second, ..OperationRow::default() };
        tables.operations.push(input);
        tables.operations.push(OperationRow { direction: 1, location: 1, request: first, ..input });
    }
}

fn damaged(random: &mut Random, mut tables: Tables) -> Vec<u8> {
    match random.below(40) {
        0 => damage::rows(random, &mut tables),
        1 => damage::sizes(random, &mut tables),
        2 => tables.services.clear(),
        _ => {}
    }
    let mut file = tables.write();
    if random.one_in(40) {
        damage::bytes(random, &mut file);
    }
    file
}

/// Other numbers now and then: any row, one row twice, or no row.
fn rename_rows(random: &mut Random, pair: &mut Pair) {
    let rows = type_rows(&pair.file).unwrap_or(0);
    let before = (pair.first, pair.second);
    let any = |random: &mut Random| random.below(rows.max(1)) as u16;
    match random.below(20) {
        0 => pair.first = any(random),
        1 => pair.second = any(random),
        2 => (pair.first, pair.second) = (any(random), any(random)),
        3 => pair.second = pair.first,
        4 => pair.first = no_row(random, rows),
        5 => pair.second = no_row(random, rows),
        6 if random.one_in(2) => (pair.first, pair.second) = (no_row(random, rows), no_row(random, rows)),
        _ => {}
    }
    if (pair.first, pair.second) != before {
        pair.edits = None;
    }
}

/// The first number past the rows, or any after it.
fn no_row(random: &mut Random, rows: usize) -> u16 {
    let rows = rows.min(65_535);
    match random.below(3) {
        0 => rows as u16,
        1 => 65_535,
        _ => random.between(rows, 65_535) as u16,
    }
}
