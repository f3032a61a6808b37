//! Damage to rows and bytes, so that refusals 2 to 5 come up at every kind of place.

use second::tables::{BehaviourRow, ExpressionRow, ServiceRow, Tables, TypeRow, LONGEST};
use second::value::NAN_BITS;
use second::Basic;

use crate::random::Random;
use crate::strings;

/// Files that have no rows worth the name.
pub fn odd_bytes(random: &mut Random) -> Vec<u8> {
    match random.below(5) {
        0 => vec![0; random.below(40)],
        1 => vec![0; LONGEST + random.below(3)],
        2 => (0..random.below(200)).map(|_| random.byte()).collect(),
        3 => {
            // As long as a file may be, or one byte longer.
            let mut tables = Tables { services: vec![service(1)], ..Tables::default() };
            tables.data = vec![0; LONGEST - 36 + random.below(2)];
            tables.write()
        }
        _ => {
            let tables = Tables { paths: vec![[1, 0, 0, 0]; random.below(3)], ..Tables::default() };
            tables.write()
        }
    }
}

fn service(location: u16) -> ServiceRow {
    ServiceRow { location, starter: 65_535, client: 65_535, key: 0 }
}

/// Bytes of a file, its trailer and its length.
pub fn bytes(random: &mut Random, file: &mut Vec<u8>) {
    match random.below(8) {
        0 => file.truncate(random.below(file.len() + 1)),
        1 => file.push(random.byte()),
        2 => {
            let at = file.len() - 28 + random.below(28.min(file.len()));
            file[at] = file[at].wrapping_add(1);
        }
        _ => {
            for _ in 0..random.between(1, 3) {
                let at = random.below(file.len());
                file[at] = if random.one_in(2) { random.byte() } else { file[at] ^ 1 << random.below(8) };
            }
        }
    }
}

/// Changes one or two fields.
pub fn rows(random: &mut Random, tables: &mut Tables) {
    for _ in 0..random.between(1, 2) {
        field(random, tables);
    }
}

fn field(random: &mut Random, tables: &mut Tables) {
    let small = |random: &mut Random| random.number() as u8;
    match random.below(7) {
        0 => {
            if let Some(path) = pick(random, &mut tables.paths) {
                path[random.below(4)] = if random.one_in(2) { 0 } else { random.number() };
            }
        }
        1 => {
            let count = tables.types.len();
            if let Some(row) = pick(random, &mut tables.types) {
                match random.below(6) {
                    0 => row.id = random.below(9) as u16,
                    1 => row.cardinality = small(random),
                    2 => row.basic = small(random),
                    3 => row.first_child = random.number(),
                    4 => row.child_count = random.number(),
                    _ => (row.first_child, row.child_count) = (random.below(count + 1) as u16, random.below(3) as u16),
                }
            }
        }
        2 => {
            if let Some(row) = pick(random, &mut tables.expressions) {
                match random.below(6) {
                    0 => row.kind = small(random),
                    1 => row.basic = small(random),
                    2 => row.kind = random.below(11) as u8,
                    at => row.fields[at - 3] = random.number(),
                }
            }
        }
        3 => {
            if let Some(row) = pick(random, &mut tables.behaviours) {
                match random.below(8) {
                    0 => row.kind = small(random),
                    1 => row.unused = small(random),
                    2 | 3 => row.kind = random.below(12) as u8,
                    at => row.fields[at - 4] = random.number(),
                }
            }
        }
        4 => {
            let types = tables.types.len();
            if let Some(row) = pick(random, &mut tables.operations) {
                match random.below(12) {
                    0 => row.service = small(random),
                    1 => row.direction = small(random),
                    2 => row.two_way = small(random),
                    3 => row.unused = small(random),
                    4 => row.id = random.below(4) as u16,
                    5 => row.location = random.number(),
                    6 => row.request = random.number(),
                    7 => row.reply = random.number(),
                    8 => row.request = random.below(types + 1) as u16,
                    9 => row.id = 0,
                    10 => row.location = 0,
                    _ => row.reply = random.below(types + 1) as u16,
                }
            }
        }
        5 => {
            let behaviours = tables.behaviours.len();
            if let Some(row) = pick(random, &mut tables.services) {
                match random.below(9) {
                    0 => row.location = random.number(),
                    1 => row.location = 0,
                    2 => row.starter = random.number(),
                    3 => row.client = random.number(),
                    4 => row.key = random.number(),
                    5 => row.starter = random.below(behaviours + 1) as u16,
                    6 => row.client = random.below(behaviours + 1) as u16,
                    // Past the rows, where no row is left without a user by it.
                    7 if row.starter == 65_535 => row.starter = behaviours as u16,
                    8 if row.client == 65_535 => row.client = behaviours as u16,
                    _ => (row.starter, row.client) = (row.client, row.starter),
                }
            }
        }
        _ => data(random, tables),
    }
}

/// Constants that are broken text, in one or two rows of string constants or a new row.
pub fn strings(random: &mut Random, tables: &mut Tables) {
    for _ in 0..if random.one_in(6) { 2 } else { 1 } {
        let row = broken_string(random, &mut tables.data);
        let alike = |other: &&mut ExpressionRow| (other.kind, other.basic) == (row.kind, row.basic);
        let mut constants: Vec<&mut ExpressionRow> = tables.expressions.iter_mut().filter(alike).collect();
        if let Some(constant) = pick(random, &mut constants) {
            **constant = row;
        } else if tables.expressions.len() < 256 {
            tables.expressions.push(row);
        }
    }
}

/// A constant of broken text; now and then bytes beside it that would mend a lone tail or a cut character.
fn broken_string(random: &mut Random, data: &mut Vec<u8>) -> ExpressionRow {
    let text = strings::broken(random);
    let beside = random.one_in(3);
    data.extend(beside.then_some(0xC3));
    let fields = [data.len() as u16, text.len() as u16, 0];
    data.extend(text);
    data.extend([0x80; 3].iter().filter(|_| beside));
    ExpressionRow { kind: 0, basic: Basic::String.byte(), fields }
}

/// Constants whose bytes, start or length are wrong.
fn data(random: &mut Random, tables: &mut Tables) {
    let start = tables.data.len() as u16;
    let row = match random.below(5) {
        0 => {
            tables.data.extend((NAN_BITS | (1 + random.below(1 << 20) as u64)).to_le_bytes());
            ExpressionRow { kind: 0, basic: 2, fields: [start, 8, 0] }
        }
        1 => {
            tables.data.push(2);
            ExpressionRow { kind: 0, basic: 0, fields: [start, 1, 0] }
        }
        2 => ExpressionRow { kind: 0, basic: random.below(7) as u8, fields: [start, random.below(2) as u16, 0] },
        3 => broken_string(random, &mut tables.data),
        _ => {
            ExpressionRow { kind: 0, basic: 4 + random.below(3) as u8, fields: [start + random.below(2) as u16, 0, 0] }
        }
    };
    if tables.expressions.len() < 256 {
        tables.expressions.push(row);
    }
}

/// Links of behaviours, and rows that repeat.
pub fn links(random: &mut Random, tables: &mut Tables) {
    let behaviours = tables.behaviours.len();
    match random.below(9) {
        0 if behaviours < 256 => tables.behaviours.push(BehaviourRow::default()),
        1 => {
            // Other rows of the same table, so that the link itself is right more often.
            for _ in 0..random.between(1, 3) {
                relink(random, &mut tables.behaviours);
            }
        }
        2 => {
            if let Some(service) = pick(random, &mut tables.services) {
                service.client = if random.one_in(2) { service.starter } else { 65_535 };
            }
        }
        3 => {
            // A choice with more branches than it may have, or none.
            if let Some(row) = tables.behaviours.iter_mut().find(|row| row.kind == 10) {
                row.fields[1] = *random.pick(&[0, 0, 9, 65_535, row.fields[1] + 1]).expect("five");
            }
        }
        4 | 7 => nine_branches(random, tables),
        5 | 6 => {
            if let Some(&operation) = random.pick(&tables.operations) {
                if tables.operations.len() < 64 {
                    tables.operations.push(operation);
                }
            }
        }
        _ => {
            if tables.services.len() < 4 {
                tables.services.push(service(tables.services[0].location));
            }
        }
    }
}

/// Changes a field that names a behaviour row; or a row's kind, which changes what its fields name.
fn relink(random: &mut Random, behaviours: &mut [BehaviourRow]) {
    let count = behaviours.len();
    let Some(row) = pick(random, behaviours) else { return };
    let links: &[usize] = match row.kind {
        2 => &[3],
        5 => &[1, 2],
        6 => &[1],
        7 | 8 | 11 => &[0, 1],
        10 => &[0],
        _ => &[],
    };
    match random.pick(links) {
        Some(&field) => row.fields[field] = random.below(count + 1) as u16,
        None => row.kind = random.below(13) as u8,
    }
}

/// Small tables in which nothing needs to be right, from one section on.
pub fn wild(random: &mut Random, tables: &mut Tables) {
    let small = |random: &mut Random| random.below(7) as u16;
    let from = random.below(4);
    if from == 0 {
        tables.types = (0..random.between(1, 7))
            .map(|row| TypeRow {
                id: if row == 0 || random.one_in(4) { 0 } else { small(random) + 3 * row as u16 },
                cardinality: random.below(9).min(1) as u8,
                basic: random.below(7) as u8,
                first_child: if random.one_in(2) { 0 } else { small(random) },
                child_count: if random.one_in(2) { 0 } else { random.below(3) as u16 },
            })
            .collect();
    }
    if from <= 1 {
        tables.expressions = (0..random.between(1, 6))
            .map(|_| ExpressionRow {
                kind: random.between(1, 9) as u8,
                basic: 0,
                fields: [small(random) / 2, if random.one_in(2) { 0 } else { small(random) / 2 }, 0],
            })
            .collect();
    }
    if from <= 2 {
        tables.behaviours = (0..random.between(1, 7)).map(|row| wild_behaviour(random, row)).collect();
    }
    tables.services.iter_mut().for_each(|service| {
        let link = |random: &mut Random| if random.one_in(2) { 65_535 } else { small(random) };
        (service.starter, service.client) = (link(random), link(random));
    });
}

/// A row whose unused fields are 0 and whose links go a little further, most of the time.
fn wild_behaviour(random: &mut Random, row: usize) -> BehaviourRow {
    let kind = random.below(13) as u8;
    let link = |random: &mut Random| if random.one_in(5) { random.below(8) } else { row + random.between(1, 4) };
    let mut link = || link(random) as u16;
    let fields = match kind {
        2 => [0, 0, 0, link()],
        5 => [0, link(), link(), 0],
        6 => [0, link(), 0, 0],
        7 | 8 | 11 => [link(), link(), 0, 0],
        10 => [link(), link() / 3, 0, 0],
        _ => [0; 4],
    };
    BehaviourRow { kind, unused: 0, fields }
}

/// A client that is a choice of nine right branches.
fn nine_branches(random: &mut Random, tables: &mut Tables) {
    let start = tables.behaviours.len() as u16;
    let service = random.below(tables.services.len());
    if start > 225
        || tables.operations.is_empty()
        || tables.paths.is_empty()
        || tables.services[service].client != 65_535
    {
        return;
    }
    tables.services[service].client = start;
    tables.behaviours.push(BehaviourRow { kind: 10, unused: 0, fields: [start + 1, 9, 0, 0] });
    for branch in 0..9 {
        let fields = [start + 10 + 2 * branch, start + 11 + 2 * branch, 0, 0];
        tables.behaviours.push(BehaviourRow { kind: 11, unused: 0, fields });
    }
    for _ in 0..9 {
        tables.behaviours.push(BehaviourRow { kind: 1, ..BehaviourRow::default() });
        tables.behaviours.push(BehaviourRow::default());
    }
}

/// Types and expressions at and past their limits, and too many rows.
pub fn sizes(random: &mut Random, tables: &mut Tables) {
    match random.below(5) {
        0 => {
            // A chain of levels, or a run of children, about the limit.
            let start = tables.types.len() as u16;
            let levels = random.between(3, 6) as u16;
            let wide = random.between(14, 17) as u16;
            if usize::from(start + levels.max(wide)) > 256 {
                return;
            }
            if random.one_in(2) {
                for level in 0..levels {
                    let (first_child, child_count) = if level + 1 < levels { (start + level + 1, 1) } else { (0, 0) };
                    tables.types.push(TypeRow { id: level, cardinality: 1, basic: 6, first_child, child_count });
                }
            } else {
                let root = TypeRow { id: 0, cardinality: 1, basic: 6, first_child: start + 1, child_count: wide - 1 };
                tables.types.push(root);
                tables.types.extend((1..wide).map(|id| TypeRow { id, cardinality: 1, ..TypeRow::default() }));
            }
        }
        1 => {
            // Pairs that name the next pair: a size that doubles with each level.
            let start = tables.types.len() as u16;
            let pairs = *random.pick(&[3, 4, 40, 100]).expect("four");
            if usize::from(start + 2 * pairs) > 256 {
                return;
            }
            for pair in 0..pairs {
                let (first_child, child_count) = if pair + 1 < pairs { (start + 2 * pair + 2, 2) } else { (0, 0) };
                let row = |id| TypeRow { id, cardinality: 1, basic: 6, first_child, child_count };
                tables.types.extend([row(1), row(2)]);
            }
        }
        2 | 3 => {
            let start = tables.expressions.len() as u16;
            let levels = random.between(7, 10) as u16;
            if usize::from(start + levels) > 256 {
                return;
            }
            tables.expressions.push(ExpressionRow { kind: 0, basic: 6, fields: [0; 3] });
            for level in 1..levels {
                let kind = random.between(3, 9) as u8;
                let below = start + level - 1;
                let other = if random.one_in(2) { below } else { start };
                let fields = if kind < 5 { [below, 0, 0] } else { [below, other, 0] };
                tables.expressions.push(ExpressionRow { kind, basic: 0, fields });
            }
        }
        _ => match random.below(7) {
            0 => tables.paths.resize(random.between(256, 257), [1, 0, 0, 0]),
            1 => tables.types.resize(random.between(256, 257), TypeRow::default()),
            2 => tables
                .expressions
                .resize(random.between(256, 257), ExpressionRow { basic: 6, ..ExpressionRow::default() }),
            3 => tables.behaviours.resize(random.between(256, 257), BehaviourRow::default()),
            4 => {
                let row = tables.operations.first().copied().unwrap_or_default();
                tables.operations.resize(random.between(64, 65), row);
            }
            5 => tables.services.resize(random.between(4, 5), service(9)),
            _ => tables.services.clear(),
        },
    }
}

fn pick<'a, T>(random: &mut Random, rows: &'a mut [T]) -> Option<&'a mut T> {
    if rows.is_empty() {
        return None;
    }
    let row = random.below(rows.len());
    Some(&mut rows[row])
}
