//! The seven sections of a network file as rows, before any rule about the rows is tried.

use crate::refusal::{Cause, Refusal};

#[derive(Clone, Copy, PartialEq, Eq, Debug, PartialOrd, Ord, Hash)]
pub enum Section {
    Paths,
    Types,
    Expressions,
    Behaviours,
    Operations,
    Services,
    Data,
}

pub const TRAILER: usize = 28;
pub const SHORTEST: usize = TRAILER;
pub const LONGEST: usize = 32_768;

impl Section {
    pub const ALL: [Section; 7] = [
        Section::Paths,
        Section::Types,
        Section::Expressions,
        Section::Behaviours,
        Section::Operations,
        Section::Services,
        Section::Data,
    ];

    pub fn letter(self) -> char {
        b"PTEBOSD"[self as usize].into()
    }

    /// Bytes of a row.
    pub fn width(self) -> usize {
        [8, 8, 8, 10, 12, 8, 1][self as usize]
    }

    /// Most rows; the data is bounded by the file's length alone.
    pub fn limit(self) -> usize {
        [256, 256, 256, 256, 64, 4, usize::MAX][self as usize]
    }
}

/// Where each section of a file starts, and its rows.
#[derive(Clone, Copy, PartialEq, Eq, Debug)]
pub struct Layout {
    pub starts: [usize; 7],
    pub counts: [usize; 7],
}

impl Layout {
    /// Sections without gaps from byte 0.
    pub fn of_counts(counts: [usize; 7]) -> Layout {
        let mut starts = [0; 7];
        let mut end = 0;
        for section in Section::ALL {
            starts[section as usize] = end;
            end += counts[section as usize] * section.width();
        }
        Layout { starts, counts }
    }

    /// Refusals 2 and 3.
    pub fn read(file: &[u8]) -> Result<Layout, Refusal> {
        if !(SHORTEST..=LONGEST).contains(&file.len()) {
            return Err(Refusal::new(Cause::Length, 0));
        }
        let (body, trailer) = file.split_at(file.len() - TRAILER);
        let pair =
            |section: Section| (u16_at(trailer, 4 * section as usize), u16_at(trailer, 4 * section as usize + 2));
        let layout = Layout::of_counts(Section::ALL.map(|section| usize::from(pair(section).1)));
        let fits = Section::ALL.iter().all(|&section| usize::from(pair(section).0) == layout.start(section));
        if !fits || layout.end() != body.len() {
            return Err(Refusal::new(Cause::Trailer, 0));
        }
        if Section::ALL.iter().any(|&section| layout.count(section) > section.limit()) {
            return Err(Refusal::new(Cause::TooManyRows, 0));
        }
        if layout.count(Section::Services) == 0 {
            return Err(Refusal::new(Cause::NoService, 0));
        }
        Ok(layout)
    }

    pub fn start(&self, section: Section) -> usize {
        self.starts[section as usize]
    }

    pub fn count(&self, section: Section) -> usize {
        self.counts[section as usize]
    }

    /// The first byte of a row.
    pub fn row(&self, section: Section, row: usize) -> usize {
        self.start(section) + row * section.width()
    }

    /// The bytes of all sections.
    pub fn end(&self) -> usize {
        self.row(Section::Data, self.count(Section::Data))
    }

    /// The section and row that a byte belongs to, and its offset in the row.
    pub fn locate(&self, place: usize) -> Option<(Section, usize, usize)> {
        Section::ALL
            .into_iter()
            .rev()
            .find(|&section| place >= self.start(section) && place < self.row(section, self.count(section)))
            .map(|section| {
                let offset = place - self.start(section);
                (section, offset / section.width(), offset % section.width())
            })
    }
}

#[derive(Clone, Copy, PartialEq, Eq, Debug, Default)]
pub struct TypeRow {
    pub id: u16,
    pub cardinality: u8,
    pub basic: u8,
    pub first_child: u16,
    pub child_count: u16,
}

impl TypeRow {
    pub fn bytes(&self) -> [u8; 8] {
        let ([a, b], [c, d], [e, f]) =
            (self.id.to_le_bytes(), self.first_child.to_le_bytes(), self.child_count.to_le_bytes());
        [a, b, self.cardinality, self.basic, c, d, e, f]
    }
}

#[derive(Clone, Copy, PartialEq, Eq, Debug, Default)]
pub struct ExpressionRow {
    pub kind: u8,
    pub basic: u8,
    pub fields: [u16; 3],
}

#[derive(Clone, Copy, PartialEq, Eq, Debug, Default)]
pub struct BehaviourRow {
    pub kind: u8,
    pub unused: u8,
    pub fields: [u16; 4],
}

#[derive(Clone, Copy, PartialEq, Eq, Debug, Default)]
pub struct OperationRow {
    pub service: u8,
    pub direction: u8,
    pub two_way: u8,
    pub unused: u8,
    pub id: u16,
    pub location: u16,
    pub request: u16,
    pub reply: u16,
}

#[derive(Clone, Copy, PartialEq, Eq, Debug, Default)]
pub struct ServiceRow {
    pub location: u16,
    pub starter: u16,
    pub client: u16,
    /// The id of the child that is the key, 0 for none.
    pub key: u16,
}

/// A service without a starter or client has this row number.
pub const NONE: u16 = 65_535;

/// The rows of a file, any bytes in them.
#[derive(Clone, PartialEq, Eq, Debug, Default)]
pub struct Tables {
    pub paths: Vec<[u16; 4]>,
    pub types: Vec<TypeRow>,
    pub expressions: Vec<ExpressionRow>,
    pub behaviours: Vec<BehaviourRow>,
    pub operations: Vec<OperationRow>,
    pub services: Vec<ServiceRow>,
    pub data: Vec<u8>,
}

impl Tables {
    pub fn read(file: &[u8]) -> Result<(Tables, Layout), Refusal> {
        let layout = Layout::read(file)?;
        let section = |section: Section| &file[layout.start(section)..layout.row(section, layout.count(section))];
        let rows = |name: Section| section(name).chunks_exact(name.width());
        let tables = Tables {
            paths: rows(Section::Paths).map(u16s::<4>).collect(),
            types: rows(Section::Types)
                .map(|row| TypeRow {
                    id: u16_at(row, 0),
                    cardinality: row[2],
                    basic: row[3],
                    first_child: u16_at(row, 4),
                    child_count: u16_at(row, 6),
                })
                .collect(),
            expressions: rows(Section::Expressions)
                .map(|row| ExpressionRow { kind: row[0], basic: row[1], fields: u16s(&row[2..]) })
                .collect(),
            behaviours: rows(Section::Behaviours)
                .map(|row| BehaviourRow { kind: row[0], unused: row[1], fields: u16s(&row[2..]) })
                .collect(),
            operations: rows(Section::Operations)
                .map(|row| OperationRow {
                    service: row[0],
                    direction: row[1],
                    two_way: row[2],
                    unused: row[3],
                    id: u16_at(row, 4),
                    location: u16_at(row, 6),
                    request: u16_at(row, 8),
                    reply: u16_at(row, 10),
                })
                .collect(),
            services: rows(Section::Services)
                .map(|row| ServiceRow {
                    location: u16_at(row, 0),
                    starter: u16_at(row, 2),
                    client: u16_at(row, 4),
                    key: u16_at(row, 6),
                })
                .collect(),
            data: section(Section::Data).to_vec(),
        };
        Ok((tables, layout))
    }

    pub fn layout(&self) -> Layout {
        Layout::of_counts([
            self.paths.len(),
            self.types.len(),
            self.expressions.len(),
            self.behaviours.len(),
            self.operations.len(),
            self.services.len(),
            self.data.len(),
        ])
    }

    /// The file of these rows; starts and counts past 65535 are cut to their low bytes.
    pub fn write(&self) -> Vec<u8> {
        let layout = self.layout();
        let mut file = Vec::with_capacity(layout.end() + TRAILER);
        for path in &self.paths {
            put(&mut file, path);
        }
        for row in &self.types {
            file.extend(row.bytes());
        }
        for row in &self.expressions {
            file.extend([row.kind, row.basic]);
            put(&mut file, &row.fields);
        }
        for row in &self.behaviours {
            file.extend([row.kind, row.unused]);
            put(&mut file, &row.fields);
        }
        for row in &self.operations {
            file.extend([row.service, row.direction, row.two_way, row.unused]);
            put(&mut file, &[row.id, row.location, row.request, row.reply]);
        }
        for row in &self.services {
            put(&mut file, &[row.location, row.starter, row.client, row.key]);
        }
        file.extend(&self.data);
        for section in Section::ALL {
            put(&mut file, &[layout.start(section) as u16, layout.count(section) as u16]);
        }
        file
    }
}

pub(crate) fn u16_at(bytes: &[u8], at: usize) -> u16 {
    u16::from_le_bytes([bytes[at], bytes[at + 1]])
}

fn u16s<const N: usize>(bytes: &[u8]) -> [u16; N] {
    std::array::from_fn(|i| u16_at(bytes, 2 * i))
}

fn put(file: &mut Vec<u8>, numbers: &[u16]) {
    file.extend(numbers.iter().flat_map(|number| number.to_le_bytes()));
}
