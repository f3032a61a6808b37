//! From the syntax tree to rows and bytes.
//!
//! Rows stand in the order of the text: paths and expressions where they first occur, types level
//! by level, behaviours from the outside in (a choice's branches first). Row labels `@n` give the
//! rows of operations or behaviours another order.

use std::collections::{HashMap, VecDeque};

use second::tables::{BehaviourRow, ExpressionRow, OperationRow, Section, ServiceRow, Tables, TypeRow, NONE};
use second::{Basic, Network, Refusal};
use types::Types;

use crate::declared::ReadFile;
use crate::parse::parse;
use crate::source::{line_and_column, Error, Refused, Spot};
use crate::syntax::*;

/// A network file and where in the text its rows come from.
#[derive(Debug)]
pub struct Assembled {
    pub file: Vec<u8>,
    origins: Origins,
}

/// For P, T, E, B, O and S the place of each row.
type Origins = [Vec<Spot>; 6];

impl Assembled {
    /// Line and column of the row at a refusal's place.
    pub fn origin(&self, text: &str, refusal: &Refusal) -> Option<(usize, usize)> {
        origin(&self.file, &self.origins, refusal).map(|spot| line_and_column(text, spot))
    }

    /// Where in the text a row of P, T, E, B, O or S stands.
    pub fn spot(&self, section: Section, row: usize) -> Option<Spot> {
        self.origins.get(section as usize)?.get(row).copied()
    }
}

fn origin(file: &[u8], origins: &Origins, refusal: &Refusal) -> Option<Spot> {
    let (section, row) = match refusal.number {
        4 | 5 => {
            let (_, layout) = Tables::read(file).ok()?;
            let (section, row, _) = layout.locate(refusal.place)?;
            (section, row)
        }
        6..=12 => (Section::Behaviours, refusal.place),
        13 | 23 => (Section::Operations, refusal.place),
        _ => return None,
    };
    origins.get(section as usize)?.get(row).copied()
}

/// Makes the network file of a text that names no other file.
pub fn assemble(text: &str) -> Result<Assembled, Error> {
    assemble_with(text, &mut |_| Err("this text can name no file".into()))
}

/// Makes the network file of a text and of the file that it names. A file that is made passes refusals 2 to 5, but
/// for the text of string constants: 4 of these is left to the checker, as 6 to 13 and 23 are.
pub fn assemble_with(text: &str, read: &mut ReadFile) -> Result<Assembled, Error> {
    let mut assembler = Assembler { text, ..Assembler::default() };
    for item in parse(text, read)? {
        assembler.item(item)?;
    }
    let (tables, origins) = assembler.finish()?;
    let file = tables.write();
    match Network::read_any_text(&file) {
        Ok(_) => Ok(Assembled { file, origins }),
        Err(refusal) => {
            let spot = origin(&file, &origins, &refusal).unwrap_or(0);
            let error = Error::at(text, spot, format!("{refusal}: {}", refusal.cause.sentence()));
            Err(Error { refusal: Some(Refused::Rows(refusal)), ..error })
        }
    }
}

#[derive(Default)]
struct Assembler<'a> {
    text: &'a str,
    tables: Tables,
    origins: Origins,
    type_names: HashMap<String, u16>,
    expression_names: HashMap<String, u16>,
    /// The text has a `data` item, so that constants say where they start.
    data_given: bool,
    operations: Slots<OperationRow>,
    behaviours: Slots<BehaviourRow>,
    services: Vec<PendingService>,
}

/// Behaviours are assembled when all operations are known.
struct PendingService {
    starter: Option<Statement>,
    client: Option<Statement>,
}

/// Rows that are reserved before they are known, in order or by label.
struct Slots<R> {
    rows: Vec<Option<(Spot, R)>>,
    labelled: Option<bool>,
}

impl<R> Default for Slots<R> {
    fn default() -> Slots<R> {
        Slots { rows: Vec::new(), labelled: None }
    }
}

impl<R: Copy + Default> Slots<R> {
    fn reserve(&mut self, spot: Spot, label: Option<u16>, limit: usize) -> Result<u16, String> {
        if *self.labelled.get_or_insert(label.is_some()) != label.is_some() {
            return Err("either all of the behaviours (or of the operations) have row labels, or none".into());
        }
        let row = label.map_or(self.rows.len(), usize::from);
        if row >= limit {
            return Err(format!("there are at most {limit} of these rows"));
        }
        if row >= self.rows.len() {
            self.rows.resize(row + 1, None);
        }
        if self.rows[row].is_some() {
            return Err(format!("row {row} is taken already"));
        }
        self.rows[row] = Some((spot, R::default()));
        Ok(row as u16)
    }

    fn set(&mut self, row: u16, value: R) {
        if let Some((_, slot)) = &mut self.rows[usize::from(row)] {
            *slot = value;
        }
    }

    /// All rows with their places, or the number of one that is missing.
    fn take(&mut self) -> Result<(Vec<Spot>, Vec<R>), usize> {
        let rows = std::mem::take(&mut self.rows);
        match rows.iter().position(Option::is_none) {
            Some(missing) => Err(missing),
            None => Ok(rows.into_iter().flatten().unzip()),
        }
    }
}

impl Assembler<'_> {
    fn error<T>(&self, spot: Spot, message: impl Into<String>) -> Result<T, Error> {
        Err(Error::at(self.text, spot, message))
    }

    /// Notes where a new row of P, T, E or S comes from; the row's number.
    fn new_row(&mut self, section: Section, spot: Spot) -> Result<u16, Error> {
        let row = self.origins[section as usize].len();
        if row >= section.limit() {
            return self.error(spot, format!("there are at most {} {} rows", section.limit(), section.letter()));
        }
        self.origins[section as usize].push(spot);
        Ok(row as u16)
    }

    fn item(&mut self, item: Item) -> Result<(), Error> {
        match item {
            Item::Path { spot, ids } => {
                self.new_row(Section::Paths, spot)?;
                self.tables.paths.push(ids);
            }
            Item::Type { spot, name, tree } => {
                let row = self.types(spot, &tree)?;
                self.name_type(spot, name, row)?;
            }
            Item::Types { spot, types } => self.types_of_file(spot, types)?,
            Item::Node { spot, name, id, optional, basic, first_child, child_count } => {
                let row = self.new_row(Section::Types, spot)?;
                let cardinality = u8::from(!optional);
                self.tables.types.push(TypeRow { id, cardinality, basic: basic.byte(), first_child, child_count });
                self.name_type(spot, name, row)?;
            }
            Item::Expression { spot, name, expression } => {
                let row = self.expression(&expression)?;
                if self.expression_names.insert(name, row).is_some() {
                    return self.error(spot, "an expression of this name is declared already");
                }
            }
            Item::Data { spot, bytes } => {
                if self.data_given || !self.tables.data.is_empty() || !self.tables.expressions.is_empty() {
                    return self.error(spot, "`data` stands once, before every expression");
                }
                self.data_given = true;
                self.tables.data = bytes;
            }
            Item::Service { spot, location, key, parts } => {
                let row = ServiceRow { location, starter: NONE, client: NONE, key };
                self.service(spot, row, parts)?
            }
        }
        Ok(())
    }

    /// The rows and names of a file of type declarations, which come first.
    fn types_of_file(&mut self, spot: Spot, types: Types) -> Result<(), Error> {
        for row in types.rows {
            self.new_row(Section::Types, spot)?;
            self.tables.types.push(row);
        }
        for declared in types.declarations {
            self.name_type(spot, declared.name, declared.row as u16)?;
        }
        Ok(())
    }

    fn name_type(&mut self, spot: Spot, name: String, row: u16) -> Result<(), Error> {
        if self.type_names.insert(name, row).is_some() {
            return self.error(spot, "a type of this name is declared already");
        }
        Ok(())
    }

    /// The rows of a tree, level by level; its root's number.
    fn types(&mut self, spot: Spot, tree: &Tree) -> Result<u16, Error> {
        let root = self.new_row(Section::Types, spot)?;
        let row =
            |id, cardinality, basic: Basic| TypeRow { id, cardinality, basic: basic.byte(), ..TypeRow::default() };
        self.tables.types.push(row(0, 1, tree.basic));
        let mut queue = VecDeque::from([(root, tree)]);
        while let Some((parent, tree)) = queue.pop_front() {
            if tree.children.is_empty() {
                continue;
            }
            self.tables.types[usize::from(parent)].first_child = self.tables.types.len() as u16;
            self.tables.types[usize::from(parent)].child_count = tree.children.len() as u16;
            for child in &tree.children {
                let number = self.new_row(Section::Types, child.tree.spot)?;
                self.tables.types.push(row(child.id, u8::from(!child.optional), child.tree.basic));
                queue.push_back((number, &child.tree));
            }
        }
        Ok(root)
    }

    fn type_use(&mut self, used: &TypeUse) -> Result<u16, Error> {
        match used {
            TypeUse::Row(row) => Ok(*row),
            TypeUse::Tree(tree) => self.types(tree.spot, tree),
            TypeUse::Name { spot, name } => match self.type_names.get(name) {
                Some(&row) => Ok(row),
                None => self.error(*spot, format!("no type `{name}` is declared")),
            },
        }
    }

    fn path(&mut self, used: &PathUse) -> Result<u16, Error> {
        match *used {
            PathUse::Row(row) => Ok(row),
            PathUse::Ids { spot, ids } => {
                if let Some(row) = self.tables.paths.iter().position(|&path| path == ids) {
                    return Ok(row as u16);
                }
                let row = self.new_row(Section::Paths, spot)?;
                self.tables.paths.push(ids);
                Ok(row)
            }
        }
    }

    /// The row of an expression; its operands' rows come before it.
    fn expression(&mut self, expression: &Expression) -> Result<u16, Error> {
        let spot = expression.spot;
        let (kind, basic, fields) = match &expression.kind {
            ExpressionKind::Named(name) => {
                return match self.expression_names.get(name) {
                    Some(&row) => Ok(row),
                    None => self.error(spot, format!("no expression `${name}` is declared")),
                };
            }
            ExpressionKind::Constant { basic, bytes, start } => {
                let start = self.constant(spot, bytes, *start)?;
                (0, basic.byte(), [start, bytes.len() as u16, 0])
            }
            ExpressionKind::Path(path) => (1, 0, [self.path(path)?, 0, 0]),
            ExpressionKind::Present(path) => (2, 0, [self.path(path)?, 0, 0]),
            ExpressionKind::Unary(kind, operand) => (*kind, 0, [self.expression(operand)?, 0, 0]),
            ExpressionKind::Binary(kind, left, right) => {
                let left = self.expression(left)?;
                (*kind, 0, [left, self.expression(right)?, 0])
            }
        };
        let row = self.new_row(Section::Expressions, spot)?;
        self.tables.expressions.push(ExpressionRow { kind, basic, fields });
        Ok(row)
    }

    /// Where a constant's bytes start in the data.
    fn constant(&mut self, spot: Spot, bytes: &[u8], start: Option<u16>) -> Result<u16, Error> {
        match start {
            None if self.data_given => {
                self.error(spot, "with `data`, each constant says where it stands: `at` and a number")
            }
            None => {
                let start = self.tables.data.len() as u16;
                self.tables.data.extend(bytes);
                Ok(start)
            }
            Some(start) => {
                let at = usize::from(start);
                if self.tables.data.get(at..at + bytes.len()) != Some(bytes) {
                    return self.error(spot, format!("the data at {start} is not this constant"));
                }
                Ok(start)
            }
        }
    }

    fn service(&mut self, spot: Spot, service: ServiceRow, parts: Vec<Part>) -> Result<(), Error> {
        let row = self.new_row(Section::Services, spot)?;
        self.tables.services.push(service);
        let mut pending = PendingService { starter: None, client: None };
        for part in parts {
            match part {
                Part::Operation { .. } => self.operation_row(row as u8, part)?,
                Part::Starter(statement) => {
                    if !matches!(statement.kind, StatementKind::Choice(_)) {
                        return self.error(statement.spot, "a starter is a choice");
                    }
                    if pending.starter.is_some() {
                        return self.error(statement.spot, "a service has one starter");
                    }
                    pending.starter = Some(statement);
                }
                Part::Client(statement) => {
                    if pending.client.is_some() {
                        return self.error(statement.spot, "a service has one client");
                    }
                    pending.client = Some(statement);
                }
            }
        }
        self.services.push(pending);
        Ok(())
    }

    fn operation_row(&mut self, service: u8, part: Part) -> Result<(), Error> {
        let Part::Operation { spot, label, id, location, request, reply } = part else { return Ok(()) };
        let slot = self.operations.reserve(spot, label, Section::Operations.limit());
        let slot = slot.or_else(|message| self.error(spot, message))?;
        let request = self.type_use(&request)?;
        let (two_way, reply) = match reply {
            Some(reply) => (1, self.type_use(&reply)?),
            None => (0, 0),
        };
        let (direction, location) = location.map_or((0, 0), |location| (1, location));
        let operation = OperationRow { service, direction, two_way, unused: 0, id, location, request, reply };
        self.operations.set(slot, operation);
        Ok(())
    }

    fn finish(mut self) -> Result<(Tables, Origins), Error> {
        match self.operations.take() {
            Ok((spots, rows)) => (self.origins[Section::Operations as usize], self.tables.operations) = (spots, rows),
            Err(missing) => return self.error(0, format!("no operation has the row label @{missing}")),
        }
        for (service, pending) in std::mem::take(&mut self.services).into_iter().enumerate() {
            if let Some(starter) = pending.starter {
                self.tables.services[service].starter = self.statement(service, &starter)?;
            }
            if let Some(client) = pending.client {
                self.tables.services[service].client = self.statement(service, &client)?;
            }
        }
        match self.behaviours.take() {
            Ok((spots, rows)) => (self.origins[Section::Behaviours as usize], self.tables.behaviours) = (spots, rows),
            Err(missing) => return self.error(0, format!("no statement has the row label @{missing}")),
        }
        if self.tables.services.is_empty() {
            return self.error(self.text.len(), "a network has a service");
        }
        Ok((self.tables, self.origins))
    }

    fn reserve(&mut self, spot: Spot, label: Option<u16>) -> Result<u16, Error> {
        let row = self.behaviours.reserve(spot, label, Section::Behaviours.limit());
        row.or_else(|message| self.error(spot, message))
    }

    /// The row of a statement in a service.
    fn statement(&mut self, service: usize, statement: &Statement) -> Result<u16, Error> {
        let row = self.reserve(statement.spot, statement.label)?;
        let (kind, fields) = match &statement.kind {
            StatementKind::Nil => (0, [0; 4]),
            StatementKind::Receive { .. }
            | StatementKind::Answer { .. }
            | StatementKind::Send { .. }
            | StatementKind::Ask { .. } => self.exchange(service, &statement.kind)?,
            StatementKind::If { condition, then, otherwise } => {
                let condition = self.expression(condition)?;
                let then = self.statement(service, then)?;
                (5, [condition, then, self.statement(service, otherwise)?, 0])
            }
            StatementKind::While { condition, body } => {
                let condition = self.expression(condition)?;
                (6, [condition, self.statement(service, body)?, 0, 0])
            }
            StatementKind::Sequence(left, right) => {
                let left = self.statement(service, left)?;
                (7, [left, self.statement(service, right)?, 0, 0])
            }
            StatementKind::Parallel(left, right) => {
                let left = self.statement(service, left)?;
                (8, [left, self.statement(service, right)?, 0, 0])
            }
            StatementKind::Assign { path, expression } => {
                let path = self.path(path)?;
                (9, [path, self.expression(expression)?, 0, 0])
            }
            StatementKind::Choice(branches) => {
                let first = self.branches(service, branches)?;
                (10, [first, branches.len() as u16, 0, 0])
            }
        };
        self.behaviours.set(row, BehaviourRow { kind, unused: 0, fields });
        Ok(row)
    }

    /// Kind and fields of a statement that names an operation.
    fn exchange(&mut self, service: usize, kind: &StatementKind) -> Result<(u8, [u16; 4]), Error> {
        Ok(match kind {
            StatementKind::Receive { operation, into } => {
                (1, [self.operation(service, operation)?, self.path(into)?, 0, 0])
            }
            StatementKind::Answer { operation, into, body, reply } => {
                let operation = self.operation(service, operation)?;
                let into = self.path(into)?;
                let body = self.statement(service, body)?;
                (2, [operation, into, self.path(reply)?, body])
            }
            StatementKind::Send { operation, expression } => {
                (3, [self.operation(service, operation)?, self.expression(expression)?, 0, 0])
            }
            StatementKind::Ask { operation, expression, into } => {
                let operation = self.operation(service, operation)?;
                let expression = self.expression(expression)?;
                (4, [operation, expression, self.path(into)?, 0])
            }
            _ => unreachable!("no operation is named"),
        })
    }

    /// Branches are consecutive rows; the first one's number.
    fn branches(&mut self, service: usize, branches: &[Branch]) -> Result<u16, Error> {
        let mut first = None;
        for (index, branch) in branches.iter().enumerate() {
            let row = self.reserve(branch.spot, branch.label)?;
            let expected = *first.get_or_insert(row) + index as u16;
            if row != expected {
                return self.error(branch.spot, "the branches of a choice are consecutive rows");
            }
        }
        let first = first.expect("a choice has a branch");
        for (row, branch) in (first..).zip(branches) {
            let input = self.statement(service, &branch.input)?;
            let then = self.statement(service, &branch.then)?;
            self.behaviours.set(row, BehaviourRow { kind: 11, unused: 0, fields: [input, then, 0, 0] });
        }
        Ok(first)
    }

    fn operation(&self, service: usize, used: &OperationUse) -> Result<u16, Error> {
        let find = |spot: Spot, direction: u8, id: u16, location: u16, what: &str| {
            let found = self.tables.operations.iter().position(|row| {
                usize::from(row.service) == service
                    && row.direction == direction
                    && row.id == id
                    && row.location == location
            });
            match found {
                Some(row) => Ok(row as u16),
                None => self.error(spot, format!("this service has no such {what}")),
            }
        };
        match *used {
            OperationUse::Row(row) => Ok(row),
            OperationUse::Input { spot, id } => find(spot, 0, id, 0, "input"),
            OperationUse::Output { spot, id, location } => find(spot, 1, id, location, "output"),
        }
    }
}
