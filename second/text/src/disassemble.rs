//! From a network file to a text that assembles to exactly that file.

use std::fmt::Write;
use std::ops::Range;

use second::network::{Behaviour, Direction, Expression};
use second::tables::Tables;
use second::{Basic, Network, Refusal};

use crate::assemble::assemble;
use crate::quoted::quoted;

/// What the text says in full because leaving it to the order of the text would give other rows.
#[derive(Clone, Copy, Default)]
struct Detail {
    expressions: bool,
    paths: bool,
    data: bool,
    operations: bool,
    behaviours: bool,
}

/// The text of a file that passes refusals 2 to 5, but for the text of string constants. The plainest text that
/// assembles to the file.
pub fn disassemble(file: &[u8]) -> Result<String, Refusal> {
    let network = Network::read_any_text(file)?;
    let (wanted, _) = Tables::read(file)?;
    let mut detail =
        Detail { expressions: shares_expressions(&network), paths: repeats_paths(&wanted), ..Detail::default() };
    loop {
        let text = Printer::print(&network, detail);
        let made = assemble(&text).ok().and_then(|made| Tables::read(&made.file).ok()).map(|(tables, _)| tables);
        let flag = match &made {
            Some(made) if *made == wanted => return Ok(text),
            Some(made) if plain_expressions(made) != plain_expressions(&wanted) => &mut detail.expressions,
            Some(made) if made.paths != wanted.paths => &mut detail.paths,
            Some(made) if made.expressions != wanted.expressions || made.data != wanted.data => &mut detail.data,
            Some(made) if made.operations != wanted.operations => &mut detail.operations,
            _ => &mut detail.behaviours,
        };
        if *flag {
            let everything =
                detail.expressions && detail.paths && detail.data && detail.operations && detail.behaviours;
            assert!(!everything, "a text in full detail assembles to its file");
            detail = Detail { expressions: true, paths: true, data: true, operations: true, behaviours: true };
        } else {
            *flag = true;
        }
    }
}

/// Whether an expression row is used otherwise than exactly once.
fn shares_expressions(network: &Network) -> bool {
    expression_uses(network).iter().any(|&(by_rows, by_behaviours)| by_rows + by_behaviours != 1)
}

/// Whether two path rows have the same ids.
fn repeats_paths(tables: &Tables) -> bool {
    tables.paths.iter().enumerate().any(|(row, path)| tables.paths[..row].contains(path))
}

/// How often each expression row is used by expressions and by behaviours.
fn expression_uses(network: &Network) -> Vec<(usize, usize)> {
    let mut uses = vec![(0, 0); network.expressions.len()];
    for expression in &network.expressions {
        use Expression::*;
        match *expression {
            Constant(..) | Path(_) | Present(_) => {}
            Not(a) | Negate(a) => uses[a].0 += 1,
            Add(a, b) | Subtract(a, b) | Less(a, b) | Equal(a, b) | And(a, b) => {
                uses[a].0 += 1;
                uses[b].0 += 1;
            }
        }
    }
    for behaviour in &network.behaviours {
        use Behaviour::*;
        match *behaviour {
            Notification { expression, .. } | SolicitResponse { expression, .. } | Assign { expression, .. } => {
                uses[expression].1 += 1
            }
            If { condition, .. } | While { condition, .. } => uses[condition].1 += 1,
            _ => {}
        }
    }
    uses
}

/// Expression rows without regard to the order of path rows and data.
fn plain_expressions(tables: &Tables) -> Vec<(u8, u8, [u16; 4], Vec<u8>)> {
    let plain = |row: &second::tables::ExpressionRow| {
        let [a, b, _] = row.fields.map(usize::from);
        match row.kind {
            0 => (row.kind, row.basic, [0; 4], tables.data[a..a + b].to_vec()),
            1 | 2 => (row.kind, row.basic, tables.paths[a], Vec::new()),
            _ => (row.kind, row.basic, [row.fields[0], row.fields[1], 0, 0], Vec::new()),
        }
    };
    tables.expressions.iter().map(plain).collect()
}

struct Printer<'a> {
    network: &'a Network,
    detail: Detail,
    text: String,
    depth: usize,
    service: usize,
    uses: Vec<(usize, usize)>,
}

impl Printer<'_> {
    fn print(network: &Network, detail: Detail) -> String {
        let uses = expression_uses(network);
        let mut printer = Printer { network, detail, text: String::new(), depth: 0, service: 0, uses };
        if detail.paths {
            for path in &network.paths {
                printer.line(&format!("path {}", steps(path.ids())));
            }
        }
        printer.types();
        if detail.data {
            let bytes: Vec<String> = network.data.iter().map(|byte| format!("{byte:02x}")).collect();
            let lines: Vec<String> = bytes.chunks(16).map(|line| line.join(" ")).collect();
            printer.line(&format!("data {{ {} }}", lines.join("\n       ")));
        }
        if detail.expressions {
            printer.declared_expressions();
        }
        for service in 0..network.services.len() {
            printer.service(service);
        }
        printer.text
    }

    fn line(&mut self, text: &str) {
        self.indent();
        self.text.push_str(text);
        self.text.push('\n');
    }

    fn indent(&mut self) {
        self.text.extend(std::iter::repeat_n("    ", self.depth));
    }

    /// A tree where its rows stand level by level from its root, else single rows.
    fn types(&mut self) {
        let mut row = 0;
        while row < self.network.types.len() {
            let tree = self.tree_rows(row);
            let node = &self.network.types[row];
            if tree > 0 {
                let text = format!("type t{row} = {}", self.tree(row));
                self.line(&text);
                row += tree;
            } else {
                let mark = if node.mandatory { "" } else { "?" };
                let mut text = format!("node t{row} = {}{mark}: {}", node.id, node.basic.name());
                if !node.children.is_empty() {
                    write!(text, " children T#{} {}", node.children.start, node.children.len()).expect("a string");
                }
                self.line(&text);
                row += 1;
            }
        }
    }

    /// Rows of the tree that stands level by level from a root row, or 0 if none does.
    fn tree_rows(&self, root: usize) -> usize {
        let types = &self.network.types;
        if types[root].id != 0 || !types[root].mandatory {
            return 0;
        }
        let mut end = root + 1;
        let mut row = root;
        while row < end {
            let children = &types[row].children;
            if !children.is_empty() {
                if children.start != end {
                    return 0;
                }
                end = children.end;
            }
            row += 1;
        }
        end - root
    }

    fn tree(&self, row: usize) -> String {
        let node = &self.network.types[row];
        if node.children.is_empty() {
            return node.basic.name().to_string();
        }
        let child = |row: usize| {
            let mark = if self.network.types[row].mandatory { "" } else { "?" };
            format!("{}{mark}: {}", self.network.types[row].id, self.tree(row))
        };
        let children: Vec<String> = node.children.clone().map(child).collect();
        format!("{} {{ {} }}", node.basic.name(), children.join(", "))
    }

    /// One declaration for each row, or for rows that follow each other as operands before their operator.
    fn declared_expressions(&mut self) {
        let mut starts = Vec::new();
        for row in 0..self.network.expressions.len() {
            starts.push(self.operands(row, &starts).last().map_or(row, |&operand| starts[operand]));
        }
        let mut end = self.network.expressions.len();
        let mut declared = Vec::new();
        while end > 0 {
            declared.push(end - 1);
            end = starts[end - 1];
        }
        for row in declared.into_iter().rev() {
            let text = format!("expression $e{row} = {}", self.operator(row, &starts));
            self.line(&text);
        }
    }

    /// The operands that are written inside a declared row, the last in the file first.
    fn operands(&self, row: usize, starts: &[usize]) -> Vec<usize> {
        use Expression::*;
        let last_first = match self.network.expressions[row] {
            Constant(..) | Path(_) | Present(_) => vec![],
            Not(a) | Negate(a) => vec![a],
            Add(a, b) | Subtract(a, b) | Less(a, b) | Equal(a, b) | And(a, b) => vec![b, a],
        };
        let mut inside = Vec::new();
        let mut end = row;
        for operand in last_first {
            if operand + 1 == end && self.uses[operand] == (1, 0) {
                inside.push(operand);
                end = starts[operand];
            }
        }
        inside
    }

    fn operator(&self, row: usize, starts: &[usize]) -> String {
        let inside = self.operands(row, starts);
        self.expression_text(row, &|operand| {
            if !inside.contains(&operand) {
                return format!("$e{operand}");
            }
            self.bracketed(operand, self.operator(operand, starts))
        })
    }

    fn inline(&self, row: usize) -> String {
        self.expression_text(row, &|operand| self.bracketed(operand, self.inline(operand)))
    }

    fn bracketed(&self, row: usize, text: String) -> String {
        use Expression::*;
        match self.network.expressions[row] {
            Constant(..) | Path(_) | Present(_) => text,
            _ => format!("({text})"),
        }
    }

    fn expression_text(&self, row: usize, operand: &dyn Fn(usize) -> String) -> String {
        use Expression::*;
        match &self.network.expressions[row] {
            Constant(basic, bytes) => {
                let value = constant(*basic, &self.network.data[bytes.clone()]);
                if self.detail.data {
                    format!("{value} at {}", bytes.start)
                } else {
                    value
                }
            }
            &Path(path) => self.path(path),
            &Present(path) => format!("present {}", self.path(path)),
            &Not(a) => format!("not {}", operand(a)),
            &Negate(a) => format!("-{}", operand(a)),
            &Add(a, b) => format!("{} + {}", operand(a), operand(b)),
            &Subtract(a, b) => format!("{} - {}", operand(a), operand(b)),
            &Less(a, b) => format!("{} < {}", operand(a), operand(b)),
            &Equal(a, b) => format!("{} == {}", operand(a), operand(b)),
            &And(a, b) => format!("{} and {}", operand(a), operand(b)),
        }
    }

    fn expression(&self, row: usize) -> String {
        if self.detail.expressions {
            format!("$e{row}")
        } else {
            self.inline(row)
        }
    }

    /// A path by its ids, or by its row where an earlier row has the same ids.
    fn path(&self, row: usize) -> String {
        let path = &self.network.paths[row];
        match self.network.paths.iter().position(|other| other == path) {
            Some(first) if first < row => format!("P#{row}"),
            _ => steps(path.ids()),
        }
    }

    fn service(&mut self, row: usize) {
        let service = self.network.services[row];
        self.service = row;
        if !self.text.is_empty() {
            self.text.push('\n');
        }
        let key = service.key.map_or(String::new(), |key| format!("keyed by {key} "));
        self.line(&format!("service {} {key}{{", service.location));
        self.depth += 1;
        for (number, operation) in self.network.operations.iter().enumerate() {
            if operation.service != row {
                continue;
            }
            let label = if self.detail.operations { format!("@{number} ") } else { String::new() };
            let head = match operation.direction {
                Direction::In => format!("input {}", operation.id),
                Direction::Out => format!("output {} to {}", operation.id, operation.location),
            };
            let reply = operation.reply.map_or(String::new(), |reply| format!(" -> {}", self.type_name(reply)));
            self.line(&format!("{label}{head}: {}{reply}", self.type_name(operation.request)));
        }
        for (word, root) in [("starter", service.starter), ("client", service.client)] {
            if let Some(root) = root {
                self.indent();
                write!(self.text, "{word} ").expect("a string");
                self.group(root);
                self.text.push('\n');
            }
        }
        self.depth -= 1;
        self.line("}");
    }

    /// A root is no child, so its row begins a tree or stands alone and has a name.
    fn type_name(&self, row: usize) -> String {
        format!("t{row}")
    }

    fn label(&self, row: usize) -> String {
        if self.detail.behaviours {
            format!("@{row} ")
        } else {
            String::new()
        }
    }

    /// A statement where one is expected, in braces if it is long.
    fn group(&mut self, row: usize) {
        use Behaviour::*;
        match self.network.behaviours[row] {
            If { .. } | While { .. } | Parallel(..) | RequestResponse { .. } => {
                self.text.push('{');
                self.inner_line(row);
                self.text.push('}');
            }
            _ => self.statement(row),
        }
    }

    /// A statement on lines of its own.
    fn inner_line(&mut self, row: usize) {
        self.text.push('\n');
        self.depth += 1;
        self.indent();
        self.statement(row);
        self.depth -= 1;
        self.text.push('\n');
        self.indent();
    }

    /// A side of a parallel, always in braces.
    fn side(&mut self, row: usize) {
        self.text.push(' ');
        if matches!(self.network.behaviours[row], Behaviour::Sequence(..)) && !self.detail.behaviours {
            self.statement(row);
        } else {
            self.text.push('{');
            self.inner_line(row);
            self.text.push('}');
        }
    }

    fn put(&mut self, text: impl AsRef<str>) {
        self.text.push_str(text.as_ref());
    }

    fn statement(&mut self, row: usize) {
        use Behaviour::*;
        self.put(self.label(row));
        match self.network.behaviours[row].clone() {
            Nil | OneWay { .. } | Notification { .. } | SolicitResponse { .. } | Assign { .. } => {
                self.put(self.single(row))
            }
            RequestResponse { operation, into, reply, body } => {
                self.put(format!("answer {} into {} do ", self.input(operation), self.path(into)));
                self.group(body);
                self.put(format!(" reply {}", self.path(reply)));
            }
            If { condition, then, otherwise } => {
                self.put(format!("if {} then ", self.expression(condition)));
                self.group(then);
                self.put(" else ");
                self.group(otherwise);
            }
            While { condition, body } => {
                self.put(format!("while {} do ", self.expression(condition)));
                self.group(body);
            }
            Sequence(left, right) => self.sequence(left, right),
            Parallel(left, right) => self.parallel(left, right),
            Choice { branches } => self.choice(branches),
            Branch { input, then } => {
                self.put("on ");
                self.statement(input);
                self.put(" then ");
                self.group(then);
            }
        }
    }

    /// A statement that holds no other.
    fn single(&self, row: usize) -> String {
        use Behaviour::*;
        match self.network.behaviours[row] {
            OneWay { operation, into } => format!("receive {} into {}", self.input(operation), self.path(into)),
            Notification { operation, expression } => {
                format!("send {} with {}", self.output(operation), self.expression(expression))
            }
            SolicitResponse { operation, expression, into } => {
                let (output, expression) = (self.output(operation), self.expression(expression));
                format!("ask {output} with {expression} into {}", self.path(into))
            }
            Assign { path, expression } => format!("set {} = {}", self.path(path), self.expression(expression)),
            _ => "nil".to_string(),
        }
    }

    /// Without labels a parallel to the right goes on with its sides.
    fn parallel(&mut self, left: usize, mut right: usize) {
        self.put("parallel");
        self.side(left);
        while let (Behaviour::Parallel(left, next), false) = (&self.network.behaviours[right], self.detail.behaviours) {
            self.side(*left);
            right = *next;
        }
        self.side(right);
    }

    fn choice(&mut self, branches: Range<usize>) {
        self.put("choice {\n");
        self.depth += 1;
        for branch in branches {
            self.indent();
            self.statement(branch);
            self.put("\n");
        }
        self.depth -= 1;
        self.indent();
        self.put("}");
    }

    /// Without labels a sequence to the right goes on in the same braces.
    fn sequence(&mut self, left: usize, right: usize) {
        let mut statements = vec![left];
        let mut rest = right;
        while let (Behaviour::Sequence(left, next), false) = (&self.network.behaviours[rest], self.detail.behaviours) {
            statements.push(*left);
            rest = *next;
        }
        statements.push(rest);
        self.text.push_str("{\n");
        self.depth += 1;
        for (index, row) in statements.iter().enumerate() {
            self.indent();
            self.statement(*row);
            self.text.push_str(if index + 1 < statements.len() { ";\n" } else { "\n" });
        }
        self.depth -= 1;
        self.indent();
        self.text.push('}');
    }

    fn input(&self, operation: usize) -> String {
        let row = self.network.operations[operation];
        if row.service == self.service && row.direction == Direction::In {
            row.id.to_string()
        } else {
            format!("O#{operation}")
        }
    }

    fn output(&self, operation: usize) -> String {
        let row = self.network.operations[operation];
        if row.service == self.service && row.direction == Direction::Out {
            format!("{} to {}", row.id, row.location)
        } else {
            format!("O#{operation}")
        }
    }
}

fn steps(ids: &[u16]) -> String {
    ids.iter().map(u16::to_string).collect::<Vec<_>>().join(".")
}

fn constant(basic: Basic, bytes: &[u8]) -> String {
    let eight = || <[u8; 8]>::try_from(bytes).expect("eight bytes");
    match basic {
        Basic::Bool => if bytes == [1] { "true" } else { "false" }.to_string(),
        Basic::Int => format!("int {}", i32::from_le_bytes(bytes.try_into().expect("four bytes"))),
        Basic::Long => format!("long {}", i64::from_le_bytes(eight())),
        Basic::Double => format!("double {:?}", f64::from_le_bytes(eight())),
        Basic::Raw => format!("raw {{ {} }}", bytes.iter().map(|byte| format!("{byte:02x} ")).collect::<String>()),
        Basic::Void => "void".to_string(),
        Basic::String => quoted(bytes),
    }
}
