//! The grammar of the text.

use std::collections::HashMap;

use second::tables::Section;
use second::value::LONGEST;
use second::Basic;

use crate::declared::{self, ReadFile};
use crate::source::{Error, Scanner, Spot};
use crate::syntax::*;

const KEYWORDS: [&str; 45] = [
    "id",
    "location",
    "path",
    "types",
    "type",
    "node",
    "children",
    "expression",
    "data",
    "service",
    "input",
    "output",
    "to",
    "starter",
    "client",
    "nil",
    "receive",
    "into",
    "answer",
    "do",
    "reply",
    "send",
    "with",
    "ask",
    "if",
    "then",
    "else",
    "while",
    "parallel",
    "set",
    "choice",
    "on",
    "present",
    "not",
    "and",
    "at",
    "true",
    "false",
    "bool",
    "int",
    "double",
    "long",
    "string",
    "raw",
    "void",
];

/// The words with which an item starts.
const ITEMS: &str = "id, location, path, types, type, node, expression, data or service";

/// Statements, expressions and types stand inside each other at most so deep. A file's 256 rows of
/// statements, each in braces of its own, need 512 levels, and an expression of 8 levels some more.
pub const LEVELS: usize = 600;

/// Reads a whole text, and the file that it names.
pub fn parse(text: &str, read: &mut ReadFile) -> Result<Vec<Item>, Error> {
    let mut parser = Parser {
        scanner: Scanner::new(text),
        ids: HashMap::new(),
        locations: HashMap::new(),
        types: HashMap::new(),
        has_types: false,
        level: 0,
        rows: [0; 7],
    };
    let mut items = Vec::new();
    while !parser.scanner.ended() {
        items.extend(parser.item(read)?);
    }
    Ok(items)
}

struct Parser<'a> {
    scanner: Scanner<'a>,
    ids: HashMap<String, u16>,
    locations: HashMap<String, u16>,
    /// Types that a child may copy.
    types: HashMap<String, Tree>,
    /// The text has a `types` item.
    has_types: bool,
    /// How deep the next token stands.
    level: usize,
    /// How many rows of T, E and B the text makes so far.
    rows: [usize; 7],
}

impl Parser<'_> {
    fn error<T>(&self, spot: Spot, message: impl Into<String>) -> Result<T, Error> {
        self.scanner.error(spot, message)
    }

    /// Reads something that stands inside something else.
    fn inside<T>(&mut self, read: fn(&mut Self) -> Result<T, Error>) -> Result<T, Error> {
        if self.level == LEVELS {
            let spot = self.scanner.spot();
            return self.error(spot, format!("more than {LEVELS} levels inside each other"));
        }
        self.level += 1;
        let result = read(self);
        self.level -= 1;
        result
    }

    /// Counts rows that the text makes. A text that makes more than a file can have is read no further.
    fn count(&mut self, section: Section, spot: Spot, rows: usize) -> Result<(), Error> {
        self.rows[section as usize] += rows;
        if self.rows[section as usize] > section.limit() {
            return self.error(spot, format!("there are at most {} {} rows", section.limit(), section.letter()));
        }
        Ok(())
    }

    fn item(&mut self, read: &mut ReadFile) -> Result<Option<Item>, Error> {
        let spot = self.scanner.spot();
        let word = self.scanner.peek_word();
        self.scanner.takes_word(word);
        Ok(Some(match word {
            "id" | "location" => {
                self.number_name(spot, word)?;
                return Ok(None);
            }
            "path" => Item::Path { spot, ids: self.path_ids()? },
            "type" => {
                let name = self.name()?;
                self.scanner.expect("=")?;
                let tree = self.tree()?;
                self.types.insert(name.clone(), tree.clone());
                Item::Type { spot, name, tree }
            }
            "types" => self.types_of_file(spot, read)?,
            "node" => self.node(spot)?,
            "expression" => {
                self.scanner.expect("$")?;
                let name = self.name()?;
                self.scanner.expect("=")?;
                Item::Expression { spot, name, expression: self.expression()? }
            }
            "data" => Item::Data { spot, bytes: self.hex()? },
            "service" => self.service(spot)?,
            _ => return self.error(spot, format!("{ITEMS} expected")),
        }))
    }

    /// `service`, after that word. `keyed` and `by` are words only here, and names elsewhere.
    fn service(&mut self, spot: Spot) -> Result<Item, Error> {
        let location = self.location()?;
        let mut key = 0;
        if self.scanner.takes_word("keyed") {
            self.scanner.expect_word("by")?;
            key = self.id()?;
        }
        self.scanner.expect("{")?;
        let mut parts = Vec::new();
        while !self.scanner.takes("}") {
            parts.push(self.part()?);
        }
        Ok(Item::Service { spot, location, key, parts })
    }

    /// `types`, after that word: the types and ids of a file.
    fn types_of_file(&mut self, spot: Spot, read: &mut ReadFile) -> Result<Item, Error> {
        if self.has_types || self.rows[Section::Types as usize] > 0 {
            return self.error(spot, "`types` stands once, before every type");
        }
        self.has_types = true;
        let name_spot = self.scanner.spot();
        let file = read(&self.quoted()?).or_else(|message| self.error(name_spot, message))?;
        let types = declared::read(&file)?;
        self.count(Section::Types, spot, types.rows.len())?;
        for (id, name) in (1..).zip(&types.children) {
            if self.ids.insert(name.clone(), id).is_some() {
                let message =
                    format!("the id `{name}` is declared already, and {} has a child of that name", file.name);
                return self.error(name_spot, message);
            }
        }
        for declared in &types.declarations {
            self.types.insert(declared.name.clone(), declared::tree(&types.rows, declared.row, spot));
        }
        Ok(Item::Types { spot, types })
    }

    /// `id` or `location`, after that word.
    fn number_name(&mut self, spot: Spot, word: &str) -> Result<(), Error> {
        let name = self.name()?;
        self.scanner.expect("=")?;
        let number = self.not_zero()?;
        let names = if word == "id" { &mut self.ids } else { &mut self.locations };
        if names.insert(name, number).is_some() {
            return self.error(spot, "this name is declared already");
        }
        Ok(())
    }

    fn name(&mut self) -> Result<String, Error> {
        let spot = self.scanner.spot();
        let word = self.scanner.peek_word();
        if word.is_empty() {
            return self.error(spot, "a name expected");
        }
        if KEYWORDS.contains(&word) {
            return self.error(spot, format!("`{word}` is a word of the language and no name"));
        }
        self.scanner.takes_word(word);
        Ok(word.to_string())
    }

    fn not_zero(&mut self) -> Result<u16, Error> {
        let spot = self.scanner.spot();
        match self.scanner.expect_number()? {
            0 => self.error(spot, "ids and locations are not 0"),
            number => Ok(number),
        }
    }

    /// A number or a declared name.
    fn id(&mut self) -> Result<u16, Error> {
        self.number_or_name("id", |parser| &parser.ids)
    }

    fn location(&mut self) -> Result<u16, Error> {
        self.number_or_name("location", |parser| &parser.locations)
    }

    fn number_or_name(&mut self, what: &str, names: fn(&Self) -> &HashMap<String, u16>) -> Result<u16, Error> {
        let spot = self.scanner.spot();
        if self.scanner.rest().starts_with(|sign: char| sign.is_ascii_digit()) {
            return self.not_zero();
        }
        if self.scanner.peek_word().is_empty() {
            return self.error(spot, format!("an {what} expected: a number or a declared name").replace("an l", "a l"));
        }
        let name = self.name()?;
        match names(self).get(&name) {
            Some(&number) => Ok(number),
            None => self.error(spot, format!("no {what} `{name}` is declared")),
        }
    }

    fn path_ids(&mut self) -> Result<[u16; 4], Error> {
        let mut ids = [0; 4];
        ids[0] = self.id()?;
        let mut steps = 1;
        while self.scanner.comes(".") {
            let spot = self.scanner.spot();
            if steps == 4 {
                return self.error(spot, "a path has at most four steps");
            }
            self.scanner.expect(".")?;
            ids[steps] = self.id()?;
            steps += 1;
        }
        Ok(ids)
    }

    /// `X#n`: row n of section X.
    fn row_named(&mut self, section: &str) -> Result<Option<u16>, Error> {
        if self.scanner.takes(&format!("{section}#")) {
            return self.scanner.expect_number().map(Some);
        }
        Ok(None)
    }

    fn path(&mut self) -> Result<PathUse, Error> {
        if let Some(row) = self.row_named("P")? {
            return Ok(PathUse::Row(row));
        }
        let spot = self.scanner.spot();
        Ok(PathUse::Ids { spot, ids: self.path_ids()? })
    }

    fn basic(&mut self) -> Option<Basic> {
        let word = self.scanner.peek_word();
        let basic = Basic::ALL.into_iter().find(|basic| basic.name() == word)?;
        self.scanner.takes_word(word);
        Some(basic)
    }

    fn tree(&mut self) -> Result<Tree, Error> {
        let spot = self.scanner.spot();
        let Some(basic) = self.basic() else {
            let name = match self.scanner.peek_word() {
                "" => return self.error(spot, "a basic type or the name of a type expected"),
                _ => self.name()?,
            };
            return self.copied_tree(spot, &name);
        };
        self.count(Section::Types, spot, 1)?;
        let mut children = Vec::new();
        if self.scanner.takes("{") {
            children = self.children()?;
            if children.is_empty() {
                return self.error(spot, "a list of children is not empty");
            }
        }
        children.sort_by_key(|child| child.id);
        Ok(Tree { spot, basic, children })
    }

    fn copied_tree(&mut self, spot: Spot, name: &str) -> Result<Tree, Error> {
        let Some(rows) = self.types.get(name).map(Tree::rows) else {
            return self.error(spot, format!("no type `{name}` is declared"));
        };
        self.count(Section::Types, spot, rows)?;
        Ok(Tree { spot, ..self.types[name].clone() })
    }

    /// The children of a type up to the closing brace.
    fn children(&mut self) -> Result<Vec<Child>, Error> {
        let mut children: Vec<Child> = Vec::new();
        while !self.scanner.takes("}") {
            let spot = self.scanner.spot();
            let id = self.id()?;
            if children.iter().any(|child| child.id == id) {
                return self.error(spot, "this child id stands here already");
            }
            let optional = self.scanner.takes("?");
            self.scanner.expect(":")?;
            let tree = Tree { spot, ..self.inside(Self::tree)? };
            children.push(Child { id, optional, tree });
            if !self.scanner.takes(",") {
                self.scanner.expect("}")?;
                break;
            }
        }
        Ok(children)
    }

    fn node(&mut self, spot: Spot) -> Result<Item, Error> {
        self.count(Section::Types, spot, 1)?;
        let name = self.name()?;
        self.scanner.expect("=")?;
        // The only row whose id may be 0 by number: a root, or a row that nothing names.
        let id = match self.scanner.number()? {
            Some(number) => number,
            None => self.id()?,
        };
        let optional = self.scanner.takes("?");
        self.scanner.expect(":")?;
        let basic_spot = self.scanner.spot();
        let Some(basic) = self.basic() else { return self.error(basic_spot, "a basic type expected") };
        let (mut first_child, mut child_count) = (0, 0);
        if self.scanner.takes_word("children") {
            let row_spot = self.scanner.spot();
            let Some(row) = self.row_named("T")? else { return self.error(row_spot, "`T#` and a row number expected") };
            (first_child, child_count) = (row, self.scanner.expect_number()?);
        }
        Ok(Item::Node { spot, name, id, optional, basic, first_child, child_count })
    }

    /// Hexadecimal bytes in braces.
    fn hex(&mut self) -> Result<Vec<u8>, Error> {
        self.scanner.expect("{")?;
        let mut digits = Vec::new();
        loop {
            let spot = self.scanner.spot();
            if self.scanner.takes("}") {
                break;
            }
            match self.scanner.take_sign().and_then(|sign| sign.to_digit(16)) {
                Some(digit) => digits.push(digit as u8),
                None => return self.error(spot, "hexadecimal digits and `}` expected"),
            }
        }
        if digits.len() % 2 == 1 {
            let spot = self.scanner.spot();
            return self.error(spot, "each byte has two hexadecimal digits");
        }
        Ok(digits.chunks(2).map(|pair| pair[0] << 4 | pair[1]).collect())
    }

    fn label(&mut self) -> Result<Option<u16>, Error> {
        if self.scanner.takes("@") {
            return self.scanner.expect_number().map(Some);
        }
        Ok(None)
    }

    fn part(&mut self) -> Result<Part, Error> {
        let spot = self.scanner.spot();
        let label = self.label()?;
        let word_spot = self.scanner.spot();
        let word = self.scanner.peek_word();
        self.scanner.takes_word(word);
        match (word, label) {
            ("input" | "output", _) => {
                let id = self.id()?;
                let location = if word == "output" {
                    self.scanner.expect_word("to")?;
                    Some(self.location()?)
                } else {
                    None
                };
                self.scanner.expect(":")?;
                let request = self.type_use()?;
                let reply = if self.scanner.takes("->") { Some(self.type_use()?) } else { None };
                Ok(Part::Operation { spot, label, id, location, request, reply })
            }
            ("starter", None) => Ok(Part::Starter(self.statement()?)),
            ("client", None) => Ok(Part::Client(self.statement()?)),
            _ => self.error(word_spot, "input, output, starter, client or `}` expected"),
        }
    }

    fn type_use(&mut self) -> Result<TypeUse, Error> {
        let spot = self.scanner.spot();
        if let Some(row) = self.row_named("T")? {
            return Ok(TypeUse::Row(row));
        }
        let word = self.scanner.peek_word();
        if Basic::ALL.iter().any(|basic| basic.name() == word) || word.is_empty() {
            return Ok(TypeUse::Tree(self.tree()?));
        }
        Ok(TypeUse::Name { spot, name: self.name()? })
    }

    fn statement(&mut self) -> Result<Statement, Error> {
        self.inside(Self::statement_here)
    }

    fn statement_here(&mut self) -> Result<Statement, Error> {
        let spot = self.scanner.spot();
        let label = self.label()?;
        if self.scanner.comes("{") {
            return self.block(spot, label);
        }
        let word_spot = self.scanner.spot();
        let word = self.scanner.peek_word();
        self.scanner.takes_word(word);
        let kind = match word {
            "nil" => StatementKind::Nil,
            "receive" | "answer" => self.input(word)?,
            "send" | "ask" => self.output(word)?,
            "if" | "while" => self.conditional(word)?,
            "parallel" => return self.parallel(spot, label),
            "set" => {
                let path = self.path()?;
                self.scanner.expect("=")?;
                StatementKind::Assign { path, expression: self.expression()? }
            }
            "choice" => self.choice(word_spot)?,
            _ => {
                let words = "nil, receive, answer, send, ask, if, while, parallel, set, choice or `{`";
                return self.error(word_spot, format!("a statement expected: {words}"));
            }
        };
        self.statement_row(spot, label, kind)
    }

    /// A statement that is a row.
    fn statement_row(&mut self, spot: Spot, label: Option<u16>, kind: StatementKind) -> Result<Statement, Error> {
        self.count(Section::Behaviours, spot, 1)?;
        Ok(Statement { spot, label, kind })
    }

    /// `receive` or `answer`, after that word.
    fn input(&mut self, word: &str) -> Result<StatementKind, Error> {
        let operation = self.input_use()?;
        self.scanner.expect_word("into")?;
        let into = self.path()?;
        if word == "receive" {
            return Ok(StatementKind::Receive { operation, into });
        }
        self.scanner.expect_word("do")?;
        let body = Box::new(self.statement()?);
        self.scanner.expect_word("reply")?;
        Ok(StatementKind::Answer { operation, into, body, reply: self.path()? })
    }

    /// `send` or `ask`, after that word.
    fn output(&mut self, word: &str) -> Result<StatementKind, Error> {
        let operation = self.output_use()?;
        self.scanner.expect_word("with")?;
        let expression = self.expression()?;
        if word == "send" {
            return Ok(StatementKind::Send { operation, expression });
        }
        self.scanner.expect_word("into")?;
        Ok(StatementKind::Ask { operation, expression, into: self.path()? })
    }

    /// `if` or `while`, after that word.
    fn conditional(&mut self, word: &str) -> Result<StatementKind, Error> {
        let condition = self.expression()?;
        if word == "while" {
            self.scanner.expect_word("do")?;
            return Ok(StatementKind::While { condition, body: Box::new(self.statement()?) });
        }
        self.scanner.expect_word("then")?;
        let then = Box::new(self.statement()?);
        self.scanner.expect_word("else")?;
        Ok(StatementKind::If { condition, then, otherwise: Box::new(self.statement()?) })
    }

    fn choice(&mut self, spot: Spot) -> Result<StatementKind, Error> {
        self.scanner.expect("{")?;
        let mut branches = Vec::new();
        while !self.scanner.takes("}") {
            branches.push(self.branch()?);
        }
        if !(1..=8).contains(&branches.len()) {
            return self.error(spot, "a choice has 1 to 8 branches");
        }
        Ok(StatementKind::Choice(branches))
    }

    fn branch(&mut self) -> Result<Branch, Error> {
        let spot = self.scanner.spot();
        let label = self.label()?;
        self.scanner.expect_word("on")?;
        let input_spot = self.scanner.spot();
        let input = self.statement()?;
        if !matches!(input.kind, StatementKind::Receive { .. } | StatementKind::Answer { .. }) {
            return self.error(input_spot, "receive or answer expected");
        }
        self.scanner.expect_word("then")?;
        self.count(Section::Behaviours, spot, 1)?;
        Ok(Branch { spot, label, input, then: self.statement()? })
    }

    /// `{ a; b; c }` is a sequence of a and the sequence of b and c.
    fn block(&mut self, spot: Spot, label: Option<u16>) -> Result<Statement, Error> {
        self.scanner.expect("{")?;
        let mut statements = Vec::new();
        while !self.scanner.takes("}") {
            statements.push(self.statement()?);
            if !self.scanner.takes(";") {
                self.scanner.expect("}")?;
                break;
            }
        }
        self.join(spot, label, statements, StatementKind::Sequence)
    }

    /// `parallel { a } { b } { c }` is a parallel of a and the parallel of b and c.
    fn parallel(&mut self, spot: Spot, label: Option<u16>) -> Result<Statement, Error> {
        let mut sides = Vec::new();
        while self.scanner.comes("{") {
            let side = self.scanner.spot();
            sides.push(self.block(side, None)?);
        }
        if sides.len() < 2 {
            let spot = self.scanner.spot();
            return self.error(spot, "a parallel has two or more sides in braces");
        }
        self.join(spot, label, sides, StatementKind::Parallel)
    }

    fn join(
        &mut self,
        spot: Spot,
        label: Option<u16>,
        mut statements: Vec<Statement>,
        pair: fn(Box<Statement>, Box<Statement>) -> StatementKind,
    ) -> Result<Statement, Error> {
        if label.is_some() && statements.len() != 2 {
            return self.error(spot, "a row label stands before exactly two statements");
        }
        let Some(mut joined) = statements.pop() else {
            return self.statement_row(spot, None, StatementKind::Nil);
        };
        while let Some(before) = statements.pop() {
            let (spot, label) = if statements.is_empty() { (spot, label) } else { (before.spot, None) };
            joined = self.statement_row(spot, label, pair(Box::new(before), Box::new(joined)))?;
        }
        Ok(joined)
    }

    fn input_use(&mut self) -> Result<OperationUse, Error> {
        if let Some(row) = self.row_named("O")? {
            return Ok(OperationUse::Row(row));
        }
        let spot = self.scanner.spot();
        Ok(OperationUse::Input { spot, id: self.id()? })
    }

    fn output_use(&mut self) -> Result<OperationUse, Error> {
        if let Some(row) = self.row_named("O")? {
            return Ok(OperationUse::Row(row));
        }
        let spot = self.scanner.spot();
        let id = self.id()?;
        self.scanner.expect_word("to")?;
        Ok(OperationUse::Output { spot, id, location: self.location()? })
    }

    /// `and` binds least, then `not`, `<` and `==`, `+` and `-`, negation.
    fn expression(&mut self) -> Result<Expression, Error> {
        let mut left = self.negation()?;
        while self.scanner.takes_word("and") {
            let right = self.negation()?;
            left = self.binary(9, left, right)?;
        }
        Ok(left)
    }

    fn negation(&mut self) -> Result<Expression, Error> {
        let spot = self.scanner.spot();
        if self.scanner.takes_word("not") {
            let operand = Box::new(self.inside(Self::negation)?);
            return self.expression_row(spot, ExpressionKind::Unary(3, operand));
        }
        self.comparison()
    }

    fn comparison(&mut self) -> Result<Expression, Error> {
        let left = self.sum()?;
        let kind = if self.scanner.takes("<") {
            7
        } else if self.scanner.takes("==") {
            8
        } else {
            return Ok(left);
        };
        let right = self.sum()?;
        self.binary(kind, left, right)
    }

    fn sum(&mut self) -> Result<Expression, Error> {
        let mut left = self.signed()?;
        loop {
            let kind = if self.scanner.takes("+") {
                5
            } else if self.scanner.takes("-") {
                6
            } else {
                return Ok(left);
            };
            let right = self.signed()?;
            left = self.binary(kind, left, right)?;
        }
    }

    fn signed(&mut self) -> Result<Expression, Error> {
        let spot = self.scanner.spot();
        if self.scanner.takes("-") {
            let operand = Box::new(self.inside(Self::signed)?);
            return self.expression_row(spot, ExpressionKind::Unary(4, operand));
        }
        self.primary()
    }

    fn primary(&mut self) -> Result<Expression, Error> {
        let spot = self.scanner.spot();
        if self.scanner.takes("(") {
            let inner = self.inside(Self::expression)?;
            self.scanner.expect(")")?;
            return Ok(inner);
        }
        if self.scanner.takes("$") {
            return Ok(Expression { spot, kind: ExpressionKind::Named(self.name()?) });
        }
        if self.scanner.takes_word("present") {
            let path = self.path()?;
            return self.expression_row(spot, ExpressionKind::Present(path));
        }
        if let Some((basic, bytes)) = self.constant()? {
            let start = if self.scanner.takes_word("at") { Some(self.scanner.expect_number()?) } else { None };
            return self.expression_row(spot, ExpressionKind::Constant { basic, bytes, start });
        }
        let next = self.scanner.rest().chars().next();
        if !next.is_some_and(|sign| sign.is_ascii_alphanumeric() || sign == '_') {
            return self.error(spot, "an expression expected");
        }
        let path = self.path()?;
        self.expression_row(spot, ExpressionKind::Path(path))
    }

    /// An expression that is a row.
    fn expression_row(&mut self, spot: Spot, kind: ExpressionKind) -> Result<Expression, Error> {
        self.count(Section::Expressions, spot, 1)?;
        Ok(Expression { spot, kind })
    }

    fn binary(&mut self, kind: u8, left: Expression, right: Expression) -> Result<Expression, Error> {
        self.expression_row(left.spot, ExpressionKind::Binary(kind, Box::new(left), Box::new(right)))
    }

    fn constant(&mut self) -> Result<Option<(Basic, Vec<u8>)>, Error> {
        let spot = self.scanner.spot();
        if self.scanner.comes("\"") {
            return Ok(Some((Basic::String, self.string()?)));
        }
        if self.scanner.takes_word("true") {
            return Ok(Some((Basic::Bool, vec![1])));
        }
        if self.scanner.takes_word("false") {
            return Ok(Some((Basic::Bool, vec![0])));
        }
        let Some(basic) = self.basic() else { return Ok(None) };
        let value_spot = self.scanner.spot();
        let bytes = match basic {
            Basic::Int => self.literal::<i32>("an int: -2147483648 to 2147483647")?.to_le_bytes().to_vec(),
            Basic::Long => self.literal::<i64>("a long: a whole number of 64 bits")?.to_le_bytes().to_vec(),
            Basic::Double => {
                let number = self.literal::<f64>("a double, such as -0.5, 1e300, inf or nan")?;
                let bits = if number.is_nan() { second::value::NAN_BITS } else { number.to_bits() };
                bits.to_le_bytes().to_vec()
            }
            Basic::Raw => self.hex()?,
            Basic::Void => Vec::new(),
            Basic::Bool => return self.error(spot, "a bool constant is `true` or `false`"),
            Basic::String => return self.error(spot, "a string constant stands in quotes"),
        };
        if bytes.len() > LONGEST {
            return self.error(value_spot, format!("a raw value has at most {LONGEST} bytes"));
        }
        Ok(Some((basic, bytes)))
    }

    fn literal<N: std::str::FromStr>(&mut self, what: &str) -> Result<N, Error> {
        let spot = self.scanner.spot();
        let mut sign_before = '-';
        let mut length = 0;
        for sign in self.scanner.rest().chars() {
            let exponent_sign = matches!(sign, '+' | '-') && (length == 0 || matches!(sign_before, 'e' | 'E'));
            if !(sign.is_ascii_alphanumeric() || sign == '.' || exponent_sign) {
                break;
            }
            sign_before = sign;
            length += 1;
        }
        let mut left = length;
        let text: String = std::iter::from_fn(|| {
            left = usize::checked_sub(left, 1)?;
            self.scanner.take_sign()
        })
        .collect();
        match text.parse() {
            Ok(number) => Ok(number),
            Err(_) => self.error(spot, format!("{what} expected")),
        }
    }

    fn string(&mut self) -> Result<Vec<u8>, Error> {
        let spot = self.scanner.spot();
        let bytes = self.quoted()?;
        if bytes.len() > LONGEST {
            return self.error(spot, format!("a string has at most {LONGEST} bytes, this one has {}", bytes.len()));
        }
        Ok(bytes)
    }

    /// Bytes in quotes.
    fn quoted(&mut self) -> Result<Vec<u8>, Error> {
        let spot = self.scanner.spot();
        self.scanner.expect("\"")?;
        let mut bytes = Vec::new();
        loop {
            match self.scanner.take_sign() {
                Some('"') => return Ok(bytes),
                Some('\\') => bytes.push(self.escape()?),
                Some(sign) if sign != '\n' => bytes.extend(sign.encode_utf8(&mut [0; 4]).bytes()),
                _ => return self.error(spot, "the string does not end on its line"),
            }
        }
    }

    fn escape(&mut self) -> Result<u8, Error> {
        match self.scanner.take_sign() {
            Some(sign @ ('"' | '\\')) => Ok(sign as u8),
            Some('x') => {
                let mut digit = || self.scanner.take_sign().and_then(|sign| sign.to_digit(16));
                if let (Some(high), Some(low)) = (digit(), digit()) {
                    return Ok((high << 4 | low) as u8);
                }
                let spot = self.scanner.spot();
                self.error(spot, "`\\x` and two hexadecimal digits expected")
            }
            _ => {
                let spot = self.scanner.spot();
                self.error(spot, "`\\\"`, `\\\\` or `\\x` expected")
            }
        }
    }
}
