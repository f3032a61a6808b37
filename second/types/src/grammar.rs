//! The grammar of a text: refusals 2, 20 and 21.

use std::collections::{HashMap, HashSet};

use second::Basic;

use crate::refusal::{Cause, Refusal};
use crate::scanner::Scanner;
use crate::trees::{Child, TreeNumber, Trees};
use crate::{LONGEST, LONGEST_NAME};

/// What a text declares.
pub struct Read<'a> {
    pub trees: Trees,
    pub declared: Vec<Declared<'a>>,
    /// Child names in the order of first use.
    pub children: Vec<&'a str>,
}

pub struct Declared<'a> {
    pub name: &'a str,
    /// Where the name stands.
    pub spot: usize,
    pub tree: TreeNumber,
}

pub fn read(text: &[u8]) -> Result<Read<'_>, Refusal> {
    if text.len() > LONGEST {
        return Err(Refusal::new(Cause::TextLength, 0, LONGEST));
    }
    let mut reader = Reader::new(text);
    let mut declared = Vec::new();
    while !reader.scanner.ended() {
        declared.push(reader.declaration()?);
    }
    Ok(Read { trees: reader.trees, declared, children: reader.children })
}

struct Reader<'a> {
    scanner: Scanner<'a>,
    trees: Trees,
    types: HashMap<&'a str, TreeNumber>,
    children: Vec<&'a str>,
    ids: HashMap<&'a str, u16>,
    /// Child lists that were begun, and which ids each holds.
    lists: usize,
    listed: HashSet<(usize, u16)>,
}

fn basic_of(word: &str) -> Option<Basic> {
    Basic::ALL.into_iter().find(|basic| basic.name() == word)
}

impl<'a> Reader<'a> {
    fn new(text: &'a [u8]) -> Reader<'a> {
        Reader {
            scanner: Scanner::new(text),
            trees: Trees::default(),
            types: HashMap::new(),
            children: Vec::new(),
            ids: HashMap::new(),
            lists: 0,
            listed: HashSet::new(),
        }
    }

    /// `type name : tree`; the name is known from then on.
    fn declaration(&mut self) -> Result<Declared<'a>, Refusal> {
        let (spot, word) = self.scanner.word();
        if word != "type" {
            return Err(self.scanner.offends(spot, Cause::NoTypeWord));
        }
        let (spot, name) = self.name()?;
        if basic_of(name).is_some() {
            return Err(Refusal::at(Cause::BasicName, spot));
        }
        if self.types.contains_key(name) {
            return Err(Refusal::at(Cause::RepeatedType, spot));
        }
        self.scanner.expect(b':', Cause::NoColon)?;
        let (right, word) = self.scanner.word();
        let Some(basic) = basic_of(word) else { return Err(self.scanner.offends(right, Cause::NoBasic)) };
        let tree = self.tree(basic)?;
        self.types.insert(name, tree);
        Ok(Declared { name, spot, tree })
    }

    fn name(&mut self) -> Result<(usize, &'a str), Refusal> {
        let (spot, word) = self.scanner.word();
        match word.as_bytes() {
            [] => Err(self.scanner.offends(spot, Cause::NoName)),
            [first, ..] if !first.is_ascii_alphabetic() => Err(Refusal::at(Cause::NameStart, spot)),
            bytes if bytes.len() > LONGEST_NAME => Err(Refusal::at(Cause::NameLength, spot)),
            _ => Ok((spot, word)),
        }
    }

    /// A tree, after its basic type.
    fn tree(&mut self, basic: Basic) -> Result<TreeNumber, Refusal> {
        let children = if self.scanner.takes(b'{') { self.children()? } else { Vec::new() };
        Ok(self.trees.add(basic, children))
    }

    /// The children up to the closing brace.
    fn children(&mut self) -> Result<Vec<Child>, Refusal> {
        let list = self.lists;
        self.lists += 1;
        let mut children = Vec::new();
        loop {
            let cause = if children.is_empty() { Cause::NoChild } else { Cause::ListGoesOn };
            self.scanner.expect(b'.', cause)?;
            children.push(self.child(list)?);
            if self.scanner.takes(b'}') {
                return Ok(children);
            }
        }
    }

    /// A child of a list, after its dot.
    fn child(&mut self, list: usize) -> Result<Child, Refusal> {
        let (spot, name) = self.name()?;
        let id = self.id(name);
        if !self.listed.insert((list, id)) {
            return Err(Refusal::at(Cause::RepeatedChild, spot));
        }
        let optional = self.is_optional()?;
        self.scanner.expect(b':', Cause::NoColon)?;
        let (spot, word) = self.scanner.word();
        let tree = match basic_of(word) {
            Some(basic) => self.tree(basic)?,
            None => self.named(spot, word)?,
        };
        Ok(Child { id, optional, tree })
    }

    fn named(&self, spot: usize, word: &str) -> Result<TreeNumber, Refusal> {
        let cause = if word.is_empty() { Cause::NoTree } else { Cause::UnknownType };
        self.types.get(word).copied().ok_or_else(|| self.scanner.offends(spot, cause))
    }

    fn id(&mut self, name: &'a str) -> u16 {
        // A child takes four bytes of the text or more, so ids stay far below their width.
        let next = self.children.len() as u16 + 1;
        let id = *self.ids.entry(name).or_insert(next);
        if id == next {
            self.children.push(name);
        }
        id
    }

    /// `?`, `[0,1]`, `[1,1]` or nothing.
    fn is_optional(&mut self) -> Result<bool, Refusal> {
        if self.scanner.takes(b'?') {
            return Ok(true);
        }
        if !self.scanner.takes(b'[') {
            return Ok(false);
        }
        let optional = self.scanner.takes_close(b'0');
        if !optional {
            self.scanner.expect_close(b'1', Cause::Cardinality)?;
        }
        for &mark in b",1]" {
            self.scanner.expect_close(mark, Cause::Cardinality)?;
        }
        Ok(optional)
    }
}
