//! Declarations as words and marks, and these as bytes with blanks between them.

use std::ops::Range;

use super::right::{Declaration, Right, Tree};
use crate::random::Random;

/// What a word or mark is for.
#[derive(Clone, Copy, PartialEq, Eq, Debug)]
pub enum Role {
    TypeWord,
    TypeName,
    Colon,
    Basic,
    Open,
    Close,
    Dot,
    ChildName,
    Cardinality,
    /// A type's name on the right side of a child.
    UsedName,
    /// A word or mark that is too many.
    Extra,
}

impl Role {
    /// Those of right texts.
    pub const ALL: [Role; 10] = {
        use Role::*;
        [TypeWord, TypeName, Colon, Basic, Open, Close, Dot, ChildName, Cardinality, UsedName]
    };

    pub fn is_word(self) -> bool {
        matches!(self, Role::TypeWord | Role::TypeName | Role::Basic | Role::ChildName | Role::UsedName)
    }
}

#[derive(Clone, Debug)]
pub struct Token {
    pub role: Role,
    pub text: String,
}

impl Token {
    pub fn new(role: Role, text: &str) -> Token {
        Token { role, text: text.into() }
    }
}

pub fn tokens(declarations: &[Declaration]) -> Vec<Token> {
    let mut tokens = Vec::new();
    for declaration in declarations {
        tokens.push(Token::new(Role::TypeWord, "type"));
        tokens.push(Token::new(Role::TypeName, &declaration.name));
        tokens.push(Token::new(Role::Colon, ":"));
        tree(&mut tokens, &declaration.tree);
    }
    tokens
}

fn tree(tokens: &mut Vec<Token>, from: &Tree) {
    tokens.push(Token::new(Role::Basic, from.basic.name()));
    if from.children.is_empty() {
        return;
    }
    tokens.push(Token::new(Role::Open, "{"));
    for child in &from.children {
        tokens.push(Token::new(Role::Dot, "."));
        tokens.push(Token::new(Role::ChildName, &child.name));
        if !child.mark.is_empty() {
            tokens.push(Token::new(Role::Cardinality, child.mark));
        }
        tokens.push(Token::new(Role::Colon, ":"));
        match &child.right {
            Right::Tree(below) => tree(tokens, below),
            Right::Named(name) => tokens.push(Token::new(Role::UsedName, name)),
        }
    }
    tokens.push(Token::new(Role::Close, "}"));
}

/// How blanks stand between words and marks.
#[derive(Clone, Copy, PartialEq, Eq, Debug)]
pub enum Blanks {
    /// Where two words need one.
    Few,
    /// One here and there.
    Plain,
    /// Runs of spaces and line ends anywhere.
    Odd,
}

impl Blanks {
    pub fn some(random: &mut Random) -> Blanks {
        [Blanks::Few, Blanks::Plain, Blanks::Odd][random.below(3)]
    }

    fn put(self, random: &mut Random, text: &mut Vec<u8>) {
        let most = match self {
            Blanks::Few => 0,
            Blanks::Plain => 1,
            Blanks::Odd if random.one_in(2) => 4,
            Blanks::Odd => 0,
        };
        for _ in 0..random.below(most + 1) {
            text.push(if random.one_in(3) { b'\n' } else { b' ' });
        }
    }
}

/// A text, and where its words and marks stand.
pub struct Written {
    pub text: Vec<u8>,
    pub spans: Vec<Range<usize>>,
}

pub fn write(random: &mut Random, tokens: &[Token], blanks: Blanks) -> Written {
    let is_of_words = |byte: Option<&u8>| byte.is_some_and(|&byte| byte.is_ascii_alphanumeric() || byte == b'_');
    let mut written = Written { text: Vec::new(), spans: Vec::new() };
    for token in tokens {
        let text = &mut written.text;
        blanks.put(random, text);
        if is_of_words(text.last()) && is_of_words(token.text.as_bytes().first()) {
            text.push(if random.one_in(4) { b'\n' } else { b' ' });
        }
        let start = text.len();
        text.extend(token.text.bytes());
        written.spans.push(start..start + token.text.len());
    }
    blanks.put(random, &mut written.text);
    written
}

/// Where a text was cut.
#[derive(Clone, Copy, PartialEq, Eq, Debug)]
pub enum Cut {
    After(Role),
    Inside(Role),
}

impl Cut {
    /// Marks of one byte have no inside.
    pub fn all() -> impl Iterator<Item = Cut> {
        let inside = Role::ALL.into_iter().filter(|role| role.is_word() || *role == Role::Cardinality);
        Role::ALL.into_iter().map(Cut::After).chain(inside.map(Cut::Inside))
    }
}

impl Written {
    /// Cuts the text behind a byte of a word or mark, or behind some of the blanks after it. Each sort of word
    /// and mark is cut as often, however often it stands in a text.
    pub fn cut(&mut self, random: &mut Random, tokens: &[Token]) -> Cut {
        let of_role = |role: Role| (0..tokens.len()).filter(|&at| tokens[at].role == role).collect::<Vec<_>>();
        let there: Vec<Vec<usize>> = Role::ALL.into_iter().map(of_role).filter(|places| !places.is_empty()).collect();
        let places = random.pick(&there).expect("a word or mark");
        let number = *random.pick(places).expect("a place");
        let span = self.spans[number].clone();
        let next = self.spans.get(number + 1).map_or(self.text.len(), |next| next.start);
        let end = random.between(span.start + 1, next);
        self.text.truncate(end);
        let role = tokens[number].role;
        if end < span.end {
            Cut::Inside(role)
        } else {
            Cut::After(role)
        }
    }
}
