//! Ways to break a right text.

use super::right;
use super::tokens::{Role, Token, Written};
use crate::random::Random;

#[derive(Clone, Copy, PartialEq, Eq, Debug)]
pub enum Break {
    MissingMark,
    ExtraMark,
    MissingWord,
    ExtraWord,
    WrongWord,
    JoinedWords,
    RepeatedType,
    RepeatedChild,
    UnknownName,
    LaterName,
    OwnName,
    LongName,
    DigitFirst,
    UnderscoreFirst,
    BasicTypeName,
    EmptyList,
    NameWithBraces,
    NameAsRightSide,
    MisplacedCardinality,
    Tab,
    CarriageReturn,
    Slash,
    Above127,
    OtherForeign,
    ForeignAfterWord,
    AnyByte,
    LostByte,
}

/// Broken cardinalities; each breaks the text whatever follows.
pub const CARDINALITIES: [&str; 30] = [
    "[0, 1]",
    "[ 0,1]",
    "[0 ,1]",
    "[0,1 ]",
    "[0,\n1]",
    "[0,2]",
    "[0,0]",
    "[1,0]",
    "[2,1]",
    "[01]",
    "[0a",
    "[00,1]",
    "[0,11]",
    "[0,1,1]",
    "[0.1]",
    "[1,]",
    "[,1]",
    "[]",
    "[",
    "[0",
    "[0,",
    "[0,1",
    "[0}",
    "[_,1]",
    "[0,*]",
    "[0/1]",
    "[0\t,1]",
    "[0,1][0,1]",
    "?[0,1]",
    "]",
];

/// Foreign bytes between 33 and 126.
const OTHERS: &[u8] = b"!\"#$%&'()*+-;<=>@\\^`|~";

impl Break {
    pub const ALL: [Break; 27] = {
        use Break::*;
        [
            MissingMark,
            ExtraMark,
            MissingWord,
            ExtraWord,
            WrongWord,
            JoinedWords,
            RepeatedType,
            RepeatedChild,
            UnknownName,
            LaterName,
            OwnName,
            LongName,
            DigitFirst,
            UnderscoreFirst,
            BasicTypeName,
            EmptyList,
            NameWithBraces,
            NameAsRightSide,
            MisplacedCardinality,
            Tab,
            CarriageReturn,
            Slash,
            Above127,
            OtherForeign,
            ForeignAfterWord,
            AnyByte,
            LostByte,
        ]
    };

    /// Changes the words and marks of a right text; false if it has no place for this.
    pub fn change(self, random: &mut Random, tokens: &mut Vec<Token>) -> bool {
        match self {
            Break::MissingMark => remove(random, tokens, |role| !role.is_word() && role != Role::Cardinality),
            Break::MissingWord => remove(random, tokens, Role::is_word),
            Break::ExtraMark => insert(random, tokens, &[":", "{", "}", ".", "?", "[", "]", ",", "[0,1]"]),
            Break::ExtraWord => insert(random, tokens, &["type", "int", "a", "void", "_", "0", "type_"]),
            Break::WrongWord => wrong_word(random, tokens),
            Break::JoinedWords => join(random, tokens),
            Break::RepeatedType => repeat_type(random, tokens),
            Break::RepeatedChild => repeat_child(random, tokens),
            Break::UnknownName | Break::LaterName | Break::OwnName => self.change_used(random, tokens),
            Break::LongName => {
                let length = random.between(17, 40);
                let long = right::name(random, length);
                rename(random, tokens, |_| long.clone())
            }
            Break::DigitFirst => {
                let digit = char::from(b'0' + random.below(10) as u8);
                rename(random, tokens, |name| format!("{digit}{}", &name[1..]))
            }
            Break::UnderscoreFirst => rename(random, tokens, |name| format!("_{}", &name[1..])),
            Break::BasicTypeName => {
                let word = right::basic(random).name();
                let place = random.pick(&places(tokens, Role::TypeName)).copied();
                place.map(|at| tokens[at].text = word.into()).is_some()
            }
            Break::EmptyList => after(random, tokens, is_leaf, &["{", "}"]),
            Break::NameWithBraces => {
                let is_named = |tokens: &[Token], at: usize| tokens[at].role == Role::UsedName;
                after(random, tokens, is_named, &["{", ".", "a", ":", "int", "}"])
            }
            Break::NameAsRightSide => name_as_right_side(random, tokens),
            Break::MisplacedCardinality => misplace_cardinality(random, tokens),
            // The others change bytes.
            _ => true,
        }
    }

    /// A child's right side becomes a name that is not declared before.
    fn change_used(self, random: &mut Random, tokens: &mut [Token]) -> bool {
        let uses = |tokens: &[Token], at: usize| {
            tokens[at].role == Role::UsedName
                || is_leaf(tokens, at) && owner(tokens, at).is_some_and(|own| own + 2 < at)
        };
        let Some(at) = some_place(random, tokens, uses) else { return false };
        let Some(own) = owner(tokens, at) else { return false };
        let names = |from: usize| tokens[from..].iter().filter(|token| token.role == Role::TypeName);
        let name = match self {
            Break::OwnName => tokens[own].text.clone(),
            Break::LaterName => {
                let later: Vec<&Token> = names(own + 1).collect();
                let Some(name) = random.pick(&later) else { return false };
                name.text.clone()
            }
            _ => {
                let name = right::name(random, 3);
                if names(0).any(|token| token.text == name) {
                    return false;
                }
                name
            }
        };
        tokens[at].text = name;
        true
    }

    /// Changes the bytes of a text.
    pub fn change_bytes(self, random: &mut Random, written: &mut Written) {
        let foreign = match self {
            Break::Tab => b'\t',
            Break::CarriageReturn => b'\r',
            Break::Slash => b'/',
            Break::Above127 => random.between(128, 255) as u8,
            Break::OtherForeign | Break::ForeignAfterWord => some_foreign(random),
            _ => return self.change_byte(random, &mut written.text),
        };
        let span = random.pick(&written.spans).expect("a word or mark").clone();
        let at = match self {
            Break::ForeignAfterWord => span.end,
            _ if random.one_in(3) => random.between(span.start, span.end),
            _ => random.between(0, written.text.len()),
        };
        written.text.insert(at, foreign);
    }

    fn change_byte(self, random: &mut Random, text: &mut Vec<u8>) {
        let at = random.below(text.len());
        match self {
            Break::AnyByte => text[at] = *random.pick(b"aZ09_:{}.?[], \ntypein").expect("a byte"),
            Break::LostByte => {
                text.remove(at);
            }
            _ => {}
        }
    }
}

fn some_foreign(random: &mut Random) -> u8 {
    match random.below(3) {
        0 => random.below(10) as u8,
        1 => random.between(11, 31) as u8,
        _ => OTHERS[random.below(OTHERS.len())],
    }
}

/// Some token for which this holds.
fn some_place(random: &mut Random, tokens: &[Token], holds: impl Fn(&[Token], usize) -> bool) -> Option<usize> {
    let places: Vec<usize> = (0..tokens.len()).filter(|&at| holds(tokens, at)).collect();
    random.pick(&places).copied()
}

fn remove(random: &mut Random, tokens: &mut Vec<Token>, holds: impl Fn(Role) -> bool) -> bool {
    some_place(random, tokens, |tokens, at| holds(tokens[at].role)).map(|at| tokens.remove(at)).is_some()
}

fn insert(random: &mut Random, tokens: &mut Vec<Token>, texts: &[&str]) -> bool {
    let at = random.between(0, tokens.len());
    tokens.insert(at, Token::new(Role::Extra, random.pick(texts).expect("a text")));
    true
}

/// Inserts tokens after one for which this holds.
fn after(random: &mut Random, tokens: &mut Vec<Token>, holds: fn(&[Token], usize) -> bool, texts: &[&str]) -> bool {
    let Some(at) = some_place(random, tokens, holds) else { return false };
    tokens.splice(at + 1..at + 1, texts.iter().map(|text| Token::new(Role::Extra, text)));
    true
}

/// Whether a token is a basic type without children.
fn is_leaf(tokens: &[Token], at: usize) -> bool {
    tokens[at].role == Role::Basic && tokens.get(at + 1).is_none_or(|next| next.role != Role::Open)
}

/// The name of the declaration that a token belongs to.
fn owner(tokens: &[Token], at: usize) -> Option<usize> {
    (0..at).rev().find(|&before| tokens[before].role == Role::TypeName)
}

fn rename(random: &mut Random, tokens: &mut [Token], new: impl Fn(&str) -> String) -> bool {
    let is_name = |tokens: &[Token], at: usize| matches!(tokens[at].role, Role::TypeName | Role::ChildName);
    some_place(random, tokens, is_name).map(|at| tokens[at].text = new(&tokens[at].text)).is_some()
}

/// `type` or a basic type's word, nearly.
fn wrong_word(random: &mut Random, tokens: &mut [Token]) -> bool {
    let is_fixed = |tokens: &[Token], at: usize| matches!(tokens[at].role, Role::TypeWord | Role::Basic);
    let Some(at) = some_place(random, tokens, is_fixed) else { return false };
    let word = &mut tokens[at].text;
    *word = match random.below(5) {
        0 => word[..word.len() - 1].into(),
        1 => word[1..].into(),
        2 => format!("{word}{}", random.pick(&["s", "_", "0"]).expect("an ending")),
        3 => word[..1].to_uppercase() + &word[1..],
        _ => word.to_uppercase(),
    };
    true
}

/// Two words without a blank between them.
fn join(random: &mut Random, tokens: &mut Vec<Token>) -> bool {
    let are_words = |tokens: &[Token], at: usize| {
        tokens[at].role.is_word() && tokens.get(at + 1).is_some_and(|next| next.role.is_word())
    };
    let Some(at) = some_place(random, tokens, are_words) else { return false };
    let second = tokens.remove(at + 1);
    tokens[at].text += &second.text;
    true
}

/// The places of all tokens of a role.
fn places(tokens: &[Token], role: Role) -> Vec<usize> {
    (0..tokens.len()).filter(|&at| tokens[at].role == role).collect()
}

fn repeat_type(random: &mut Random, tokens: &mut [Token]) -> bool {
    let names = places(tokens, Role::TypeName);
    if names.len() < 2 {
        return false;
    }
    let later = random.between(1, names.len() - 1);
    tokens[names[later]].text = tokens[names[random.below(later)]].text.clone();
    true
}

/// One more child at the end of a list that has its name already.
fn repeat_child(random: &mut Random, tokens: &mut Vec<Token>) -> bool {
    let Some(close) = random.pick(&places(tokens, Role::Close)).copied() else { return false };
    let (mut depth, mut names) = (0, Vec::new());
    for token in tokens[..close].iter().rev() {
        match token.role {
            Role::Close => depth += 1,
            Role::Open if depth == 0 => break,
            Role::Open => depth -= 1,
            Role::ChildName if depth == 0 => names.push(token.text.clone()),
            _ => {}
        }
    }
    let name = random.pick(&names).expect("no list is empty").clone();
    let child = [(Role::Dot, "."), (Role::ChildName, name.as_str()), (Role::Colon, ":"), (Role::Basic, "int")];
    tokens.splice(close..close, child.map(|(role, text)| Token::new(role, text)));
    true
}

/// `type b : a` for an earlier a.
fn name_as_right_side(random: &mut Random, tokens: &mut [Token]) -> bool {
    let names = places(tokens, Role::TypeName);
    if names.len() < 2 {
        return false;
    }
    let later = random.between(1, names.len() - 1);
    tokens[names[later] + 2] = Token::new(Role::UsedName, &tokens[names[random.below(later)]].text.clone());
    true
}

/// A cardinality, right or broken, anywhere but after a child's name.
fn misplace_cardinality(random: &mut Random, tokens: &mut Vec<Token>) -> bool {
    let at = random.between(0, tokens.len());
    if at > 0 && tokens[at - 1].role == Role::ChildName {
        return false;
    }
    let text = *random.pick(&["[0,1]", "[1,1]", "[0,*]", "[", "[0, 1]"]).expect("a text");
    tokens.insert(at, Token::new(Role::Extra, text));
    true
}

/// Gives a child a broken cardinality; false if there is no child.
pub fn cardinality(random: &mut Random, tokens: &mut Vec<Token>, broken: &str) -> bool {
    let Some(at) = random.pick(&places(tokens, Role::ChildName)).copied() else { return false };
    if tokens[at + 1].role == Role::Cardinality {
        tokens.remove(at + 1);
    }
    tokens.insert(at + 1, Token::new(Role::Cardinality, broken));
    true
}
