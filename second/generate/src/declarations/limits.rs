//! Texts at and just past the limits, and those that cost the most.

use second::Basic;
use types::LONGEST;

use super::right::{self, Child, Declaration, Right, Tree};
use super::tokens::{self, Blanks};
use crate::random::Random;

#[derive(Clone, Copy, PartialEq, Eq, Debug)]
pub enum Limit {
    Empty,
    BlanksOnly,
    Rows256,
    Rows257,
    Nodes16,
    Nodes17,
    Levels4,
    Levels5,
    Bytes8192,
    Bytes8193,
    Largest,
    LongestEndsTooSoon,
    TooLongAndBroken,
    DeepOpen,
    DeepClosed,
    Doubling,
    MostTypeNames,
    MostChildNames,
    LargeAndManyRows,
    LaterLarge,
}

impl Limit {
    pub const ALL: [Limit; 20] = {
        use Limit::*;
        [
            Empty,
            BlanksOnly,
            Rows256,
            Rows257,
            Nodes16,
            Nodes17,
            Levels4,
            Levels5,
            Bytes8192,
            Bytes8193,
            Largest,
            LongestEndsTooSoon,
            TooLongAndBroken,
            DeepOpen,
            DeepClosed,
            Doubling,
            MostTypeNames,
            MostChildNames,
            LargeAndManyRows,
            LaterLarge,
        ]
    };

    /// The numbers that such texts give where the out buffer is large enough.
    pub fn numbers(self) -> &'static [u8] {
        use Limit::*;
        match self {
            Empty | BlanksOnly | Rows256 | Nodes16 | Levels4 | Bytes8192 | Largest => &[0],
            Bytes8193 | TooLongAndBroken => &[2],
            Rows257 | Doubling | MostTypeNames | MostChildNames | LargeAndManyRows => &[3],
            Nodes17 | Levels5 | LaterLarge => &[5],
            DeepClosed => &[3, 5],
            LongestEndsTooSoon | DeepOpen => &[21],
        }
    }

    pub fn text(self, random: &mut Random) -> Vec<u8> {
        match self {
            Limit::Empty => Vec::new(),
            Limit::BlanksOnly => blanks(random),
            Limit::Rows256 => rows(random, 256),
            Limit::Rows257 => rows(random, 257),
            Limit::Nodes16 => nodes(random, 16),
            Limit::Nodes17 => nodes(random, 17),
            Limit::Levels4 => levels(random, 4),
            Limit::Levels5 => levels(random, 5),
            Limit::Bytes8192 => padded(random, LONGEST, b""),
            Limit::Bytes8193 => padded(random, LONGEST + 1, b""),
            Limit::Largest => largest(),
            Limit::LongestEndsTooSoon => padded(random, LONGEST, b"\ntype"),
            Limit::TooLongAndBroken => padded(random, LONGEST + 1, b"%"),
            Limit::DeepOpen => deep(if random.one_in(3) { 1_168 } else { random.between(1, 1_168) }, 0),
            Limit::DeepClosed => {
                let lists = if random.one_in(2) { random.between(4, 255) } else { random.between(256, 1_022) };
                deep(lists, lists)
            }
            Limit::Doubling => doubling(random.between(8, 250)),
            Limit::MostTypeNames => most_type_names(),
            Limit::MostChildNames => most_child_names(),
            Limit::LargeAndManyRows => large_and_many_rows(random),
            Limit::LaterLarge => later_large(random),
        }
    }
}

/// A few, or as many as a text has room for.
fn blanks(random: &mut Random) -> Vec<u8> {
    let count = if random.one_in(4) { LONGEST } else { random.between(1, 200) };
    (0..count).map(|_| if random.one_in(3) { b'\n' } else { b' ' }).collect()
}

/// With no blank that is not needed.
fn written(random: &mut Random, declarations: Vec<Declaration>) -> Vec<u8> {
    tokens::write(random, &tokens::tokens(&declarations), Blanks::Few).text
}

/// A declaration of one node.
fn one(number: usize) -> Declaration {
    Declaration { name: format!("t{number}"), tree: Tree { basic: Basic::Int, children: Vec::new() } }
}

/// A tree with a named child and so many others.
fn around(named: &str, others: usize) -> Tree {
    let child = |name: String, right| Child { name, mark: "", right };
    let leaf = || Right::Tree(Tree { basic: Basic::Int, children: Vec::new() });
    let mut children = vec![child("n".into(), Right::Named(named.into()))];
    children.extend((0..others).map(|number| child(format!("o{number}"), leaf())));
    Tree { basic: Basic::Void, children }
}

/// Declarations of so many rows, some by copying.
fn rows(random: &mut Random, count: usize) -> Vec<u8> {
    let mut declarations: Vec<Declaration> = Vec::new();
    let mut left = count;
    while left > 0 {
        let name = format!("t{}", declarations.len());
        let nodes = random.between(1, 15.min(left));
        left -= nodes;
        let tree = right::exact(random, nodes, 3);
        declarations.push(Declaration { name: name.clone(), tree });
        if nodes < left && random.one_in(3) {
            left -= nodes + 1;
            declarations.push(Declaration { name: format!("u{}", declarations.len()), tree: around(&name, 0) });
        }
    }
    written(random, declarations)
}

/// A type of so many nodes, written or copied, after none or some small ones.
fn nodes(random: &mut Random, count: usize) -> Vec<u8> {
    let before = random.below(4);
    let mut declarations: Vec<Declaration> = (0..before).map(one).collect();
    if random.one_in(2) {
        let levels = random.between(2, 4);
        declarations.push(Declaration { name: "a".into(), tree: right::exact(random, count, levels) });
    } else {
        let others = random.between(1, 8);
        declarations.push(Declaration { name: "a".into(), tree: right::exact(random, count - 1 - others, 3) });
        declarations.push(Declaration { name: "b".into(), tree: around("a", others) });
    }
    written(random, declarations)
}

fn large(random: &mut Random) -> Declaration {
    Declaration { name: "large".into(), tree: right::exact(random, 17, 4) }
}

/// A type of 17 nodes, and more rows than there may be.
fn large_and_many_rows(random: &mut Random) -> Vec<u8> {
    let (large, others) = (large(random), random.between(240, 300));
    written(random, [large].into_iter().chain((0..others).map(one)).collect())
}

/// A type of 17 nodes after others.
fn later_large(random: &mut Random) -> Vec<u8> {
    let (large, others) = (large(random), random.between(1, 60));
    written(random, (0..others).map(one).chain([large]).collect())
}

/// A type of so many levels, written or copied, after none or some small ones.
fn levels(random: &mut Random, count: usize) -> Vec<u8> {
    let before = random.below(4);
    let mut declarations: Vec<Declaration> = (0..before).map(one).collect();
    if random.one_in(2) {
        declarations.push(Declaration { name: "a".into(), tree: right::chain(random, count) });
    } else {
        declarations.push(Declaration { name: "a".into(), tree: right::chain(random, count - 1) });
        declarations.push(Declaration { name: "b".into(), tree: around("a", 2) });
    }
    written(random, declarations)
}

/// A right text of so many bytes with this end, with blanks between two words or marks.
fn padded(random: &mut Random, length: usize, end: &[u8]) -> Vec<u8> {
    let declarations = right::some(random);
    let tokens = tokens::tokens(&declarations);
    let mut made = tokens::write(random, &tokens, Blanks::Plain);
    let at = random.pick(&made.spans).map_or(0, |span| span.end);
    let blanks = length - end.len() - made.text.len();
    made.text.splice(at..at, std::iter::repeat_n(b' ', blanks));
    made.text.extend(end);
    made.text
}

/// Lists in one another, some of them closed.
pub fn deep(opened: usize, closed: usize) -> Vec<u8> {
    ("type a:int".to_string() + &"{.a:int".repeat(opened) + &"}".repeat(closed)).into_bytes()
}

/// Types that each hold the one before twice.
fn doubling(count: usize) -> Vec<u8> {
    let mut text = "type t0:int ".to_string();
    for number in 1..count {
        let next = format!("type t{number}:int{{.a:t{0}.b:t{0}}}", number - 1);
        if text.len() + next.len() > LONGEST {
            break;
        }
        text += &next;
    }
    text.into_bytes()
}

/// Names of one byte, then of two.
fn short_names() -> impl Iterator<Item = String> {
    let firsts = || ('a'..='z').chain('A'..='Z');
    let laters = move || firsts().chain('0'..='9').chain(['_']);
    let two = firsts().flat_map(move |first| laters().map(move |later| format!("{first}{later}")));
    firsts().map(String::from).chain(two)
}

/// As many as a text has room for.
pub fn most_type_names() -> Vec<u8> {
    let mut text = String::new();
    for name in short_names() {
        let next = format!("type {name}:int ");
        if text.len() + next.len() > LONGEST {
            break;
        }
        text += &next;
    }
    text.into_bytes()
}

/// Of one list, as many as a text has room for.
pub fn most_child_names() -> Vec<u8> {
    let mut text = "type t:int type u:int{".to_string();
    for name in short_names() {
        let next = format!(".{name}:t");
        if text.len() + next.len() + 1 > LONGEST {
            break;
        }
        text += &next;
    }
    (text + "}").into_bytes()
}

/// A right text of 8,192 bytes and 256 rows: sixteen types of sixteen nodes with names of sixteen bytes, and
/// blanks at the end.
pub fn largest() -> Vec<u8> {
    let mut text = String::new();
    for number in 0..16 {
        text += &format!("type type_of_number{number:x}:void{{");
        for child in 0..15 {
            text += &format!(".child_of_number{:x}[0,1]:int", (child + number) % 16);
        }
        text += "}\n";
    }
    let blanks = LONGEST - text.len();
    (text + &" ".repeat(blanks)).into_bytes()
}
