//! What texts of declarations have hit, so that a run that misses something can fail.

use std::collections::BTreeMap;
use std::fmt;

use second::Basic;
use types::{read_types, Cause, Refusal, Types, LEAST_OUT};

use super::tokens::{Blanks, Cut, Role, Token};
use super::{Break, Kind, Limit, Sample, CARDINALITIES};

/// Each name was to be hit often enough.
pub struct DeclarationHits {
    counts: BTreeMap<String, usize>,
}

/// What a right text can use; those that its words and marks show.
const FEATURES: [&str; 19] = [
    "no declaration",
    "one declaration",
    "several declarations",
    "no mark",
    "the mark ?",
    "the mark [0,1]",
    "the mark [1,1]",
    "a named child",
    "a named child whose type has one",
    "a child name in two lists",
    "children in another order than their ids",
    "a type named type",
    "a child named type",
    "a child named like a basic type",
    "a child named like a type",
    "a type name of 16 bytes",
    "a child name of 16 bytes",
    "no blank but between words",
    "runs of blanks",
];

const SIZES: [&str; 3] = ["a type of 16 nodes", "a type of 4 levels", "256 rows"];

/// What is answered to buffers of several sizes.
const BUFFERS: [&str; 10] = [
    "done with a buffer of 2048 bytes",
    "done with a larger buffer",
    "refused  1 with a buffer of 2047 bytes",
    "refused  1 with a smaller buffer",
    "refused  1 where a larger buffer gives 0",
    "refused  1 where a larger buffer gives 3",
    "refused  1 where a larger buffer gives 5",
    "refused  2 with a buffer that is too small",
    "refused 20 with a buffer that is too small",
    "refused 21 with a buffer that is too small",
];

fn cause_name(cause: Cause) -> String {
    format!("refused {:2} {cause:?}", cause.number())
}

impl Default for DeclarationHits {
    fn default() -> DeclarationHits {
        let mut names: Vec<String> = vec!["done".into(), "refused  5 at a later declaration".into()];
        names.extend([1, 2, 3, 5, 20, 21].map(|number| format!("refused {number:2}")));
        names.extend(Cause::ALL.map(cause_name));
        names.extend(BUFFERS.map(String::from));
        names.extend(FEATURES.iter().chain(&SIZES).map(|feature| format!("done with {feature}")));
        names.extend(Basic::ALL.map(|basic| format!("done with basic type {}", basic.name())));
        names.extend(Break::ALL.map(|how| format!("broken by {how:?}")));
        names.extend(CARDINALITIES.map(|text| format!("broken by the cardinality {text:?}")));
        names.extend(Cut::all().map(|cut| format!("cut {cut:?}")));
        for limit in Limit::ALL {
            names.extend(limit.numbers().iter().map(|number| format!("limit {limit:?} {number}")));
        }
        DeclarationHits { counts: names.into_iter().map(|name| (name, 0)).collect() }
    }
}

impl fmt::Display for DeclarationHits {
    fn fmt(&self, f: &mut fmt::Formatter) -> fmt::Result {
        for (name, count) in &self.counts {
            writeln!(f, "{count:8}  {name}")?;
        }
        Ok(())
    }
}

impl DeclarationHits {
    fn hit(&mut self, name: String) {
        *self.counts.get_mut(&name).unwrap_or_else(|| panic!("{name} is not among the names that are counted")) += 1;
    }

    fn hit_if(&mut self, holds: bool, name: &str) {
        if holds {
            self.hit(name.into());
        }
    }

    /// Names that were hit less often.
    pub fn below(&self, least: usize) -> Vec<&str> {
        self.counts.iter().filter(|(_, &count)| count < least).map(|(name, _)| name.as_str()).collect()
    }

    /// A text and what the second implementation makes of it.
    pub fn sample(&mut self, sample: &Sample, result: &Result<usize, Refusal>) {
        let number = result.map_or_else(|refusal| refusal.number, |_| 0);
        match result {
            Ok(_) => self.done(sample),
            Err(refusal) => self.refused(sample, refusal),
        }
        match sample.kind {
            Kind::Broken(how) => self.hit_if(number >= 20, &format!("broken by {how:?}")),
            Kind::BrokenCardinality(which) => {
                self.hit_if(number >= 20, &format!("broken by the cardinality {:?}", CARDINALITIES[which]));
            }
            Kind::Cut(cut) => self.hit(format!("cut {cut:?}")),
            Kind::Limit(limit) if number != 1 => self.hit(format!("limit {limit:?} {number}")),
            Kind::Limit(_) | Kind::Right | Kind::Fixed => {}
        }
    }

    fn refused(&mut self, sample: &Sample, refusal: &Refusal) {
        let number = refusal.number;
        self.hit(format!("refused {number:2}"));
        self.hit(cause_name(refusal.cause));
        self.hit_if(number == 5 && refusal.place > 0, "refused  5 at a later declaration");
        if number == 1 {
            let size = if sample.out_size == LEAST_OUT - 1 { "buffer of 2047 bytes" } else { "smaller buffer" };
            self.hit(format!("refused  1 with a {size}"));
            let larger = read_types(&sample.text).map_or_else(|refusal| refusal.number, |_| 0);
            self.hit(format!("refused  1 where a larger buffer gives {larger}"));
        } else if sample.out_size < LEAST_OUT {
            self.hit(format!("refused {number:2} with a buffer that is too small"));
        }
    }

    fn done(&mut self, sample: &Sample) {
        self.hit("done".into());
        let larger = sample.out_size > LEAST_OUT;
        self.hit(format!("done with a {}", if larger { "larger buffer" } else { "buffer of 2048 bytes" }));
        sample.features.iter().for_each(|feature| self.hit(format!("done with {feature}")));
        let types = read_types(&sample.text).expect("a text that is done");
        for basic in Basic::ALL {
            let found = types.rows.iter().any(|row| row.basic == basic.byte());
            self.hit_if(found, &format!("done with basic type {}", basic.name()));
        }
        self.hit_if(types.rows.len() == 256, "done with 256 rows");
        self.hit_if(nodes(&types).contains(&16), "done with a type of 16 nodes");
        let deep = (0..types.rows.len()).any(|row| levels(&types, row) == 4);
        self.hit_if(deep, "done with a type of 4 levels");
    }
}

/// The nodes of each declaration.
fn nodes(types: &Types) -> Vec<usize> {
    let firsts = types.declarations.iter().map(|declared| declared.row);
    let ends = firsts.clone().skip(1).chain([types.rows.len()]);
    firsts.zip(ends).map(|(first, end)| end - first).collect()
}

/// The levels of the type at a row.
fn levels(types: &Types, row: usize) -> usize {
    let first = usize::from(types.rows[row].first_child);
    let children = first..first + usize::from(types.rows[row].child_count);
    1 + children.map(|child| levels(types, child)).max().unwrap_or(0)
}

/// What the words and marks of a right text show.
pub fn features(tokens: &[Token], blanks: Blanks) -> Vec<&'static str> {
    let is =
        |role: Role, holds: &dyn Fn(&str) -> bool| tokens.iter().any(|token| token.role == role && holds(&token.text));
    let declarations = tokens.iter().filter(|token| token.role == Role::TypeName).count();
    let is_type = |name: &str| is(Role::TypeName, &|text| text == name);
    let (lists, orders) = lists(tokens);
    let holds = [
        declarations == 0,
        declarations == 1,
        declarations > 1,
        tokens.windows(2).any(|pair| pair[0].role == Role::ChildName && pair[1].role == Role::Colon),
        is(Role::Cardinality, &|text| text == "?"),
        is(Role::Cardinality, &|text| text == "[0,1]"),
        is(Role::Cardinality, &|text| text == "[1,1]"),
        is(Role::UsedName, &|_| true),
        is_named_twice(tokens),
        lists,
        orders,
        is_type("type"),
        is(Role::ChildName, &|text| text == "type"),
        is(Role::ChildName, &|text| Basic::ALL.iter().any(|basic| basic.name() == text)),
        is(Role::ChildName, &|text| is_type(text)),
        is(Role::TypeName, &|text| text.len() == 16),
        is(Role::ChildName, &|text| text.len() == 16),
        declarations > 0 && blanks == Blanks::Few,
        declarations > 0 && blanks == Blanks::Odd,
    ];
    FEATURES.into_iter().zip(holds).filter(|(_, holds)| *holds).map(|(feature, _)| feature).collect()
}

/// Whether a type that uses a name is used by name itself.
fn is_named_twice(tokens: &[Token]) -> bool {
    let mut using: Vec<&str> = Vec::new();
    let mut own = "";
    for token in tokens {
        match token.role {
            Role::TypeName => own = &token.text,
            Role::UsedName if using.contains(&token.text.as_str()) => return true,
            Role::UsedName => using.push(own),
            _ => {}
        }
    }
    false
}

/// Whether a child name stands in two lists, and whether a list's ids do not rise in its text.
fn lists(tokens: &[Token]) -> (bool, bool) {
    let mut ids: Vec<&str> = Vec::new();
    let mut open: Vec<usize> = Vec::new();
    let (mut again, mut falls) = (false, false);
    for token in tokens {
        match token.role {
            Role::Open => open.push(0),
            Role::Close => {
                open.pop();
            }
            Role::ChildName => {
                let known = ids.iter().position(|name| *name == token.text);
                again |= known.is_some();
                let id = known.unwrap_or(ids.len());
                if known.is_none() {
                    ids.push(&token.text);
                }
                let last = open.last_mut().expect("a child stands in a list");
                falls |= id + 1 < *last;
                *last = id + 1;
            }
            _ => {}
        }
    }
    (again, falls)
}
