//! Paths, expressions and constants.

use second::environment::{is_subtype, levels, trees, Environment, Lookup, Node};
use second::tables::ExpressionRow;
use second::value::NAN_BITS;
use second::Basic;

use super::{Blunder, Maker, Scope};
use crate::random::Random;
use crate::strings;

const NUMBERS: [Basic; 3] = [Basic::Int, Basic::Long, Basic::Double];

impl Maker<'_> {
    /// All paths of an environment that the scope may use, of at most four steps.
    pub(super) fn known_paths(&self, scope: &Scope, gamma: &Environment) -> Vec<Vec<u16>> {
        let mut paths = Vec::new();
        gamma.visit(|path, _| {
            if path.len() <= 4 && scope.roots.contains(&path[0]) {
                paths.push(path.to_vec());
            }
        });
        paths
    }

    /// A path that is there, one step more, or a new one.
    pub(super) fn any_path(&mut self, scope: &Scope, gamma: &Environment) -> Option<Vec<u16>> {
        let known = self.known_paths(scope, gamma);
        let step = self.ids[self.random.below(self.ids.len())];
        match self.random.pick(&known) {
            Some(path) if scope.quiet || !self.random.one_in(3) => {
                let mut path = path.clone();
                if path.len() < 4 && !scope.quiet && self.random.one_in(4) {
                    path.push(step);
                }
                Some(path)
            }
            None if scope.quiet && !self.is_careless() => None,
            _ => {
                let mut path = vec![*self.random.pick(&scope.roots)?];
                let steps = if self.random.one_in(5) { 3 } else { self.random.below(3) };
                path.extend((0..steps).map(|_| self.ids[self.random.below(self.ids.len())]));
                Some(path)
            }
        }
    }

    /// A path that is there but need not be.
    pub(super) fn loose_path(&mut self, scope: &Scope, gamma: &Environment) -> Option<Vec<u16>> {
        let mut paths = self.known_paths(scope, gamma);
        paths.retain(|path| matches!(gamma.lookup(path), Lookup::Found { firm: false, .. }));
        self.random.pick(&paths).cloned()
    }

    /// Where an assignment is a mistake, if that is the one to make.
    pub(super) fn mistaken_path(&mut self, scope: &Scope, gamma: &Environment) -> Option<Vec<u16>> {
        let loose = |path: &[u16]| matches!(gamma.lookup(path), Lookup::Found { firm: false, .. });
        let mut paths = self.known_paths(scope, gamma);
        paths.retain(|path| loose(path));
        if self.blunders(Blunder::AssignBelowOptional) {
            paths.retain(|path| loose(&path[..path.len() - 1]));
        } else if self.blunders(Blunder::AssignOptionalParent) {
            paths.retain(|path| match gamma.lookup(path) {
                Lookup::Found { at, .. } => {
                    !loose(&path[..path.len() - 1]) && trees(&gamma.tree(at)[1..]).any(|child| child[0].mandatory)
                }
                Lookup::Missing => false,
            });
        } else if self.blunders(Blunder::AddBelowOptional) {
            paths.retain(|path| path.len() < 4);
            for path in &mut paths {
                let steps = self.random.between(1, 4 - path.len());
                path.extend(std::iter::repeat_n(9, steps));
            }
        } else {
            return None;
        }
        self.random.pick(&paths).cloned()
    }

    /// Where a type may be placed; the environment is what it is afterwards.
    pub(super) fn place(&mut self, scope: &Scope, gamma: &mut Environment, tree: &[Node]) -> Option<u16> {
        for _ in 0..4 {
            let path = self.any_path(scope, gamma)?;
            let mut after = gamma.clone();
            let fits = after.place(&path, tree).is_ok() && (!scope.quiet || after == *gamma);
            if fits || self.is_careless() || (self.careless > 0 && path.len() + levels(tree) > 7) {
                let row = self.path_row(&path)?;
                *gamma = after;
                return Some(row);
            }
        }
        None
    }

    /// A firm path whose tree is a subtype of another.
    pub(super) fn firm_path(&mut self, scope: &Scope, gamma: &Environment, tree: &[Node]) -> Option<Vec<u16>> {
        let mut paths = self.known_paths(scope, gamma);
        paths.retain(|path| match gamma.lookup(path) {
            Lookup::Found { at, firm } => firm && is_subtype(gamma.tree(at), tree),
            Lookup::Missing => false,
        });
        self.random.pick(&paths).cloned()
    }

    pub(super) fn ids_of_path(&self, row: u16) -> Vec<u16> {
        self.tables.paths[usize::from(row)].iter().copied().take_while(|&id| id != 0).collect()
    }

    pub(super) fn path_row(&mut self, ids: &[u16]) -> Option<u16> {
        let row: [u16; 4] = std::array::from_fn(|step| ids.get(step).copied().unwrap_or(0));
        let found = self.tables.paths.iter().position(|path| *path == row);
        match found {
            Some(found) if !self.random.one_in(12) => Some(found as u16),
            _ if self.tables.paths.len() < 256 => {
                self.tables.paths.push(row);
                Some(self.tables.paths.len() as u16 - 1)
            }
            _ => found.map(|found| found as u16),
        }
    }

    pub(super) fn expression_row(&mut self, kind: u8, basic: u8, fields: [u16; 3]) -> Option<u16> {
        let row = ExpressionRow { kind, basic, fields };
        let found = self.tables.expressions.iter().position(|other| *other == row);
        match found {
            // Rows are shared more often than not.
            Some(found) if !self.random.one_in(3) => Some(found as u16),
            _ if self.tables.expressions.len() < 256 => {
                self.tables.expressions.push(row);
                Some(self.tables.expressions.len() as u16 - 1)
            }
            _ => found.map(|found| found as u16),
        }
    }

    pub(super) fn constant(&mut self, basic: Basic) -> Option<u16> {
        let bytes = value(self.random, basic);
        let reusable = self.tables.data.windows(bytes.len().max(1)).position(|part| part == bytes);
        let start = match reusable {
            Some(start) if self.random.one_in(2) => start,
            _ => {
                if self.random.one_in(30) {
                    self.tables.data.push(self.random.byte());
                }
                self.tables.data.extend(&bytes);
                self.tables.data.len() - bytes.len()
            }
        };
        self.expression_row(0, basic.byte(), [start as u16, bytes.len() as u16, 0])
    }

    pub(super) fn path_expression(&mut self, ids: &[u16]) -> Option<u16> {
        let path = self.path_row(ids)?;
        self.expression_row(1, 0, [path, 0, 0])
    }

    /// Not of an int, or a path that is not there.
    pub(super) fn mistaken_expression(&mut self) -> Option<u16> {
        if self.random.one_in(2) {
            let operand = self.constant(Basic::Int)?;
            return self.expression_row(3, 0, [operand, 0, 0]);
        }
        let missing = self.random.below(6) as u16 + 60_400;
        self.path_expression(&[missing])
    }

    pub(super) fn is_path(&self, row: u16) -> bool {
        self.tables.expressions[usize::from(row)].kind == 1
    }

    pub(super) fn condition(&mut self, scope: &Scope, gamma: &Environment) -> Option<u16> {
        let basic = if self.is_careless() { self.basic() } else { Basic::Bool };
        self.expression(scope, gamma, basic, 4)
    }

    /// An expression whose root value has a basic type.
    pub(super) fn expression(&mut self, scope: &Scope, gamma: &Environment, basic: Basic, depth: usize) -> Option<u16> {
        let basic = if self.is_careless() { self.basic() } else { basic };
        let choice = self.random.below(10);
        if depth > 0 && choice >= 5 {
            if let Some(row) = self.operator(scope, gamma, basic, depth - 1) {
                return Some(row);
            }
        }
        if self.blunders(Blunder::ReadOptional) {
            if let Some(path) = self.loose_path(scope, gamma) {
                return self.path_expression(&path);
            }
        }
        if choice >= 2 {
            let careless = self.is_careless();
            let mut paths = self.known_paths(scope, gamma);
            paths.retain(|path| match gamma.lookup(path) {
                Lookup::Found { at, firm } => careless || (firm && gamma.nodes()[at].basic == basic),
                Lookup::Missing => false,
            });
            if careless && self.random.one_in(2) {
                paths = self.any_path(scope, gamma).into_iter().collect();
            }
            if let Some(path) = self.random.pick(&paths).cloned() {
                return self.path_expression(&path);
            }
        }
        self.constant(basic)
    }

    pub(super) fn operator(&mut self, scope: &Scope, gamma: &Environment, basic: Basic, depth: usize) -> Option<u16> {
        let operand = |maker: &mut Self, basic| maker.expression(scope, gamma, basic, depth);
        match basic {
            Basic::Bool => match self.random.below(5) {
                0 => {
                    let mut paths = self.known_paths(scope, gamma);
                    if self.is_careless() || self.blunders(Blunder::TestMissing) {
                        paths = self.any_path(scope, gamma).into_iter().collect();
                    }
                    let path = self.random.pick(&paths).cloned()?;
                    let path = self.path_row(&path)?;
                    self.expression_row(2, 0, [path, 0, 0])
                }
                1 => {
                    let a = operand(self, Basic::Bool)?;
                    self.expression_row(3, 0, [a, 0, 0])
                }
                2 => {
                    let a = operand(self, Basic::Bool)?;
                    let b = operand(self, Basic::Bool)?;
                    self.expression_row(9, 0, [a, b, 0])
                }
                3 => {
                    let number = NUMBERS[self.random.below(3)];
                    let a = operand(self, number)?;
                    let b = operand(self, number)?;
                    self.expression_row(7, 0, [a, b, 0])
                }
                _ => {
                    let alike = Basic::ALL[self.random.below(6)];
                    let a = operand(self, alike)?;
                    let b = if self.random.one_in(4) { a } else { operand(self, alike)? };
                    self.expression_row(8, 0, [a, b, 0])
                }
            },
            Basic::Int | Basic::Long | Basic::Double => {
                let a = operand(self, basic)?;
                match self.random.below(3) {
                    0 => self.expression_row(4, 0, [a, 0, 0]),
                    kind => {
                        let b = if self.random.one_in(4) { a } else { operand(self, basic)? };
                        self.expression_row(4 + kind as u8, 0, [a, b, 0])
                    }
                }
            }
            _ => None,
        }
    }
}

/// A value of a basic type, often at the edges; a string is well formed.
pub fn value(random: &mut Random, basic: Basic) -> Vec<u8> {
    match basic {
        Basic::Bool => vec![random.below(2) as u8],
        Basic::Int => match random.below(5) {
            0 => i32::MAX,
            1 => i32::MIN,
            2 => random.below(3) as i32 - 1,
            _ => random.draw() as i32,
        }
        .to_le_bytes()
        .to_vec(),
        Basic::Long => match random.below(5) {
            0 => i64::MAX,
            1 => i64::MIN,
            2 => random.below(3) as i64 - 1,
            _ => random.draw() as i64,
        }
        .to_le_bytes()
        .to_vec(),
        Basic::Double => {
            let bits = match random.below(8) {
                0 => NAN_BITS,
                1 => 1 << 63,
                2 => f64::INFINITY.to_bits(),
                3 => f64::NEG_INFINITY.to_bits(),
                4 => 0.1f64.to_bits(),
                5 => 1,
                _ => random.draw(),
            };
            let bits = if f64::from_bits(bits).is_nan() { NAN_BITS } else { bits };
            bits.to_le_bytes().to_vec()
        }
        Basic::String => strings::well_formed(random),
        Basic::Raw => {
            let length = if random.one_in(4) { 16 } else { random.below(17) };
            (0..length).map(|_| random.byte()).collect()
        }
        Basic::Void => Vec::new(),
    }
}
