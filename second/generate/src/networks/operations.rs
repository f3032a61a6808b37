//! Services and operations that meet each other.

use second::environment::{is_subtype, Node};
use second::tables::{OperationRow, ServiceRow, NONE};

use super::{Blunder, Maker, Scope};

impl Maker<'_> {
    pub(super) fn services(&mut self) {
        let count = if self.talkative { self.random.between(2, 4) } else { self.random.between(1, 4) };
        let first = if self.random.one_in(4) { self.random.between(1, 60_000) as u16 } else { 1 };
        for service in 0..count as u16 {
            let key = self.some_key();
            let location = first + 3 * service;
            self.tables.services.push(ServiceRow { location, starter: NONE, client: NONE, key });
        }
    }

    pub(super) fn some_root(&mut self) -> u16 {
        self.roots[self.random.below(self.roots.len())].0
    }

    pub(super) fn tree(&self, root: u16) -> &[Node] {
        &self.roots.iter().find(|(row, _)| *row == root).expect("a root").1
    }

    /// A root that is related to another one, itself at least.
    pub(super) fn related(&mut self, other: u16, subtype: bool) -> u16 {
        let tree = self.tree(other);
        let related: Vec<u16> = self
            .roots
            .iter()
            .filter(|(_, root)| if subtype { is_subtype(root, tree) } else { is_subtype(tree, root) })
            .map(|(row, _)| *row)
            .collect();
        *self.random.pick(&related).expect("the root itself")
    }

    pub(super) fn operations(&mut self) {
        let services = self.tables.services.len();
        for service in 0..services {
            let count = if self.talkative { self.random.between(2, 4) } else { self.random.below(5) };
            for id in 1..=count as u16 {
                let two_way = if self.talkative { (id % 2) as u8 } else { self.random.below(2) as u8 };
                let request = self.input_root(service);
                let reply = if two_way == 1 { self.some_root() } else { 0 };
                let id = id * self.random.between(1, 2) as u16;
                self.operation(OperationRow {
                    service: service as u8,
                    two_way,
                    id,
                    request,
                    reply,
                    ..OperationRow::default()
                });
            }
        }
        if let Some((first, second)) = self.twins {
            for service in 0..services as u8 {
                if self.tables.services[usize::from(service)].key != 0 {
                    continue; // twins have no key
                }
                for (id, request) in [(31, first), (32, second)] {
                    self.operation(OperationRow { service, id, request, ..OperationRow::default() });
                }
            }
        }
        for service in 0..services as u8 {
            let count = if self.talkative { self.random.between(4, 8) } else { self.random.below(5) };
            for _ in 0..count {
                let output = if self.random.one_in(3) { self.outside(service) } else { self.inside(service) };
                self.operation(output);
            }
        }
        if self.random.one_in(4) {
            let shift = self.random.below(self.tables.operations.len().max(1));
            self.tables.operations.rotate_left(shift);
        }
    }

    /// Adds an operation unless its id is taken.
    pub(super) fn operation(&mut self, row: OperationRow) {
        let taken = self.tables.operations.iter().any(|other| {
            (other.service, other.direction, other.id, other.location)
                == (row.service, row.direction, row.id, row.location)
        });
        if !taken && self.tables.operations.len() < 64 {
            self.tables.operations.push(row);
        }
    }

    pub(super) fn outside(&mut self, service: u8) -> OperationRow {
        let two_way = self.random.below(2) as u8;
        let reply = if two_way == 1 { self.some_root() } else { 0 };
        OperationRow {
            service,
            direction: 1,
            two_way,
            unused: 0,
            id: self.random.between(1, 5) as u16,
            location: 60_100 + self.random.below(3) as u16,
            request: self.some_root(),
            reply,
        }
    }

    /// An output that meets an input, of any service, its own too.
    pub(super) fn inside(&mut self, service: u8) -> OperationRow {
        let inputs: Vec<OperationRow> =
            self.tables.operations.iter().filter(|row| row.direction == 0).copied().collect();
        let Some(&input) = self.random.pick(&inputs) else { return self.outside(service) };
        let mut row = OperationRow { service, direction: 1, ..input };
        row.location = self.tables.services[usize::from(input.service)].location;
        row.request = self.related(input.request, true);
        if row.two_way == 1 {
            row.reply = self.related(input.reply, false);
        }
        let mistake = match self.blunder {
            Some(Blunder::NoInput) => Some(0),
            Some(Blunder::InputKind) => Some(1),
            Some(Blunder::InputRequest) => Some(2),
            Some(Blunder::InputReply) => Some(3),
            _ => None,
        };
        if self.is_careless() || (mistake.is_some() && self.random.one_in(2)) {
            match mistake.unwrap_or(self.random.below(4)) {
                0 => row.id = 77,
                1 => (row.two_way, row.reply) = (1 - row.two_way, 0),
                2 => row.request = self.some_root(),
                _ => row.reply = if row.two_way == 1 { self.some_root() } else { 0 },
            }
            if row.two_way == 1 && !self.roots.iter().any(|(root, _)| *root == row.reply) {
                row.reply = self.some_root();
            }
        }
        row
    }

    /// The service's inputs of the twin types, for the mistake of taking one for the other.
    pub(super) fn twin_inputs(&mut self, scope: &Scope) -> Option<[u16; 2]> {
        if scope.quiet || !self.blunders(Blunder::Cardinality) {
            return None;
        }
        let find = |id: u16| {
            let mut rows = self.tables.operations.iter();
            rows.position(|row| (row.service, row.direction, row.id) == (scope.service, 0, id)).map(|row| row as u16)
        };
        Some([find(31)?, find(32)?])
    }

    pub(super) fn operations_of(&mut self, scope: &Scope, direction: u8, two_way: u8) -> Option<u16> {
        let careless = self.is_careless();
        let fitting: Vec<u16> = (0..self.tables.operations.len() as u16)
            .filter(|&row| {
                let row = &self.tables.operations[usize::from(row)];
                careless || (row.service, row.direction, row.two_way) == (scope.service, direction, two_way)
            })
            .collect();
        self.random.pick(&fitting).copied()
    }
}
