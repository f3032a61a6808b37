//! Type rows: trees, chains, near copies and shared runs.

use second::tables::{ServiceRow, Tables, TypeRow, NONE};
use second::{Basic, Network};

use super::{Blunder, Maker};

impl Maker<'_> {
    pub(super) fn types(&mut self) {
        for _ in 0..self.random.between(2, 7) {
            self.new_type();
        }
        if self.random.one_in(3) {
            self.deep_type();
        }
        for _ in 0..self.random.below(4) {
            self.variant();
        }
        if self.random.one_in(3) {
            self.shared_run();
        }
        if self.random.one_in(8) || self.blunder == Some(Blunder::Cardinality) {
            self.twins();
        }
        self.key_types();
        if self.random.one_in(5) {
            // A row that nobody names.
            let row =
                TypeRow { id: self.random.number(), cardinality: self.random.below(2) as u8, ..TypeRow::default() };
            self.tables.types.push(row);
        }
        // A plain void is always good to have.
        self.tables.types.push(TypeRow { cardinality: 1, basic: Basic::Void.byte(), ..TypeRow::default() });
        let known = Tables {
            types: self.tables.types.clone(),
            services: vec![ServiceRow { location: 1, starter: NONE, client: NONE, key: 0 }],
            ..Tables::default()
        };
        let network = Network::read(&known.write()).expect("types that the rules let pass");
        self.roots = (0..self.tables.types.len())
            .filter(|&row| self.tables.types[row].id == 0 && self.tables.types[row].cardinality == 1)
            .map(|row| (row as u16, network.write_out(row)))
            .collect();
    }

    pub(super) fn new_type(&mut self) {
        let root = TypeRow { cardinality: 1, basic: self.basic().byte(), ..TypeRow::default() };
        let mut frontier = vec![(self.tables.types.len(), 1)];
        self.tables.types.push(root);
        let mut left = if self.random.one_in(4) { 15 } else { self.random.below(7) };
        while let Some((row, level)) = frontier.pop() {
            if level == 4 || left == 0 {
                continue;
            }
            let ids = self.some_ids(left.min(4));
            if ids.is_empty() {
                continue;
            }
            left -= ids.len();
            self.tables.types[row].first_child = self.tables.types.len() as u16;
            self.tables.types[row].child_count = ids.len() as u16;
            for id in ids {
                frontier.push((self.tables.types.len(), level + 1));
                let cardinality = u8::from(!self.random.one_in(3));
                let basic = self.basic().byte();
                self.tables.types.push(TypeRow { id, cardinality, basic, ..TypeRow::default() });
            }
        }
    }

    /// Rising ids, at most so many.
    pub(super) fn some_ids(&mut self, most: usize) -> Vec<u16> {
        let wanted = self.random.below(most + 1);
        let mut ids: Vec<u16> = (0..wanted).map(|_| self.ids[self.random.below(self.ids.len())]).collect();
        ids.sort_unstable();
        ids.dedup();
        ids
    }

    /// A chain of four levels.
    pub(super) fn deep_type(&mut self) {
        let start = self.tables.types.len() as u16;
        for level in 0..4 {
            let id = if level == 0 { 0 } else { self.ids[self.random.below(self.ids.len())] };
            let cardinality = u8::from(level == 0 || !self.random.one_in(3));
            let (first_child, child_count) = if level < 3 { (start + level + 1, 1) } else { (0, 0) };
            let basic = self.basic().byte();
            self.tables.types.push(TypeRow { id, cardinality, basic, first_child, child_count });
        }
    }

    /// A copy of a type's root whose own children are a changed copy: a sub- or supertype.
    pub(super) fn variant(&mut self) {
        let with_children: Vec<usize> = (0..self.tables.types.len())
            .filter(|&row| self.tables.types[row].id == 0 && self.tables.types[row].child_count > 0)
            .collect();
        let Some(&row) = self.random.pick(&with_children) else { return };
        let mut root = self.tables.types[row];
        let first = usize::from(root.first_child);
        let mut children = self.tables.types[first..first + usize::from(root.child_count)].to_vec();
        for child in &mut children {
            child.cardinality ^= u8::from(self.random.one_in(3));
        }
        if children.len() > 1 && self.random.one_in(2) {
            children.remove(self.random.below(children.len()));
        }
        root.cardinality = 1;
        root.first_child = self.tables.types.len() as u16 + 1;
        root.child_count = children.len() as u16;
        // The root stands before its children, these before theirs, which are earlier rows unless they
        // are copied as well; leaves only, then.
        for child in &mut children {
            (child.first_child, child.child_count) = (0, 0);
        }
        self.tables.types.push(root);
        self.tables.types.extend(children);
    }

    /// Two types that differ in the cardinality of one child.
    fn twins(&mut self) {
        let start = self.tables.types.len() as u16;
        let mut children: Vec<TypeRow> = Vec::new();
        for id in 1..=self.random.between(1, 3) as u16 {
            let cardinality = self.random.below(2) as u8;
            children.push(TypeRow { id, cardinality, basic: self.basic().byte(), ..TypeRow::default() });
        }
        let count = children.len() as u16;
        let root = TypeRow { cardinality: 1, basic: self.basic().byte(), child_count: count, ..TypeRow::default() };
        let changed = self.random.below(children.len());
        for twin in 0..2 {
            let first_child = start + twin * (count + 1) + 1;
            self.tables.types.push(TypeRow { first_child, ..root });
            self.tables.types.extend(&children);
            children[changed].cardinality ^= 1;
        }
        self.twins = Some((start, start + count + 1));
    }

    /// A new root before a run that several rows share, and an inner row that shares it too.
    pub(super) fn shared_run(&mut self) {
        let start = self.tables.types.len() as u16;
        let ids = self.some_ids(3);
        if ids.is_empty() {
            return;
        }
        let count = ids.len() as u16;
        let basic = |maker: &mut Self| maker.basic().byte();
        let inner = self.ids[self.random.below(self.ids.len())];
        let rows = [
            TypeRow { id: 0, cardinality: 1, basic: basic(self), first_child: start + 2, child_count: 1 },
            TypeRow { id: 0, cardinality: 1, basic: basic(self), first_child: start + 3, child_count: count },
            TypeRow { id: inner, cardinality: 1, basic: basic(self), first_child: start + 3, child_count: count },
        ];
        self.tables.types.extend(rows);
        for id in ids {
            let cardinality = self.random.below(2) as u8;
            let basic = basic(self);
            self.tables.types.push(TypeRow { id, cardinality, basic, ..TypeRow::default() });
        }
    }
}
