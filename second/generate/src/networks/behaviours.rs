//! Behaviours that keep the typing rules.

use second::environment::{is_subtype, Environment, Lookup, Node};
use second::tables::BehaviourRow;
use second::Basic;

use super::{Blunder, Maker, Plan, Scope};

impl Maker<'_> {
    pub(super) fn behaviours(&mut self) {
        for service in 0..self.tables.services.len() {
            let share = (self.rows_left / (self.tables.services.len() - service)).saturating_sub(4);
            let size = if self.random.one_in(12) { share / 2 } else { self.random.between(1, 14).min(share / 2) };
            if size == 0 {
                continue;
            }
            let scope = Scope { service: service as u8, roots: self.some_roots(), quiet: false };
            if self.talkative || self.random.below(4) > 0 {
                if let Some(plan) = self.starter(&scope, size) {
                    self.tables.services[service].starter = self.lower(plan);
                }
            }
            if (self.talkative || self.random.below(4) > 0) && self.rows_left > 2 * size {
                let mut gamma = Environment::default();
                let below_optional = self.blunder == Some(Blunder::AddBelowOptional);
                let plan = if self.random.one_in(if below_optional { 2 } else { 30 }) {
                    let full = self.crowd(&scope, &mut gamma, 46, 49);
                    Plan::sequence(full, self.behaviour(&scope, &mut gamma, 4))
                } else {
                    self.behaviour(&scope, &mut gamma, size)
                };
                if plan.rows() < self.rows_left {
                    self.tables.services[service].client = self.lower(plan);
                }
            }
        }
    }

    pub(super) fn some_roots(&mut self) -> Vec<u16> {
        let base = if self.random.one_in(5) { self.random.between(1, 60_000) as u16 } else { 1 };
        (0..12).map(|root| base + root).collect()
    }

    /// Numbers for the rows: from the outside in, level by level, or in any order that the rules allow.
    pub(super) fn lower(&mut self, root: Plan) -> u16 {
        self.rows_left = self.rows_left.saturating_sub(root.rows());
        let first = self.tables.behaviours.len() as u16;
        let mut pending = vec![(None, vec![root])];
        while !pending.is_empty() {
            let next = match self.order {
                0 => pending.len() - 1,
                1 => 0,
                _ => self.random.below(pending.len()),
            };
            let (link, plans): (Option<(usize, usize)>, Vec<Plan>) = pending.remove(next);
            if let Some((row, field)) = link {
                self.tables.behaviours[row].fields[field] = self.tables.behaviours.len() as u16;
            }
            let mut subs = Vec::new();
            for plan in plans {
                let row = self.tables.behaviours.len();
                let mut fields = plan.fields;
                if !plan.branches.is_empty() {
                    fields[1] = plan.branches.len() as u16;
                    subs.push((Some((row, 0)), plan.branches));
                }
                subs.extend(plan.subs.into_iter().map(|(field, sub)| (Some((row, field)), vec![sub])));
                self.tables.behaviours.push(BehaviourRow { kind: plan.kind, unused: 0, fields });
            }
            if self.order == 0 {
                subs.reverse();
            }
            pending.extend(subs);
        }
        first
    }

    pub(super) fn starter(&mut self, scope: &Scope, size: usize) -> Option<Plan> {
        let count = if self.random.one_in(10) { 8 } else { self.random.between(1, 4) };
        let crowded = self.random.one_in(25);
        let mut branches: Vec<Plan> = Vec::new();
        let mut repeated: Option<(Plan, Vec<u16>)> = None;
        let repeats = self.random.one_in(2);
        for branch in 0..count {
            let mut own = scope.clone();
            own.roots = if self.random.one_in(40) { scope.roots.clone() } else { vec![scope.roots[branch]] };
            let mut gamma = Environment::default();
            // Sometimes another branch of the same operation, into the same path.
            let input = match &repeated {
                Some((input, path)) if self.random.one_in(2) => {
                    let tree = self.request(input.fields[0]);
                    let _ = gamma.place(path, &tree);
                    Some(input.clone())
                }
                _ => self.input(&own, &mut gamma, size / 2),
            };
            let Some(input) = input else { break };
            if repeats && repeated.is_none() && input.kind == 1 {
                repeated = Some((input.clone(), self.ids_of_path(input.fields[1])));
                // What a later branch receives as well must not be changed here.
                own.roots = vec![scope.roots[10]];
            }
            let then = if crowded {
                own.roots = (0..40).map(|root| 100 + 40 * branch as u16 + root).collect();
                let share = 48 / count;
                self.crowd(&own, &mut gamma, share - 3, share + 1)
            } else {
                self.behaviour(&own, &mut gamma, size / count)
            };
            branches.push(Plan::branch(input, then));
            if branches.iter().map(Plan::rows).sum::<usize>() + 12 > self.rows_left {
                branches.pop();
                break;
            }
        }
        if let Some((first, second)) = self.twin_receives(scope, &mut Environment::default()) {
            branches.truncate(6);
            branches.extend([Plan::branch(first, Plan::nil()), Plan::branch(second, Plan::nil())]);
        }
        (!branches.is_empty()).then(|| Plan::choice(branches))
    }

    /// Assignments at new roots until the environment has about so many nodes.
    pub(super) fn crowd(&mut self, scope: &Scope, gamma: &mut Environment, low: usize, high: usize) -> Plan {
        let target = self.random.between(low, high);
        let mut plan = self.behaviour(scope, gamma, 3);
        let mut root = scope.roots[0].saturating_add(1000);
        let mut nodes = gamma.nodes().len();
        while nodes < target && plan.rows() + 4 < self.rows_left {
            let basic = self.basic();
            let expression = self.constant(basic);
            let path = self.path_row(&[root]);
            let Some((expression, path)) = expression.zip(path) else { break };
            let _ = gamma.assign(&[root], basic);
            plan = Plan::sequence(plan, Plan::row(9, [path, expression, 0, 0]));
            root += 1;
            nodes += 1;
        }
        plan
    }

    /// A behaviour of about so many rows.
    pub(super) fn behaviour(&mut self, scope: &Scope, gamma: &mut Environment, size: usize) -> Plan {
        if size <= 1 {
            return self.simple(scope, gamma);
        }
        let plan = match self.random.below(12) {
            0 => self.condition(scope, gamma).map(|condition| self.fork(scope, gamma, size, condition)),
            1 => self.condition(scope, gamma).map(|condition| {
                let mut inner = scope.clone();
                inner.quiet |= !self.blunders(Blunder::WhileBody);
                let body = self.behaviour(&inner, &mut gamma.clone(), size / 2);
                Plan::with(6, [condition, 0, 0, 0], vec![(1, body)])
            }),
            2 => self.parallel(scope, gamma, size),
            3 => self.choice(scope, gamma, size),
            4 => self.answer(scope, gamma, size / 2),
            5 => None,
            _ => {
                let left = self.behaviour(scope, gamma, size / 2);
                let right = self.behaviour(scope, gamma, size - size / 2 - 1);
                Some(Plan::sequence(left, right))
            }
        };
        match plan {
            Some(plan) => plan,
            None => self.simple(scope, gamma),
        }
    }

    /// An if whose sides do the same to the environment.
    pub(super) fn fork(&mut self, scope: &Scope, gamma: &mut Environment, size: usize, condition: u16) -> Plan {
        let mut inner = scope.clone();
        inner.quiet |= !self.blunders(Blunder::IfSides);
        let mut left = self.behaviour(&inner, &mut gamma.clone(), size / 3);
        let mut right = self.behaviour(&inner, &mut gamma.clone(), size / 3);
        if !scope.quiet && self.random.one_in(2) {
            let both = self.simple(scope, gamma);
            left = Plan::sequence(left, both.clone());
            right = if self.is_careless() { right } else { Plan::sequence(right, both) };
        }
        if let Some((first, second)) = self.twin_receives(scope, gamma) {
            left = Plan::sequence(left, first);
            right = Plan::sequence(right, second);
        }
        Plan::with(5, [condition, 0, 0, 0], vec![(1, left), (2, right)])
    }

    /// Two receives into one new root, of types that differ in a cardinality alone.
    fn twin_receives(&mut self, scope: &Scope, gamma: &mut Environment) -> Option<(Plan, Plan)> {
        let [first, second] = self.twin_inputs(scope)?;
        let root = *self.random.pick(&scope.roots)?;
        if gamma.lookup(&[root]) != Lookup::Missing {
            return None;
        }
        let into = self.path_row(&[root])?;
        let _ = gamma.place(&[root], &self.request(first));
        Some((Plan::row(1, [first, into, 0, 0]), Plan::row(1, [second, into, 0, 0])))
    }

    pub(super) fn parallel(&mut self, scope: &Scope, gamma: &mut Environment, size: usize) -> Option<Plan> {
        if scope.roots.len() < 2 {
            return None;
        }
        let (mut left, mut right) = (scope.clone(), scope.clone());
        let blunder = self.blunders(Blunder::SharedRoot);
        let together = self.is_careless() || (blunder && self.random.one_in(4));
        if !together {
            let middle = self.random.between(1, scope.roots.len() - 1);
            left.roots.truncate(middle);
            right.roots.drain(..middle);
        }
        let mut a = self.behaviour(&left, gamma, size / 2);
        let mut b = self.behaviour(&right, gamma, size / 2);
        if blunder {
            let (own, other) = (left.roots[0], right.roots[0]);
            a = Plan::sequence(a, self.touch(scope, own)?);
            b = Plan::sequence(b, self.touch(scope, own)?);
            if self.random.one_in(2) {
                b = Plan::sequence(self.touch(scope, other)?, b);
            }
        }
        Some(Plan::with(8, [0; 4], vec![(0, a), (1, b)]))
    }

    /// A statement in which a root occurs in one place only, whatever its type.
    fn touch(&mut self, scope: &Scope, root: u16) -> Option<Plan> {
        let path = self.path_row(&[root])?;
        let other_root = 60_500 + self.random.below(40) as u16;
        let elsewhere = self.path_row(&[other_root])?;
        let path_or_present = self.random.between(1, 2) as u8;
        let read = self.expression_row(path_or_present, 0, [path, 0, 0])?;
        let constant = self.constant(Basic::Bool)?;
        Some(match self.random.below(10) {
            0 => Plan::row(9, [path, constant, 0, 0]),
            1 => Plan::row(9, [elsewhere, read, 0, 0]),
            2 => Plan::with(6, [read, 0, 0, 0], vec![(1, Plan::nil())]),
            3 => Plan::with(5, [read, 0, 0, 0], vec![(1, Plan::nil()), (2, Plan::nil())]),
            4 => Plan::row(1, [self.operations_of(scope, 0, 0)?, path, 0, 0]),
            5 => {
                let fields = [self.operations_of(scope, 0, 1)?, path, elsewhere, 0];
                Plan::with(2, fields, vec![(3, Plan::nil())])
            }
            6 => {
                let fields = [self.operations_of(scope, 0, 1)?, elsewhere, path, 0];
                Plan::with(2, fields, vec![(3, Plan::nil())])
            }
            7 => {
                let input = Plan::row(1, [self.operations_of(scope, 0, 0)?, path, 0, 0]);
                Plan::choice(vec![Plan::branch(input, Plan::nil())])
            }
            8 => {
                let input = Plan::row(1, [self.operations_of(scope, 0, 0)?, elsewhere, 0, 0]);
                Plan::choice(vec![Plan::branch(input, Plan::row(9, [path, constant, 0, 0]))])
            }
            _ => {
                let operand = self.expression_row(3, 0, [read, 0, 0])?;
                Plan::row(4, [self.operations_of(scope, 1, 1)?, operand, elsewhere, 0])
            }
        })
    }

    /// Branches that receive the same type into the same path and are quiet afterwards.
    pub(super) fn choice(&mut self, scope: &Scope, gamma: &mut Environment, size: usize) -> Option<Plan> {
        let before = gamma.clone();
        let first = self.input(scope, gamma, size / 3)?;
        let mut inner = scope.clone();
        inner.quiet |= !self.blunders(Blunder::ChoiceBranches);
        let mut branches = Vec::new();
        for branch in 0..self.random.between(1, 3) {
            let input = if branch > 0 && self.is_careless() {
                self.input(scope, &mut before.clone(), 1).unwrap_or(first.clone())
            } else {
                first.clone()
            };
            let then = self.behaviour(&inner, &mut gamma.clone(), size / 3);
            branches.push(Plan::branch(input, then));
        }
        let mut twins_after = before;
        if let Some((first, second)) = self.twin_receives(scope, &mut twins_after) {
            *gamma = twins_after;
            branches = vec![Plan::branch(first, Plan::nil()), Plan::branch(second, Plan::nil())];
        }
        Some(Plan::choice(branches))
    }

    /// A one-way or a request-response.
    pub(super) fn input(&mut self, scope: &Scope, gamma: &mut Environment, size: usize) -> Option<Plan> {
        if self.random.one_in(2) {
            if let Some(answer) = self.answer(scope, gamma, size) {
                return Some(answer);
            }
        }
        match self.receive(scope, gamma) {
            Some(receive) => Some(receive),
            None => self.answer(scope, gamma, size),
        }
    }

    pub(super) fn request(&self, operation: u16) -> Vec<Node> {
        self.tree(self.tables.operations[usize::from(operation)].request).to_vec()
    }

    pub(super) fn receive(&mut self, scope: &Scope, gamma: &mut Environment) -> Option<Plan> {
        let operation = self.operations_of(scope, 0, 0)?;
        let tree = self.request(operation);
        let into = self.place(scope, gamma, &tree)?;
        Some(Plan::row(1, [operation, into, 0, 0]))
    }

    pub(super) fn answer(&mut self, scope: &Scope, gamma: &mut Environment, size: usize) -> Option<Plan> {
        let operation = self.operations_of(scope, 0, 1)?;
        let reply_tree = self.tree(self.reply_root(operation)).to_vec();
        let request = self.request(operation);
        let mut after = gamma.clone();
        let into = self.place(scope, &mut after, &request)?;
        let mut body = self.behaviour(scope, &mut after, size);
        let mut reply = self.firm_path(scope, &after, &reply_tree);
        if reply.is_none() && !scope.quiet {
            let (path, build) = self.build(scope, &mut after, &reply_tree)?;
            body = Plan::sequence(body, build);
            reply = Some(path);
        }
        if self.is_careless() || self.blunders(Blunder::ReplyMissing) {
            reply = self.any_path(scope, &after);
        }
        if self.blunders(Blunder::ReplyOptional) {
            reply = self.loose_path(scope, &after).or(reply);
        }
        let reply = self.path_row(&reply?)?;
        *gamma = after;
        Some(Plan::with(2, [operation, into, reply, 0], vec![(3, body)]))
    }

    /// A careless choice may take an operation without a reply; any root will do for it.
    pub(super) fn reply_root(&self, operation: u16) -> u16 {
        let row = &self.tables.operations[usize::from(operation)];
        if row.two_way == 1 {
            row.reply
        } else {
            self.roots[0].0
        }
    }

    /// Assignments that build a tree at a new root.
    pub(super) fn build(&mut self, scope: &Scope, gamma: &mut Environment, tree: &[Node]) -> Option<(Vec<u16>, Plan)> {
        let root = *self.random.pick(&scope.roots)?;
        if gamma.lookup(&[root]) != Lookup::Missing {
            return None;
        }
        let mut steps = Vec::new();
        mandatory_paths(tree, &mut vec![root], &mut steps);
        let mut plan = None;
        for (path, basic) in steps {
            let expression = self.expression(scope, gamma, basic, 2)?;
            let row = self.path_row(&path)?;
            gamma.assign(&path, basic).ok()?;
            let assign = Plan::row(9, [row, expression, 0, 0]);
            plan = Some(match plan {
                None => assign,
                Some(before) => Plan::sequence(before, assign),
            });
        }
        Some((vec![root], plan?))
    }

    pub(super) fn simple(&mut self, scope: &Scope, gamma: &mut Environment) -> Plan {
        for _ in 0..4 {
            let plan = match self.random.below(9) {
                5..=8 if self.talkative => self.talk(scope, gamma),
                0 => self.receive(scope, gamma),
                1 | 2 => self.notify(scope, gamma),
                3 | 4 => self.solicit(scope, gamma),
                5..=7 => self.assign(scope, gamma),
                _ => Some(Plan::nil()),
            };
            if let Some(plan) = plan {
                return plan;
            }
        }
        Plan::nil()
    }

    /// Something that a talkative service does instead of working by itself.
    fn talk(&mut self, scope: &Scope, gamma: &mut Environment) -> Option<Plan> {
        match self.random.below(5) {
            0 => self.notify(scope, gamma),
            1 | 2 => self.solicit(scope, gamma),
            3 => self.input(scope, gamma, 1),
            _ => self.assign(scope, gamma),
        }
    }

    pub(super) fn notify(&mut self, scope: &Scope, gamma: &mut Environment) -> Option<Plan> {
        let operation = self.operations_of(scope, 1, 0)?;
        let (expression, before) = self.sent(scope, gamma, operation)?;
        let send = Plan::row(3, [operation, expression, 0, 0]);
        Some(before.map_or(send.clone(), |before| Plan::sequence(before, send)))
    }

    pub(super) fn solicit(&mut self, scope: &Scope, gamma: &mut Environment) -> Option<Plan> {
        let operation = self.operations_of(scope, 1, 1)?;
        let reply = self.tree(self.reply_root(operation)).to_vec();
        let mut after = gamma.clone();
        let (expression, before) = self.sent(scope, &mut after, operation)?;
        let into = self.place(scope, &mut after, &reply)?;
        *gamma = after;
        let ask = Plan::row(4, [operation, expression, into, 0]);
        Some(before.map_or(ask.clone(), |before| Plan::sequence(before, ask)))
    }

    /// An expression that fits an operation's request type, and what has to be done before.
    pub(super) fn sent(
        &mut self,
        scope: &Scope,
        gamma: &mut Environment,
        operation: u16,
    ) -> Option<(u16, Option<Plan>)> {
        let tree = self.request(operation);
        if self.is_careless() {
            let basic = self.basic();
            return self.expression(scope, gamma, basic, 2).map(|row| (row, None));
        }
        let leaf_fits = is_subtype(&[Node::leaf(tree[0].basic)], &tree);
        if leaf_fits && self.random.one_in(2) {
            let row = self.expression(scope, gamma, tree[0].basic, 3)?;
            // A path brings its whole tree along, which may not fit.
            let row = if self.is_path(row) { self.constant(tree[0].basic)? } else { row };
            return Some((row, None));
        }
        if let Some(path) = self.firm_path(scope, gamma, &tree) {
            return self.path_expression(&path).map(|row| (row, None));
        }
        if leaf_fits {
            return self.constant(tree[0].basic).map(|row| (row, None));
        }
        if scope.quiet {
            return None;
        }
        let (path, build) = self.build(scope, gamma, &tree)?;
        self.path_expression(&path).map(|row| (row, Some(build)))
    }

    pub(super) fn assign(&mut self, scope: &Scope, gamma: &mut Environment) -> Option<Plan> {
        for _ in 0..4 {
            let mut path = self.any_path(scope, gamma)?;
            let mut careless = self.is_careless();
            if let Some(mistaken) = self.mistaken_path(scope, gamma) {
                path = mistaken;
                careless = true;
            }
            let other_basic = self.random.one_in(if careless { 3 } else { 20 });
            let known = match gamma.lookup(&path) {
                Lookup::Found { at, .. } if !other_basic => Some(gamma.nodes()[at].basic),
                _ => None,
            };
            let basic = known.unwrap_or_else(|| self.basic());
            let mut after = gamma.clone();
            let fits = after.assign(&path, basic).is_ok() && (!scope.quiet || after == *gamma);
            if fits || careless {
                let mut expression = self.expression(scope, gamma, basic, 3)?;
                if careless && self.random.one_in(4) {
                    // A second mistake, which is tried before the first.
                    expression = self.mistaken_expression()?;
                }
                let row = self.path_row(&path)?;
                *gamma = after;
                return Some(Plan::row(9, [row, expression, 0, 0]));
            }
        }
        None
    }
}

/// The root of a tree and its mandatory nodes, as paths.
fn mandatory_paths(tree: &[Node], path: &mut Vec<u16>, found: &mut Vec<(Vec<u16>, Basic)>) {
    found.push((path.clone(), tree[0].basic));
    for child in second::environment::trees(&tree[1..]).filter(|child| child[0].mandatory) {
        path.push(child[0].id);
        mandatory_paths(child, path, found);
        path.pop();
    }
}
