//! What a run has hit, so that a run that misses something can fail.

use std::collections::BTreeMap;
use std::fmt;

use second::environment::levels;
use second::network::{Behaviour, Direction, Path};
use second::tables::{Section, Tables};
use second::{Basic, Cause, Environment, Network, Refusal, ServiceEnvironments};

use crate::keys;
use crate::messages::Damage;
use crate::nests;
use crate::strings::{decide, StringHits};

/// Each name was to be hit often enough.
pub struct Hits {
    counts: BTreeMap<String, usize>,
    strings: StringHits,
}

/// Where strings stand.
const PLACES: [&str; 2] = ["constant", "message"];

/// Fields that can be the lowest to break a rule, by section and offset in the row. A path's second
/// id can not: it breaks its rule only where the first id is 0.
const FIELDS: [(Section, &[usize]); 6] = [
    (Section::Paths, &[0, 4, 6]),
    (Section::Types, &[2, 3, 4]),
    (Section::Expressions, &[0, 1, 2, 4, 6]),
    (Section::Behaviours, &[0, 1, 2, 4, 6, 8]),
    (Section::Operations, &[0, 1, 2, 3, 4, 6, 10]),
    (Section::Services, &[0, 2, 4]),
];

const FEATURES: [&str; 15] = [
    "a type row in two runs",
    "an expression row used twice",
    "an optional node in an environment",
    "an environment of 48 nodes",
    "an environment of 6 levels",
    "several services",
    "an output to the own service",
    "an output to another service",
    "an output to a location outside",
    "several starter branches of one operation",
    "a union of several branches",
    "an optional node assigned",
    "a whole tree sent",
    "rows in another order than the text's",
    "no environment node at all",
];

const READS: [&str; 12] = [
    "a part at level 1",
    "a part at level 2",
    "a part at level 3",
    "no child at level 1",
    "no child at level 2",
    "no child at level 3",
    "no child at level 4",
    "a malformed path",
    "a malformed message",
    "a message of 16 nodes",
    "a message of 4 levels",
    "a message of one node",
];

/// The refusals of a file that passes 2 to 5.
const TYPING: &str = "refused by 6 to 23";

/// Levels of expressions, down to the leaves that a row of 8 levels can have.
const EXPRESSION: &str = "operands, 128 leaves";

impl Default for Hits {
    fn default() -> Hits {
        let mut names: Vec<String> = vec!["accepted".into()];
        names.extend((2..=13).chain([23]).map(|number| format!("refused {number:2}")));
        names.extend(Cause::ALL.map(cause_name));
        for (section, offsets) in FIELDS {
            names.extend(offsets.iter().map(|&offset| field_name(section, offset)));
        }
        for place in ["request", "reply"] {
            names.push(format!("refused  4 TypeRoot of the {place}"));
        }
        for user in ["a row", "a service", "a row whose link is broken"] {
            names.push(format!("refused  4 SecondUse by {user}"));
        }
        names.push("refused  4 ChildId by a broken run alone".into());
        for count in ["0", "above 8"] {
            names.push(format!("refused  4 Field B+4, a choice's count {count}"));
        }
        names.extend((0..12).map(|kind| format!("accepted with behaviour kind {kind:2}")));
        names.extend((0..10).map(|kind| format!("accepted with expression kind {kind}")));
        names.extend(Basic::ALL.map(|basic| format!("accepted with basic type {}", basic.name())));
        names.extend(FEATURES.map(|feature| format!("accepted with {feature}")));
        names.extend(keys::hits::NAMES.map(String::from));
        for verdict in ["accepted", TYPING] {
            names.extend(nests::names().chain([EXPRESSION]).map(|name| format!("{verdict} with nested {name}")));
        }
        names.extend(READS.map(|read| format!("message: {read}")));
        names.extend(Basic::ALL.map(|basic| format!("message: a part of type {}", basic.name())));
        names.extend(Damage::ALL.map(|damage| format!("message: damaged, {damage:?}")));
        let counts = names.into_iter().map(|name| (name, 0)).collect();
        Hits { counts, strings: StringHits::at(&PLACES) }
    }
}

fn cause_name(cause: Cause) -> String {
    format!("refused {:2} {cause:?}", cause.number())
}

fn field_name(section: Section, offset: usize) -> String {
    format!("refused  4 Field {}+{offset}", section.letter())
}

impl fmt::Display for Hits {
    fn fmt(&self, f: &mut fmt::Formatter) -> fmt::Result {
        for (name, count) in &self.counts {
            writeln!(f, "{count:8}  {name}")?;
        }
        write!(f, "{}", self.strings)
    }
}

impl Hits {
    fn hit(&mut self, name: String) {
        *self.counts.get_mut(&name).unwrap_or_else(|| panic!("{name} is not among the names that are counted")) += 1;
    }

    fn hit_if(&mut self, holds: bool, feature: &str) {
        if holds {
            self.hit(format!("accepted with {feature}"));
        }
    }

    /// Names that were hit less often.
    pub fn below(&self, least: usize) -> Vec<&str> {
        let few = self.counts.iter().filter(|(_, &count)| count < least).map(|(name, _)| name.as_str());
        few.chain(self.strings.below(least)).collect()
    }

    /// Names of files only, or of messages only.
    pub fn below_of(&self, messages: bool, least: usize) -> Vec<&str> {
        self.below(least).into_iter().filter(|name| name.starts_with("message: ") == messages).collect()
    }

    pub fn file(&mut self, file: &[u8], verdict: &Result<Vec<ServiceEnvironments>, Refusal>) {
        match verdict {
            Ok(services) => self.accepted(file, services),
            Err(refusal) => self.refused(file, refusal),
        }
        if let Ok(network) = Network::read(file) {
            self.nests(&network, if verdict.is_ok() { "accepted" } else { TYPING });
            keys::hits::of_file(file, &network, verdict).into_iter().for_each(|name| self.hit(name.into()));
        }
        decide::constants(file).iter().for_each(|seen| self.strings.hit(0, seen));
    }

    fn nests(&mut self, network: &Network, verdict: &str) {
        let depths = nests::depths(network);
        let mut found: Vec<&str> = depths.iter().flat_map(nests::nests_of).collect();
        found.sort_unstable();
        found.dedup();
        if nests::most_leaves(network) == 128 {
            found.push(EXPRESSION);
        }
        found.into_iter().for_each(|name| self.hit(format!("{verdict} with nested {name}")));
    }

    fn refused(&mut self, file: &[u8], refusal: &Refusal) {
        self.hit(format!("refused {:2}", refusal.number));
        self.hit(cause_name(refusal.cause));
        if refusal.number != 4 {
            return;
        }
        let (tables, layout) = Tables::read(file).expect("a file that passes 2 and 3");
        let (section, row, offset) = layout.locate(refusal.place).expect("a place in a section");
        match refusal.cause {
            Cause::Field => {
                self.hit(field_name(section, offset));
                if (section, offset) == (Section::Behaviours, 4) && tables.behaviours[row].kind == 10 {
                    let count = if tables.behaviours[row].fields[1] == 0 { "0" } else { "above 8" };
                    self.hit(format!("refused  4 Field B+4, a choice's count {count}"));
                }
            }
            Cause::ChildId if !in_right_run(&tables, row) => {
                self.hit("refused  4 ChildId by a broken run alone".into());
            }
            Cause::TypeRoot => {
                self.hit(format!("refused  4 TypeRoot of the {}", if offset == 8 { "request" } else { "reply" }))
            }
            Cause::SecondUse => {
                let user = if section == Section::Services { "a service" } else { "a row" };
                self.hit(format!("refused  4 SecondUse by {user}"));
                if section == Section::Behaviours && breaks_a_link(&tables, row) {
                    self.hit("refused  4 SecondUse by a row whose link is broken".into());
                }
            }
            _ => {}
        }
    }

    fn accepted(&mut self, file: &[u8], services: &[ServiceEnvironments]) {
        self.hit("accepted".into());
        let network = Network::read(file).expect("an accepted file");
        let (tables, _) = Tables::read(file).expect("an accepted file");
        for kind in 0..12 {
            if tables.behaviours.iter().any(|row| row.kind == kind) {
                self.hit(format!("accepted with behaviour kind {kind:2}"));
            }
        }
        for kind in 0..10 {
            if tables.expressions.iter().any(|row| row.kind == kind) {
                self.hit(format!("accepted with expression kind {kind}"));
            }
        }
        let environments: Vec<&Environment> =
            services.iter().flat_map(|service| [&service.starter, &service.client]).flatten().collect();
        let nodes = || environments.iter().flat_map(|environment| environment.nodes());
        for basic in Basic::ALL {
            if nodes().any(|node| node.basic == basic) {
                self.hit(format!("accepted with basic type {}", basic.name()));
            }
        }
        self.hit_if(nodes().any(|node| !node.mandatory), "an optional node in an environment");
        self.hit_if(nodes().next().is_none(), "no environment node at all");
        let full = environments.iter().any(|environment| environment.nodes().len() == 48);
        self.hit_if(full, "an environment of 48 nodes");
        let deep = environments.iter().any(|environment| levels(environment.nodes()) == 6);
        self.hit_if(deep, "an environment of 6 levels");
        self.hit_if(services.len() > 1, "several services");
        self.sharing(&tables);
        self.operations(&network);
        self.branches(&network);
    }

    fn sharing(&mut self, tables: &Tables) {
        let mut children = vec![0; tables.types.len()];
        for row in &tables.types {
            let first = usize::from(row.first_child);
            children[first..first + usize::from(row.child_count)].iter_mut().for_each(|count| *count += 1);
        }
        self.hit_if(children.iter().any(|&count| count > 1), "a type row in two runs");
        let mut uses = vec![0; tables.expressions.len()];
        for row in &tables.expressions {
            let operands = [0, 0, 0, 1, 1, 2, 2, 2, 2, 2][usize::from(row.kind)];
            row.fields[..operands].iter().for_each(|&operand| uses[usize::from(operand)] += 1);
        }
        for row in &tables.behaviours {
            match row.kind {
                3 | 4 | 9 => uses[usize::from(row.fields[1])] += 1,
                5 | 6 => uses[usize::from(row.fields[0])] += 1,
                _ => {}
            }
        }
        self.hit_if(uses.iter().any(|&count| count > 1), "an expression row used twice");
    }

    fn operations(&mut self, network: &Network) {
        use Behaviour::*;
        let mut sent = Vec::new();
        let mut whole = false;
        let mut optional_assigned = false;
        for row in &network.behaviours {
            match *row {
                Notification { operation, expression } | SolicitResponse { operation, expression, .. } => {
                    sent.push(network.operations[operation]);
                    let request = &network.types[network.operations[operation].request];
                    let path = matches!(network.expressions[expression], second::network::Expression::Path(_));
                    whole |= path && request.nodes > 1;
                }
                Assign { path, .. } => {
                    // The types have the only optional nodes; the last step names one of them.
                    let last = network.paths[path].ids().last().copied();
                    optional_assigned |= network.paths[path].ids().len() > 1
                        && network.types.iter().any(|node| !node.mandatory && Some(node.id) == last);
                }
                _ => {}
            }
        }
        let target = |location: u16| network.services.iter().position(|service| service.location == location);
        let is = |holds: &dyn Fn(&second::network::Operation) -> bool| sent.iter().any(holds);
        self.hit_if(is(&|sent| target(sent.location) == Some(sent.service)), "an output to the own service");
        self.hit_if(
            is(&|sent| target(sent.location).is_some_and(|service| service != sent.service)),
            "an output to another service",
        );
        self.hit_if(is(&|sent| target(sent.location).is_none()), "an output to a location outside");
        self.hit_if(whole, "a whole tree sent");
        self.hit_if(optional_assigned, "an optional node assigned");
        debug_assert!(sent.iter().all(|operation| operation.direction == Direction::Out));
    }

    fn branches(&mut self, network: &Network) {
        use Behaviour::*;
        let mut repeated = false;
        let mut several = false;
        for starter in network.services.iter().filter_map(|service| service.starter) {
            let Choice { branches } = &network.behaviours[starter] else { continue };
            let mut operations: Vec<usize> = branches
                .clone()
                .filter_map(|branch| match network.behaviours[branch] {
                    Branch { input, .. } => Some(input),
                    _ => None,
                })
                .filter_map(|input| match network.behaviours[input] {
                    OneWay { operation, .. } | RequestResponse { operation, .. } => Some(operation),
                    _ => None,
                })
                .collect();
            several |= operations.len() > 1;
            let count = operations.len();
            operations.sort_unstable();
            operations.dedup();
            repeated |= operations.len() < count;
        }
        self.hit_if(repeated, "several starter branches of one operation");
        self.hit_if(several, "a union of several branches");
        let other_order = network.behaviours.iter().enumerate().any(|(row, behaviour)| match behaviour {
            Sequence(left, _) => *left != row + 1,
            _ => false,
        });
        self.hit_if(other_order, "rows in another order than the text's");
    }

    pub fn message(&mut self, message: &[u8], ids: [u16; 4], damage: Option<Damage>) {
        decide::message(message, ids).iter().for_each(|seen| self.strings.hit(1, seen));
        let Some(nodes) = second::message::nodes(message) else {
            self.hit("message: a malformed message".into());
            let by_string = second::message::nodes(&decide::mended(message)).is_some();
            if let Some(damage) = damage.filter(|_| !by_string) {
                self.hit(format!("message: damaged, {damage:?}"));
            }
            return;
        };
        let deepest = nodes.iter().map(|node| node.level).max();
        for (holds, name) in [
            (nodes.len() == 16, "a message of 16 nodes"),
            (nodes.len() == 1, "a message of one node"),
            (deepest == Some(4), "a message of 4 levels"),
        ] {
            if holds {
                self.hit(format!("message: {name}"));
            }
        }
        let Some(path) = Path::new(ids) else { return self.hit("message: a malformed path".into()) };
        let steps = path.ids();
        let found = |length: usize| {
            let part = std::array::from_fn(|step| if step < length { ids[step] } else { 0 });
            let part = second::part_range(message, part);
            (!part.is_empty()).then_some(part.start)
        };
        match (1..=steps.len()).find(|&length| found(length).is_none()) {
            Some(level) => self.hit(format!("message: no child at level {level}")),
            None => {
                self.hit(format!("message: a part at level {}", steps.len()));
                let start = found(steps.len()).expect("a part");
                let node = nodes.iter().find(|node| node.start == start).expect("the part's node");
                self.hit(format!("message: a part of type {}", node.basic.name()));
            }
        }
    }
}

/// Whether a type row is in a run of later rows that does not pass the end.
fn in_right_run(tables: &Tables, child: usize) -> bool {
    tables.types.iter().enumerate().any(|(row, node)| {
        let first = usize::from(node.first_child);
        let run = first..first + usize::from(node.child_count);
        first > row && run.end <= tables.types.len() && run.contains(&child)
    })
}

/// Whether a behaviour row names itself, an earlier row or a branch as its sub-behaviour.
fn breaks_a_link(tables: &Tables, row: usize) -> bool {
    let fields = tables.behaviours[row].fields.map(usize::from);
    let links = match tables.behaviours[row].kind {
        2 => &fields[3..4],
        5 => &fields[1..3],
        6 => &fields[1..2],
        7 | 8 => &fields[0..2],
        10 => return fields[0] <= row,
        11 => return fields[0] <= row || fields[1] <= row,
        _ => &[],
    };
    links.iter().any(|&link| link <= row || tables.behaviours.get(link).is_some_and(|sub| sub.kind == 11))
}
