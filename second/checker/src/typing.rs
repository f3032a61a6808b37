//! The typing rules: refusals 6 to 13, and 23.

use crate::environment::{is_subtype, Environment, Lookup, Node, ENVIRONMENT_NODES};
use crate::network::{Behaviour, Direction, Expression, Network, Operation};
use crate::refusal::{Cause, Refusal};
use crate::value::Basic;

/// What the checker derives for one service.
#[derive(Clone, PartialEq, Eq, Debug, Default)]
pub struct ServiceEnvironments {
    /// The union of the starter's branches.
    pub starter: Option<Environment>,
    pub client: Option<Environment>,
}

/// Refusals 6 to 13 and 23 of a network: services by row, starter first, then all outputs, then all keys.
pub fn environments(network: &Network) -> Result<Vec<ServiceEnvironments>, Refusal> {
    let types = OperationTypes::of(network);
    let roots = Roots::of(network);
    let mut result = Vec::with_capacity(network.services.len());
    for (row, service) in network.services.iter().enumerate() {
        let typing = Typing { network, types: &types, roots: &roots, service: row };
        let starter = service.starter.map(|choice| typing.starter(choice)).transpose()?;
        let client = service.client.map(|root| typing.behaviour(root, Environment::default())).transpose()?;
        result.push(ServiceEnvironments { starter, client });
    }
    outputs(network, &types)?;
    keys(network)?;
    Ok(result)
}

/// Request and reply type of each operation, written out.
struct OperationTypes {
    requests: Vec<Vec<Node>>,
    replies: Vec<Vec<Node>>,
}

impl OperationTypes {
    fn of(network: &Network) -> OperationTypes {
        let reply = |operation: &Operation| operation.reply.map(|row| network.write_out(row)).unwrap_or_default();
        OperationTypes {
            requests: network.operations.iter().map(|operation| network.write_out(operation.request)).collect(),
            replies: network.operations.iter().map(reply).collect(),
        }
    }
}

/// A set of root ids: one bit for each path row, of which the first with an id stands for it.
#[derive(Clone, Copy, Default)]
struct RootSet([u64; 4]);

impl RootSet {
    fn one(bit: usize) -> RootSet {
        let mut set = RootSet::default();
        set.0[bit / 64] |= 1 << (bit % 64);
        set
    }

    fn or(self, other: RootSet) -> RootSet {
        RootSet(std::array::from_fn(|i| self.0[i] | other.0[i]))
    }

    fn meets(self, other: RootSet) -> bool {
        (0..4).any(|i| self.0[i] & other.0[i] != 0)
    }
}

/// The root ids that occur in each behaviour row, those of its expressions and sub-behaviours
/// included. Worked out only for a network with a parallel.
struct Roots(Vec<RootSet>);

impl Roots {
    fn of(network: &Network) -> Roots {
        if !network.behaviours.iter().any(|row| matches!(row, Behaviour::Parallel(..))) {
            return Roots(Vec::new());
        }
        let paths: Vec<RootSet> = network
            .paths
            .iter()
            .map(|path| {
                let first = network.paths.iter().position(|other| other.root() == path.root());
                RootSet::one(first.expect("the path itself"))
            })
            .collect();
        let mut expressions: Vec<RootSet> = Vec::with_capacity(network.expressions.len());
        for expression in &network.expressions {
            use Expression::*;
            expressions.push(match *expression {
                Constant(..) => RootSet::default(),
                Path(path) | Present(path) => paths[path],
                Not(a) | Negate(a) => expressions[a],
                Add(a, b) | Subtract(a, b) | Less(a, b) | Equal(a, b) | And(a, b) => expressions[a].or(expressions[b]),
            });
        }
        let mut sets = vec![RootSet::default(); network.behaviours.len()];
        for row in (0..sets.len()).rev() {
            use Behaviour::*;
            sets[row] = match network.behaviours[row] {
                Nil => RootSet::default(),
                OneWay { into, .. } => paths[into],
                RequestResponse { into, reply, body, .. } => paths[into].or(paths[reply]).or(sets[body]),
                Notification { expression, .. } => expressions[expression],
                SolicitResponse { expression, into, .. } => expressions[expression].or(paths[into]),
                If { condition, then, otherwise } => expressions[condition].or(sets[then]).or(sets[otherwise]),
                While { condition, body } => expressions[condition].or(sets[body]),
                Sequence(a, b) | Parallel(a, b) => sets[a].or(sets[b]),
                Assign { path, expression } => paths[path].or(expressions[expression]),
                Choice { ref branches } => {
                    branches.clone().fold(RootSet::default(), |set, branch| set.or(sets[branch]))
                }
                Branch { input, then } => sets[input].or(sets[then]),
            };
        }
        Roots(sets)
    }
}

struct Typing<'a> {
    network: &'a Network,
    types: &'a OperationTypes,
    roots: &'a Roots,
    service: usize,
}

impl Typing<'_> {
    /// Starter branches start from the empty environment; a root of two has one type.
    fn starter(&self, choice: usize) -> Result<Environment, Refusal> {
        let Behaviour::Choice { branches } = &self.network.behaviours[choice] else {
            unreachable!("a starter that the rules let pass is a choice");
        };
        let branches: Vec<Environment> =
            branches.clone().map(|branch| self.behaviour(branch, Environment::default())).collect::<Result<_, _>>()?;
        let mut union = Environment::default();
        for branch in &branches {
            union.unite(branch).map_err(|cause| Refusal::new(cause, choice))?;
        }
        // No branch passes 6 levels, so the union does not either.
        if union.nodes().len() > ENVIRONMENT_NODES {
            return Err(Refusal::new(Cause::UnionNodes, choice));
        }
        Ok(union)
    }

    /// The environment after a behaviour row.
    fn behaviour(&self, row: usize, mut gamma: Environment) -> Result<Environment, Refusal> {
        use Behaviour::*;
        let at_row = |cause: Cause| Refusal::new(cause, row);
        let path = |path: usize| self.network.paths[path].ids();
        match self.network.behaviours[row] {
            Nil => Ok(gamma),
            OneWay { operation, into } => {
                self.operation(operation, Direction::In, false).map_err(at_row)?;
                gamma.place(path(into), &self.types.requests[operation]).map_err(at_row)?;
                Ok(gamma)
            }
            RequestResponse { operation, into, reply, body } => {
                self.operation(operation, Direction::In, true).map_err(at_row)?;
                gamma.place(path(into), &self.types.requests[operation]).map_err(at_row)?;
                let gamma = self.behaviour(body, gamma)?;
                let at = match gamma.lookup(path(reply)) {
                    Lookup::Missing => return Err(at_row(Cause::ReplyMissing)),
                    Lookup::Found { firm: false, .. } => return Err(at_row(Cause::ReplyNotFirm)),
                    Lookup::Found { at, firm: true } => at,
                };
                if !is_subtype(gamma.tree(at), &self.types.replies[operation]) {
                    return Err(at_row(Cause::ReplyType));
                }
                Ok(gamma)
            }
            Notification { operation, expression } => {
                self.operation(operation, Direction::Out, false).map_err(at_row)?;
                self.sent(operation, expression, &gamma).map_err(at_row)?;
                Ok(gamma)
            }
            SolicitResponse { operation, expression, into } => {
                self.operation(operation, Direction::Out, true).map_err(at_row)?;
                self.sent(operation, expression, &gamma).map_err(at_row)?;
                gamma.place(path(into), &self.types.replies[operation]).map_err(at_row)?;
                Ok(gamma)
            }
            If { condition, then, otherwise } => {
                self.condition(condition, &gamma).map_err(at_row)?;
                let left = self.behaviour(then, gamma.clone())?;
                let right = self.behaviour(otherwise, gamma)?;
                if left != right {
                    return Err(at_row(Cause::IfSides));
                }
                Ok(left)
            }
            While { condition, body } => {
                self.condition(condition, &gamma).map_err(at_row)?;
                let after = self.behaviour(body, gamma.clone())?;
                if after != gamma {
                    return Err(at_row(Cause::WhileBody));
                }
                Ok(gamma)
            }
            Sequence(a, b) => {
                let gamma = self.behaviour(a, gamma)?;
                self.behaviour(b, gamma)
            }
            Parallel(a, b) => {
                if self.roots.0[a].meets(self.roots.0[b]) {
                    return Err(at_row(Cause::SharedRoot));
                }
                let gamma = self.behaviour(a, gamma)?;
                self.behaviour(b, gamma)
            }
            Assign { path: target, expression } => {
                let basic = Expressions::new(self.network, &gamma).root_value(expression).map_err(at_row)?;
                gamma.assign(path(target), basic).map_err(at_row)?;
                Ok(gamma)
            }
            Choice { ref branches } => {
                let after: Vec<Environment> =
                    branches.clone().map(|branch| self.behaviour(branch, gamma.clone())).collect::<Result<_, _>>()?;
                if after.windows(2).any(|pair| pair[0] != pair[1]) {
                    return Err(at_row(Cause::ChoiceBranches));
                }
                Ok(after.into_iter().next().expect("a choice has a branch"))
            }
            Branch { input, then } => {
                let gamma = self.behaviour(input, gamma)?;
                self.behaviour(then, gamma)
            }
        }
    }

    /// Refusal 6: service, direction and kind of a row's operation.
    fn operation(&self, row: usize, direction: Direction, two_way: bool) -> Result<(), Cause> {
        let operation = &self.network.operations[row];
        if operation.service != self.service {
            Err(Cause::OtherService)
        } else if operation.direction != direction {
            Err(Cause::OtherDirection)
        } else if operation.reply.is_some() != two_way {
            Err(Cause::OtherKind)
        } else {
            Ok(())
        }
    }

    /// A sent expression is ≤ the request type.
    fn sent(&self, operation: usize, expression: usize, gamma: &Environment) -> Result<(), Cause> {
        let request = &self.types.requests[operation];
        let fits = match Expressions::new(self.network, gamma).typed(expression)? {
            Typed::Leaf(basic) => is_subtype(&[Node::leaf(basic)], request),
            Typed::Tree(at) => is_subtype(gamma.tree(at), request),
        };
        if fits {
            Ok(())
        } else {
            Err(Cause::SentType)
        }
    }

    fn condition(&self, row: usize, gamma: &Environment) -> Result<(), Cause> {
        match Expressions::new(self.network, gamma).root_value(row)? {
            Basic::Bool => Ok(()),
            _ => Err(Cause::Condition),
        }
    }
}

/// What an expression is: a value without children, or the environment's tree at an index.
#[derive(Clone, Copy)]
enum Typed {
    Leaf(Basic),
    Tree(usize),
}

/// Expressions in one environment.
struct Expressions<'a> {
    network: &'a Network,
    gamma: &'a Environment,
    /// Root values that are known already: an expression row may be an operand of several.
    known: [Option<Basic>; 256],
}

impl<'a> Expressions<'a> {
    fn new(network: &'a Network, gamma: &'a Environment) -> Expressions<'a> {
        Expressions { network, gamma, known: [None; 256] }
    }

    /// The basic type of an expression's root value.
    fn root_value(&mut self, row: usize) -> Result<Basic, Cause> {
        if let Some(basic) = self.known[row] {
            return Ok(basic);
        }
        let basic = match self.typed(row)? {
            Typed::Leaf(basic) => basic,
            Typed::Tree(at) => self.gamma.nodes()[at].basic,
        };
        self.known[row] = Some(basic);
        Ok(basic)
    }

    fn typed(&mut self, row: usize) -> Result<Typed, Cause> {
        use Expression::*;
        let lookup = |path: usize| self.gamma.lookup(self.network.paths[path].ids());
        let basic = match self.network.expressions[row] {
            Constant(basic, _) => basic,
            Path(path) => match lookup(path) {
                Lookup::Missing => return Err(Cause::ReadMissing),
                Lookup::Found { firm: false, .. } => return Err(Cause::ReadNotFirm),
                Lookup::Found { at, firm: true } => return Ok(Typed::Tree(at)),
            },
            Present(path) => match lookup(path) {
                Lookup::Missing => return Err(Cause::PresenceMissing),
                Lookup::Found { .. } => Basic::Bool,
            },
            ref operator => {
                let operands = operator.operands().into_iter().map(|row| self.root_value(row));
                result(operator, &operands.collect::<Result<Vec<_>, _>>()?).ok_or(Cause::Operand)?
            }
        };
        Ok(Typed::Leaf(basic))
    }
}

/// An operator's rule: the basic type that it gives for those of its operands; None for wrong ones.
pub fn result(operator: &Expression, operands: &[Basic]) -> Option<Basic> {
    use Expression::*;
    match (operator, operands) {
        (Not(_), [Basic::Bool]) | (And(..), [Basic::Bool, Basic::Bool]) => Some(Basic::Bool),
        (Negate(_), [number]) if number.is_number() => Some(*number),
        (Add(..) | Subtract(..), [left, right]) if left == right && left.is_number() => Some(*left),
        (Less(..), [left, right]) if left == right && left.is_number() => Some(Basic::Bool),
        (Equal(..), [left, right]) if left == right && *left != Basic::Void => Some(Basic::Bool),
        _ => None,
    }
}

/// Refusal 13: an output to a location in the file meets an input there.
fn outputs(network: &Network, types: &OperationTypes) -> Result<(), Refusal> {
    for (row, output) in network.operations.iter().enumerate() {
        if output.direction == Direction::Out && target(network, output).is_some() {
            let met = met_input(network, output);
            meets(network, types, row, met).map_err(|cause| Refusal::new(cause, row))?;
        }
    }
    Ok(())
}

/// The service of the file to which an output goes.
fn target(network: &Network, output: &Operation) -> Option<usize> {
    network.services.iter().position(|service| service.location == output.location)
}

/// The input of the file that an output meets, whatever its kind and types.
pub fn met_input(network: &Network, output: &Operation) -> Option<usize> {
    let target = target(network, output)?;
    let meets =
        |input: &Operation| input.direction == Direction::In && input.service == target && input.id == output.id;
    network.operations.iter().position(meets)
}

fn meets(network: &Network, types: &OperationTypes, output: usize, input: Option<usize>) -> Result<(), Cause> {
    let input = input.ok_or(Cause::NoInput)?;
    let two_way = network.operations[output].reply.is_some();
    if network.operations[input].reply.is_some() != two_way {
        Err(Cause::InputKind)
    } else if !is_subtype(&types.requests[output], &types.requests[input]) {
        Err(Cause::InputRequest)
    } else if two_way && !is_subtype(&types.replies[input], &types.replies[output]) {
        Err(Cause::InputReply)
    } else {
        Ok(())
    }
}

/// Refusal 23: "in a keyed service the request type of each input has that id as a mandatory int child of its root".
fn keys(network: &Network) -> Result<(), Refusal> {
    for (row, input) in network.operations.iter().enumerate() {
        if let (Direction::In, Some(key)) = (input.direction, network.services[input.service].key) {
            keyed(network, input.request, key).map_err(|cause| Refusal::new(cause, row))?;
        }
    }
    Ok(())
}

fn keyed(network: &Network, request: usize, key: u16) -> Result<(), Cause> {
    let child = network.child(request, key).ok_or(Cause::KeyMissing)?;
    if !child.mandatory {
        Err(Cause::KeyOptional)
    } else if child.basic != Basic::Int {
        Err(Cause::KeyBasic)
    } else {
        Ok(())
    }
}
