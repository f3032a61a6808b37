//! Expressions worked out in a session's tree. What is missing or of a wrong kind (18) is found over the whole
//! expression before a sum that is outside its range (22).

use second::network::Expression;
use second::typing::result;
use second::{Basic, Network, Value, Worked};

use crate::refused::Reason;
use crate::tree::Tree;

/// The tree that an expression gives: of a path the whole tree there, else a single value.
pub fn message(network: &Network, tree: &Tree, row: usize) -> Result<Tree, Reason> {
    match network.expressions[row] {
        Expression::Path(path) => {
            let found = tree.find(network.paths[path].ids()).ok_or(Reason::Missing)?;
            Ok(Tree { id: 0, ..found.clone() })
        }
        _ => Ok(Tree::leaf(&value(worked(network, tree, row)?)?)),
    }
}

/// "As an operand its root value counts"; both operands are worked out. The refusals are 18.
pub fn worked(network: &Network, tree: &Tree, row: usize) -> Result<Worked, Reason> {
    use Expression::*;
    let found = |path: usize| tree.find(network.paths[path].ids());
    let leaf = match &network.expressions[row] {
        Constant(basic, range) => Value::read(*basic, &network.data[range.clone()]),
        Path(path) => found(*path).ok_or(Reason::Missing)?.root_value(),
        Present(path) => Some(Value::Bool(found(*path).is_some())),
        operator => {
            let operands = operator.operands().into_iter().map(|row| worked(network, tree, row));
            let operands: Vec<Worked> = operands.collect::<Result<_, _>>()?;
            return operate(operator, &operands).ok_or(Reason::WrongKind);
        }
    };
    leaf.map(Worked::Value).ok_or(Reason::WrongKind)
}

/// None for an operand of a wrong kind. An operand outside its range keeps its kind, and what is worked out with
/// it has no value either.
fn operate(operator: &Expression, operands: &[Worked]) -> Option<Worked> {
    use Expression::*;
    let values: Option<Vec<&Value>> = operands.iter().map(Worked::value).collect();
    let Some(values) = values else {
        let kinds: Vec<Basic> = operands.iter().map(Worked::basic).collect();
        return result(operator, &kinds).map(Worked::Beyond);
    };
    match (operator, &values[..]) {
        (Not(_), [a]) => a.not().map(Worked::Value),
        (Negate(_), [a]) => a.negate(),
        (Add(..), [a, b]) => a.add(b),
        (Subtract(..), [a, b]) => a.subtract(b),
        (Less(..), [a, b]) => a.less(b).map(Worked::Value),
        (Equal(..), [a, b]) => a.equal(b).map(Worked::Value),
        (And(..), [a, b]) => a.and(b).map(Worked::Value),
        _ => None,
    }
}

/// 22 for what has no value.
pub fn value(worked: Worked) -> Result<Value, Reason> {
    match worked {
        Worked::Value(value) => Ok(value),
        Worked::Beyond(_) => Err(Reason::Beyond),
    }
}

/// A condition is a bool, perhaps with children; one of another kind is 18, also where it is outside its range.
pub fn condition(network: &Network, tree: &Tree, row: usize) -> Result<bool, Reason> {
    let worked = worked(network, tree, row)?;
    if worked.basic() != Basic::Bool {
        return Err(Reason::WrongKind);
    }
    value(worked).map(|value| value == Value::Bool(true))
}
