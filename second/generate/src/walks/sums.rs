//! What is counted of moves that work out a sum outside its range: rows, sums, what stands above them, and which other
//! refusals they meet.

use second::network::{Behaviour, Direction, Expression, Operation};
use second::{Basic, Network, Value, Worked};
use stepper::evaluate::worked;
use stepper::{Bound, Move, Reason, Refused, State, Tree};

use super::exact::{expression_of, leaves_range, outside};

/// The rows that can give 22, by the move that names them.
const ROWS: [&str; 7] = [
    "local 22 of an assign",
    "local 22 of an if",
    "local 22 of a while",
    "send 22 of a notification inside",
    "send 22 of a notification outside",
    "send 22 of a solicit-response inside",
    "send 22 of a solicit-response outside",
];

/// The sums that leave their range, and where.
const SUMS: [&str; 5] = ["add, above", "add, below", "subtract, above", "subtract, below", "negate, above"];

/// Operators above a sum that leaves its range.
const OPERATORS: [&str; 7] = ["not", "negate", "add", "subtract", "less", "equal", "and"];

/// What else is wrong with a move that works out a sum outside its range, by the number that it then gives.
const ORDERS: [&str; 11] = [
    "15 before 22",
    "16 before 22",
    "18 before 22, a value is missing",
    "18 before 22, an operand of the wrong kind",
    "18 before 22, an operand of the wrong kind that is outside its range itself",
    "18 before 22, a condition that is no bool",
    "18 before 22, an assign past 48 nodes",
    "22 before 19, inside",
    "22 before 19, outside",
    "22 with a tree of 48 nodes",
    "22 with a tree of 6 levels",
];

/// All that is counted.
pub fn names() -> Vec<String> {
    let mut names: Vec<String> = ROWS.map(String::from).to_vec();
    names.extend(ROWS.map(|row| format!("{row}, from fresh")));
    for basic in ["int", "long"] {
        names.extend(SUMS.map(|sum| format!("22 for {basic} {sum} the range")));
    }
    names.extend(OPERATORS.map(|operator| format!("22 below {operator}")));
    names.extend(ORDERS.map(String::from));
    names
}

/// The names that a refused move hits.
pub fn refused(network: &Network, before: &State, named: &Move, refused: &Refused) -> Vec<String> {
    let Some((tree, row)) = expression_of(network, before, named) else { return Vec::new() };
    if !leaves_range(network, tree, row) {
        return Vec::new();
    }
    let order = match refused.reason {
        Reason::NotAllowed(_) => "15 before 22",
        Reason::QueueFull => "16 before 22",
        Reason::Missing => "18 before 22, a value is missing",
        Reason::WrongKind if worked(network, tree, row).is_ok() => "18 before 22, a condition that is no bool",
        Reason::WrongKind if rows_of(network, row).any(|row| takes_a_sum_for_another(network, tree, row)) => {
            "18 before 22, an operand of the wrong kind that is outside its range itself"
        }
        Reason::WrongKind => "18 before 22, an operand of the wrong kind",
        Reason::TreeSize => "18 before 22, an assign past 48 nodes",
        Reason::Beyond => return beyond(network, tree, row, named),
        _ => return Vec::new(),
    };
    vec![order.into()]
}

/// An operator that is wrong for its operands, all of which are worked out and one of which is outside its range.
fn takes_a_sum_for_another(network: &Network, tree: &Tree, row: usize) -> bool {
    let operands = network.expressions[row].operands().into_iter().map(|row| worked(network, tree, row));
    let operands: Result<Vec<Worked>, _> = operands.collect();
    let beyond = |operands: &Vec<Worked>| operands.iter().any(|operand| operand.value().is_none());
    worked(network, tree, row).is_err() && operands.as_ref().is_ok_and(beyond)
}

/// A move that gives 22.
fn beyond(network: &Network, tree: &Tree, row: usize, named: &Move) -> Vec<String> {
    let mut names = vec![row_name(network, named)];
    for sum in outside(network, tree, row) {
        let operator = operator_name(&network.expressions[sum.row]);
        let end = if sum.above { "above" } else { "below" };
        names.push(format!("22 for {} {operator}, {end} the range", sum.basic.name()));
    }
    let is_above = |row: &usize| {
        let operands = network.expressions[*row].operands();
        operands.into_iter().any(|operand| leaves_range(network, tree, operand))
    };
    let above: Vec<&str> =
        rows_of(network, row).filter(is_above).map(|row| operator_name(&network.expressions[row])).collect();
    names.extend(OPERATORS.iter().filter(|name| above.contains(name)).map(|name| format!("22 below {name}")));
    names.extend((tree.nodes() == 49).then(|| "22 with a tree of 48 nodes".into()));
    names.extend((tree.levels() == 7).then(|| "22 with a tree of 6 levels".into()));
    if let (Some((type_row, bound)), Ok(Worked::Beyond(basic))) =
        (sent_type(network, named), worked(network, tree, row))
    {
        let unfit = zero(basic).is_some_and(|value| !Tree::leaf(&value).fits(network, type_row));
        names.extend(unfit.then(|| format!("22 before 19, {}", side(bound))));
    }
    names
}

/// An expression's row and all below it.
fn rows_of(network: &Network, row: usize) -> impl Iterator<Item = usize> {
    let mut rows = vec![row];
    let mut next = 0;
    while next < rows.len() {
        rows.extend(network.expressions[rows[next]].operands());
        next += 1;
    }
    rows.into_iter()
}

fn operator_name(expression: &Expression) -> &'static str {
    match expression {
        Expression::Not(_) => "not",
        Expression::Negate(_) => "negate",
        Expression::Add(..) => "add",
        Expression::Subtract(..) => "subtract",
        Expression::Less(..) => "less",
        Expression::Equal(..) => "equal",
        Expression::And(..) => "and",
        Expression::Constant(..) | Expression::Path(_) | Expression::Present(_) => "no operator",
    }
}

/// A move that gives 22 by its row.
pub fn row_name(network: &Network, named: &Move) -> String {
    let (Move::Local { row, .. } | Move::Send { row, .. }) = *named else { return "22 of another move".into() };
    let what = match network.behaviours[usize::from(row)] {
        Behaviour::Assign { .. } => "an assign",
        Behaviour::If { .. } => "an if",
        Behaviour::While { .. } => "a while",
        Behaviour::Notification { .. } => "a notification",
        _ => "a solicit-response",
    };
    let to = sent_type(network, named).map_or(String::new(), |(_, bound)| format!(" {}", side(bound)));
    format!("{} 22 of {what}{to}", named.name())
}

fn side(bound: Bound) -> &'static str {
    match bound {
        Bound::Inside => "inside",
        Bound::Outside => "outside",
    }
}

/// The type with which the message of a send is compared: of the input that it meets, or its own.
fn sent_type(network: &Network, named: &Move) -> Option<(usize, Bound)> {
    let Move::Send { row, .. } = *named else { return None };
    let (Behaviour::Notification { operation, .. } | Behaviour::SolicitResponse { operation, .. }) =
        network.behaviours[usize::from(row)]
    else {
        return None;
    };
    let output = &network.operations[operation];
    let Some(service) = network.services.iter().position(|service| service.location == output.location) else {
        return Some((output.request, Bound::Outside));
    };
    let meets = |row: &&Operation| (row.service, row.id, row.direction) == (service, output.id, Direction::In);
    Some((network.operations.iter().find(meets)?.request, Bound::Inside))
}

/// A value of a basic type that has sums or is a bool.
fn zero(basic: Basic) -> Option<Value> {
    [1, 4, 8].iter().find_map(|&length| Value::read(basic, &vec![0; length]))
}
