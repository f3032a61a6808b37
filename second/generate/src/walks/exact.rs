//! Int and long sums worked out exactly: which of them leave their range.

use second::network::{Behaviour, Expression, Network};
use second::{Basic, Value};
use stepper::{Move, State, Tree};

/// An int or long add, subtract or negate whose exact result is outside its width.
#[derive(Clone, Copy, PartialEq, Eq, Debug)]
pub struct Outside {
    pub row: usize,
    pub basic: Basic,
    /// Above the greatest number, or below the least.
    pub above: bool,
}

/// The tree and the expression that a local move or a send of a live session works out.
pub fn expression_of<'a>(network: &Network, state: &'a State, named: &Move) -> Option<(&'a Tree, usize)> {
    let (Move::Local { service, session, row } | Move::Send { service, session, row, .. }) = *named else {
        return None;
    };
    let local = matches!(named, Move::Local { .. });
    let expression = match *network.behaviours.get(usize::from(row))? {
        Behaviour::Assign { expression, .. } if local => expression,
        Behaviour::If { condition, .. } | Behaviour::While { condition, .. } if local => condition,
        Behaviour::Notification { expression, .. } if !local => expression,
        Behaviour::SolicitResponse { expression, .. } if !local => expression,
        _ => return None,
    };
    Some((&state.live(service.into(), session.into())?.tree, expression))
}

/// The first sums of an expression that leave their range: those without another one below them.
pub fn outside(network: &Network, tree: &Tree, row: usize) -> Vec<Outside> {
    let expression = &network.expressions[row];
    let below: Vec<_> = expression.operands().into_iter().flat_map(|row| outside(network, tree, row)).collect();
    let is_sum = matches!(expression, Expression::Negate(_) | Expression::Add(..) | Expression::Subtract(..));
    if !below.is_empty() || !is_sum {
        return below;
    }
    let Some((basic, number)) = exact(network, tree, row) else { return below };
    let range = range(basic);
    if range.contains(&number) {
        return below;
    }
    vec![Outside { row, basic, above: number > *range.end() }]
}

/// Whether a sum in an expression, the last one or one below it, leaves its range.
pub fn leaves_range(network: &Network, tree: &Tree, row: usize) -> bool {
    !outside(network, tree, row).is_empty()
}

fn range(basic: Basic) -> std::ops::RangeInclusive<i128> {
    let half = 1 << if basic == Basic::Int { 31 } else { 63 };
    -half..=half - 1
}

/// The basic type and exact number of an int or long expression; None for others, and where operands are missing or
/// not alike.
fn exact(network: &Network, tree: &Tree, row: usize) -> Option<(Basic, i128)> {
    let value = match network.expressions[row] {
        Expression::Constant(basic, ref bytes) => Value::read(basic, &network.data[bytes.clone()])?,
        Expression::Path(path) => tree.find(network.paths[path].ids())?.root_value()?,
        Expression::Negate(a) => return exact(network, tree, a).map(|(basic, number)| (basic, -number)),
        Expression::Add(a, b) | Expression::Subtract(a, b) => {
            let ((basic, left), (other, right)) = (exact(network, tree, a)?, exact(network, tree, b)?);
            let adds = matches!(network.expressions[row], Expression::Add(..));
            return (basic == other).then_some((basic, if adds { left + right } else { left - right }));
        }
        _ => return None,
    };
    match value {
        Value::Int(number) => Some((Basic::Int, number.into())),
        Value::Long(number) => Some((Basic::Long, number.into())),
        _ => None,
    }
}
