//! States in which sums leave their range, alone or beside another fault of the same move: a value that is missing,
//! an operand of the wrong kind, a tree at its limit, a message that does not fit.

use second::network::{Behaviour, Expression, Network};
use second::{Basic, Value};
use stepper::rows::Rows;
use stepper::state::Session;
use stepper::Tree;

use super::damage::crowd_to;
use super::exact::leaves_range;
use super::outside::set_basic;
use crate::random::Random;

/// Every int and long of a session comes near an end of its range; then something may be wrong with what a ready row
/// reads or writes.
pub fn ends(random: &mut Random, rows: &Rows, root: usize, session: &mut Session) {
    let network = rows.network;
    to_the_ends(random, &mut session.tree, [(Basic::Int, Basic::Int), (Basic::Long, Basic::Long)]);
    let ready = rows.ready(session, root);
    let touched: Vec<_> = ready.iter().filter_map(|ready| touched(network, ready.row)).collect();
    let Some(touched) = random.pick(&touched) else { return };
    match random.below(6) {
        0 => beside(random, network, touched, session, |_, tree, path| remove(tree, path)),
        1 => beside(random, network, touched, session, |random, tree, path| {
            if tree.find(path).is_some() {
                set_basic(random, tree.reach(path));
            }
        }),
        2 => {
            if let Some(path) = touched.written {
                remove(&mut session.tree, network.paths[path].ids());
            }
            crowd_to(random, &mut session.tree, 48);
        }
        3 => to_the_ends(random, &mut session.tree, [(Basic::Int, Basic::Long), (Basic::Long, Basic::Int)]),
        _ => {}
    }
}

/// Spoils one of the paths that are read, if it can one beside which a sum still leaves its range.
fn beside(
    random: &mut Random,
    network: &Network,
    touched: &Touched,
    session: &mut Session,
    spoil: fn(&mut Random, &mut Tree, &[u16]),
) {
    let first = random.below(touched.read.len().max(1));
    let mut spoilt = session.tree.clone();
    for path in touched.read.iter().cycle().skip(first).take(touched.read.len()) {
        spoilt = session.tree.clone();
        spoil(random, &mut spoilt, network.paths[*path].ids());
        if leaves_range(network, &spoilt, touched.expression) {
            break;
        }
    }
    session.tree = spoilt;
}

/// Ints and longs get numbers at the ends of the widths that are named beside theirs.
fn to_the_ends(random: &mut Random, tree: &mut Tree, widths: [(Basic, Basic); 2]) {
    if let Some(&(_, basic)) = widths.iter().find(|(from, _)| *from == tree.basic) {
        tree.basic = basic;
        tree.value = at_an_end(random, basic).bytes();
    }
    tree.children.iter_mut().for_each(|child| to_the_ends(random, child, widths));
}

fn at_an_end(random: &mut Random, basic: Basic) -> Value {
    let (high, near) = (random.one_in(2), random.below(2) as i8);
    match (basic, high) {
        (Basic::Int, true) => Value::Int(i32::MAX - i32::from(near)),
        (Basic::Int, false) => Value::Int(i32::MIN + i32::from(near)),
        (_, true) => Value::Long(i64::MAX - i64::from(near)),
        (_, false) => Value::Long(i64::MIN + i64::from(near)),
    }
}

/// The paths of a row that works out an expression.
struct Touched {
    expression: usize,
    read: Vec<usize>,
    /// An assign's.
    written: Option<usize>,
}

fn touched(network: &Network, row: usize) -> Option<Touched> {
    let (expression, written) = match network.behaviours[row] {
        Behaviour::Assign { path, expression } => (expression, Some(path)),
        Behaviour::If { condition, .. } | Behaviour::While { condition, .. } => (condition, None),
        Behaviour::Notification { expression, .. } | Behaviour::SolicitResponse { expression, .. } => {
            (expression, None)
        }
        _ => return None,
    };
    let mut read = Vec::new();
    paths(network, expression, &mut read);
    Some(Touched { expression, read, written })
}

/// The paths that an expression reads.
fn paths(network: &Network, row: usize, found: &mut Vec<usize>) {
    if let Expression::Path(path) = network.expressions[row] {
        found.push(path);
    }
    network.expressions[row].operands().into_iter().for_each(|row| paths(network, row, found));
}

/// Drops the node at a path with all below it.
fn remove(tree: &mut Tree, path: &[u16]) {
    let Some((last, above)) = path.split_last() else { return };
    if tree.find(above).is_some() {
        tree.reach(above).children.retain(|child| child.id != *last);
    }
}
