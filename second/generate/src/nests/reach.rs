//! Progress in which a row is reached, however deep it is nested, or done.

use second::network::{Behaviour, Network};
use stepper::state::{Destination, Progress};

/// Marks the rows above a row as taken or received and those before it as done. Gives the rows above,
/// the lowest first.
pub fn reach(network: &Network, progress: &mut [Progress], row: usize, to: Destination) -> Vec<usize> {
    let mut above = Vec::new();
    let mut part = row;
    while let Some((parent, number)) = parent_of(network, part) {
        match &network.behaviours[parent] {
            Behaviour::Sequence(first, _) | Behaviour::Branch { input: first, .. } if number == 1 => {
                finish(network, progress, *first);
            }
            Behaviour::If { .. } | Behaviour::While { .. } | Behaviour::Choice { .. } => {
                progress[parent] = Progress::Taken(number);
            }
            Behaviour::RequestResponse { .. } => progress[parent] = Progress::Received(to),
            _ => {}
        }
        above.push(parent);
        part = parent;
    }
    above
}

/// The row that has a row as its part, and the part's number.
fn parent_of(network: &Network, row: usize) -> Option<(usize, usize)> {
    (0..row).find_map(|parent| {
        let number = network.behaviours[parent].parts().iter().position(|&part| part == row)?;
        Some((parent, number))
    })
}

/// Marks a row and those below it so that it is done; of an if or choice the first part is taken.
pub fn finish(network: &Network, progress: &mut [Progress], row: usize) {
    let behaviour = &network.behaviours[row];
    match behaviour {
        Behaviour::Nil | Behaviour::Sequence(..) | Behaviour::Parallel(..) | Behaviour::Branch { .. } => {}
        Behaviour::If { .. } | Behaviour::Choice { .. } => progress[row] = Progress::Taken(0),
        _ => progress[row] = Progress::Done,
    }
    let all = behaviour.parts();
    let taken = if matches!(progress[row], Progress::Taken(_)) { 1 } else { all.len() };
    for &part in all.iter().take(taken) {
        finish(network, progress, part);
    }
}

#[cfg(test)]
mod tests {
    use super::*;
    use crate::nests::{Leaf, Level, Nest};
    use stepper::rows::Rows;
    use stepper::state::Session;

    #[test]
    fn the_row_at_the_end_is_ready_and_the_whole_can_be_done() {
        for level in Level::ALL {
            let file = Nest::full(level, Leaf::Assign).tables().write();
            let network = Network::read(&file).expect("a file that passes 2 to 5");
            let rows = Rows::of(&network);
            let last = network.behaviours.len() - 1;
            let mut session = Session::new(&network);
            let above = reach(&network, &mut session.progress, last, Destination::Outsider(1));
            assert!(above.len() >= level.most(), "{level:?}");
            assert!(rows.ready(&session, 0).iter().any(|ready| ready.row == last), "{level:?}");
            let mut done = Session::new(&network);
            assert!(!rows.done(&done, 0));
            finish(&network, &mut done.progress, 0);
            assert!(rows.done(&done, 0), "{level:?}");
        }
    }
}
