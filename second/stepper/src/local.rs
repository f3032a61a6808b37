//! Local: "a ready assign, if or while".

use second::network::Behaviour;

use crate::evaluate;
use crate::moves::{within, At, Event, Stepping};
use crate::refused::{NotAllowed, Refused};
use crate::state::Progress;

impl Stepping<'_> {
    pub fn local(&mut self, at: At) -> Result<Event, Refused> {
        let network = self.network;
        let behaviour = &network.behaviours[at.row];
        if !matches!(behaviour, Behaviour::Assign { .. } | Behaviour::If { .. } | Behaviour::While { .. }) {
            return Err(NotAllowed::OtherRow.into());
        }
        self.ready(at)?;
        match *behaviour {
            Behaviour::Assign { path, expression } => self.assign(at, path, expression),
            Behaviour::If { condition, .. } => {
                let holds = evaluate::condition(network, &self.session(at).tree, condition)?;
                self.session_mut(at).progress[at.row] = Progress::Taken(usize::from(!holds));
                Ok(if holds { Event::ThenTaken } else { Event::ElseTaken })
            }
            Behaviour::While { condition, .. } => self.turn(at, condition),
            _ => Err(NotAllowed::OtherRow.into()),
        }
    }

    fn assign(&mut self, at: At, path: usize, expression: usize) -> Result<Event, Refused> {
        let mut tree = self.session(at).tree.clone();
        let worked = evaluate::worked(self.network, &tree, expression)?;
        // The size (18) does not depend on the value, which may be outside its range (22).
        tree.reach(self.path(path));
        let mut tree = within(tree)?;
        tree.assign(self.path(path), &evaluate::value(worked)?);
        let session = self.session_mut(at);
        session.tree = tree;
        session.progress[at.row] = Progress::Done;
        Ok(Event::Assigned)
    }

    /// A while takes its body, whose rows are undone then, or is done.
    fn turn(&mut self, at: At, condition: usize) -> Result<Event, Refused> {
        let holds = evaluate::condition(self.network, &self.session(at).tree, condition)?;
        let below = self.rows.below(at.row);
        let session = self.session_mut(at);
        if !holds {
            session.progress[at.row] = Progress::Done;
            return Ok(Event::WhileDone);
        }
        let again = session.progress[at.row] != Progress::Undone;
        session.progress[at.row] = Progress::Taken(0);
        for row in below {
            session.progress[row] = Progress::Undone;
        }
        Ok(if again { Event::BodyTakenAgain } else { Event::BodyTaken })
    }
}
