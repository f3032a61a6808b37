//! Receive: "a ready input takes the oldest queued message of its operation".

use second::network::Behaviour;

use crate::moves::{within, At, Event, Stepping};
use crate::refused::{NotAllowed, Refused};
use crate::state::{Destination, Progress, Session};
use crate::tree::Tree;

/// An input row: its operation and where its message goes.
#[derive(Clone, Copy)]
pub struct Input {
    pub row: usize,
    pub operation: usize,
    pub into: usize,
}

impl Stepping<'_> {
    pub fn input_row(&self, row: usize) -> Option<Input> {
        match self.network.behaviours[row] {
            Behaviour::OneWay { operation, into } | Behaviour::RequestResponse { operation, into, .. } => {
                Some(Input { row, operation, into })
            }
            _ => None,
        }
    }

    pub fn receive(&mut self, at: At) -> Result<Event, Refused> {
        let input = self.input_row(at.row).ok_or(NotAllowed::OtherRow)?;
        let ready = self.ready(at)?;
        self.operation_passes(at.service, at.row)?;
        let mut session = self.session(at).clone();
        let oldest = session.queue.iter().position(|queued| queued.operation == input.operation);
        let queued = session.queue.remove(oldest.ok_or(NotAllowed::NothingQueued)?);
        self.take(&mut session, input, &queued.message, queued.destination)?;
        if let Some((choice, branch)) = ready.settles {
            session.progress[choice] = Progress::Taken(branch);
        }
        *self.session_mut(at) = session;
        Ok(if ready.settles.is_some() { Event::Settled } else { Event::Received })
    }

    /// An input row takes a message into the session's tree.
    pub fn take(
        &self,
        session: &mut Session,
        input: Input,
        message: &Tree,
        destination: Option<Destination>,
    ) -> Result<(), Refused> {
        let mut tree = session.tree.clone();
        tree.replace(self.path(input.into), message);
        session.tree = within(tree)?;
        session.progress[input.row] = destination.map_or(Progress::Done, Progress::Received);
        Ok(())
    }
}
