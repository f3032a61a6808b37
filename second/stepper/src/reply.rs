//! Reply: "a request-response whose body is done answers its waiting row", or an outsider.

use second::network::Behaviour;

use crate::moves::{fit, within, At, Event, Stepping};
use crate::refused::{Bound, NotAllowed, Reason, Refused};
use crate::state::{Destination, Progress};
use crate::tree::Tree;

/// A waiting row: the reply type of its operation, and where the reply goes.
#[derive(Clone, Copy)]
pub struct Waiting {
    pub operation: usize,
    pub reply_type: usize,
    pub into: usize,
}

impl Stepping<'_> {
    pub fn reply(&mut self, at: At) -> Result<Event, Refused> {
        let Behaviour::RequestResponse { operation, reply, body, .. } = self.network.behaviours[at.row] else {
            return Err(NotAllowed::OtherRow.into());
        };
        let Progress::Received(destination) = self.session(at).progress[at.row] else {
            return Err(NotAllowed::NothingToAnswer.into());
        };
        if !self.rows.done(self.session(at), body) {
            return Err(NotAllowed::NothingToAnswer.into());
        }
        self.operation_passes(at.service, at.row)?;
        let event = match destination {
            Destination::Outsider(number) => self.answer_outsider(at, operation, reply, number)?,
            Destination::Row { service, session, row } => self.answer_row(at, reply, At { service, session, row })?,
        };
        self.session_mut(at).progress[at.row] = Progress::Done;
        Ok(event)
    }

    /// What the reply path holds.
    fn reply_message(&self, at: At, path: usize) -> Result<Tree, Reason> {
        let found = self.session(at).tree.find(self.path(path)).ok_or(Reason::Missing)?;
        Ok(Tree { id: 0, ..found.clone() })
    }

    fn answer_outsider(&mut self, at: At, operation: usize, path: usize, number: u32) -> Result<Event, Refused> {
        let reply_type = self.network.operations[operation].reply.ok_or(NotAllowed::Operation)?;
        let message = self.reply_message(at, path)?;
        fit(self.network, &message, reply_type, Bound::Outside)?;
        self.out = number.to_le_bytes().to_vec();
        self.out.extend(message.bytes());
        Ok(Event::OutsiderAnswered)
    }

    fn answer_row(&mut self, at: At, path: usize, to: At) -> Result<Event, Refused> {
        self.state.live(to.service, to.session).ok_or(NotAllowed::NobodyWaits)?;
        let waiting = self.waiting(to).map_err(|why| match why {
            NotAllowed::Operation => why,
            _ => NotAllowed::NobodyWaits,
        })?;
        let message = self.reply_message(at, path)?;
        fit(self.network, &message, waiting.reply_type, Bound::Inside)?;
        self.place_reply(to, waiting, &message)?;
        Ok(Event::Replied)
    }

    /// A row marked as waiting in a live session, with an operation that 6 lets pass.
    pub fn waiting(&self, at: At) -> Result<Waiting, NotAllowed> {
        let Behaviour::SolicitResponse { operation, into, .. } = self.network.behaviours[at.row] else {
            return Err(NotAllowed::OtherRow);
        };
        if self.session(at).progress[at.row] != Progress::Waiting {
            return Err(NotAllowed::NotWaiting);
        }
        self.operation_passes(at.service, at.row)?;
        let reply_type = self.network.operations[operation].reply.ok_or(NotAllowed::Operation)?;
        Ok(Waiting { operation, reply_type, into })
    }

    /// The reply replaces the subtree at the waiting row's path, and the row is done.
    pub fn place_reply(&mut self, at: At, waiting: Waiting, message: &Tree) -> Result<(), Refused> {
        let mut tree = self.session(at).tree.clone();
        tree.replace(self.path(waiting.into), message);
        let tree = within(tree)?;
        let session = self.session_mut(at);
        session.tree = tree;
        session.progress[at.row] = Progress::Done;
        Ok(())
    }
}
