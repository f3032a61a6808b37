//! Outer message and outer reply: what comes from outside the file's services.

use crate::moves::{fit, At, Event, Stepping};
use crate::refused::{Bound, NotAllowed, Reason, Refused};
use crate::state::Destination;
use crate::tree::Tree;

impl Stepping<'_> {
    /// Outer reply: "bytes for a row waiting on an outside location".
    pub fn outer_reply(&mut self, at: At, outside: &[u8]) -> Result<Event, Refused> {
        let waiting = self.waiting(at)?;
        if self.service_at(self.network.operations[waiting.operation].location).is_some() {
            return Err(NotAllowed::NotWaiting.into());
        }
        let message = Tree::read_message(outside).ok_or(Reason::NoMessage)?;
        fit(self.network, &message, waiting.reply_type, Bound::Inside)?;
        self.place_reply(at, waiting, &message)?;
        Ok(Event::OuterReplied)
    }

    /// Outer message: "service, operation id, target session, u32 reply number, ignored if one-way,
    /// bytes, sent likewise".
    pub fn outer_message(
        &mut self,
        service: usize,
        id: u16,
        target: usize,
        number: u32,
        outside: &[u8],
    ) -> Result<Event, Refused> {
        let input = self.input(service, id).ok_or(NotAllowed::NoInput)?;
        let operation = self.network.operations[input];
        let target = self.target(service, target, input)?;
        let message = Tree::read_message(outside).ok_or(Reason::NoMessage)?;
        fit(self.network, &message, operation.request, Bound::Inside)?;
        let destination = operation.reply.map(|_| Destination::Outsider(number));
        self.deliver(target, message, destination)
    }
}
