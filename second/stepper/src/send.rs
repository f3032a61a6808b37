//! Send: a notification or solicit-response to the input that it meets, or outside.

use second::network::Behaviour;

use crate::evaluate;
use crate::moves::{fit, At, Event, Stepping};
use crate::refused::{Bound, NotAllowed, Refused};
use crate::state::{Destination, Progress};

/// A row that sends.
#[derive(Clone, Copy)]
struct Output {
    operation: usize,
    expression: usize,
    two_way: bool,
}

impl Stepping<'_> {
    pub fn send(&mut self, at: At, target: usize) -> Result<Event, Refused> {
        let output = match self.network.behaviours[at.row] {
            Behaviour::Notification { operation, expression } => Output { operation, expression, two_way: false },
            Behaviour::SolicitResponse { operation, expression, .. } => Output { operation, expression, two_way: true },
            _ => return Err(NotAllowed::OtherRow.into()),
        };
        self.ready(at)?;
        self.operation_passes(at.service, at.row)?;
        let event = match self.service_at(self.network.operations[output.operation].location) {
            Some(service) => self.send_inside(at, output, service, target)?,
            None => self.send_outside(at, output, target)?,
        };
        self.session_mut(at).progress[at.row] = if output.two_way { Progress::Waiting } else { Progress::Done };
        Ok(event)
    }

    /// "To the input it meets": of that id and kind.
    fn send_inside(&mut self, at: At, output: Output, service: usize, target: usize) -> Result<Event, Refused> {
        let id = self.network.operations[output.operation].id;
        let input = self.input(service, id).ok_or(NotAllowed::NoInput)?;
        let input_operation = self.network.operations[input];
        if input_operation.reply.is_some() != output.two_way {
            return Err(NotAllowed::NoInput.into());
        }
        let target = self.target(service, target, input)?;
        let message = evaluate::message(self.network, &self.session(at).tree, output.expression)?;
        fit(self.network, &message, input_operation.request, Bound::Inside)?;
        let destination = Destination::Row { service: at.service, session: at.session, row: at.row };
        self.deliver(target, message, output.two_way.then_some(destination))
    }

    /// "To a location outside (target 0) the message alone goes to the start of the out buffer."
    fn send_outside(&mut self, at: At, output: Output, target: usize) -> Result<Event, Refused> {
        if target != 0 {
            return Err(NotAllowed::Target.into());
        }
        let message = evaluate::message(self.network, &self.session(at).tree, output.expression)?;
        fit(self.network, &message, self.network.operations[output.operation].request, Bound::Outside)?;
        self.out = message.bytes();
        Ok(Event::SentOutside)
    }
}
