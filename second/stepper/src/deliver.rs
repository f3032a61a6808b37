//! A message on its way to a session: "queued at a live one, or starting a free 1 to 3, whose first
//! starter branch of that operation receives it". In a keyed service its key says which.

use second::network::Behaviour;
use second::Value;

use crate::moves::{Event, Stepping};
use crate::receive::Input;
use crate::refused::{NotAllowed, Reason, Refused};
use crate::state::{Destination, Progress, Queued, Session, QUEUE, SESSIONS};
use crate::tree::Tree;

/// Where a message of an operation would go.
#[derive(Clone, Copy)]
pub struct Target {
    service: usize,
    session: usize,
    operation: usize,
    start: Option<Start>,
}

/// The starter's branch that would receive it.
#[derive(Clone, Copy)]
struct Start {
    choice: usize,
    branch: usize,
    input: Input,
}

impl Stepping<'_> {
    /// 15 and 16, whatever the key.
    pub fn target(&self, service: usize, session: usize, operation: usize) -> Result<Target, Refused> {
        let start = match self.state.live(service, session) {
            Some(live) if live.queue.len() >= QUEUE => return Err(Reason::QueueFull.into()),
            Some(_) => None,
            None => Some(self.start(service, session, operation)?),
        };
        Ok(Target { service, session, operation, start })
    }

    fn start(&self, service: usize, session: usize, operation: usize) -> Result<Start, NotAllowed> {
        if !(1..SESSIONS).contains(&session) {
            return Err(NotAllowed::Target);
        }
        let choice = self.network.services[service].starter.ok_or(NotAllowed::Target)?;
        let Behaviour::Choice { branches } = &self.network.behaviours[choice] else {
            return Err(NotAllowed::Target);
        };
        for (branch, row) in branches.clone().enumerate() {
            let Behaviour::Branch { input, .. } = self.network.behaviours[row] else { continue };
            let Some(input) = self.input_row(input) else { continue };
            if input.operation == operation {
                // "If 6 refuses that row it is 15, and no later branch is tried."
                self.operation_passes(service, input.row)?;
                return Ok(Start { choice, branch, input });
            }
        }
        Err(NotAllowed::Target)
    }

    /// The key of a message to a keyed service: "a message goes only to the live session 1 to 3 with its key, or starts
    /// one where no live session has it".
    fn key(&self, target: &Target, message: &Tree) -> Result<Option<i32>, NotAllowed> {
        let Some(id) = self.network.services[target.service].key else { return Ok(None) };
        let found = message.find(&[id]).and_then(Tree::root_value);
        let Some(Value::Int(key)) = found else { return Err(NotAllowed::NoKey) };
        match self.state.live(target.service, target.session) {
            Some(_) if target.session == 0 => Err(NotAllowed::KeylessTarget),
            Some(live) if live.key != Some(key) => Err(NotAllowed::OtherKey),
            None if self.state.key_held(target.service, key) => Err(NotAllowed::KeyHeld),
            _ => Ok(Some(key)),
        }
    }

    /// The message is one and fits; 15 for its key, 18 if it is too large for the tree of the session that it starts.
    pub fn deliver(
        &mut self,
        target: Target,
        message: Tree,
        destination: Option<Destination>,
    ) -> Result<Event, Refused> {
        let key = self.key(&target, &message)?;
        let Some(start) = target.start else {
            let queued = Queued { operation: target.operation, message, destination };
            let live = self.state.live_mut(target.service, target.session).ok_or(NotAllowed::Target)?;
            live.queue.push(queued);
            return Ok(Event::Queued);
        };
        let mut session = Session { key, ..Session::new(self.network) };
        self.take(&mut session, start.input, &message, destination)?;
        session.progress[start.choice] = Progress::Taken(start.branch);
        self.state.services[target.service][target.session] = Some(session);
        Ok(Event::Started)
    }
}
