//! The list of moves (01, "Moves"), and what they have in common.

use second::network::{Direction, Operation};
use second::Network;

use crate::refused::{Bound, NotAllowed, Reason, Refused};
use crate::rows::{Ready, Rows};
use crate::state::{Session, State};
use crate::tree::Tree;

/// A move names service, session and behaviour row by any numbers.
#[derive(Clone, Copy, PartialEq, Eq, Debug)]
pub enum Move {
    Local { service: u16, session: u16, row: u16 },
    Receive { service: u16, session: u16, row: u16 },
    Send { service: u16, session: u16, row: u16, target: u16 },
    Reply { service: u16, session: u16, row: u16 },
    OuterMessage { service: u16, id: u16, target: u16, number: u32 },
    OuterReply { service: u16, session: u16, row: u16 },
    Close { service: u16, session: u16 },
}

impl Move {
    /// Its name in the paper.
    pub fn name(&self) -> &'static str {
        match self {
            Move::Local { .. } => "local",
            Move::Receive { .. } => "receive",
            Move::Send { .. } => "send",
            Move::Reply { .. } => "reply",
            Move::OuterMessage { .. } => "outer message",
            Move::OuterReply { .. } => "outer reply",
            Move::Close { .. } => "close",
        }
    }
}

/// What a move that was made did.
#[derive(Clone, Copy, PartialEq, Eq, Debug, PartialOrd, Ord, Hash)]
pub enum Event {
    Assigned,
    ThenTaken,
    ElseTaken,
    BodyTaken,
    BodyTakenAgain,
    WhileDone,
    Received,
    /// Received, and a choice settled.
    Settled,
    Queued,
    Started,
    SentOutside,
    Replied,
    OutsiderAnswered,
    OuterReplied,
    Closed,
}

impl Event {
    pub const ALL: [Event; 15] = {
        use Event::*;
        [
            Assigned,
            ThenTaken,
            ElseTaken,
            BodyTaken,
            BodyTakenAgain,
            WhileDone,
            Received,
            Settled,
            Queued,
            Started,
            SentOutside,
            Replied,
            OutsiderAnswered,
            OuterReplied,
            Closed,
        ]
    };
}

/// The state that a move works on, and what it writes out.
pub struct Stepping<'a> {
    pub network: &'a Network,
    pub rows: Rows<'a>,
    pub state: State,
    /// Bytes for the start of the out buffer.
    pub out: Vec<u8>,
}

/// A live session and a row of its behaviour.
#[derive(Clone, Copy, PartialEq, Eq, Debug)]
pub struct At {
    pub service: usize,
    pub session: usize,
    pub row: usize,
}

impl<'a> Stepping<'a> {
    pub fn new(network: &'a Network, state: State) -> Stepping<'a> {
        Stepping { network, rows: Rows::of(network), state, out: Vec::new() }
    }

    /// Refusals 15 to 19 and 22. After a refusal the state here is of no use.
    pub fn make(&mut self, named: &Move, outside: &[u8]) -> Result<Event, Refused> {
        match *named {
            Move::Local { service, session, row } => self.local(self.at(service, session, row)?),
            Move::Receive { service, session, row } => self.receive(self.at(service, session, row)?),
            Move::Send { service, session, row, target } => self.send(self.at(service, session, row)?, target.into()),
            Move::Reply { service, session, row } => self.reply(self.at(service, session, row)?),
            Move::OuterMessage { service, id, target, number } => {
                self.outer_message(service.into(), id, target.into(), number, outside)
            }
            Move::OuterReply { service, session, row } => self.outer_reply(self.at(service, session, row)?, outside),
            Move::Close { service, session } => self.close(service.into(), session.into()),
        }
    }

    /// Names that stand for a live session and a row of its behaviour.
    fn at(&self, service: u16, session: u16, row: u16) -> Result<At, NotAllowed> {
        let at = At { service: service.into(), session: session.into(), row: row.into() };
        self.state.live(at.service, at.session).ok_or(NotAllowed::NoSession)?;
        if !self.rows.belongs(at.service, at.session, at.row) {
            return Err(NotAllowed::OtherRow);
        }
        Ok(at)
    }

    /// The session of a place that `at` let pass.
    pub fn session(&self, at: At) -> &Session {
        self.state.live(at.service, at.session).expect("a live session")
    }

    pub fn session_mut(&mut self, at: At) -> &mut Session {
        self.state.live_mut(at.service, at.session).expect("a live session")
    }

    pub fn ready(&self, at: At) -> Result<Ready, NotAllowed> {
        let root = self.rows.root(at.service, at.session).ok_or(NotAllowed::NoSession)?;
        let ready = self.rows.ready(self.session(at), root);
        ready.into_iter().find(|ready| ready.row == at.row).ok_or(NotAllowed::NotReady)
    }

    /// 15 for a row whose operation 6 refuses.
    pub fn operation_passes(&self, service: usize, row: usize) -> Result<(), NotAllowed> {
        if self.rows.operation_passes(service, row) {
            Ok(())
        } else {
            Err(NotAllowed::Operation)
        }
    }

    pub fn path(&self, row: usize) -> &'a [u16] {
        self.network.paths[row].ids()
    }

    /// The service at a location; None for a location outside.
    pub fn service_at(&self, location: u16) -> Option<usize> {
        self.network.services.iter().position(|service| service.location == location)
    }

    /// The input of a service with an id; ids of inputs are unique in a service.
    pub fn input(&self, service: usize, id: u16) -> Option<usize> {
        let matches = |operation: &Operation| {
            operation.direction == Direction::In && operation.service == service && operation.id == id
        };
        self.network.operations.iter().position(matches)
    }

    /// "A done session becomes free; its queue is dropped."
    fn close(&mut self, service: usize, session: usize) -> Result<Event, Refused> {
        let live = self.state.live(service, session).ok_or(NotAllowed::NoSession)?;
        let root = self.rows.root(service, session).ok_or(NotAllowed::NoSession)?;
        if !self.rows.done(live, root) {
            return Err(NotAllowed::NotDone.into());
        }
        self.state.services[service][session] = None;
        Ok(Event::Closed)
    }
}

/// 19: the tree is no message, or it does not fit the type.
pub fn fit(network: &Network, message: &Tree, type_row: usize, bound: Bound) -> Result<(), Refused> {
    if !message.is_message() {
        Err(Reason::LargeMessage(bound).into())
    } else if !message.fits(network, type_row) {
        Err(Reason::Unfit(bound).into())
    } else {
        Ok(())
    }
}

/// A changed tree, unless it passes 48 nodes or 6 levels (18).
pub fn within(tree: Tree) -> Result<Tree, Refused> {
    if tree.is_session() {
        Ok(tree)
    } else {
        Err(Reason::TreeSize.into())
    }
}
