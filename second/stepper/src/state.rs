//! States as plain structs: "per service and session a state is free, or holds a tree, a queue of
//! up to four messages, the progress of rows and where replies go".

use second::Network;

use crate::tree::Tree;

pub const SESSIONS: usize = 4;
pub const QUEUE: usize = 4;

/// Where a reply goes.
#[derive(Clone, Copy, PartialEq, Eq, Debug)]
pub enum Destination {
    /// An outsider, by the reply number that came with its message.
    Outsider(u32),
    /// A row that waits, or once waited.
    Row { service: usize, session: usize, row: usize },
}

/// A queued message and the O row of its operation.
#[derive(Clone, PartialEq, Eq, Debug)]
pub struct Queued {
    pub operation: usize,
    pub message: Tree,
    /// There exactly if the operation is two-way.
    pub destination: Option<Destination>,
}

/// What is stored of a row; whether compound rows are done is worked out (`rows`).
#[derive(Clone, Copy, PartialEq, Eq, Debug)]
pub enum Progress {
    Undone,
    Done,
    Waiting,
    /// The taken part: of an if 0 or 1, of a while 0, of a choice its branch.
    Taken(usize),
    Received(Destination),
}

/// A live session.
#[derive(Clone, PartialEq, Eq, Debug)]
pub struct Session {
    pub tree: Tree,
    /// Oldest first.
    pub queue: Vec<Queued>,
    /// One for each B row of the file.
    pub progress: Vec<Progress>,
    /// The int of the message that started it, where it holds one.
    pub key: Option<i32>,
}

impl Session {
    /// Nothing received, nothing done, no key.
    pub fn new(network: &Network) -> Session {
        let progress = vec![Progress::Undone; network.behaviours.len()];
        Session { tree: Tree::void(0), queue: Vec::new(), progress, key: None }
    }
}

/// Whether a session holds a key while it is live: 1 to 3 of a keyed service.
pub fn holds_key(network: &Network, service: usize, session: usize) -> bool {
    session > 0 && network.services[service].key.is_some()
}

/// The sessions of each service; None for a free one.
#[derive(Clone, PartialEq, Eq, Debug)]
pub struct State {
    pub services: Vec<[Option<Session>; SESSIONS]>,
}

impl State {
    pub fn free(network: &Network) -> State {
        State { services: network.services.iter().map(|_| [const { None }; SESSIONS]).collect() }
    }

    /// "Clients live in session 0, all else free."
    pub fn fresh(network: &Network) -> State {
        let mut state = State::free(network);
        for (sessions, service) in state.services.iter_mut().zip(&network.services) {
            sessions[0] = service.client.map(|_| Session::new(network));
        }
        state
    }

    /// A live session, by any numbers.
    pub fn live(&self, service: usize, session: usize) -> Option<&Session> {
        self.services.get(service)?.get(session)?.as_ref()
    }

    /// Whether a live session of a service holds this key.
    pub fn key_held(&self, service: usize, key: i32) -> bool {
        self.services[service].iter().flatten().any(|session| session.key == Some(key))
    }

    pub fn live_mut(&mut self, service: usize, session: usize) -> Option<&mut Session> {
        self.services.get_mut(service)?.get_mut(session)?.as_mut()
    }
}
