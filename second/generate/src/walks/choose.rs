//! The next move: what a state lets one do, or nearly so, or anything.

use second::network::{Behaviour, Network};
use second::Value;
use stepper::evaluate;
use stepper::rows::Rows;
use stepper::state::{Destination, Progress, Session, State, SESSIONS};
use stepper::{Move, Tree};

use crate::random::Random;

/// A move and the type of the message that it takes from outside.
#[derive(Clone, Copy)]
pub struct Candidate {
    pub named: Move,
    pub type_row: Option<usize>,
}

/// Moves that a state allows, or would if the message fits and there is room.
pub struct Candidates<'a> {
    network: &'a Network,
    rows: Rows<'a>,
    state: &'a State,
    /// Moves of sessions, and messages that a session waits for.
    pub inner: Vec<Candidate>,
    /// Those of sessions that are to answer a row of the file.
    asked: Vec<Candidate>,
    /// Messages that start a session.
    pub starts: Vec<Candidate>,
}

/// A session and its numbers.
#[derive(Clone, Copy)]
struct Running<'a> {
    service: usize,
    number: usize,
    session: &'a Session,
    root: usize,
}

impl<'a> Candidates<'a> {
    pub fn of(network: &'a Network, state: &'a State) -> Candidates<'a> {
        let rows = Rows::of(network);
        let mut candidates =
            Candidates { network, rows, state, inner: Vec::new(), asked: Vec::new(), starts: Vec::new() };
        for (service, sessions) in state.services.iter().enumerate() {
            for (number, session) in sessions.iter().enumerate() {
                match (session, candidates.rows.root(service, number)) {
                    (Some(session), Some(root)) => {
                        let before = candidates.inner.len();
                        candidates.session(Running { service, number, session, root });
                        if session.progress.iter().any(|row| matches!(row, Progress::Received(Destination::Row { .. })))
                        {
                            candidates.asked.extend_from_slice(&candidates.inner[before..]);
                        }
                    }
                    (None, Some(root)) if number > 0 => candidates.free(number, root),
                    _ => {}
                }
            }
        }
        candidates
    }

    fn push(&mut self, named: Move) {
        self.inner.push(Candidate { named, type_row: None });
    }

    fn session(&mut self, running: Running) {
        let ready: Vec<usize> = self.rows.ready(running.session, running.root).iter().map(|ready| ready.row).collect();
        for &row in &ready {
            self.ready(running, row);
        }
        let (service, session) = (running.service as u16, running.number as u16);
        for row in 0..running.session.progress.len() {
            let number = row as u16;
            match (running.session.progress[row], &self.network.behaviours[row]) {
                (Progress::Received(_), Behaviour::RequestResponse { body, .. }) => {
                    if self.rows.done(running.session, *body) {
                        self.push(Move::Reply { service, session, row: number });
                    }
                    // Rows that would be ready if this one were reached.
                    for inner in self.rows.ready(running.session, *body) {
                        if !ready.contains(&inner.row) {
                            self.ready(running, inner.row);
                        }
                    }
                }
                (Progress::Waiting, Behaviour::SolicitResponse { operation, .. }) => {
                    let operation = &self.network.operations[*operation];
                    if self.service_at(operation.location).is_none() {
                        let named = Move::OuterReply { service, session, row: number };
                        self.inner.push(Candidate { named, type_row: operation.reply });
                    }
                }
                _ => {}
            }
        }
        if self.rows.done(running.session, running.root) {
            self.push(Move::Close { service, session });
        }
    }

    fn ready(&mut self, running: Running, row: usize) {
        let (service, session) = (running.service as u16, running.number as u16);
        let number = row as u16;
        match self.network.behaviours[row] {
            Behaviour::OneWay { operation, .. } | Behaviour::RequestResponse { operation, .. } => {
                self.push(Move::Receive { service, session, row: number });
                if !running.session.queue.iter().any(|queued| queued.operation == operation) {
                    let candidate = self.outer(operation, session);
                    self.inner.extend([candidate; 4]);
                }
            }
            Behaviour::Notification { operation, expression }
            | Behaviour::SolicitResponse { operation, expression, .. } => {
                for target in self.targets(operation, &running.session.tree, expression) {
                    self.push(Move::Send { service, session, row: number, target });
                }
            }
            _ => self.push(Move::Local { service, session, row: number }),
        }
    }

    fn service_at(&self, location: u16) -> Option<usize> {
        self.network.services.iter().position(|service| service.location == location)
    }

    /// Sessions that a message of an output may go to; those that have its key or will take it soon more often.
    fn targets(&self, operation: usize, tree: &Tree, expression: usize) -> Vec<u16> {
        let output = &self.network.operations[operation];
        let Some(service) = self.service_at(output.location) else { return vec![0] };
        let startable = self.network.services[service].starter.is_some();
        let key = self.sent_key(service, tree, expression);
        let held = key.is_some_and(|key| self.state.key_held(service, key));
        let mut targets = Vec::new();
        for number in 0..SESSIONS {
            let copies = match self.state.live(service, number) {
                Some(session) if key.is_some() && session.key == key => 12,
                None if held && number > 0 && startable => 1,
                Some(session) if self.expects(session, self.rows.root(service, number), output.id) => 6,
                Some(_) => 1,
                None if number > 0 && startable => 2,
                None => 0,
            };
            targets.extend((0..copies).map(|_| number as u16));
        }
        targets
    }

    /// The key of the message that an expression gives, for a keyed service.
    fn sent_key(&self, service: usize, tree: &Tree, expression: usize) -> Option<i32> {
        let id = self.network.services[service].key?;
        let message = evaluate::message(self.network, tree, expression).ok()?;
        match message.find(&[id])?.root_value()? {
            Value::Int(key) => Some(key),
            _ => None,
        }
    }

    /// A session with a ready input of an id.
    fn expects(&self, session: &Session, root: Option<usize>, id: u16) -> bool {
        let Some(root) = root else { return false };
        self.rows.ready(session, root).iter().any(|ready| match self.network.behaviours[ready.row] {
            Behaviour::OneWay { operation, .. } | Behaviour::RequestResponse { operation, .. } => {
                self.network.operations[operation].id == id
            }
            _ => false,
        })
    }

    fn outer(&self, operation: usize, target: u16) -> Candidate {
        let row = &self.network.operations[operation];
        let named = Move::OuterMessage { service: row.service as u16, id: row.id, target, number: 0 };
        Candidate { named, type_row: Some(row.request) }
    }

    /// Messages for the branches of a free session's starter.
    fn free(&mut self, number: usize, choice: usize) {
        let Behaviour::Choice { branches } = &self.network.behaviours[choice] else { return };
        for branch in branches.clone() {
            let Behaviour::Branch { input, .. } = self.network.behaviours[branch] else { continue };
            if let Behaviour::OneWay { operation, .. } | Behaviour::RequestResponse { operation, .. } =
                self.network.behaviours[input]
            {
                let candidate = self.outer(operation, number as u16);
                self.starts.push(candidate);
            }
        }
    }

    /// One of them, or a message for some live session.
    pub fn pick(&self, random: &mut Random) -> Option<Candidate> {
        if random.one_in(20) {
            return self.any_message(random);
        }
        let is_reply = |candidate: &&Candidate| matches!(candidate.named, Move::Reply { .. } | Move::OuterReply { .. });
        let replies: Vec<Candidate> = self.inner.iter().filter(is_reply).copied().collect();
        let starts = self.inner.is_empty() || random.one_in(9);
        let list = match random.below(6) {
            0 if !replies.is_empty() => &replies,
            1 | 2 if !self.asked.is_empty() => &self.asked,
            _ if starts && !self.starts.is_empty() => &self.starts,
            _ => &self.inner,
        };
        let mut candidate = *random.pick(list)?;
        if let Move::OuterMessage { number, .. } = &mut candidate.named {
            *number = random.draw() as u32;
        }
        Some(candidate)
    }

    /// A message of any operation to any session.
    fn any_message(&self, random: &mut Random) -> Option<Candidate> {
        let operation = random.below(self.network.operations.len().max(1));
        let row = self.network.operations.get(operation)?;
        let target = random.below(4) as u16;
        let named =
            Move::OuterMessage { service: row.service as u16, id: row.id, target, number: random.draw() as u32 };
        Some(Candidate { named, type_row: Some(row.request) })
    }
}

/// A move of any kind with any numbers, mostly small ones.
pub fn any_move(random: &mut Random, network: &Network) -> Move {
    let number = |random: &mut Random, bound: usize| {
        if random.one_in(12) {
            random.number()
        } else {
            random.below(bound.max(1) + 1) as u16
        }
    };
    let service = number(random, network.services.len() - 1);
    let session = number(random, 3);
    let row = number(random, network.behaviours.len());
    match random.below(7) {
        0 => Move::Local { service, session, row },
        1 => Move::Receive { service, session, row },
        2 => Move::Send { service, session, row, target: number(random, 3) },
        3 => Move::Reply { service, session, row },
        4 => Move::OuterMessage { service, id: number(random, 8), target: session, number: random.draw() as u32 },
        5 => Move::OuterReply { service, session, row },
        _ => Move::Close { service, session },
    }
}

/// A move for some row of a live session, ready or not.
pub fn own_row(random: &mut Random, network: &Network, state: &State) -> Option<Move> {
    let rows = Rows::of(network);
    let (service, session) = (random.below(network.services.len()), random.below(SESSIONS));
    state.live(service, session)?;
    let below: Vec<usize> = (0..network.behaviours.len()).filter(|&row| rows.belongs(service, session, row)).collect();
    let &row = random.pick(&below)?;
    let (service, session, number) = (service as u16, session as u16, row as u16);
    let other = random.one_in(2);
    Some(match network.behaviours[row] {
        Behaviour::RequestResponse { .. } if other => Move::Reply { service, session, row: number },
        Behaviour::OneWay { .. } | Behaviour::RequestResponse { .. } => Move::Receive { service, session, row: number },
        Behaviour::SolicitResponse { .. } if other => Move::OuterReply { service, session, row: number },
        Behaviour::Notification { .. } | Behaviour::SolicitResponse { .. } => {
            Move::Send { service, session, row: number, target: random.below(4) as u16 }
        }
        _ => Move::Local { service, session, row: number },
    })
}

/// A move with one of its numbers changed.
pub fn astray(random: &mut Random, network: &Network, named: Move) -> Move {
    let other = any_move(random, network);
    let numbers = numbers_of(other);
    let which = random.below(4);
    let mut changed = numbers_of(named);
    changed[which] = numbers[which];
    with_numbers(named, changed)
}

/// Service, session or target, row or id, target.
fn numbers_of(named: Move) -> [u16; 4] {
    match named {
        Move::Local { service, session, row }
        | Move::Receive { service, session, row }
        | Move::Reply { service, session, row }
        | Move::OuterReply { service, session, row } => [service, session, row, 0],
        Move::Send { service, session, row, target } => [service, session, row, target],
        Move::OuterMessage { service, id, target, .. } => [service, target, id, 0],
        Move::Close { service, session } => [service, session, 0, 0],
    }
}

fn with_numbers(named: Move, [service, session, row, target]: [u16; 4]) -> Move {
    match named {
        Move::Local { .. } => Move::Local { service, session, row },
        Move::Receive { .. } => Move::Receive { service, session, row },
        Move::Reply { .. } => Move::Reply { service, session, row },
        Move::OuterReply { .. } => Move::OuterReply { service, session, row },
        Move::Send { .. } => Move::Send { service, session, row, target },
        Move::OuterMessage { number, .. } => Move::OuterMessage { service, id: row, target: session, number },
        Move::Close { .. } => Move::Close { service, session },
    }
}

/// The same numbers for a move of another kind.
pub fn of_other_kind(random: &mut Random, named: Move) -> Move {
    let [service, session, row, _] = numbers_of(named);
    match random.below(6) {
        0 => Move::Local { service, session, row },
        1 => Move::Receive { service, session, row },
        2 => Move::Send { service, session, row, target: random.below(4) as u16 },
        3 => Move::Reply { service, session, row },
        4 => Move::OuterReply { service, session, row },
        _ => Move::Close { service, session },
    }
}
