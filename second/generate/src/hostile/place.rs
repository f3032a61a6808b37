//! Moves at the rows of a session with the largest tree and queue: of rows that are ready, done, waiting
//! or received, however deep they are.

use second::network::{Behaviour, Direction, Network};
use second::Basic;
use stepper::encode::{encode, STATE};
use stepper::rows::Rows;
use stepper::state::{Destination, Progress, Queued, Session, State, QUEUE};
use stepper::{Move, Tree};

use crate::nests::reach::{finish, reach};
use crate::walks::Call;

/// The largest tree of a type: every child, and the longest values.
pub fn largest(network: &Network, type_row: usize) -> Tree {
    let node = &network.types[type_row];
    let value = match node.basic {
        Basic::Bool => vec![1],
        Basic::Int => vec![7; 4],
        Basic::Long | Basic::Double => vec![7; 8],
        Basic::String => vec![b'a'; 16],
        Basic::Raw => vec![0xA5; 16],
        Basic::Void => Vec::new(),
    };
    let children = node.children.clone().map(|child| largest(network, child)).collect();
    Tree { id: node.id, basic: node.basic, value, children }
}

/// A session whose moves are shown.
pub struct Place {
    pub file: Vec<u8>,
    pub network: Network,
    pub service: usize,
    pub session: usize,
    pub tree: Tree,
    /// The other sessions.
    pub base: State,
}

/// Which rows moves are made at.
#[derive(Clone, Copy, PartialEq, Eq)]
pub enum At {
    EveryRow,
    /// The first two and the last six.
    Ends,
}

/// A tree with a full queue and nothing done.
pub fn full_session(network: &Network, service: usize, tree: &Tree, queued: usize) -> Session {
    let inputs = (0..network.operations.len()).filter(|&row| {
        let operation = &network.operations[row];
        operation.service == service && operation.direction == Direction::In
    });
    let largest_input = inputs.max_by_key(|&row| network.types[network.operations[row].request].nodes);
    let mut session = Session::new(network);
    session.tree = tree.clone();
    if let Some(operation) = largest_input {
        session.queue = vec![queued_of(network, operation); queued];
    }
    session
}

fn queued_of(network: &Network, operation: usize) -> Queued {
    let row = &network.operations[operation];
    let destination = row.reply.map(|_| Destination::Outsider(9));
    Queued { operation, message: Tree { id: 0, ..largest(network, row.request) }, destination }
}

impl Place {
    /// Shows every call.
    pub fn each(&self, at: At, see: &mut dyn FnMut(Call)) {
        let rows = Rows::of(&self.network);
        let root = rows.root(self.service, self.session).expect("a behaviour to run");
        let mut own = [vec![root], rows.below(root)].concat();
        own.sort_unstable();
        let last = own[own.len() - 1];
        for (index, &row) in own.iter().enumerate() {
            if at == At::EveryRow || index < 2 || index + 6 >= own.len() {
                self.at_row(row, last, see);
            }
        }
        self.messages(see);
        let mut done = self.live(QUEUE);
        finish(&self.network, &mut done.progress, root);
        let (service, session) = self.numbers();
        see(self.call(done, None, Move::Close { service, session }, Vec::new()));
    }

    fn numbers(&self) -> (u16, u16) {
        (self.service as u16, self.session as u16)
    }

    fn live(&self, queued: usize) -> Session {
        full_session(&self.network, self.service, &self.tree, queued)
    }

    /// The session in its slot, with the key that it has there, and perhaps another one of each service free.
    fn call(&self, mut session: Session, free: Option<u16>, named: Move, outside: Vec<u8>) -> Call {
        let mut state = self.base.clone();
        session.key = state.live(self.service, self.session).and_then(|base| base.key);
        if let Some(number) = free {
            state.services.iter_mut().for_each(|sessions| sessions[usize::from(number)] = None);
        }
        state.services[self.service][self.session] = Some(session);
        let mut bytes = vec![0; STATE];
        encode(&state, &mut bytes);
        Call { file: self.file.clone(), state: bytes, out_size: 512, named, outside, keeps: true }
    }

    fn reached(&self, row: usize, queued: usize) -> Session {
        let mut session = self.live(queued);
        reach(&self.network, &mut session.progress, row, Destination::Outsider(9));
        session
    }

    fn at_row(&self, row: usize, last: usize, see: &mut dyn FnMut(Call)) {
        let (service, session) = self.numbers();
        let local = Move::Local { service, session, row: row as u16 };
        match self.network.behaviours[row] {
            Behaviour::Assign { .. } | Behaviour::If { .. } => {
                see(self.call(self.reached(row, QUEUE), None, local, Vec::new()));
            }
            Behaviour::While { body, .. } => {
                see(self.call(self.reached(row, QUEUE), None, local, Vec::new()));
                let mut again = self.reached(row, QUEUE);
                finish(&self.network, &mut again.progress, body);
                again.progress[row] = Progress::Taken(0);
                see(self.call(again, None, local, Vec::new()));
            }
            Behaviour::OneWay { operation, .. } => self.receive(row, operation, see),
            Behaviour::RequestResponse { operation, body, .. } => {
                self.receive(row, operation, see);
                self.reply(row, body, last, see);
            }
            Behaviour::Notification { .. } | Behaviour::SolicitResponse { .. } => self.send(row, see),
            _ => {}
        }
        let mut done = self.reached(row, QUEUE);
        finish(&self.network, &mut done.progress, row);
        see(self.call(done, None, local, Vec::new()));
    }

    /// The message is the last of a full queue; an input of a choice is tried before it is settled too.
    fn receive(&self, row: usize, operation: usize, see: &mut dyn FnMut(Call)) {
        let (service, session) = self.numbers();
        let named = Move::Receive { service, session, row: row as u16 };
        let mut live = self.live(QUEUE - 1);
        live.queue.push(queued_of(&self.network, operation));
        let above = reach(&self.network, &mut live.progress, row, Destination::Outsider(9));
        see(self.call(live.clone(), None, named, Vec::new()));
        if let [branch, choice, ..] = above[..] {
            if matches!(self.network.behaviours[branch], Behaviour::Branch { input, .. } if input == row) {
                live.progress[choice] = Progress::Undone;
                see(self.call(live, None, named, Vec::new()));
            }
        }
    }

    /// To an outsider, and to the last row if that can wait: both changes are on one session.
    fn reply(&self, row: usize, body: usize, last: usize, see: &mut dyn FnMut(Call)) {
        let (service, session) = self.numbers();
        let named = Move::Reply { service, session, row: row as u16 };
        let mut live = self.reached(row, QUEUE);
        finish(&self.network, &mut live.progress, body);
        live.progress[row] = Progress::Received(Destination::Outsider(9));
        see(self.call(live.clone(), None, named, Vec::new()));
        if matches!(self.network.behaviours[last], Behaviour::SolicitResponse { .. }) {
            let to = Destination::Row { service: self.service, session: self.session, row: last };
            live.progress[row] = Progress::Received(to);
            live.progress[last] = Progress::Waiting;
            see(self.call(live, None, named, Vec::new()));
        }
    }

    /// To each session, live with room, full or free, then the reply from outside.
    fn send(&self, row: usize, see: &mut dyn FnMut(Call)) {
        let (service, session) = self.numbers();
        for target in [0, session, 3] {
            let named = Move::Send { service, session, row: row as u16, target };
            let free = (target == 3).then_some(target);
            see(self.call(self.reached(row, QUEUE - 1), free, named, Vec::new()));
        }
        if let Behaviour::SolicitResponse { operation, .. } = self.network.behaviours[row] {
            let mut waiting = self.reached(row, QUEUE);
            waiting.progress[row] = Progress::Waiting;
            let reply = self.network.operations[operation].reply.unwrap_or(0);
            let named = Move::OuterReply { service, session, row: row as u16 };
            see(self.call(waiting, None, named, largest(&self.network, reply).bytes()));
        }
    }

    /// Messages from outside of each input: to the session itself, and to a free one.
    fn messages(&self, see: &mut dyn FnMut(Call)) {
        let (service, session) = self.numbers();
        for operation in &self.network.operations {
            if operation.service != self.service || operation.direction != Direction::In {
                continue;
            }
            let message = largest(&self.network, operation.request).bytes();
            for target in [session, 3] {
                let named = Move::OuterMessage { service, id: operation.id, target, number: 9 };
                let free = (target == 3).then_some(target);
                see(self.call(self.live(QUEUE - 1), free, named, message.clone()));
            }
        }
    }
}
