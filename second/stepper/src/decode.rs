//! The state that some bytes stand for, or the rule of docs/STATE.md that they break (14).

use second::network::{Behaviour, Direction};
use second::Network;

use crate::encode::{slot, ENTRIES, ENTRY, KEY, KEY_END, MESSAGE, ROW, ROWS, ROWS_END, SLOT, STATE, TREE};
use crate::refused::Misshape;
use crate::rows::Rows;
use crate::state::{holds_key, Destination, Progress, Queued, Session, State, SESSIONS};
use crate::tree::Tree;

pub fn decode(network: &Network, bytes: &[u8]) -> Result<State, Misshape> {
    if bytes.len() != STATE {
        return Err(Misshape::Slot);
    }
    let rows = Rows::of(network);
    let mut state = State::free(network);
    for service in 0..4 {
        for number in 0..SESSIONS {
            let start = slot(service, number);
            let place = Place { network, rows: &rows, service, number };
            let Some(session) = place.session(&bytes[start..start + SLOT])? else { continue };
            if session.key.is_some_and(|key| state.key_held(service, key)) {
                return Err(Misshape::TwinKeys);
            }
            state.services[service][number] = Some(session);
        }
    }
    Ok(state)
}

fn all_zero(bytes: &[u8]) -> bool {
    bytes.iter().fold(0, |bits, byte| bits | byte) == 0
}

fn length_at(bytes: &[u8], at: usize) -> usize {
    u16::from_le_bytes([bytes[at], bytes[at + 1]]).into()
}

/// The slot that is read.
struct Place<'a> {
    network: &'a Network,
    rows: &'a Rows<'a>,
    service: usize,
    number: usize,
}

impl Place<'_> {
    fn session(&self, slot: &[u8]) -> Result<Option<Session>, Misshape> {
        match slot[0] {
            0 if all_zero(slot) => return Ok(None),
            1 => {}
            _ => return Err(Misshape::Slot),
        }
        let root = self.rows.root(self.service, self.number).ok_or(Misshape::NobodyRuns)?;
        if slot[1] != 0 || !all_zero(&slot[KEY_END..TREE]) || !all_zero(&slot[ROWS_END..]) {
            return Err(Misshape::KeptZero);
        }
        Ok(Some(Session {
            tree: tree(length_at(slot, 2), &slot[TREE..ENTRIES])?,
            queue: self.queue(&slot[ENTRIES..ROWS])?,
            progress: self.progress(root, &slot[ROWS..ROWS_END])?,
            key: self.key(&slot[KEY..KEY_END])?,
        }))
    }

    /// The key of a session that holds one; any int is one. Else the bytes are 0.
    fn key(&self, bytes: &[u8]) -> Result<Option<i32>, Misshape> {
        let key = i32::from_le_bytes([bytes[0], bytes[1], bytes[2], bytes[3]]);
        if holds_key(self.network, self.service, self.number) {
            Ok(Some(key))
        } else if key == 0 {
            Ok(None)
        } else {
            Err(Misshape::Key)
        }
    }

    fn queue(&self, bytes: &[u8]) -> Result<Vec<Queued>, Misshape> {
        let mut queue = Vec::new();
        let mut entries = bytes.chunks(ENTRY);
        for entry in entries.by_ref() {
            if entry[0] == 0 {
                if !all_zero(entry) {
                    return Err(Misshape::QueueOrder);
                }
                break;
            }
            queue.push(self.queued(entry)?);
        }
        if entries.all(all_zero) {
            Ok(queue)
        } else {
            Err(Misshape::QueueOrder)
        }
    }

    fn queued(&self, entry: &[u8]) -> Result<Queued, Misshape> {
        let number = usize::from(entry[0]) - 1;
        let operation = self
            .network
            .operations
            .get(number)
            .filter(|operation| operation.direction == Direction::In && operation.service == self.service)
            .ok_or(Misshape::QueueOperation)?;
        let destination = match entry[1] {
            0 if all_zero(&entry[4..MESSAGE]) => None,
            1 | 2 => Some(self.destination(entry[1] == 1, &entry[4..MESSAGE])?),
            _ => return Err(Misshape::QueueDestination),
        };
        if destination.is_some() != operation.reply.is_some() {
            return Err(Misshape::QueueDestination);
        }
        let (message, after) = entry[MESSAGE..].split_at_checked(length_at(entry, 2)).ok_or(Misshape::QueueMessage)?;
        let message = Tree::read_message(message).filter(|_| all_zero(after)).ok_or(Misshape::QueueMessage)?;
        Ok(Queued { operation: number, message, destination })
    }

    /// An outsider's number, or a waiting row: rule 6, "nothing is asked of that row".
    fn destination(&self, outsider: bool, bytes: &[u8]) -> Result<Destination, Misshape> {
        if outsider {
            return Ok(Destination::Outsider(u32::from_le_bytes([bytes[0], bytes[1], bytes[2], bytes[3]])));
        }
        let (service, session, row) = (usize::from(bytes[0]), usize::from(bytes[1]), length_at(bytes, 2));
        let in_range =
            service < self.network.services.len() && session < SESSIONS && row < self.network.behaviours.len();
        in_range.then_some(Destination::Row { service, session, row }).ok_or(Misshape::Destination)
    }

    fn progress(&self, root: usize, bytes: &[u8]) -> Result<Vec<Progress>, Misshape> {
        let mut progress = vec![Progress::Undone; self.network.behaviours.len()];
        for (row, bytes) in bytes.chunks(ROW).enumerate() {
            if all_zero(bytes) {
                continue;
            }
            if self.rows.top(row) != Some(root) {
                return Err(Misshape::OtherRow);
            }
            progress[row] = self.row(&self.network.behaviours[row], bytes)?;
        }
        Ok(progress)
    }

    /// The table of docs/STATE.md, "A row's progress".
    fn row(&self, behaviour: &Behaviour, bytes: &[u8]) -> Result<Progress, Misshape> {
        use Behaviour::*;
        let parts = match behaviour {
            If { .. } => 2,
            While { .. } => 1,
            Choice { branches } => branches.len(),
            _ => 0,
        };
        let rest_zero = all_zero(&bytes[2..]);
        match (bytes[0], bytes[1], behaviour) {
            (
                1,
                0,
                OneWay { .. }
                | RequestResponse { .. }
                | Notification { .. }
                | SolicitResponse { .. }
                | While { .. }
                | Assign { .. },
            ) if rest_zero => Ok(Progress::Done),
            (2, 0, SolicitResponse { .. }) if rest_zero => Ok(Progress::Waiting),
            (3, part, _) if rest_zero && parts > 0 => {
                let part = usize::from(part);
                (part < parts).then_some(Progress::Taken(part)).ok_or(Misshape::Part)
            }
            (4 | 5, 0, RequestResponse { .. }) => Ok(Progress::Received(self.destination(bytes[0] == 4, &bytes[2..])?)),
            _ => Err(Misshape::Progress),
        }
    }
}

fn tree(length: usize, bytes: &[u8]) -> Result<Tree, Misshape> {
    let (tree, after) = bytes.split_at_checked(length).ok_or(Misshape::Tree)?;
    Tree::read_session(tree).filter(|_| all_zero(after)).ok_or(Misshape::Tree)
}
