//! A state's one byte form (docs/STATE.md).

use crate::state::{Destination, Progress, Queued, Session, State, SESSIONS};

pub const STATE: usize = 65_536;
pub const SLOT: usize = 4_096;
/// Where the key stands in a slot, four bytes.
pub const KEY: usize = 4;
/// Bytes up to the tree are kept 0.
pub const KEY_END: usize = 8;
pub const TREE: usize = 16;
pub const ENTRIES: usize = 1_040;
pub const ENTRY: usize = 344;
/// Where the message stands in a queue entry.
pub const MESSAGE: usize = 8;
pub const ROWS: usize = 2_416;
pub const ROW: usize = 6;
/// The last bytes of a slot are kept 0.
pub const ROWS_END: usize = 3_952;

/// Where the slot of a service and session starts.
pub fn slot(service: usize, session: usize) -> usize {
    SLOT * (SESSIONS * service + session)
}

/// Writes a state over all bytes of the buffer, which has 65,536.
pub fn encode(state: &State, bytes: &mut [u8]) {
    bytes.fill(0);
    for (service, sessions) in state.services.iter().enumerate() {
        for (number, session) in sessions.iter().enumerate() {
            if let Some(session) = session {
                let start = slot(service, number);
                write_session(session, &mut bytes[start..start + SLOT]);
            }
        }
    }
}

fn write_session(session: &Session, slot: &mut [u8]) {
    slot[0] = 1;
    let tree = session.tree.bytes();
    slot[2..4].copy_from_slice(&(tree.len() as u16).to_le_bytes());
    slot[KEY..KEY_END].copy_from_slice(&session.key.unwrap_or(0).to_le_bytes());
    slot[TREE..TREE + tree.len()].copy_from_slice(&tree);
    for (queued, entry) in session.queue.iter().zip(slot[ENTRIES..ROWS].chunks_mut(ENTRY)) {
        write_queued(queued, entry);
    }
    for (progress, row) in session.progress.iter().zip(slot[ROWS..ROWS_END].chunks_mut(ROW)) {
        write_progress(*progress, row);
    }
}

fn write_queued(queued: &Queued, entry: &mut [u8]) {
    entry[0] = queued.operation as u8 + 1;
    if let Some(destination) = queued.destination {
        entry[1] = if matches!(destination, Destination::Outsider(_)) { 1 } else { 2 };
        entry[4..8].copy_from_slice(&destination_bytes(destination));
    }
    let message = queued.message.bytes();
    entry[2..4].copy_from_slice(&(message.len() as u16).to_le_bytes());
    entry[MESSAGE..MESSAGE + message.len()].copy_from_slice(&message);
}

fn write_progress(progress: Progress, row: &mut [u8]) {
    match progress {
        Progress::Undone => {}
        Progress::Done => row[0] = 1,
        Progress::Waiting => row[0] = 2,
        Progress::Taken(part) => row[..2].copy_from_slice(&[3, part as u8]),
        Progress::Received(destination) => {
            row[0] = if matches!(destination, Destination::Outsider(_)) { 4 } else { 5 };
            row[2..].copy_from_slice(&destination_bytes(destination));
        }
    }
}

fn destination_bytes(destination: Destination) -> [u8; 4] {
    match destination {
        Destination::Outsider(number) => number.to_le_bytes(),
        Destination::Row { service, session, row } => {
            let [low, high] = (row as u16).to_le_bytes();
            [service as u8, session as u8, low, high]
        }
    }
}
