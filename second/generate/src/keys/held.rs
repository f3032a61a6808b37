//! Keys where they stand in files, messages and states, read from the bytes and not by checker or stepper.

use second::tables::{Layout, Section};
use second::Basic;
use stepper::encode::{ENTRIES, ENTRY, MESSAGE, ROWS, SLOT, STATE};

const SERVICES: usize = 4;
const SESSIONS: usize = 4;
/// Where the key stands in a slot (docs/STATE.md) and in an S row.
const SLOT_KEY: usize = 4;
const ROW_KEY: usize = 6;

/// The key id of each service of a file that passes 2 and 3; 0 for none.
pub fn ids(file: &[u8]) -> Vec<u16> {
    rows(file).map(|row| u16::from_le_bytes([file[row + ROW_KEY], file[row + ROW_KEY + 1]])).collect()
}

/// Where the S rows start.
fn rows(file: &[u8]) -> impl Iterator<Item = usize> {
    let layout = Layout::read(file).ok();
    layout
        .into_iter()
        .flat_map(|layout| (0..layout.count(Section::Services)).map(move |row| layout.row(Section::Services, row)))
}

/// The file without its keys.
pub fn file_without(file: &[u8]) -> Vec<u8> {
    let mut plain = file.to_vec();
    rows(file).for_each(|row| plain[row + ROW_KEY..row + ROW_KEY + 2].fill(0));
    plain
}

/// The bytes of the key at a slot, of services that the file does not have too.
pub fn at(state: &[u8], service: usize, session: usize) -> i32 {
    let start = slot(service, session) + SLOT_KEY;
    i32::from_le_bytes([state[start], state[start + 1], state[start + 2], state[start + 3]])
}

pub fn put(state: &mut [u8], service: usize, session: usize, key: i32) {
    let start = slot(service, session) + SLOT_KEY;
    state[start..start + 4].copy_from_slice(&key.to_le_bytes());
}

fn slot(service: usize, session: usize) -> usize {
    SLOT * (SESSIONS * service + session)
}

/// Services and sessions of all slots.
pub fn slots() -> impl Iterator<Item = (usize, usize)> {
    (0..SERVICES).flat_map(|service| (0..SESSIONS).map(move |session| (service, session)))
}

/// The state without its keys.
pub fn state_without(state: &[u8]) -> Vec<u8> {
    let mut plain = state.to_vec();
    if state.len() == STATE {
        slots().for_each(|(service, session)| put(&mut plain, service, session, 0));
    }
    plain
}

pub fn is_live(state: &[u8], service: usize, session: usize) -> bool {
    state[slot(service, session)] == 1
}

/// The live sessions 1 to 3 of a service with their keys.
pub fn live_keys(state: &[u8], service: usize) -> Vec<(usize, i32)> {
    let live = (1..SESSIONS).filter(|&session| is_live(state, service, session));
    live.map(|session| (session, at(state, service, session))).collect()
}

/// The messages queued at a session.
pub fn queued(state: &[u8], service: usize, session: usize) -> Vec<&[u8]> {
    let start = slot(service, session);
    let entries = (start + ENTRIES..start + ROWS).step_by(ENTRY).filter(|&entry| state[entry] != 0);
    let message = |entry: usize| {
        let length = usize::from(u16::from_le_bytes([state[entry + 2], state[entry + 3]]));
        &state[entry + MESSAGE..(entry + MESSAGE + length).min(entry + ENTRY)]
    };
    entries.map(message).collect()
}

/// The int of a message at an id below its root, by the message reader.
pub fn of_message(message: &[u8], id: u16) -> Option<i32> {
    match *second::part(message, [id, 0, 0, 0]) {
        [_, _, basic, _, 4, a, b, c, d, ..] if basic == Basic::Int.byte() => Some(i32::from_le_bytes([a, b, c, d])),
        _ => None,
    }
}

#[cfg(test)]
mod tests {
    use super::*;
    use second::{Network, Value};
    use stepper::encode::encode;
    use stepper::state::{Queued, Session, State};
    use stepper::Tree;

    const TEXT: &str = "service 5 { } service 6 keyed by 9 { input 3: void { 9: int, 10: long } \
                        starter choice { on receive 3 into 5 then nil } client nil }";

    fn message(key: Value) -> Tree {
        let mut tree = Tree::void(0);
        tree.assign(&[9], &key);
        tree.assign(&[10], &Value::Long(7));
        tree
    }

    #[test]
    fn the_keys_of_a_file_are_its_last_fields_of_services() {
        let file = net::assemble(TEXT).expect("a text").file;
        assert_eq!(ids(&file), [0, 9]);
        let plain = file_without(&file);
        assert_eq!(ids(&plain), [0, 0]);
        assert_eq!(file.iter().zip(&plain).filter(|(a, b)| a != b).count(), 1);
        assert_eq!((ids(&file[1..]), file_without(&file[1..])), (vec![], file[1..].to_vec()));
    }

    #[test]
    fn the_keys_of_a_state_are_where_they_are_written() {
        let file = net::assemble(TEXT).expect("a text").file;
        let network = Network::read(&file).expect("right rows");
        let mut state = State::fresh(&network);
        for (session, key) in [(1, 0), (3, -2)] {
            state.services[1][session] = Some(Session { key: Some(key), ..Session::new(&network) });
        }
        let third = state.live_mut(1, 3).expect("live");
        for key in [-2, 77] {
            third.queue.push(Queued { operation: 0, message: message(Value::Int(key)), destination: None });
        }
        let mut bytes = vec![0; STATE];
        encode(&state, &mut bytes);
        assert_eq!((live_keys(&bytes, 0), live_keys(&bytes, 1)), (vec![], vec![(1, 0), (3, -2)]));
        assert_eq!((at(&bytes, 1, 3), is_live(&bytes, 1, 2), is_live(&bytes, 1, 0)), (-2, false, true));
        let keys: Vec<_> = queued(&bytes, 1, 3).iter().map(|message| of_message(message, 9)).collect();
        assert_eq!((keys, queued(&bytes, 1, 1).len()), (vec![Some(-2), Some(77)], 0));
        let plain = state_without(&bytes);
        assert_eq!(live_keys(&plain, 1), [(1, 0), (3, 0)]);
        let mut again = plain.clone();
        put(&mut again, 1, 3, -2);
        assert!(again == bytes && state_without(&[1; 9]) == [1; 9]);
    }

    #[test]
    fn the_key_of_a_message_is_an_int_below_its_root() {
        assert_eq!(of_message(&message(Value::Int(-5)).bytes(), 9), Some(-5));
        assert_eq!(of_message(&message(Value::Int(-5)).bytes(), 10), None, "a long");
        assert_eq!(of_message(&message(Value::Int(-5)).bytes(), 11), None);
        assert_eq!(of_message(&message(Value::Raw(vec![1; 4])).bytes(), 9), None);
        assert_eq!(of_message(&message(Value::Int(-5)).bytes()[1..], 9), None, "no message");
        let mut deep = message(Value::Int(0));
        deep.assign(&[9, 9], &Value::Int(1));
        assert_eq!(of_message(&deep.bytes(), 9), Some(0), "its own children are free");
    }
}
