//! Strings where they stand in files, messages and states, whatever else these bytes are.

use std::ops::Range;

use second::tables::{Layout, Section};
use second::value::LONGEST;
use second::Basic;
use stepper::encode::{ENTRIES, ENTRY, MESSAGE, ROWS, SLOT, STATE, TREE};

use super::{Break, Seen};
use crate::random::Random;

/// The string constants of a file that passes 2 and 3.
pub fn in_constants(file: &[u8]) -> Vec<Range<usize>> {
    let Ok(layout) = Layout::read(file) else { return Vec::new() };
    let rows = &file[layout.start(Section::Expressions)..layout.start(Section::Behaviours)];
    let strings = rows.chunks_exact(8).filter(|row| row[..2] == [0, Basic::String.byte()]);
    let places = strings.map(|row| {
        let start = layout.start(Section::Data) + length_at(row, 2);
        start..start + length_at(row, 4)
    });
    places.filter(|place| place.end <= layout.end()).collect()
}

/// The string nodes of a message or tree: nodes follow each other, whatever their levels are.
pub fn in_nodes(bytes: &[u8]) -> Vec<Range<usize>> {
    let mut places = Vec::new();
    let mut start = 0;
    while let Some(&[_, _, basic, _, length]) = bytes.get(start..start + 5) {
        let value = start + 5..start + 5 + usize::from(length);
        start = value.end;
        if basic == Basic::String.byte() && value.end <= bytes.len() {
            places.push(value);
        }
    }
    places
}

/// The string nodes of the trees of a state's live sessions.
pub fn in_trees(state: &[u8]) -> Vec<Range<usize>> {
    live_slots(state).flat_map(|slot| in_part(state, slot + 2, slot + TREE..slot + ENTRIES)).collect()
}

/// The string nodes of the messages in their queues.
pub fn in_queues(state: &[u8]) -> Vec<Range<usize>> {
    let entries = live_slots(state).flat_map(|slot| (slot + ENTRIES..slot + ROWS).step_by(ENTRY));
    entries.flat_map(|entry| in_part(state, entry + 2, entry + MESSAGE..entry + ENTRY)).collect()
}

/// The first bytes of live slots.
fn live_slots(state: &[u8]) -> impl Iterator<Item = usize> + '_ {
    let end = if state.len() == STATE { STATE } else { 0 };
    (0..end).step_by(SLOT).filter(|&slot| state[slot] == 1)
}

/// The string nodes of a tree or message in a state, which has its length before it.
fn in_part(state: &[u8], length: usize, part: Range<usize>) -> Vec<Range<usize>> {
    let end = part.end.min(part.start + length_at(state, length));
    let places = in_nodes(&state[part.start..end]).into_iter();
    places.map(|place| part.start + place.start..part.start + place.end).collect()
}

fn length_at(bytes: &[u8], at: usize) -> usize {
    u16::from_le_bytes([bytes[at], bytes[at + 1]]).into()
}

/// What the strings at some places hold.
pub fn seen(bytes: &[u8], places: &[Range<usize>]) -> Seen {
    let mut seen = Seen::default();
    places.iter().for_each(|place| seen.text(&bytes[place.clone()]));
    seen
}

/// Overwrites one of the strings by text of its length that is broken in some way, if one is long enough for that.
pub fn break_one(random: &mut Random, bytes: &mut [u8], places: &[Range<usize>]) {
    let kind = *random.pick(&Break::ALL).expect("a kind");
    let fits = |place: &&Range<usize>| (kind.least()..=LONGEST).contains(&place.len());
    let places: Vec<&Range<usize>> = places.iter().filter(fits).collect();
    if let Some(&place) = random.pick(&places) {
        let text = kind.text(random, place.len());
        bytes[place.clone()].copy_from_slice(&text);
    }
}

/// Puts letters into each string that is broken.
pub fn mend(bytes: &mut [u8], places: &[Range<usize>]) {
    for place in places {
        if seen(bytes, std::slice::from_ref(place)).is_broken() {
            bytes[place.clone()].fill(b'a');
        }
    }
}

#[cfg(test)]
mod tests {
    use super::*;
    use crate::{messages, networks};
    use second::tables::{ExpressionRow, ServiceRow, Tables, NONE};
    use second::{Network, Value};
    use stepper::encode::encode;
    use stepper::state::{Queued, State};
    use stepper::Tree;

    fn texts<'a>(bytes: &'a [u8], places: &[Range<usize>]) -> Vec<&'a [u8]> {
        places.iter().map(|place| &bytes[place.clone()]).collect()
    }

    #[test]
    fn every_string_node_of_a_message_is_found() {
        let mut random = Random::new(1);
        let (mut found, mut broken) = (0, 0);
        for _ in 0..5_000 {
            let bytes = messages::message(&mut random).0;
            let Some(nodes) = second::message::nodes(&bytes) else { continue };
            let strings = nodes.iter().filter(|node| node.basic == Basic::String);
            let places: Vec<Range<usize>> = strings.map(|node| node.value.clone()).collect();
            assert_eq!(in_nodes(&bytes), places);
            found += places.len();
            let mut changed = bytes.clone();
            break_one(&mut random, &mut changed, &places);
            broken += usize::from(changed != bytes);
            assert!(!seen(&bytes, &places).is_broken(), "no message");
            assert_eq!(seen(&changed, &places).is_broken(), changed != bytes);
            assert_eq!(second::message::nodes(&changed).is_none(), changed != bytes);
            mend(&mut changed, &places);
            assert!(!seen(&changed, &places).is_broken() && second::message::nodes(&changed).is_some());
        }
        assert!(found > 2_000 && broken > 1_000, "{found} strings, {broken} broken");
    }

    #[test]
    fn the_strings_of_a_state_are_found_in_trees_and_queues() {
        let tables = Tables {
            types: networks::tables(&mut Random::new(1), 0, None).types,
            operations: vec![second::tables::OperationRow { id: 3, ..Default::default() }],
            behaviours: vec![Default::default()],
            services: vec![ServiceRow { location: 1, starter: NONE, client: 0, key: 0 }],
            ..Tables::default()
        };
        let network = Network::read(&tables.write()).expect("right rows");
        let mut state = State::fresh(&network);
        let session = state.live_mut(0, 0).expect("a client");
        session.tree.assign(&[7, 1], &Value::String(b"one".to_vec()));
        session.tree.assign(&[7], &Value::Raw(b"raw".to_vec()));
        session.tree.assign(&[8], &Value::String(b"two".to_vec()));
        for text in ["three", "four"] {
            let message = Tree::leaf(&Value::String(text.into()));
            session.queue.push(Queued { operation: 0, message, destination: None });
        }
        let mut bytes = vec![0; STATE];
        encode(&state, &mut bytes);
        assert_eq!(texts(&bytes, &in_trees(&bytes)), [b"one", b"two"]);
        assert_eq!(texts(&bytes, &in_queues(&bytes)), [&b"three"[..], b"four"]);
        assert_eq!((in_trees(&bytes[1..]), in_queues(&[])), (vec![], vec![]));
    }

    #[test]
    fn the_string_constants_of_a_file_are_found() {
        let constant = |basic: Basic, fields| ExpressionRow { kind: 0, basic: basic.byte(), fields };
        let tables = Tables {
            paths: vec![[4, 0, 0, 0]],
            expressions: vec![
                constant(Basic::String, [0, 2, 0]),
                constant(Basic::Raw, [1, 2, 0]),
                ExpressionRow { kind: 1, basic: 0, fields: [0; 3] },
                constant(Basic::String, [1, 3, 0]),
                constant(Basic::String, [3, 2, 0]),
            ],
            services: vec![ServiceRow { location: 1, starter: NONE, client: NONE, key: 0 }],
            data: b"abcd".to_vec(),
            ..Tables::default()
        };
        let file = tables.write();
        assert_eq!(texts(&file, &in_constants(&file)), [&b"ab"[..], b"bcd"], "the last one passes the data");
        assert_eq!(in_constants(&file[1..]), []);
    }
}
