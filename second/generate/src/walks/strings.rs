//! The strings that a call is given: which of them are broken, and whether they could decide the answer.

use stepper::{Made, Move, Refused};

use super::Call;
use crate::strings::held::{in_constants, in_nodes, in_queues, in_trees, mend, seen};
use crate::strings::Seen;

/// Where strings stand in what a move is given besides the file.
pub const PLACES: [&str; 4] = ["outer message", "outer reply", "tree", "queue"];
const OUTER_MESSAGE: usize = 0;
const OUTER_REPLY: usize = 1;
const TREE: usize = 2;
const QUEUE: usize = 3;

/// The message of a move that takes one from outside.
fn outer(call: &Call) -> Option<(usize, Seen)> {
    let place = match call.named {
        Move::OuterMessage { .. } => OUTER_MESSAGE,
        Move::OuterReply { .. } => OUTER_REPLY,
        _ => return None,
    };
    Some((place, seen(&call.outside, &in_nodes(&call.outside))))
}

/// What the strings hold at each place where they could decide the answer: nothing that is tried before them refuses
/// the call, and no string at another place is broken.
pub fn deciding(call: &Call, result: &Result<Made, Refused>) -> Vec<(usize, Seen)> {
    let mut found: Vec<(usize, Seen)> = outer(call).into_iter().collect();
    found.push((TREE, seen(&call.state, &in_trees(&call.state))));
    found.push((QUEUE, seen(&call.state, &in_queues(&call.state))));
    let broken = found.iter().filter(|(_, seen)| seen.is_broken()).count();
    if broken > 1 || seen(&call.file, &in_constants(&call.file)).is_broken() {
        return Vec::new();
    }
    let number = number(if broken == 0 { *result } else { mended(call) });
    found.retain(|(place, seen)| seen.is_broken() == (broken == 1) && (number == 0 || number > refusal(*place)));
    found
}

/// Whether a broken string decides, and the result is another than its refusal.
pub fn wrong(call: &Call, result: &Result<Made, Refused>) -> bool {
    deciding(call, result).iter().any(|(place, seen)| seen.is_broken() && number(*result) != refusal(*place))
}

fn number(result: Result<Made, Refused>) -> u8 {
    result.map_or_else(|refused| refused.number, |_| 0)
}

/// The refusal of a broken string at a place.
fn refusal(place: usize) -> u8 {
    match place {
        OUTER_MESSAGE | OUTER_REPLY => 17,
        _ => 14,
    }
}

/// The library's result for the call with letters in its broken strings.
fn mended(call: &Call) -> Result<Made, Refused> {
    let (mut state, mut outside) = (call.state.clone(), call.outside.clone());
    for strings in [in_trees(&state), in_queues(&state)] {
        mend(&mut state, &strings);
    }
    let strings = in_nodes(&outside);
    mend(&mut outside, &strings);
    stepper::step(&call.file, &mut state, &mut vec![0; call.out_size], &call.named, &outside)
}

#[cfg(test)]
mod tests {
    use super::*;
    use crate::strings::Break;
    use second::{Network, Value};
    use stepper::encode::{encode, STATE};
    use stepper::state::{Queued, State};
    use stepper::Tree;

    const WELL: &[u8] = "aé".as_bytes();
    const SURROGATE: &[u8] = b"\xED\xA0\x80";

    fn leaf(text: &[u8]) -> Tree {
        Tree { value: text.to_vec(), ..Tree::leaf(&Value::String(Vec::new())) }
    }

    /// A message from outside to a client that has a string in its tree and one in its queue, with a constant of three
    /// bytes in the file.
    fn call(constant: &[u8], tree: &[u8], queued: &[u8], outside: &[u8]) -> Call {
        let text = "location a = 1 type Text = string
            service a { input 3: Text client { set 5 = \"abc\"; receive 3 into 6 } }";
        let mut file = net::assemble(text).expect("a text").file;
        let network = Network::read(&file).expect("right rows");
        let place = in_constants(&file)[0].clone();
        file[place].copy_from_slice(constant);
        let mut fresh = State::fresh(&network);
        let client = fresh.live_mut(0, 0).expect("a client");
        client.tree.children.push(Tree { id: 5, ..leaf(tree) });
        client.queue.push(Queued { operation: 0, message: leaf(queued), destination: None });
        let mut state = vec![0; STATE];
        encode(&fresh, &mut state);
        let named = Move::OuterMessage { service: 0, id: 3, target: 0, number: 0 };
        Call { file, state, out_size: 512, named, outside: leaf(outside).bytes(), keeps: true }
    }

    /// The places that decide, with whether a string is broken there.
    fn places(call: &Call) -> Vec<(usize, bool)> {
        let (mut state, mut out) = (call.state.clone(), vec![0; call.out_size]);
        let result = stepper::step(&call.file, &mut state, &mut out, &call.named, &call.outside);
        deciding(call, &result).iter().map(|(place, seen)| (*place, seen.is_broken())).collect()
    }

    #[test]
    fn a_broken_string_decides_where_no_other_place_has_one() {
        let all = [(OUTER_MESSAGE, false), (TREE, false), (QUEUE, false)];
        assert_eq!(places(&call(WELL, WELL, WELL, WELL)), all);
        assert_eq!(places(&call(WELL, WELL, WELL, SURROGATE)), [(OUTER_MESSAGE, true)]);
        assert_eq!(places(&call(WELL, SURROGATE, WELL, WELL)), [(TREE, true)]);
        assert_eq!(places(&call(WELL, WELL, SURROGATE, WELL)), [(QUEUE, true)]);
        assert_eq!(places(&call(WELL, SURROGATE, WELL, SURROGATE)), []);
        assert_eq!(places(&call(SURROGATE, WELL, WELL, SURROGATE)), []);
        let found = deciding(&call(WELL, WELL, WELL, SURROGATE), &Err(stepper::Reason::NoMessage.into()));
        assert!(found[0].1.breaks[Break::Surrogate as usize]);
    }

    #[test]
    fn a_broken_string_that_decides_has_its_refusal() {
        let numbers = |call: &Call| {
            let result = |number| match number {
                0 => Ok(Made { bytes: 0, event: stepper::Event::Queued }),
                _ => Err(Refused { number, place: 0, reason: stepper::Reason::NoMessage }),
            };
            (0..=22).filter(|&number| !wrong(call, &result(number))).collect::<Vec<u8>>()
        };
        let any: Vec<u8> = (0..=22).collect();
        assert_eq!(numbers(&call(WELL, WELL, WELL, WELL)), any);
        assert_eq!(numbers(&call(WELL, WELL, WELL, SURROGATE)), [17]);
        assert_eq!(numbers(&call(WELL, SURROGATE, WELL, WELL)), [14]);
        assert_eq!(numbers(&call(WELL, WELL, SURROGATE, WELL)), [14]);
        assert_eq!(numbers(&Call { out_size: 511, ..call(WELL, WELL, SURROGATE, WELL) }), any);
    }

    #[test]
    fn no_string_decides_behind_another_refusal() {
        for outside in [WELL, SURROGATE] {
            let small = Call { out_size: 511, ..call(WELL, WELL, WELL, outside) };
            assert_eq!(places(&small), []);
            let mut longer = call(WELL, WELL, WELL, outside);
            longer.outside.push(0);
            let state = [(TREE, false), (QUEUE, false)].into_iter().filter(|_| outside == WELL);
            assert_eq!(places(&longer), state.collect::<Vec<_>>());
        }
        let mut other = call(WELL, WELL, WELL, SURROGATE);
        other.named = Move::OuterReply { service: 0, session: 0, row: 0 };
        assert_eq!(places(&other), []);
        other.named = Move::Close { service: 0, session: 0 };
        assert_eq!(places(&other), [(TREE, false), (QUEUE, false)]);
    }
}
