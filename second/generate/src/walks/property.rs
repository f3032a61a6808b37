//! Property 3 by running: what no move gives in a state from fresh of an accepted file. And that strings stay well
//! formed, and that keys are kept apart.

use second::network::Behaviour;
use second::Network;
use stepper::decode::decode;
use stepper::rows::Rows;
use stepper::{Move, State};

use super::choose::Candidates;
use super::exact::{expression_of, leaves_range};
use super::keys;
use super::outside::{aim, fitting};
use crate::random::Random;
use crate::strings::held::{in_nodes, in_queues, in_trees, seen};
use crate::strings::Seen;

/// Whether a result breaks property 3, for a call on a state from fresh with an out buffer of some size.
pub fn broken(network: &Network, state: &State, named: &Move, out_size: usize, number: u32) -> Option<&'static str> {
    if number == 18 {
        return Some("a move gives 18");
    }
    if number == 19 && matches!(named, Move::Send { .. } | Move::Reply { .. }) {
        return Some("a send or reply gives 19");
    }
    let beyond = expression_of(network, state, named).is_some_and(|(tree, row)| leaves_range(network, tree, row));
    if number == 22 && !beyond {
        return Some("a move that works out no sum outside its range gives 22");
    }
    if !ready_local(network, state, named) {
        return None;
    }
    match (out_size < stepper::OUT, beyond) {
        (true, _) if number != 1 => Some("a ready assign, if or while with a small out buffer does not give 1"),
        (false, true) if number != 22 => Some("a ready assign, if or while with a sum outside its range is not 22"),
        (false, false) if number != 0 => Some("a ready assign, if or while is refused"),
        _ => None,
    }
}

/// Where strings stand after a move.
pub const HOLDERS: [&str; 4] = ["a tree", "a queue", "a message that goes out", "a reply that goes out"];

/// What the strings hold there, by the state and the bytes that went out; a reply has its number before it.
pub fn strings_after(named: &Move, state: &[u8], out: &[u8]) -> [Seen; 4] {
    let is_reply = matches!(named, Move::Reply { .. });
    let message = out.get(if is_reply { 4 } else { 0 }..).unwrap_or_default();
    let went_out = seen(message, &in_nodes(message));
    let [sent, replied] = if is_reply { [Seen::default(), went_out] } else { [went_out, Seen::default()] };
    [seen(state, &in_trees(state)), seen(state, &in_queues(state)), sent, replied]
}

/// Whether a string is broken after a move from fresh.
pub fn broken_string(named: &Move, state: &[u8], out: &[u8]) -> Option<String> {
    let at = strings_after(named, state, out).iter().position(Seen::is_broken)?;
    Some(format!("a string in {} is broken", HOLDERS[at]))
}

/// A local move of an assign, if or while that is ready.
fn ready_local(network: &Network, state: &State, named: &Move) -> bool {
    let Move::Local { service, session, row } = *named else { return false };
    let (service, session, row) = (usize::from(service), usize::from(session), usize::from(row));
    let rows = Rows::of(network);
    let Some((live, root)) = state.live(service, session).zip(rows.root(service, session)) else { return false };
    let local = network.behaviours.get(row).is_some_and(|behaviour| {
        matches!(behaviour, Behaviour::Assign { .. } | Behaviour::If { .. } | Behaviour::While { .. })
    });
    local && rows.ready(live, root).iter().any(|ready| ready.row == row)
}

/// Tries every move that a state from fresh seems to allow, with messages that fit; the first that
/// breaks property 3, with its message.
pub fn sweep(random: &mut Random, file: &[u8], network: &Network, state: &[u8]) -> Option<(Move, Vec<u8>, String)> {
    let decoded = decode(network, state).expect("a state of the file's shape");
    let candidates = Candidates::of(network, &decoded);
    let mut tried: Vec<Move> = Vec::new();
    for candidate in candidates.inner.iter().chain(&candidates.starts) {
        if tried.contains(&candidate.named) {
            continue;
        }
        tried.push(candidate.named);
        let outside = candidate.type_row.map_or(Vec::new(), |row| {
            let mut message = fitting(random, network, row);
            aim(random, network, &decoded, &candidate.named, &mut message);
            message.bytes()
        });
        let (mut after, mut out) = (state.to_vec(), [0; stepper::OUT]);
        let result = stepper::step(file, &mut after, &mut out, &candidate.named, &outside);
        let number = result.map_or_else(|refused| refused.number.into(), |_| 0);
        let written = &out[..result.map_or(0, |made| made.bytes)];
        let what = broken(network, &decoded, &candidate.named, stepper::OUT, number).map(String::from);
        let what =
            what.or_else(|| broken_string(&candidate.named, &after, written)).or_else(|| keys::broken(file, &after));
        if let Some(what) = what {
            return Some((candidate.named, outside, what));
        }
    }
    None
}

#[cfg(test)]
mod tests {
    use super::*;

    const COUNTERS: &str = "
        location a = 1 location out = 100
        type Int = int
        service a {
            output 3 to out: Int
            client { set 5 = int 2147483646;
                parallel { set 6 = 5 + int 1; set 6 = 6 + int 1 } { send 3 to out with int 7 } }
        }";

    /// What is broken by each number from 0 to 22 that a move might give after some moves.
    fn told(made: &[u16], named: Move, out_size: usize) -> Vec<(u32, &'static str)> {
        let file = super::super::texts::file(COUNTERS);
        let network = Network::read(&file).expect("right rows");
        let mut state = vec![0; 65_536];
        stepper::fresh(&file, &mut state).expect("an accepted file");
        for &row in made {
            let local = Move::Local { service: 0, session: 0, row };
            stepper::step(&file, &mut state, &mut [0; 512], &local, &[]).expect("a move");
        }
        let state = decode(&network, &state).expect("a state");
        (0..=22).filter_map(|number| Some((number, broken(&network, &state, &named, out_size, number)?))).collect()
    }

    fn numbers(told: &[(u32, &'static str)]) -> Vec<u32> {
        told.iter().map(|told| told.0).collect()
    }

    #[test]
    fn a_ready_local_row_gives_one_number() {
        let file = super::super::texts::file(COUNTERS);
        let network = Network::read(&file).expect("right rows");
        let is_assign = |row: &u16| matches!(network.behaviours[usize::from(*row)], Behaviour::Assign { .. });
        let rows: Vec<u16> = (0..network.behaviours.len() as u16).filter(is_assign).collect();
        let [first, second, third] = rows[..] else { panic!("three assigns") };
        let local = |row| Move::Local { service: 0, session: 0, row };
        let but = |number: u32| (0..=22).filter(|&other| other != number).collect::<Vec<_>>();
        assert_eq!(numbers(&told(&[first], local(second), 512)), but(0));
        assert_eq!(numbers(&told(&[first, second], local(third), 512)), but(22), "2147483647 + 1");
        assert_eq!(numbers(&told(&[first, second], local(third), 511)), but(1));
        // Not ready: neither 18 nor 22, for the second adds within the range and the third has its operand missing.
        assert_eq!(numbers(&told(&[], local(third), 512)), [18, 22]);
    }

    /// A state with one string in a tree and one in a queue, and a message of one.
    fn with_strings(tree: &[u8], queued: &[u8], sent: &[u8]) -> (Vec<u8>, Vec<u8>) {
        use stepper::state::Queued;
        use stepper::Tree;
        let node = |text: &[u8]| Tree { basic: second::Basic::String, value: text.to_vec(), ..Tree::void(0) };
        let file = super::super::texts::file("service 1 { input 3: string client receive 3 into 5 }");
        let mut state = State::fresh(&Network::read(&file).expect("right rows"));
        let client = state.live_mut(0, 0).expect("a client");
        client.tree.children.push(Tree { id: 5, ..node(tree) });
        client.queue.push(Queued { operation: 0, message: node(queued), destination: None });
        let mut bytes = vec![0; 65_536];
        stepper::encode::encode(&state, &mut bytes);
        (bytes, node(sent).bytes())
    }

    #[test]
    fn a_broken_string_is_told_wherever_it_stands() {
        let (right, broken) = ("aé".as_bytes(), &b"\xC3a"[..]);
        let send = Move::Send { service: 0, session: 0, row: 0, target: 0 };
        let reply = Move::Reply { service: 0, session: 0, row: 0 };
        let told = |tree, queued, sent| {
            let (state, message) = with_strings(tree, queued, sent);
            let numbered = [&[0xFF; 4], &message[..]].concat();
            [broken_string(&send, &state, &message), broken_string(&reply, &state, &numbered)]
        };
        let both = |holder: &str| [(); 2].map(|()| Some(format!("a string in {holder} is broken")));
        assert_eq!(told(right, right, right), [None, None]);
        assert_eq!(told(broken, right, right), both("a tree"));
        assert_eq!(told(right, broken, right), both("a queue"));
        let out = [both("a message that goes out")[0].clone(), both("a reply that goes out")[0].clone()];
        assert_eq!(told(right, right, broken), out);
        let (state, _) = with_strings(right, right, right);
        assert_eq!(broken_string(&reply, &state, &[]), None, "a reply inside");
    }

    #[test]
    fn a_send_gives_neither_18_nor_19_and_22_only_for_a_sum() {
        let file = super::super::texts::file(COUNTERS);
        let network = Network::read(&file).expect("right rows");
        let is_send = |row: &Behaviour| matches!(row, Behaviour::Notification { .. });
        let row = network.behaviours.iter().position(is_send).expect("a send") as u16;
        assert_eq!(numbers(&told(&[], Move::Send { service: 0, session: 0, row, target: 0 }, 512)), [18, 19, 22]);
        assert_eq!(numbers(&told(&[], Move::Reply { service: 0, session: 0, row }, 512)), [18, 19, 22]);
        assert_eq!(numbers(&told(&[], Move::Receive { service: 0, session: 0, row }, 512)), [18, 22]);
        assert_eq!(numbers(&told(&[], Move::Close { service: 0, session: 0 }, 512)), [18, 22]);
    }
}
