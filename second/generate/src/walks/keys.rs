//! The keys of a call: what they make of the answer that it would have without them, and what they never are from fresh.
//! Worked out from the bytes of file and state; the stepper is asked only about the file and state without keys.

use second::network::Behaviour;
use second::Network;
use stepper::encode::STATE;
use stepper::{decode, evaluate, Event, Made, Move, Reason, Refused};

use super::Call;
use crate::keys::held;

/// What a message meets in a keyed service.
#[derive(Clone, Copy, PartialEq, Eq, Debug)]
pub enum Relation {
    /// The live session with its key.
    Own,
    /// A live session with another key.
    Other,
    /// A free session, no live one having its key.
    New,
    /// A free session, a live one having its key.
    Held,
    /// Session 0.
    Client,
    /// Any session: the message has no int there.
    NoInt,
}

impl Relation {
    /// "A message goes only to the live session 1 to 3 with its key, or starts one where no live session has it."
    fn is_right(self) -> bool {
        matches!(self, Relation::Own | Relation::New)
    }

    pub fn name(self) -> &'static str {
        match self {
            Relation::Own => "the session with its key",
            Relation::Other => "a session with another key",
            Relation::New => "a free session",
            Relation::Held => "a free session, its key being held",
            Relation::Client => "session 0",
            Relation::NoInt => "any session, without a key",
        }
    }
}

/// A call without its keys, and what it gives.
struct Plain {
    result: Result<Made, Refused>,
    state: Vec<u8>,
    out: Vec<u8>,
}

fn plain(call: &Call) -> Plain {
    let (file, mut state) = (held::file_without(&call.file), held::state_without(&call.state));
    let mut out = vec![0; call.out_size];
    let result = stepper::step(&file, &mut state, &mut out, &call.named, &call.outside);
    out.truncate(result.map_or(0, |made| made.bytes));
    Plain { result, state, out }
}

/// What the call gives without keys.
pub fn plain_result(call: &Call) -> Result<Made, Refused> {
    plain(call).result
}

/// Why the keys of a state are none of the file's shape.
#[derive(Clone, Copy, PartialEq, Eq, Debug)]
pub enum Misplaced {
    Twins { key: i32 },
    InSession0,
    InUnkeyedService,
    InFreeSlot { service: usize },
}

/// The first key that is where none is held, or two alike; of services that the file does not have too.
pub fn misplaced(file: &[u8], state: &[u8]) -> Option<Misplaced> {
    let ids = held::ids(file);
    let is_keyed = |service: usize| ids.get(service).is_some_and(|&id| id != 0);
    let wrong = |(service, session): (usize, usize)| {
        if held::at(state, service, session) == 0 {
            None
        } else if !held::is_live(state, service, session) {
            Some(Misplaced::InFreeSlot { service })
        } else if !is_keyed(service) {
            Some(Misplaced::InUnkeyedService)
        } else {
            (session == 0).then_some(Misplaced::InSession0)
        }
    };
    let twins = |service: usize| {
        let mut keys: Vec<i32> = held::live_keys(state, service).into_iter().map(|(_, key)| key).collect();
        keys.sort_unstable();
        let pair = keys.windows(2).find(|pair| pair[0] == pair[1])?;
        Some(Misplaced::Twins { key: pair[0] })
    };
    held::slots().find_map(wrong).or_else(|| (0..ids.len()).filter(|&service| is_keyed(service)).find_map(twins))
}

/// A message to a keyed service of a file that passes 2 to 5, in a state of its shape.
pub struct Message {
    pub service: usize,
    pub session: usize,
    /// The int at the key's id; None for bytes or values that are no message too.
    pub key: Option<i32>,
}

/// The message of a call that goes to a session of a keyed service, 0 to 3.
pub fn message(call: &Call) -> Option<Message> {
    let (service, session, bytes) = match call.named {
        Move::OuterMessage { service, target, .. } => (service.into(), target.into(), call.outside.clone()),
        Move::Send { row, target, .. } => {
            let network = Network::read(&call.file).ok()?;
            (target_service(&network, row)?, target.into(), sent(call).unwrap_or_default())
        }
        _ => return None,
    };
    let id = *held::ids(&call.file).get(service).filter(|&&id| id != 0)?;
    (session < 4).then(|| Message { service, session, key: held::of_message(&bytes, id) })
}

/// The service to which a row sends.
fn target_service(network: &Network, row: u16) -> Option<usize> {
    let (operation, _) = sending(network, row)?;
    let location = network.operations[operation].location;
    network.services.iter().position(|service| service.location == location)
}

/// Operation and expression of a row that sends.
fn sending(network: &Network, row: u16) -> Option<(usize, usize)> {
    match *network.behaviours.get(usize::from(row))? {
        Behaviour::Notification { operation, expression } => Some((operation, expression)),
        Behaviour::SolicitResponse { operation, expression, .. } => Some((operation, expression)),
        _ => None,
    }
}

/// The message that a send works out, in the state without keys.
fn sent(call: &Call) -> Option<Vec<u8>> {
    let Move::Send { service, session, row, .. } = call.named else { return None };
    let network = Network::read(&held::file_without(&call.file)).ok()?;
    let state = decode::decode(&network, &held::state_without(&call.state)).ok()?;
    let live = state.live(service.into(), session.into())?;
    let (_, expression) = sending(&network, row)?;
    Some(evaluate::message(&network, &live.tree, expression).ok()?.bytes())
}

impl Message {
    pub fn relation(&self, state: &[u8]) -> Relation {
        let keys = held::live_keys(state, self.service);
        let live = held::is_live(state, self.service, self.session);
        match self.key {
            _ if self.session == 0 => Relation::Client,
            None => Relation::NoInt,
            Some(key) if live && keys.contains(&(self.session, key)) => Relation::Own,
            Some(_) if live => Relation::Other,
            Some(key) if keys.iter().any(|&(_, held)| held == key) => Relation::Held,
            Some(_) => Relation::New,
        }
    }
}

/// Whether the move got so far that the key alone decides: it would be made, or a tree would be too large.
fn got_to_the_key(result: &Result<Made, Refused>) -> bool {
    match result {
        Ok(made) => matches!(made.event, Event::Queued | Event::Started),
        Err(refused) => refused.reason == Reason::TreeSize,
    }
}

/// What a call with keys is to give: number and place; the state and the bytes that go out if it is made.
#[derive(Clone, PartialEq, Eq, Debug)]
struct Expected {
    number: u8,
    place: usize,
    made: Option<(Vec<u8>, Vec<u8>)>,
}

fn refusal(number: u8, place: usize) -> Expected {
    Expected { number, place, made: None }
}

fn expected(call: &Call) -> Expected {
    let Plain { result, state, out } = plain(call);
    match result {
        Err(refused) if refused.number <= 5 => return refusal(refused.number, refused.place),
        _ if misplaced(&call.file, &call.state).is_some() => return refusal(14, 0),
        Err(refused) if refused.number == 14 => return refusal(14, 0),
        _ => {}
    }
    let message = message(call).filter(|_| got_to_the_key(&result));
    if message.as_ref().is_some_and(|message| !message.relation(&call.state).is_right()) {
        return refusal(15, 0);
    }
    match result {
        Err(refused) => refusal(refused.number, refused.place),
        Ok(made) => {
            let started = message.filter(|_| made.event == Event::Started);
            let state = with_keys(&call.state, state, started);
            Expected { number: 0, place: 0, made: Some((state, out)) }
        }
    }
}

/// A state with the keys of the one before: those of sessions that are live still, and that of one that was started.
fn with_keys(before: &[u8], mut state: Vec<u8>, started: Option<Message>) -> Vec<u8> {
    for (service, session) in held::slots() {
        if held::is_live(&state, service, session) {
            held::put(&mut state, service, session, held::at(before, service, session));
        }
    }
    if let Some(Message { service, session, key: Some(key) }) = started {
        held::put(&mut state, service, session, key);
    }
    state
}

/// Whether the file or the state of a call has a key.
pub fn concern(call: &Call) -> bool {
    let in_state = || held::slots().any(|(service, session)| held::at(&call.state, service, session) != 0);
    call.state.len() == STATE && (held::ids(&call.file).iter().any(|&id| id != 0) || in_state())
}

/// What is wrong with a result by the keys alone, with the state and the bytes that the call has left.
pub fn wrong(call: &Call, result: &Result<Made, Refused>, state: &[u8], written: &[u8]) -> Option<String> {
    if !concern(call) {
        return None;
    }
    let found = match result {
        Ok(_) => Expected { number: 0, place: 0, made: Some((state.to_vec(), written.to_vec())) },
        Err(refused) => refusal(refused.number, refused.place),
    };
    let expected = expected(call);
    (found != expected).then(|| {
        let alike = found.number == expected.number && found.place == expected.place;
        let what = if alike { ", with another state or other bytes" } else { "" };
        format!("the keys ask for {} at {}{what}", expected.number, expected.place)
    })
}

/// What no state from fresh has: two live sessions of a keyed service with one key, a message queued at one with another
/// key, or one queued at session 0.
pub fn broken(file: &[u8], state: &[u8]) -> Option<String> {
    for (service, &id) in held::ids(file).iter().enumerate().filter(|(_, &id)| id != 0) {
        let keys = held::live_keys(state, service);
        for (at, &(session, key)) in keys.iter().enumerate() {
            if keys[..at].iter().any(|&(_, other)| other == key) {
                return Some(format!("two live sessions of service {service} have the key {key}"));
            }
            let messages = held::queued(state, service, session);
            if messages.iter().any(|message| held::of_message(message, id) != Some(key)) {
                return Some(format!("a message queued at session {session} of service {service} has another key"));
            }
        }
        if !held::queued(state, service, 0).is_empty() {
            return Some(format!("a message is queued at session 0 of service {service}, which is keyed"));
        }
    }
    None
}

#[cfg(test)]
mod tests {
    use super::*;
    use second::Value;
    use stepper::encode::encode;
    use stepper::state::{Queued, Session, State};
    use stepper::Tree;

    const TEXT: &str = "service 5 { client nil starter choice { on receive O#0 into 5 then nil } } \
        service 6 keyed by 9 { input 3: void { 9: int, 10?: bool } client nil \
        starter choice { on receive 3 into 5 then nil } }";

    fn message(key: i32) -> Tree {
        let mut tree = Tree::void(0);
        tree.assign(&[9], &Value::Int(key));
        tree
    }

    /// Live sessions with their keys, of the first and of the keyed service.
    fn state(sessions: &[(usize, usize, Option<i32>)]) -> Vec<u8> {
        let network = Network::read(&super::super::texts::file(TEXT)).expect("right rows");
        let mut state = State::fresh(&network);
        for &(service, session, key) in sessions {
            state.services[service][session] = Some(Session { key, ..Session::new(&network) });
        }
        let mut bytes = vec![0; STATE];
        encode(&state, &mut bytes);
        bytes
    }

    /// A message to a session of the keyed service, of which 1 and 3 are live.
    fn call(target: u16, outside: &Tree) -> Call {
        let file = super::super::texts::file(TEXT);
        let state = state(&[(1, 1, Some(7)), (1, 3, Some(-1))]);
        let named = Move::OuterMessage { service: 1, id: 3, target, number: 0 };
        Call { file, state, out_size: 512, named, outside: outside.bytes(), keeps: true }
    }

    /// What the library does with a call: result, state and bytes.
    fn done(call: &Call) -> (Result<Made, Refused>, Vec<u8>, Vec<u8>) {
        let (mut state, mut out) = (call.state.clone(), vec![0; call.out_size]);
        let result = stepper::step(&call.file, &mut state, &mut out, &call.named, &call.outside);
        out.truncate(result.map_or(0, |made| made.bytes));
        (result, state, out)
    }

    /// The numbers that are not told to be wrong.
    fn right(call: &Call) -> Vec<u8> {
        let (_, state, out) = done(call);
        let result = |number| match number {
            0 => Ok(Made { bytes: 0, event: Event::Queued }),
            _ => Err(Refused { number, place: 0, reason: Reason::NoMessage }),
        };
        (0..=23).filter(|&number| wrong(call, &result(number), &state, &out).is_none()).collect()
    }

    #[test]
    fn one_number_is_right_for_a_message() {
        let unfit = Tree::leaf(&Value::Void);
        let numbers = |message: &Tree| [0, 1, 2, 3].map(|target| right(&call(target, message)));
        assert_eq!(numbers(&message(7)), [[15], [0], [15], [15]]);
        assert_eq!(numbers(&message(-1)), [[15], [15], [15], [0]]);
        assert_eq!(numbers(&message(0)), [[15], [15], [0], [15]]);
        assert_eq!(numbers(&unfit), [[19], [19], [19], [19]]);
        let relations = |message: &Tree| {
            [0, 1, 2, 3].map(|target| {
                let call = call(target, message);
                super::message(&call).expect("a keyed service").relation(&call.state)
            })
        };
        use Relation::*;
        assert_eq!(relations(&message(7)), [Client, Own, Held, Other]);
        assert_eq!(relations(&message(0)), [Client, Other, New, Other]);
        assert_eq!(relations(&unfit), [Client, NoInt, NoInt, NoInt]);
    }

    #[test]
    fn what_is_tried_before_the_key_stays() {
        let mut small = call(0, &message(7));
        small.out_size = 511;
        assert_eq!(right(&small), [1]);
        let mut broken = call(0, &message(7));
        broken.outside.pop();
        assert_eq!(right(&broken), [17]);
        let mut file = call(0, &message(7));
        file.file.pop();
        assert_eq!(right(&file), [2]);
        assert_eq!(right(&call(4, &message(7))), [15]);
    }

    #[test]
    fn a_started_session_has_the_key_and_no_other_key_changes() {
        for (target, key) in [(1, 7), (2, 5)] {
            let call = call(target, &message(key));
            let (result, state, out) = done(&call);
            assert_eq!(wrong(&call, &result, &state, &out), None);
            for (service, session) in held::slots() {
                let mut other = state.clone();
                held::put(&mut other, service, session, 99);
                assert!(wrong(&call, &result, &other, &out).is_some(), "{service} {session}");
            }
            assert!(wrong(&call, &result, &call.state, &out).is_some(), "nothing moved");
            assert!(wrong(&call, &result, &state, &[1]).is_some(), "something went out");
        }
    }

    #[test]
    fn keys_are_misplaced_where_none_is_held() {
        let file = super::super::texts::file(TEXT);
        let with = |service, session, key| {
            let mut state = state(&[(0, 2, None), (1, 1, Some(7)), (1, 3, Some(0))]);
            held::put(&mut state, service, session, key);
            misplaced(&file, &state)
        };
        assert_eq!(with(1, 1, i32::MIN), None);
        assert_eq!(with(1, 1, 0), Some(Misplaced::Twins { key: 0 }));
        assert_eq!(with(1, 3, 7), Some(Misplaced::Twins { key: 7 }));
        assert_eq!(with(1, 3, 7 + (1 << 24)), None);
        assert_eq!(with(1, 0, 1), Some(Misplaced::InSession0));
        assert_eq!(with(0, 0, 1 << 8), Some(Misplaced::InUnkeyedService));
        assert_eq!(with(0, 2, 1), Some(Misplaced::InUnkeyedService));
        assert_eq!(with(1, 2, 1 << 16), Some(Misplaced::InFreeSlot { service: 1 }));
        assert_eq!(with(3, 3, 1), Some(Misplaced::InFreeSlot { service: 3 }));
        let mut twins = call(1, &message(7));
        held::put(&mut twins.state, 1, 3, 7);
        assert_eq!(right(&twins), [14]);
    }

    #[test]
    fn what_never_comes_from_fresh_is_told() {
        let file = super::super::texts::file(TEXT);
        let network = Network::read(&file).expect("right rows");
        let told = |queue: &[(usize, i32)], keys: [i32; 2]| {
            let mut state = State::fresh(&network);
            for (session, key) in [(1, keys[0]), (2, keys[1])] {
                state.services[1][session] = Some(Session { key: Some(key), ..Session::new(&network) });
            }
            for &(session, key) in queue {
                let queued = Queued { operation: 0, message: message(key), destination: None };
                state.live_mut(1, session).expect("live").queue.push(queued);
            }
            let mut bytes = vec![0; STATE];
            encode(&state, &mut bytes);
            broken(&file, &bytes)
        };
        assert_eq!(told(&[(1, 7), (2, 0), (1, 7)], [7, 0]), None);
        assert_eq!(told(&[], [7, 7]), Some("two live sessions of service 1 have the key 7".into()));
        let other = "a message queued at session 2 of service 1 has another key";
        assert_eq!(told(&[(2, 0), (2, 7)], [7, 0]), Some(other.into()));
        let client = "a message is queued at session 0 of service 1, which is keyed";
        assert_eq!(told(&[(0, 7)], [7, 0]), Some(client.into()));
        assert_eq!(broken(&held::file_without(&file), &state(&[(1, 1, Some(7)), (1, 2, Some(7))])), None);
    }
}
