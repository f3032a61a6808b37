//! What is counted of moves in keyed services, and of states with keys.

use second::Network;
use stepper::decode::decode;
use stepper::state::{Destination, Progress};
use stepper::{Event, Made, Move, NotAllowed, Reason, Refused, State, Tree};

use super::keys::{concern, message, misplaced, plain_result, Message, Misplaced, Relation};
use super::Call;
use crate::keys::decide::unfit;
use crate::keys::held;

/// What a message to a keyed service is answered, by what it meets.
const ANSWERS: [(u8, &[Relation]); 4] = {
    use Relation::*;
    [
        (0, &[Own, New]),
        (15, &[Other, Held, Client, NoInt]),
        (16, &[Own, Other, Client, NoInt]),
        (19, &[Own, Other, New, Held, Client, NoInt]),
    ]
};

/// Bytes and values that are no message, by where they go.
const UNREAD: [(&str, &[&str]); 2] =
    [("send", &["18 for a value", "22 for a sum"]), ("outer message", &["17 for no message"])];

const PLACES: [&str; 3] = ["a live session", "a free session", "session 0"];

const LARGE: [&str; 2] = ["18 for a tree too large", "15 for its key before 18 for a tree too large"];

const FEATURES: [&str; 29] = [
    "a session started with the key 0",
    "a session started with a negative key",
    "a session started with a key that a session of another service has",
    "a session started by the client of its own keyed service",
    "a session started by another session of its own keyed service",
    "a session with a key started by another service",
    "a message queued at a session with a key by another service",
    "a session with a key that sends to itself",
    "a session with a key kept from starting another one with it",
    "a message queued at a session in whose tree its key is no more",
    "a session with a key receives",
    "a session with a key takes a reply",
    "session 0 of a keyed service takes a reply",
    "session 0 of a keyed service takes a reply from outside",
    "a session with a key closed",
    "14 for two sessions with one key",
    "14 for two sessions with the key 0",
    "14 for a key in session 0",
    "14 for a key in a service without one",
    "14 for a key in a free slot of a keyed service",
    "14 for a key in a free slot of another service",
    "a state with one key in a service",
    "a state with two keys in a service",
    "a state with three keys in a service",
    "a state with the key 0",
    "a state with a negative key",
    "a state with one key in two services",
    "a state with keys that differ in one byte",
    "a move on a file that 23 refuses",
];

/// Of states and results from fresh.
const FROM_FRESH: [&str; 5] = [
    "one key in a service, from fresh",
    "two keys in a service, from fresh",
    "three keys in a service, from fresh",
    "a message queued at a session with a key, from fresh",
    "15 for a key, from fresh",
];

/// All that is counted.
pub fn names() -> Vec<String> {
    let mut names = Vec::new();
    for (kind, unread) in UNREAD {
        for (number, relations) in ANSWERS {
            names.extend(relations.iter().map(|&relation| answer_name(kind, number, relation)));
        }
        for what in unread {
            names.extend(PLACES.map(|place| unread_name(kind, what, place)));
        }
        names.extend(LARGE.map(|what| format!("{kind} to a keyed service: {what}")));
    }
    names.extend(FEATURES.into_iter().chain(FROM_FRESH).map(String::from));
    names
}

fn answer_name(kind: &str, number: u8, relation: Relation) -> String {
    format!("{kind} to a keyed service: {number:2} at {}", relation.name())
}

fn unread_name(kind: &str, what: &str, place: &str) -> String {
    format!("{kind} to a keyed service: {what} at {place}")
}

/// The names that a call hits.
pub fn of_call(call: &Call, result: &Result<Made, Refused>) -> Vec<String> {
    let number = result.map_or_else(|refused| refused.number, |_| 0);
    if !concern(call) || (1..=5).contains(&number) {
        return Vec::new();
    }
    let network = Network::read(&call.file).expect("a file that passes 2 to 5");
    if number == 14 {
        return ill_placed(&network, call).map(String::from).into_iter().collect();
    }
    let state = decode(&network, &call.state).expect("a state of the file's shape");
    let mut names: Vec<String> = features(&network, &state, call, result).into_iter().map(String::from).collect();
    names.extend(message(call).and_then(|message| answer(call, &message, result)));
    names
}

/// What a message to a keyed service is answered.
fn answer(call: &Call, message: &Message, result: &Result<Made, Refused>) -> Option<String> {
    let kind = call.named.name();
    let relation = message.relation(&call.state);
    let unread = |what| Some(unread_name(kind, what, place(call, message)));
    match result {
        Ok(_) => Some(answer_name(kind, 0, relation)),
        Err(refused) => match refused.reason {
            Reason::NotAllowed(why) if is_of_key(why) => {
                let large = plain_result(call).is_err_and(|refused| refused.reason == Reason::TreeSize);
                let large_name = format!("{kind} to a keyed service: {}", LARGE[1]);
                Some(if large { large_name } else { answer_name(kind, 15, relation) })
            }
            Reason::QueueFull => Some(answer_name(kind, 16, relation)),
            Reason::NoMessage => unread("17 for no message"),
            Reason::Missing | Reason::WrongKind => unread("18 for a value"),
            Reason::Beyond => unread("22 for a sum"),
            Reason::TreeSize => Some(format!("{kind} to a keyed service: {}", LARGE[0])),
            Reason::Unfit(_) => Some(answer_name(kind, 19, relation)),
            _ => None,
        },
    }
}

fn place(call: &Call, message: &Message) -> &'static str {
    match message.session {
        0 => PLACES[2],
        session if held::is_live(&call.state, message.service, session) => PLACES[0],
        _ => PLACES[1],
    }
}

fn is_of_key(why: NotAllowed) -> bool {
    use NotAllowed::*;
    matches!(why, NoKey | KeylessTarget | OtherKey | KeyHeld)
}

/// Bytes that stand for no state by their keys alone.
fn ill_placed(network: &Network, call: &Call) -> Option<&'static str> {
    let found = misplaced(&call.file, &call.state)?;
    let plain = Network::read(&held::file_without(&call.file)).ok()?;
    decode(&plain, &held::state_without(&call.state)).ok()?;
    Some(match found {
        Misplaced::Twins { key: 0 } => "14 for two sessions with the key 0",
        Misplaced::Twins { .. } => "14 for two sessions with one key",
        Misplaced::InSession0 => "14 for a key in session 0",
        Misplaced::InUnkeyedService => "14 for a key in a service without one",
        Misplaced::InFreeSlot { service } => match network.services.get(service).and_then(|service| service.key) {
            Some(_) => "14 for a key in a free slot of a keyed service",
            None => "14 for a key in a free slot of another service",
        },
    })
}

fn features(network: &Network, state: &State, call: &Call, result: &Result<Made, Refused>) -> Vec<&'static str> {
    let mut found = of_state(network, state);
    let refused_by_keys =
        !unfit(&call.file).is_empty() && second::check(&call.file).is_err_and(|refusal| refusal.number == 23);
    found.extend(refused_by_keys.then_some("a move on a file that 23 refuses"));
    match result {
        Ok(made) => found.extend(made_features(network, state, call, made.event)),
        Err(refused) => {
            let own = sender_key(state, &call.named).is_some() && sender_key(state, &call.named) == sent_key(call);
            let kept = refused.reason == Reason::NotAllowed(NotAllowed::KeyHeld) && own;
            found.extend(kept.then_some("a session with a key kept from starting another one with it"));
        }
    }
    found
}

/// What keys a state has.
fn of_state(network: &Network, state: &State) -> Vec<&'static str> {
    let keys_of = |service: usize| state.services[service].iter().flatten().filter_map(|session| session.key);
    let keys: Vec<Vec<i32>> = (0..network.services.len()).map(|service| keys_of(service).collect()).collect();
    let any = |holds: &dyn Fn(i32) -> bool| keys.iter().flatten().any(|&key| holds(key));
    let count = |count: usize| keys.iter().any(|keys| keys.len() == count);
    let shared = |at: usize| keys[..at].iter().flatten().any(|key| keys[at].contains(key));
    let near = |keys: &Vec<i32>| keys.iter().any(|&a| keys.iter().any(|&b| one_byte_apart(a, b)));
    let found = [
        (count(1), "a state with one key in a service"),
        (count(2), "a state with two keys in a service"),
        (count(3), "a state with three keys in a service"),
        (any(&|key| key == 0), "a state with the key 0"),
        (any(&|key| key < 0), "a state with a negative key"),
        ((0..keys.len()).any(shared), "a state with one key in two services"),
        (keys.iter().any(near), "a state with keys that differ in one byte"),
    ];
    found.into_iter().filter(|(holds, _)| *holds).map(|(_, name)| name).collect()
}

fn one_byte_apart(a: i32, b: i32) -> bool {
    a.to_le_bytes().iter().zip(b.to_le_bytes()).filter(|(a, b)| **a != *b).count() == 1
}

/// The session that sends, or is named by another move.
fn named_session(named: &Move) -> Option<(usize, usize)> {
    match *named {
        Move::OuterMessage { .. } => None,
        Move::Local { service, session, .. }
        | Move::Receive { service, session, .. }
        | Move::Send { service, session, .. }
        | Move::Reply { service, session, .. }
        | Move::OuterReply { service, session, .. }
        | Move::Close { service, session } => Some((service.into(), session.into())),
    }
}

fn sender_key(state: &State, named: &Move) -> Option<i32> {
    let (service, session) = named_session(named)?;
    state.live(service, session)?.key
}

/// The key of a message to the sender's own service.
fn sent_key(call: &Call) -> Option<i32> {
    let (service, _) = named_session(&call.named)?;
    message(call).filter(|message| message.service == service)?.key
}

/// What a move does that is made.
fn made_features(network: &Network, state: &State, call: &Call, event: Event) -> Vec<&'static str> {
    let mut found = Vec::new();
    if let Some(message) = message(call) {
        found.extend(arrived(state, call, &message, event));
    }
    let session = named_session(&call.named);
    let has_key = sender_key(state, &call.named).is_some();
    let taker = match event {
        Event::Replied => session.and_then(|at| answered(state, at, &call.named)),
        _ => session,
    };
    let is_client = |(service, session): (usize, usize)| session == 0 && network.services[service].key.is_some();
    match event {
        Event::Received | Event::Settled if has_key => found.push("a session with a key receives"),
        Event::Closed if has_key => found.push("a session with a key closed"),
        Event::Replied if taker.is_some_and(is_client) => found.push("session 0 of a keyed service takes a reply"),
        Event::OuterReplied if taker.is_some_and(is_client) => {
            found.push("session 0 of a keyed service takes a reply from outside");
        }
        Event::Replied | Event::OuterReplied => {
            let key = taker.and_then(|(service, session)| state.live(service, session)?.key);
            found.extend(key.map(|_| "a session with a key takes a reply"));
        }
        _ => {}
    }
    found
}

/// The session whose waiting row a reply answers.
fn answered(state: &State, (service, session): (usize, usize), named: &Move) -> Option<(usize, usize)> {
    let Move::Reply { row, .. } = *named else { return None };
    match state.live(service, session)?.progress[usize::from(row)] {
        Progress::Received(Destination::Row { service, session, .. }) => Some((service, session)),
        _ => None,
    }
}

/// A message that is queued or has started a session.
fn arrived(state: &State, call: &Call, message: &Message, event: Event) -> Vec<&'static str> {
    let Some(key) = message.key else { return Vec::new() };
    let from = named_session(&call.named);
    let own = from.filter(|(service, _)| *service == message.service).map(|(_, session)| session);
    let other = from.is_some() && own.is_none();
    let elsewhere = (0..state.services.len()).any(|other| other != message.service && state.key_held(other, key));
    let target = state.live(message.service, message.session);
    let gone = target.is_some_and(|live| !holds(&live.tree, key));
    let (queued, started) = (event == Event::Queued, event == Event::Started);
    let found = [
        (started && key == 0, "a session started with the key 0"),
        (started && key < 0, "a session started with a negative key"),
        (started && elsewhere, "a session started with a key that a session of another service has"),
        (started && own == Some(0), "a session started by the client of its own keyed service"),
        (started && own.is_some_and(|own| own > 0), "a session started by another session of its own keyed service"),
        (started && other, "a session with a key started by another service"),
        (queued && other, "a message queued at a session with a key by another service"),
        (queued && own == Some(message.session), "a session with a key that sends to itself"),
        (queued && gone, "a message queued at a session in whose tree its key is no more"),
    ];
    found.into_iter().filter(|(holds, _)| *holds).map(|(_, name)| name).collect()
}

/// Whether a tree has this int.
fn holds(tree: &Tree, key: i32) -> bool {
    tree.root_value() == Some(second::Value::Int(key)) || tree.children.iter().any(|child| holds(child, key))
}

/// The names that a move on a state from fresh hits, by the state after it.
pub fn from_fresh(file: &[u8], state: &[u8], result: &Result<Made, Refused>) -> Vec<String> {
    let mut found = Vec::new();
    for service in (0..held::ids(file).len()).filter(|&service| held::ids(file)[service] != 0) {
        let keys = held::live_keys(state, service);
        found.extend((1..=3).filter(|&count| keys.len() == count).map(|count| FROM_FRESH[count - 1]));
        let queued = keys.iter().any(|&(session, _)| !held::queued(state, service, session).is_empty());
        found.extend(queued.then_some(FROM_FRESH[3]));
    }
    let by_key = result.is_err_and(|refused| matches!(refused.reason, Reason::NotAllowed(why) if is_of_key(why)));
    found.extend(by_key.then_some(FROM_FRESH[4]));
    found.sort_unstable();
    found.dedup();
    found.into_iter().map(String::from).collect()
}
