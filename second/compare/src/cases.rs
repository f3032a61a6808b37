//! Moves to time: for a file the state, move and bytes of each kind that there is.

use generate::walks::choose::Candidates;
use generate::walks::{outside, Call};
use generate::Random;
use second::network::{Behaviour, Network};
use second::{Basic, Value};
use stepper::decode::decode;
use stepper::encode::encode;
use stepper::rows::Rows;
use stepper::state::{Progress, Session};
use stepper::{Event, Move, State, Tree};

pub struct Case {
    pub name: &'static str,
    /// The call and the number that it gives; None if the file has no such move.
    pub call: Option<(Call, u32)>,
}

/// Moves to try before giving up.
const PATIENCE: usize = 2_000;

pub fn all(file: &[u8]) -> Vec<Case> {
    let find = |sends: bool, events: &[Event]| {
        let call = found(file, fresh(file), sends, events).or_else(|| found(file, prepared(file), sends, events));
        call.map(|call| (call, 0))
    };
    let local = find(false, &[Event::Assigned, Event::ThenTaken, Event::ElseTaken]);
    let refused = local.clone().map(|(call, _)| (close(call), 15));
    vec![
        Case { name: "a local", call: local },
        Case { name: "a send that queues", call: find(true, &[Event::Queued]) },
        Case { name: "a send that starts", call: find(true, &[Event::Started]) },
        Case { name: "a receive", call: find(false, &[Event::Received, Event::Settled]) },
        Case { name: "a refused 15", call: refused },
    ]
}

fn fresh(file: &[u8]) -> Vec<u8> {
    let mut state = vec![0; 65_536];
    stepper::fresh(file, &mut state).unwrap_or_else(|refused| panic!("{refused}"));
    state
}

/// Closing the session of a local move, which is not done.
fn close(mut call: Call) -> Call {
    if let Move::Local { service, session, .. } = call.named {
        call.named = Move::Close { service, session };
    }
    call
}

/// Makes moves as they come until one gives one of the events; that one.
fn found(file: &[u8], mut state: Vec<u8>, sends: bool, events: &[Event]) -> Option<Call> {
    let network = Network::read(file).ok()?;
    let mut random = Random::new(1);
    for _ in 0..PATIENCE {
        let decoded = decode(&network, &state).ok()?;
        let candidate = Candidates::of(&network, &decoded).pick(&mut random)?;
        let outside = candidate.type_row.map_or(Vec::new(), |row| {
            let mut message = outside::fitting(&mut random, &network, row);
            calm(&mut message);
            message.bytes()
        });
        let mut after = state.clone();
        let result = stepper::step(file, &mut after, &mut [0; 512], &candidate.named, &outside);
        let is_send = matches!(candidate.named, Move::Send { .. });
        if result.is_ok_and(|made| events.contains(&made.event)) && is_send == sends {
            let named = candidate.named;
            return Some(Call { file: file.to_vec(), state, out_size: 512, named, outside, keeps: true });
        }
        state = after;
    }
    None
}

/// Makes ints and longs 1, so that no sum leaves its range.
fn calm(tree: &mut Tree) {
    match tree.basic {
        Basic::Int => tree.value = Value::Int(1).bytes(),
        Basic::Long => tree.value = Value::Long(1).bytes(),
        _ => {}
    }
    tree.children.iter_mut().for_each(calm);
}

/// A state that no moves leave: starters' first sessions live with nothing received, and
/// solicit-responses of clients done.
fn prepared(file: &[u8]) -> Vec<u8> {
    let network = Network::read(file).unwrap_or_else(|refusal| panic!("{refusal}"));
    let rows = Rows::of(&network);
    let mut state = State::fresh(&network);
    for (number, service) in network.services.iter().enumerate() {
        state.services[number][1] = service.starter.map(|_| Session::new(&network));
        let Some(client) = &mut state.services[number][0] else { continue };
        for (row, behaviour) in network.behaviours.iter().enumerate() {
            if matches!(behaviour, Behaviour::SolicitResponse { .. }) && rows.belongs(number, 0, row) {
                client.progress[row] = Progress::Done;
            }
        }
    }
    let mut bytes = vec![0; 65_536];
    encode(&state, &mut bytes);
    bytes
}
