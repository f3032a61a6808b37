//! Files and states that cost the most stack or time, or are made to break a reader: the set that is
//! stored in hostile/ with its answers.

pub mod files;
pub mod place;

use second::{Basic, Network, Value};
use stepper::encode::STATE;
use stepper::state::{holds_key, State, QUEUE, SESSIONS};
use stepper::{Move, Tree};

use crate::maximal;
use crate::nests::reach::finish;
use crate::nests::{mixed, Leaf, Level, Nest};
use crate::random::Random;
use crate::walks::Call;
use place::{full_session, At, Place};

/// A file, sessions of it whose moves are made, and other calls.
pub struct Case {
    pub name: String,
    pub file: Vec<u8>,
    places: Vec<(Place, At)>,
    calls: Vec<Call>,
}

impl Case {
    /// With one move, in a state in which all is free.
    fn file(name: &str, file: Vec<u8>) -> Case {
        let named = Move::Local { service: 0, session: 0, row: 0 };
        let (state, outside) = (vec![0; STATE], Vec::new());
        let call = Call { file: file.clone(), state, out_size: 512, named, outside, keeps: true };
        Case { name: name.into(), file, places: Vec::new(), calls: vec![call] }
    }

    fn nest(name: String, nest: &Nest, at: At) -> Case {
        let place = nest_place(nest);
        Case { name, file: place.file.clone(), places: vec![(place, at)], calls: Vec::new() }
    }

    /// Shows every call.
    pub fn each(&self, see: &mut dyn FnMut(Call)) {
        for (place, at) in &self.places {
            place.each(*at, see);
        }
        self.calls.iter().cloned().for_each(see);
    }
}

/// The service of a nest; of a starter's sessions the first makes the moves.
pub fn nest_place(nest: &Nest) -> Place {
    let file = nest.tables().write();
    let network = Network::read(&file).expect("a file that passes 2 to 5");
    let tree = full_tree();
    let mut base = State::free(&network);
    if nest.starter {
        base.services[0][1..].fill(Some(full_session(&network, 0, &tree, QUEUE)));
    }
    Place { file, network, service: 0, session: usize::from(nest.starter), tree, base }
}

/// A tree of 48 nodes and 6 levels with the longest values; the largest message stands at root 1.
fn full_tree() -> Tree {
    let mut tree = Tree::void(0);
    let message = Tree::read_message(&maximal::message().0).expect("a message");
    tree.replace(&[1], &message);
    for step in 1..=6 {
        tree.assign(&[9; 6][..step], &Value::Raw(vec![0xA5; 16]));
    }
    for root in (2..9).chain(10..29) {
        tree.assign(&[root], &Value::Raw(vec![0x5A; 16]));
    }
    tree
}

/// The whole set.
pub fn all() -> Vec<Case> {
    let mut cases = Vec::new();
    for level in Level::ALL {
        let name = |what: &str| format!("{}_{what}", level.name().replace([' ', '-'], "_"));
        cases.push(Case::nest(name("accepted"), &Nest::full(level, Leaf::Nil), At::Ends));
        cases.push(Case::nest(name("refused"), &Nest::full(level, Leaf::Missing).deep(), At::Ends));
        cases.push(Case::nest(name("answer"), &Nest::full(level, Leaf::Answer).large(), At::Ends));
        cases.push(Case::nest(name("starter"), &Nest::full(level, Leaf::AskOutside).large().started(), At::Ends));
        cases.push(Case::nest(name("itself"), &Nest::full(level, Leaf::Ask), At::Ends));
    }
    for seed in 1..=5 {
        let leaf = Leaf::ALL[seed as usize];
        cases.push(Case::nest(format!("mixed_{seed}"), &mixed(&mut Random::new(seed), leaf), At::Ends));
    }
    for (level, leaf, what, at) in [
        (Level::First, Leaf::Assign, "assigns", At::EveryRow),
        (Level::Second, Leaf::Assign, "assigns", At::EveryRow),
        (Level::Left, Leaf::NotifyOutside, "sends", At::Ends),
        (Level::Right, Leaf::NotifyOutside, "sends", At::Ends),
    ] {
        let nest = Nest { side: leaf, ..Nest::full(level, leaf) };
        cases.push(Case::nest(format!("{}_{what}", level.name().replace(' ', "_")), &nest, at));
    }
    cases.push(Case::nest("whiles_reopened".into(), &Nest::full(Level::While, Leaf::While), At::EveryRow));
    cases.extend(files::all().into_iter().map(|(name, tables)| Case::file(name, tables.write())));
    cases.push(expression("expression", |_| ()));
    cases.push(expression("expression_outside", to_the_end));
    cases.push(full_slots("full_slots", files::talkers("raw", "raw { 01 }", false), ""));
    cases.push(full_slots("full_strings", files::talkers("string", "\"a\"", false), "sixteen letters."));
    cases.push(full_slots("full_labels", files::talkers("string", "\"a\"", false), "ტვირთ5"));
    cases.push(full_slots("full_keys", files::talkers("raw", "raw { 01 }", true), ""));
    cases.push(Case::file("largest", maximal::tables().write()));
    cases
}

/// Ints of a tree at the end of their range: no sum of two is within it.
fn to_the_end(tree: &mut Tree) {
    if tree.basic == Basic::Int {
        tree.value = Value::Int(i32::MAX).bytes();
    }
    tree.children.iter_mut().for_each(to_the_end);
}

/// An expression of 128 leaves worked out by each move that can, in a tree of 48 nodes, changed.
fn expression(name: &str, change: fn(&mut Tree)) -> Case {
    let file = files::expression().write();
    let network = Network::read(&file).expect("a file that passes 2 to 5");
    let mut tree = Tree::void(0);
    for length in 1..=3 {
        tree.replace(&[1, 20, 20][..length], &place::largest(&network, 0));
    }
    change(&mut tree);
    let base = State::free(&network);
    let place = Place { file, network, service: 0, session: 0, tree, base };
    Case { name: name.into(), file: place.file.clone(), places: vec![(place, At::EveryRow)], calls: Vec::new() }
}

/// Makes every string this text.
fn spell(tree: &mut Tree, text: &str) {
    if tree.basic == Basic::String {
        tree.value = text.into();
    }
    tree.children.iter_mut().for_each(|child| spell(child, text));
}

/// The key of a session: that of the largest messages in session 1 of the last two services, else another in one byte.
fn key(service: usize, number: usize) -> i32 {
    let largest = i32::from_le_bytes([7; 4]);
    match (service, number) {
        (2 | 3, 1) => largest,
        _ => largest ^ 1 << (8 * number),
    }
}

/// Sixteen live slots, each with 48 nodes, four messages and every row done but in the one that moves;
/// and bytes that stand for no state. Strings are `text`.
fn full_slots(name: &str, file: Vec<u8>, text: &str) -> Case {
    let network = Network::read(&file).expect("a file that passes 2 to 5");
    let mut tree = Tree::void(0);
    for root in 1..=3 {
        tree.replace(&[root], &place::largest(&network, network.operations[0].request));
    }
    spell(&mut tree, text);
    let mut base = State::free(&network);
    for service in 0..network.services.len() {
        for number in 0..SESSIONS {
            let mut session = full_session(&network, service, &tree, QUEUE);
            session.queue.iter_mut().for_each(|queued| spell(&mut queued.message, text));
            session.key = holds_key(&network, service, number).then(|| key(service, number));
            let root = &network.services[service];
            let root = if number == 0 { root.client } else { root.starter };
            finish(&network, &mut session.progress, root.expect("a client and a starter"));
            base.services[service][number] = Some(session);
        }
    }
    let place = |service, session| {
        let network = network.clone();
        let (file, tree, base) = (file.clone(), tree.clone(), base.clone());
        (Place { file, network, service, session, tree, base }, At::EveryRow)
    };
    let mut places = vec![place(0, 0), place(3, 3)];
    places.extend(holds_key(&network, 2, 1).then(|| place(2, 1)));
    Case { name: name.into(), file: file.clone(), places, calls: no_states(&file) }
}

/// Each move on random bytes, wholly and in the last slot.
fn no_states(file: &[u8]) -> Vec<Call> {
    let mut random = Random::new(64);
    let (service, session, row, target) = (3, 3, 255, 3);
    let moves = [
        Move::Local { service, session, row },
        Move::Receive { service, session, row },
        Move::Send { service, session, row, target },
        Move::Reply { service, session, row },
        Move::OuterMessage { service, id: 1, target, number: 9 },
        Move::OuterReply { service, session, row },
        Move::Close { service, session },
    ];
    let mut calls = Vec::new();
    for named in moves {
        for start in [0, 61_440] {
            let mut state = vec![0; STATE];
            state[start..].iter_mut().for_each(|byte| *byte = random.byte());
            state[start] = 1;
            let outside = [vec![0, 0, Basic::Raw.byte(), 255, 16], vec![0xFF; 4096]].concat();
            calls.push(Call { file: file.to_vec(), state, out_size: 512, named, outside, keeps: false });
        }
    }
    calls
}

/// The largest message cut and lengthened, with paths of each length.
pub fn parts() -> Vec<(Vec<u8>, [u16; 4])> {
    let (message, path) = maximal::message();
    let mut parts: Vec<(Vec<u8>, [u16; 4])> =
        (0..=message.len()).map(|length| (message[..length].to_vec(), path)).collect();
    let paths = [[3, 0, 0, 0], [3, 2, 0, 0], [3, 2, 7, 1], [9, 9, 9, 9], [0; 4], [3, 0, 7, 0]];
    parts.extend(paths.map(|path| (message.clone(), path)));
    parts.push(([message, vec![0; 21]].concat(), path));
    parts.push(([vec![0, 0, Basic::Void.byte(), 255, 0], vec![0xFF; 32_768]].concat(), path));
    parts
}

#[cfg(test)]
mod tests {
    use super::*;
    use stepper::Event;

    /// The events of all calls of a case.
    fn events(case: &Case) -> Vec<Event> {
        let mut events = Vec::new();
        case.each(&mut |call| {
            let result = stepper::step(&call.file, &mut call.state.clone(), &mut [0; 512], &call.named, &call.outside);
            events.extend(result.map(|made| made.event));
        });
        events
    }

    #[test]
    fn every_kind_of_move_is_made_in_the_full_slots() {
        for case in all().into_iter().filter(|case| case.name.starts_with("full_")) {
            let events = events(&case);
            let missed: Vec<Event> = Event::ALL.into_iter().filter(|event| !events.contains(event)).collect();
            assert_eq!(missed, [], "{}", case.name);
        }
    }

    #[test]
    fn local_moves_and_sends_work_the_expression_out() {
        let events = events(&expression("expression", |_| ()));
        let any = |these: &[Event]| these.iter().any(|event| events.contains(event));
        assert!(any(&[Event::Assigned]) && any(&[Event::SentOutside]), "{events:?}");
        assert!(any(&[Event::ThenTaken, Event::ElseTaken]), "{events:?}");
        assert!(any(&[Event::BodyTaken, Event::WhileDone]), "{events:?}");
        let mut outside = 0;
        expression("expression_outside", to_the_end).each(&mut |call| {
            let result = stepper::step(&call.file, &mut call.state.clone(), &mut [0; 512], &call.named, &call.outside);
            outside += usize::from(result.is_err_and(|refused| refused.number == 22));
        });
        assert_eq!(outside, 8);
    }

    #[test]
    fn the_tree_is_as_large_as_it_may_be() {
        let tree = full_tree();
        assert_eq!((tree.nodes(), tree.levels(), tree.bytes().len()), (49, 7, 1013));
    }

    #[test]
    fn names_are_unique() {
        let mut names: Vec<String> = all().into_iter().map(|case| case.name).collect();
        let count = names.len();
        names.sort();
        names.dedup();
        assert_eq!(names.len(), count);
    }
}
