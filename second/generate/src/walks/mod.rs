//! Walks: lists of moves over a network, mostly plausible ones, from its fresh state on.

pub mod choose;
pub mod counters;
pub mod damage;
pub mod encounters;
mod ends;
pub mod exact;
pub mod hits;
pub mod hoists;
mod key_hits;
pub mod keys;
pub mod meetings;
pub mod networks;
pub mod outside;
pub mod property;
pub mod strings;
mod sums;
pub mod texts;

use second::Network;
use stepper::decode::decode;
use stepper::encode::{encode, STATE};
use stepper::{Move, State};

use crate::keys::held;
use crate::nests;
use crate::random::Random;
use choose::Candidates;

pub use hits::WalkHits;

/// Everything that a move is given.
#[derive(Clone)]
pub struct Call {
    pub file: Vec<u8>,
    pub state: Vec<u8>,
    pub out_size: usize,
    pub named: Move,
    pub outside: Vec<u8>,
    /// File and state are those of the walk: the state after the move is its next one.
    pub keeps: bool,
}

/// A network and the state that the moves have left so far.
pub struct Walk {
    pub file: Vec<u8>,
    pub network: Network,
    pub state: Vec<u8>,
    /// An accepted file, and nothing but moves since its fresh state.
    pub from_fresh: bool,
    /// The chance in a thousand that the state is damaged before a move.
    damage: usize,
    /// Services with the keys of sessions that were closed.
    closed: Vec<(usize, i32)>,
    pub moves: usize,
}

impl Walk {
    /// The fresh state of some file; of one that is refused by 6 to 23 too, as the moves take it.
    pub fn begin(random: &mut Random) -> Walk {
        let file = networks::file(random);
        let network = Network::read(&file).expect("a file that passes 2 to 5");
        let mut state = vec![0; STATE];
        encode(&State::fresh(&network), &mut state);
        let from_fresh = second::check(&file).is_ok();
        let nested = nests::depths(&network).iter().any(|depths| !nests::nests_of(depths).is_empty());
        let damage = if random.one_in(if nested { 8 } else { 2 }) { 0 } else { random.between(50, 300) };
        let moves = random.between(30, 100);
        Walk { file, network, state, from_fresh, damage, closed: Vec::new(), moves }
    }

    /// The next call. May damage the state before.
    pub fn call(&mut self, random: &mut Random) -> Call {
        let mut state = decode(&self.network, &self.state).expect("a state of the file's shape");
        if random.per_mille(self.damage) {
            damage::state(random, &self.network, &mut state);
            encode(&state, &mut self.state);
            self.from_fresh = false;
        }
        let candidate = Candidates::of(&self.network, &state).pick(random);
        let mut named = candidate.map_or_else(|| choose::any_move(random, &self.network), |candidate| candidate.named);
        let type_row = candidate.and_then(|candidate| candidate.type_row);
        match random.below(30) {
            0 => named = choose::any_move(random, &self.network),
            1 | 2 => named = choose::astray(random, &self.network, named),
            3 => named = choose::of_other_kind(random, named),
            4 | 5 => named = choose::own_row(random, &self.network, &state).unwrap_or(named),
            _ => {}
        }
        let mut call = Call {
            file: self.file.clone(),
            state: self.state.clone(),
            out_size: random.between(512, 700),
            named,
            outside: outside::bytes(random, &self.network, &state, &named, type_row),
            keeps: true,
        };
        if random.one_in(6) {
            self.spoil(random, &state, &mut call);
        }
        call
    }

    /// Wrong buffers, another file or other state bytes for this one move.
    fn spoil(&self, random: &mut Random, state: &State, call: &mut Call) {
        match random.below(10) {
            0 => call.out_size = if random.one_in(2) { 511 } else { random.below(512) },
            1 => {
                call.keeps = false;
                call.state.resize(*random.pick(&[0, 65_535, 65_537, 4096]).expect("four"), 0);
            }
            2..=5 => {
                call.keeps = false;
                call.file = damaged_file(random, &self.file);
            }
            _ => {
                call.keeps = false;
                damage::bytes(random, &self.network, state, &mut call.state);
            }
        }
    }

    pub fn is_keyed(&self) -> bool {
        self.network.services.iter().any(|service| service.key.is_some())
    }

    /// Whether a session is live after a call with the key of one that was closed.
    pub fn starts_anew(&self, call: &Call, state: &[u8]) -> bool {
        call.keeps && newcomers(&self.state, state).any(|keyed| self.closed.contains(&keyed))
    }

    /// The state after a call.
    pub fn made(&mut self, call: &Call, state: Vec<u8>) {
        if call.keeps {
            self.closed.extend(newcomers(&state, &self.state));
            self.state = state;
        }
    }
}

/// Services and keys of sessions that are live in the second state and not in the first.
fn newcomers<'a>(first: &'a [u8], second: &'a [u8]) -> impl Iterator<Item = (usize, i32)> + 'a {
    let live = (0..4).flat_map(|service| held::live_keys(second, service).into_iter().map(move |at| (service, at)));
    live.filter(|&(service, (session, _))| !held::is_live(first, service, session))
        .map(|(service, (_, key))| (service, key))
}

/// A file that one of 2 to 5 refuses, most of the time.
fn damaged_file(random: &mut Random, file: &[u8]) -> Vec<u8> {
    use crate::damage;
    let (mut tables, _) = second::Tables::read(file).expect("a file that passes 2 to 5");
    match random.below(6) {
        0 => return file[..random.below(file.len())].to_vec(),
        1 | 2 => damage::sizes(random, &mut tables),
        3 => damage::rows(random, &mut tables),
        4 => tables.services.resize(*random.pick(&[0, 5]).expect("two"), tables.services[0]),
        _ => {
            let mut file = file.to_vec();
            damage::bytes(random, &mut file);
            return file;
        }
    }
    tables.write()
}
