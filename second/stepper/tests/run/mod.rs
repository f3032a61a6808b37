//! A network in text, its state, and moves on it.
#![allow(dead_code)]

use second::{Network, Tables, Value};
use stepper::state::{Session, State};
use stepper::{Made, Move, Refused, Tree};

pub const NIL: u8 = 0;
pub const RECEIVE: u8 = 1;
pub const ANSWER: u8 = 2;
pub const SEND: u8 = 3;
pub const ASK: u8 = 4;
pub const IF: u8 = 5;
pub const WHILE: u8 = 6;
pub const ASSIGN: u8 = 9;
pub const CHOICE: u8 = 10;

const UNTOUCHED: u8 = 0xa5;

pub struct Run {
    pub file: Vec<u8>,
    pub state: Vec<u8>,
    pub out: Vec<u8>,
}

/// The file of a text, which need not be accepted.
pub fn assemble(text: &str) -> Vec<u8> {
    net::assemble(text).unwrap_or_else(|error| panic!("{error}\n{text}")).file
}

impl Run {
    /// The fresh state of a text that is accepted.
    pub fn new(text: &str) -> Run {
        let mut run = Run::wrong(text);
        stepper::fresh(&run.file, &mut run.state).unwrap_or_else(|refused| panic!("{refused}\n{text}"));
        run
    }

    /// The same for a text that the checker may refuse: clients live, all else free.
    pub fn wrong(text: &str) -> Run {
        let file = assemble(text);
        let network = Network::read(&file).expect("right rows");
        let mut state = vec![0; 65_536];
        stepper::encode::encode(&State::fresh(&network), &mut state);
        Run { file, state, out: vec![UNTOUCHED; 600] }
    }

    pub fn network(&self) -> Network {
        Network::read(&self.file).expect("right rows")
    }

    /// The rows of a kind, in the order of the text.
    pub fn rows(&self, kind: u8) -> Vec<u16> {
        let (tables, _) = Tables::read(&self.file).expect("a file");
        (0..tables.behaviours.len() as u16).filter(|&row| tables.behaviours[usize::from(row)].kind == kind).collect()
    }

    pub fn row(&self, kind: u8, number: usize) -> u16 {
        self.rows(kind)[number]
    }

    /// Gives a row another operation.
    pub fn rename(&mut self, row: u16, operation: u16) {
        let (mut tables, _) = Tables::read(&self.file).expect("a file");
        tables.behaviours[usize::from(row)].fields[0] = operation;
        self.file = tables.write();
    }

    pub fn try_move(&mut self, named: Move, outside: &[u8]) -> Result<Made, Refused> {
        let before = (self.state.clone(), self.out.clone());
        let result = stepper::step(&self.file, &mut self.state, &mut self.out, &named, outside);
        match result {
            Ok(made) => assert!(self.out[made.bytes..] == before.1[made.bytes..], "out bytes past the count"),
            Err(_) => assert!((self.state.clone(), self.out.clone()) == before, "a refused move changed a buffer"),
        }
        result
    }

    /// Makes a move and gives the bytes that it wrote.
    pub fn make(&mut self, named: Move, outside: &[u8]) -> Vec<u8> {
        let made = self.try_move(named, outside).unwrap_or_else(|refused| panic!("{named:?}: {refused}"));
        self.out[..made.bytes].to_vec()
    }

    /// The number of a refusal.
    pub fn refused(&mut self, named: Move, outside: &[u8]) -> u8 {
        self.try_move(named, outside).map_or_else(|refused| refused.number, |made| panic!("{named:?}: {made:?}"))
    }

    pub fn local(&mut self, service: u16, session: u16, row: u16) {
        assert_eq!(self.make(Move::Local { service, session, row }, &[]), []);
    }

    pub fn receive(&mut self, service: u16, session: u16, row: u16) {
        assert_eq!(self.make(Move::Receive { service, session, row }, &[]), []);
    }

    pub fn send(&mut self, service: u16, session: u16, row: u16, target: u16) -> Vec<u8> {
        self.make(Move::Send { service, session, row, target }, &[])
    }

    pub fn reply(&mut self, service: u16, session: u16, row: u16) -> Vec<u8> {
        self.make(Move::Reply { service, session, row }, &[])
    }

    pub fn outer(&mut self, service: u16, id: u16, target: u16, number: u32, outside: &[u8]) {
        assert_eq!(self.make(Move::OuterMessage { service, id, target, number }, outside), []);
    }

    pub fn close(&mut self, service: u16, session: u16) {
        assert_eq!(self.make(Move::Close { service, session }, &[]), []);
    }

    pub fn decoded(&self) -> State {
        stepper::decode::decode(&self.network(), &self.state).unwrap_or_else(|wrong| panic!("{wrong:?}"))
    }

    pub fn session(&self, service: usize, session: usize) -> Option<Session> {
        self.decoded().live(service, session).cloned()
    }

    /// The value at a path of a session's tree.
    pub fn value(&self, service: usize, session: usize, path: &[u16]) -> Option<Value> {
        self.session(service, session)?.tree.find(path)?.root_value()
    }

    /// Changes a session as no move would.
    pub fn change(&mut self, service: usize, session: usize, change: impl FnOnce(&mut Session)) {
        let mut state = self.decoded();
        change(state.live_mut(service, session).expect("a live session"));
        stepper::encode::encode(&state, &mut self.state);
    }
}

/// The message of a single value.
pub fn leaf(value: Value) -> Vec<u8> {
    Tree::leaf(&value).bytes()
}

/// A void message with children.
pub fn void(children: &[(&[u16], Value)]) -> Vec<u8> {
    let mut tree = Tree::void(0);
    children.iter().for_each(|(path, value)| tree.assign(path, value));
    tree.bytes()
}

pub fn int(number: i32) -> Value {
    Value::Int(number)
}
