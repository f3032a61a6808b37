//! Single messages to a keyed service: to each sort of session, alone or with another fault, which comes before the key or
//! after it.

use second::network::{Behaviour, Network};
use second::{Basic, Value};
use stepper::encode::{encode, STATE};
use stepper::rows::Rows;
use stepper::state::{Destination, Progress, Queued, Session, QUEUE};
use stepper::{Move, State, Tree};

use super::Call;
use crate::keys;
use crate::random::Random;

/// Where the message goes.
#[derive(Clone, Copy, PartialEq, Eq, Debug)]
enum Target {
    /// The session with its key.
    Own,
    /// A live session with another key.
    Other,
    /// A free session; none has its key.
    New,
    /// A free session; another one has its key.
    Held,
    Client,
}

/// What else is wrong.
#[derive(Clone, Copy, PartialEq, Eq, Debug)]
enum Fault {
    Nothing,
    /// The message fits and has no int where the key should be: 23 refuses the file.
    NoInt,
    QueueFull,
    NoMessage,
    Missing,
    Beyond,
    Unfit,
    TreeSize,
}

/// Who sends.
#[derive(Clone, Copy, PartialEq, Eq, Debug)]
enum Sender {
    Outsider,
    /// The client of another service.
    Elsewhere,
    /// The keyed service's own client.
    Client,
    /// A session of the keyed service.
    Session,
}

const TARGETS: [Target; 5] = [Target::Own, Target::Other, Target::New, Target::Held, Target::Client];

const FAULTS: [Fault; 8] = {
    use Fault::*;
    [Nothing, NoInt, QueueFull, NoMessage, Missing, Beyond, Unfit, TreeSize]
};

const SENDERS: [Sender; 4] = [Sender::Outsider, Sender::Elsewhere, Sender::Client, Sender::Session];

/// One message; nothing else is wrong with it in every third.
pub fn call(random: &mut Random) -> Call {
    loop {
        let fault = if random.one_in(3) { Fault::Nothing } else { *random.pick(&FAULTS).expect("a fault") };
        let met = Meeting {
            target: *random.pick(&TARGETS).expect("a target"),
            sender: *random.pick(&SENDERS).expect("a sender"),
            fault,
        };
        if met.can_be() {
            return met.call(random);
        }
    }
}

#[derive(Clone, Copy, Debug)]
struct Meeting {
    target: Target,
    fault: Fault,
    sender: Sender,
}

/// The services of the network.
const ELSEWHERE: usize = 0;
const KEYED: usize = 1;
/// Where the sender has its message, and where nothing stands.
const MESSAGE: u16 = 7;
const NOWHERE: u16 = 99;

impl Meeting {
    /// A full queue is of a live session, a tree too large of a free one; outsiders send bytes, services values.
    fn can_be(self) -> bool {
        let live = !matches!(self.target, Target::New | Target::Held);
        match self.fault {
            Fault::QueueFull => live,
            Fault::TreeSize => !live,
            Fault::NoMessage => self.sender == Sender::Outsider,
            Fault::Missing | Fault::Beyond => self.sender != Sender::Outsider,
            Fault::Nothing | Fault::NoInt | Fault::Unfit => true,
        }
    }

    fn call(self, random: &mut Random) -> Call {
        let id = *random.pick(&[1, 3, 300]).expect("an id");
        let key = keys::some(random);
        let (children, message) = self.message(random, id, key);
        let asks = random.one_in(2);
        let file = net::assemble(&self.text(id, &children, asks)).unwrap_or_else(|error| panic!("{error}")).file;
        let network = Network::read(&file).expect("a file that passes 2 to 5");
        let (mut state, target) = self.sessions(random, &network, key);
        let named = self.named(random, &network, &mut state, &message, target, asks);
        let mut bytes = vec![0; STATE];
        encode(&state, &mut bytes);
        let mut outside = if self.sender == Sender::Outsider { message.bytes() } else { Vec::new() };
        if self.fault == Fault::NoMessage {
            outside.pop();
        }
        Call { file, state: bytes, out_size: 512, named, outside, keeps: false }
    }

    /// The children of the request type, and a message.
    fn message(self, random: &mut Random, id: u16, key: i32) -> (String, Tree) {
        let mut message = Tree::void(0);
        let no_int = self.fault == Fault::NoInt || (self.fault == Fault::QueueFull && random.one_in(3));
        let children = match random.below(3) {
            0 if no_int => format!("{id}?: int"),
            1 if no_int => {
                message.assign(&[id], &Value::Long(key.into()));
                format!("{id}: long")
            }
            _ if no_int => {
                message.assign(&[id + 1, id], &Value::Int(key));
                format!("{}: void {{ {id}: int }}", id + 1)
            }
            _ if self.fault == Fault::TreeSize => {
                message.assign(&[id, 1, 1], &Value::Int(key));
                message.assign(&[id], &Value::Int(key));
                format!("{id}: int {{ 1: void {{ 1: int }} }}")
            }
            _ => {
                message.assign(&[id], &Value::Int(key));
                format!("{id}: int, 20?: bool")
            }
        };
        if self.fault == Fault::Unfit {
            message.assign(&[60_000], &Value::Void);
        }
        (children, message)
    }

    /// A message is too deep for a path of four steps.
    fn text(self, id: u16, children: &str, asks: bool) -> String {
        let into = if self.fault == Fault::TreeSize { "5.5.5.5" } else { "5" };
        let value = match self.fault {
            Fault::Missing => NOWHERE.to_string(),
            Fault::Beyond => "int 2147483647 + int 1".into(),
            _ => MESSAGE.to_string(),
        };
        let row = if asks { format!("ask 4 to 2 with {value} into 8") } else { format!("send 3 to 2 with {value}") };
        let outputs = "output 3 to 2: Sent output 4 to 2: Sent -> Sent";
        format!(
            "type Sent = void {{ {children} }}
            service 1 {{ {outputs} client {row} }}
            service 2 keyed by {id} {{
                input 3: Sent input 4: Sent -> Sent {outputs}
                client {row}
                starter choice {{ on receive 3 into {into} then {row} on answer 4 into {into} do nil reply 5 then nil }}
            }}"
        )
    }

    /// Sessions with keys as the target asks for, and the target's number.
    fn sessions(self, random: &mut Random, network: &Network, key: i32) -> (State, usize) {
        let mut numbers = [1, 2, 3];
        numbers.rotate_left(random.below(3));
        let [target, other, third] = numbers;
        let mut state = State::fresh(network);
        let mut held = vec![key];
        let mut wake = |number: usize, key: i32| {
            state.services[KEYED][number] = Some(Session { key: Some(key), ..Session::new(network) });
        };
        let mut another = || {
            held.push(keys::other_than(random, &held));
            held[held.len() - 1]
        };
        let (first, second, last) = (another(), another(), another());
        match self.target {
            Target::Own => wake(target, key),
            Target::Other => wake(target, first),
            _ => {}
        }
        let sends = self.sender == Sender::Session && matches!(self.target, Target::New | Target::Client);
        match self.target {
            Target::Held => wake(other, key),
            Target::Other if random.one_in(2) => wake(other, key),
            _ if sends || random.one_in(2) => wake(other, second),
            _ => {}
        }
        if random.one_in(2) {
            wake(third, last);
        }
        (state, if self.target == Target::Client { 0 } else { target })
    }

    /// The move; the sender has the message and is about to send it, the target's queue is full where that is wrong.
    fn named(
        self,
        random: &mut Random,
        network: &Network,
        state: &mut State,
        message: &Tree,
        target: usize,
        asks: bool,
    ) -> Move {
        if let Some(live) = state.live_mut(KEYED, target).filter(|_| self.fault == Fault::QueueFull) {
            let queued = |_| some_queued(random, network);
            live.queue = (0..QUEUE).map(queued).collect();
        }
        let (service, session) = match self.sender {
            Sender::Outsider => {
                let (service, id) = (KEYED as u16, if asks { 4 } else { 3 });
                return Move::OuterMessage { service, id, target: target as u16, number: random.draw() as u32 };
            }
            Sender::Elsewhere => (ELSEWHERE, 0),
            Sender::Client => (KEYED, 0),
            Sender::Session => (KEYED, some_live(random, state)),
        };
        let row = ready_to_send(network, state, service, session);
        let live = state.live_mut(service, session).expect("a live sender");
        live.tree.replace(&[MESSAGE], message);
        Move::Send { service: service as u16, session: session as u16, row: row as u16, target: target as u16 }
    }
}

/// A message of any key in a queue of the keyed service.
fn some_queued(random: &mut Random, network: &Network) -> Queued {
    let inputs: Vec<usize> =
        (0..network.operations.len()).filter(|&row| network.operations[row].location == 0).collect();
    let &operation = random.pick(&inputs).expect("an input");
    let destination = network.operations[operation].reply.map(|_| Destination::Outsider(7));
    let message = Tree { basic: Basic::Int, value: keys::some(random).to_le_bytes().to_vec(), ..Tree::void(0) };
    Queued { operation, message, destination }
}

/// One of the live sessions 1 to 3 of the keyed service.
fn some_live(random: &mut Random, state: &State) -> usize {
    let live: Vec<usize> = (1..4).filter(|&number| state.live(KEYED, number).is_some()).collect();
    *random.pick(&live).expect("a live session")
}

/// The row of a session that sends, which is ready once its branch is taken.
fn ready_to_send(network: &Network, state: &mut State, service: usize, session: usize) -> usize {
    let rows = Rows::of(network);
    let root = rows.root(service, session).expect("a behaviour");
    let live = state.live_mut(service, session).expect("a live sender");
    if let Behaviour::Choice { branches } = &network.behaviours[root] {
        live.progress[root] = Progress::Taken(0);
        let input = network.behaviours[branches.start].parts()[0];
        live.progress[input] = Progress::Done;
    }
    rows.ready(live, root)[0].row
}

#[cfg(test)]
mod tests {
    use super::*;

    /// What is tried before the key, what the key gives, and what is tried after it.
    fn number(met: Meeting) -> u8 {
        match (met.fault, met.target) {
            (Fault::QueueFull, _) => 16,
            (Fault::NoMessage, _) => 17,
            (Fault::Missing, _) => 18,
            (Fault::Beyond, _) => 22,
            (Fault::Unfit, _) => 19,
            (Fault::NoInt, _) | (_, Target::Other | Target::Held | Target::Client) => 15,
            (Fault::TreeSize, _) => 18,
            (Fault::Nothing, Target::Own | Target::New) => 0,
        }
    }

    #[test]
    fn each_meeting_gives_its_number() {
        let mut random = Random::new(4);
        let mut tried = 0;
        for target in TARGETS {
            for (fault, sender) in FAULTS.iter().flat_map(|&fault| SENDERS.map(|sender| (fault, sender))) {
                let met = Meeting { target, fault, sender };
                for _ in 0..if met.can_be() { 30 } else { 0 } {
                    let call = met.call(&mut random);
                    let (mut state, mut out) = (call.state.clone(), vec![0; call.out_size]);
                    let result = stepper::step(&call.file, &mut state, &mut out, &call.named, &call.outside);
                    let found = result.map_or_else(|refused| refused.number, |_| 0);
                    assert_eq!(found, number(met), "{met:?}\n{}", net::disassemble(&call.file).expect("a text"));
                    assert_eq!(state == call.state, found != 0);
                    tried += 1;
                }
            }
        }
        assert!(tried > 2_500, "{tried}");
    }
}
