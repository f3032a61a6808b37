//! Single moves that work out a sum outside its range, alone or beside another fault, which comes before it or after.

use second::network::Behaviour;
use second::{Network, Value};
use stepper::encode::{encode, STATE};
use stepper::state::{Destination, Queued, QUEUE};
use stepper::{Move, State, Tree};

use super::damage::crowd_to;
use super::Call;
use crate::random::Random;

/// What else is wrong.
#[derive(Clone, Copy, PartialEq, Eq, Debug)]
enum Fault {
    Nothing,
    NotReady,
    NoTarget,
    QueueFull,
    Missing,
    WrongKind,
    /// The sum itself is an operand of the wrong kind.
    WrongSum,
    /// The sum itself is the condition.
    NoBool,
    TreeSize,
    Unfit,
}

const FAULTS: [Fault; 10] = {
    use Fault::*;
    [Nothing, NotReady, NoTarget, QueueFull, Missing, WrongKind, WrongSum, NoBool, TreeSize, Unfit]
};

/// Roots of the client's tree: the greatest number, one, the least number; nothing stands at the last.
const MOST: u16 = 7;
const ONE: u16 = 8;
const LEAST: u16 = 9;
const NOWHERE: u16 = 99;

/// A network of one row that moves, and the state in which it does.
pub fn call(random: &mut Random) -> Call {
    let fault = *random.pick(&FAULTS).expect("a fault");
    with(random, fault)
}

fn with(random: &mut Random, fault: Fault) -> Call {
    let sums = Sums { word: if random.one_in(2) { "int" } else { "long" }, fault };
    let row = Row::some(random, fault);
    let truth = row.is_condition() || (row != Row::Assign && fault != Fault::Unfit && random.one_in(2));
    let truth = truth && fault != Fault::NoBool;
    let value = sums.faulty(random, truth);
    let sent = match (truth, fault) {
        (_, Fault::Unfit) => "string",
        (true, _) => "bool",
        (false, _) => sums.word,
    };
    let before = if fault == Fault::NotReady { "set 50 = true; " } else { "" };
    let text = format!(
        "location a = 1 location b = 2 location out = 100 type Sent = {sent}
        service a {{
            output 3 to b: Sent output 4 to b: Sent -> Sent output 5 to out: Sent output 6 to out: Sent -> Sent
            client {{ {before}{} }}
        }}
        service b {{ input 3: Sent input 4: Sent -> Sent client nil }}",
        row.text(&value)
    );
    let file = net::assemble(&text).unwrap_or_else(|error| panic!("{error}\n{text}")).file;
    let network = Network::read(&file).expect("a file that passes 2 to 5");
    let mut state = vec![0; STATE];
    encode(&crafted(random, &network, sums), &mut state);
    let named = row.named(&network, fault);
    Call { file, state, out_size: 512, named, outside: Vec::new(), keeps: false }
}

/// The client's tree with its numbers, now and then of 6 levels, of 48 nodes where the fault is its size; the other's
/// queue, full where that is the fault.
fn crafted(random: &mut Random, network: &Network, sums: Sums) -> State {
    let mut state = State::fresh(network);
    let [mut client, mut other] = [0, 1].map(|service| state.live(service, 0).cloned().expect("a client"));
    for (root, number) in [(MOST, sums.most()), (ONE, 1), (LEAST, -sums.most() - 1)] {
        client.tree.assign(&[root], &sums.value(number));
    }
    if random.one_in(4) {
        client.tree.assign(&[60; 6], &Value::Void);
    }
    if sums.fault == Fault::TreeSize {
        crowd_to(random, &mut client.tree, 48);
    }
    if sums.fault == Fault::QueueFull {
        let inputs: Vec<usize> =
            (0..network.operations.len()).filter(|&row| network.operations[row].service == 1).collect();
        for _ in 0..QUEUE {
            let &operation = random.pick(&inputs).expect("an input");
            let destination = network.operations[operation].reply.map(|_| Destination::Outsider(7));
            other.queue.push(Queued { operation, message: Tree::leaf(&sums.value(1)), destination });
        }
    }
    state.services[0][0] = Some(client);
    state.services[1][0] = Some(other);
    state
}

#[derive(Clone, Copy, PartialEq, Eq)]
enum Row {
    Assign,
    If,
    While,
    /// The id of its operation: 3 and 5 notify, 4 and 6 ask; 5 and 6 go outside.
    Send(u16),
}

impl Row {
    /// A row that can have the fault.
    fn some(random: &mut Random, fault: Fault) -> Row {
        let inside = Row::Send(random.between(3, 4) as u16);
        let send = Row::Send(random.between(3, 6) as u16);
        let condition = if random.one_in(2) { Row::If } else { Row::While };
        match fault {
            Fault::NoBool => condition,
            Fault::TreeSize => Row::Assign,
            Fault::QueueFull => inside,
            Fault::NoTarget | Fault::Unfit => send,
            _ => *random.pick(&[Row::Assign, condition, send, send]).expect("a row"),
        }
    }

    fn is_condition(self) -> bool {
        matches!(self, Row::If | Row::While)
    }

    fn text(self, value: &str) -> String {
        match self {
            Row::Assign => format!("set 100.1 = {value}"),
            Row::If => format!("if {value} then nil else nil"),
            Row::While => format!("while {value} do nil"),
            Row::Send(id) => {
                let to = if id < 5 { "b" } else { "out" };
                match id % 2 {
                    1 => format!("send {id} to {to} with {value}"),
                    _ => format!("ask {id} to {to} with {value} into 20"),
                }
            }
        }
    }

    /// The last row that can be moved; the one before it may be there to come first.
    fn named(self, network: &Network, fault: Fault) -> Move {
        let moves = |row: &Behaviour| !matches!(row, Behaviour::Nil | Behaviour::Sequence(..));
        let client = network.services[0].client.expect("a client");
        let others = network.services[1].client.expect("a client");
        let own = &network.behaviours[client..others];
        let row = (client + own.iter().rposition(moves).expect("the row")) as u16;
        match self {
            Row::Send(_) => Move::Send { service: 0, session: 0, row, target: (fault == Fault::NoTarget).into() },
            _ => Move::Local { service: 0, session: 0, row },
        }
    }
}

/// Expressions over one width, and the fault that goes into them.
#[derive(Clone, Copy)]
struct Sums {
    word: &'static str,
    fault: Fault,
}

impl Sums {
    fn most(self) -> i64 {
        match self.word {
            "int" => i32::MAX.into(),
            _ => i64::MAX,
        }
    }

    fn value(self, number: i64) -> Value {
        match self.word {
            "int" => Value::Int(number as i32),
            _ => Value::Long(number),
        }
    }

    /// A bool or a number with a sum outside its range in it, and with the fault if that is one of the expression.
    fn faulty(self, random: &mut Random, truth: bool) -> String {
        let wrong = match self.fault {
            Fault::Missing => NOWHERE.to_string(),
            Fault::WrongKind if truth => format!("(not {ONE})"),
            Fault::WrongKind => format!("({ONE} + true)"),
            Fault::WrongSum => return self.wrong_sum(random, truth),
            _ if truth => return self.truth(random, 2),
            _ => return self.number(random, 2),
        };
        if truth {
            let sum = self.truth(random, 1);
            either(random, &sum, &["and"], &wrong)
        } else {
            let sum = self.number(random, 1);
            either(random, &sum, &["+", "-"], &wrong)
        }
    }

    /// The sum keeps its basic type, which is the wrong one.
    fn wrong_sum(self, random: &mut Random, truth: bool) -> String {
        let sum = self.number(random, 1);
        let other = if self.word == "int" { "long 1" } else { "int 1" };
        let other = if random.one_in(2) { other } else { "true" };
        match (truth, random.below(3)) {
            (false, _) => either(random, &sum, &["+", "-"], other),
            (true, 0) => format!("not {sum}"),
            (true, 1) => either(random, &sum, &["and"], "true"),
            (true, _) => either(random, &sum, &["<", "=="], other),
        }
    }

    fn number(self, random: &mut Random, depth: usize) -> String {
        let sums = [
            format!("({MOST} + {ONE})"),
            format!("({ONE} + {MOST})"),
            format!("({MOST} + {MOST})"),
            format!("({LEAST} + {LEAST})"),
            format!("({LEAST} - {ONE})"),
            format!("({MOST} - {LEAST})"),
            format!("({ONE} - {LEAST})"),
            format!("(- {LEAST})"),
            format!("({} {} + {} 1)", self.word, self.most(), self.word),
        ];
        if depth == 0 || random.one_in(2) {
            return random.pick(&sums).expect("a sum").clone();
        }
        let inner = self.number(random, depth - 1);
        match random.below(3) {
            0 => format!("(- {inner})"),
            1 => either(random, &inner, &["+"], &ONE.to_string()),
            _ => either(random, &inner, &["-"], &LEAST.to_string()),
        }
    }

    fn truth(self, random: &mut Random, depth: usize) -> String {
        if depth > 0 && random.one_in(2) {
            let inner = self.truth(random, depth - 1);
            return match random.below(3) {
                0 => format!("(not {inner})"),
                1 => either(random, &inner, &["and"], "false"),
                _ => either(random, &inner, &["=="], "true"),
            };
        }
        let inner = self.number(random, depth);
        either(random, &inner, &["<", "=="], &ONE.to_string())
    }
}

/// One of some operators between two operands, one or the other on the left.
fn either(random: &mut Random, a: &str, operators: &[&str], b: &str) -> String {
    let operator = random.pick(operators).expect("an operator");
    if random.one_in(2) {
        format!("({a} {operator} {b})")
    } else {
        format!("({b} {operator} {a})")
    }
}

#[cfg(test)]
mod tests {
    use super::*;

    /// What comes before 22 is given, and 22 before what comes after.
    #[test]
    fn each_fault_gives_its_number() {
        let mut random = Random::new(4);
        for (fault, number) in FAULTS.into_iter().zip([22, 15, 15, 16, 18, 18, 18, 18, 18, 22]) {
            for _ in 0..300 {
                let call = with(&mut random, fault);
                let (mut state, mut out) = (call.state.clone(), vec![0; call.out_size]);
                let refused = stepper::step(&call.file, &mut state, &mut out, &call.named, &[]).expect_err("a refusal");
                assert_eq!(refused.number, number, "{fault:?}\n{}", net::disassemble(&call.file).expect("a text"));
                assert!(state == call.state && out.iter().all(|&byte| byte == 0), "a refusal changes nothing");
            }
        }
    }
}
