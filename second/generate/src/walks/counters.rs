//! Counters that run to the ends of int and long, as networks in text: worked out in assigns, conditions and
//! messages, by themselves and below other operators.

use crate::random::Random;

/// A file with counters. Most are accepted; in the others no int or long that is sent fits.
pub fn file(random: &mut Random) -> Vec<u8> {
    let exchanged = random.one_in(6);
    loop {
        if let Ok(made) = net::assemble(&text(random, exchanged)) {
            return made.file;
        }
    }
}

/// A service whose client and sessions count, and one that takes what it is sent and answers.
fn text(random: &mut Random, exchanged: bool) -> String {
    // Sends that do not fit stop a session, so that its counters must not have far to go.
    let near = if exchanged { 2 } else { 8 };
    let [int_type, long_type] = if exchanged { ["long", "int"] } else { ["int", "long"] };
    let client = format!("parallel {{ {} }} {{ {} }}", lane(random, near, 10, None), lane(random, near, 20, None));
    let (int, long) = (lane(random, near, 30, Some("int")), lane(random, near, 40, Some("long")));
    let [a, b] = [steps(random), steps(random)];
    format!(
        "location a = 1 location b = 2 location out = 100
        type Int = {int_type} type Long = {long_type} type Flag = bool
        service a {{
            input 2: Int
            input 9: Long
            {outputs}
            client {client}
            starter choice {{ on receive 2 into 31 then {{ {int} }} on receive 9 into 41 then {{ {long} }} }}
        }}
        service b {{
            {inputs}
            client {{
                set 3 = int 0; set 4 = int 0; set 13 = long 0; set 14 = long 0; set 23 = true; set 24 = true;
                while true do choice {{ {branches} }}
            }}
            starter choice {{ {branches} }}
        }}",
        outputs = KINDS.map(|(first, name)| outputs(first, name)).concat(),
        inputs = KINDS.map(|(first, name)| inputs(first, name)).concat(),
        branches = [branches(3, &a), branches(13, &b), branches(23, "nil")].concat(),
    )
}

/// First operation id and type name of what is sent.
const KINDS: [(u16, &str); 3] = [(3, "Int"), (13, "Long"), (23, "Flag")];

fn outputs(first: u16, name: &str) -> String {
    let [second, third, fourth] = [first + 1, first + 2, first + 3];
    format!(
        "output {first} to b: {name} output {second} to b: {name} -> {name} \
         output {third} to out: {name} output {fourth} to out: {name} -> {name} "
    )
}

fn inputs(first: u16, name: &str) -> String {
    format!("input {first}: {name} input {}: {name} -> {name} ", first + 1)
}

/// A message is taken; a request is answered, perhaps after a sum.
fn branches(first: u16, body: &str) -> String {
    let second = first + 1;
    let body = body.replace("COUNTER", &second.to_string());
    format!(
        "on receive {first} into {first} then nil \
         on answer {second} into {second} do {body} reply {second} then nil "
    )
}

fn steps(random: &mut Random) -> String {
    let body = ["nil", "set COUNTER = COUNTER + COUNTER", "set COUNTER = - COUNTER", "set COUNTER = COUNTER - COUNTER"];
    random.pick(&body).expect("a body").to_string()
}

/// One counter with its roots.
struct Lane {
    word: &'static str,
    counter: u16,
    step: u16,
    flag: u16,
    reply: u16,
    /// What comes next: outside the range once the counter is at its end.
    ahead: String,
}

/// A counter that starts near an end of its range, or where a message says, and steps towards it.
fn lane(random: &mut Random, near: usize, base: u16, received: Option<&'static str>) -> String {
    let word = received.unwrap_or(if random.one_in(2) { "int" } else { "long" });
    let (least, most) = ends(word);
    let near = random.below(near) as i128;
    let (start, by, operator) = match random.below(6) {
        0 => (least + near, -1, "+"),
        1 => (least + near, 1, "-"),
        2 => (most - near, -1, "-"),
        3 => (most / 4, most / 3, "+"),
        4 => (least / 4, most / 3, "-"),
        _ => (most - near, 1 + random.below(2) as i128, "+"),
    };
    let [counter, step, flag, reply] = [base + 1, base + 2, base + 3, base + 4];
    let negates = random.one_in(8);
    let ahead = if negates { format!("- {counter}") } else { format!("{counter} {operator} {step}") };
    let start = if negates { least + near.min(1) } else { start };
    let begin = if received.is_some() { String::new() } else { format!("set {counter} = {word} {start}; ") };
    let lane = Lane { word, counter, step, flag, reply, ahead };
    let turn = match random.below(3) {
        0 => "true".to_string(),
        1 => flag.to_string(),
        _ => lane.truth(random, 2),
    };
    let mut body: Vec<String> = (0..random.between(1, 3)).map(|_| lane.statement(random)).collect();
    body.insert(random.below(body.len() + 1), format!("set {counter} = {}", lane.ahead));
    let last = lane.statement(random);
    format!(
        "{begin}set {step} = {word} {by}; set {flag} = true; set {reply} = {word} 0; \
         while {turn} do {{ {} }}; {last}",
        body.join("; ")
    )
}

fn ends(word: &str) -> (i128, i128) {
    match word {
        "int" => (i32::MIN.into(), i32::MAX.into()),
        _ => (i64::MIN.into(), i64::MAX.into()),
    }
}

impl Lane {
    fn statement(&self, random: &mut Random) -> String {
        let first = if self.word == "int" { 3 } else { 13 };
        let number = self.number(random, 2);
        let truth = self.truth(random, 2);
        match random.below(12) {
            0 => format!("set {} = {number}", self.counter),
            1 => format!("set {} = {truth}", self.flag),
            2 => format!("if {truth} then set {0} = {1} else set {0} = not {0}", self.flag, self.truth(random, 1)),
            3 => format!("if {truth} then nil else set {} = {number}", self.reply),
            4 | 5 => format!("while {truth} do set {} = {number}", self.reply),
            6 => format!("send {first} to b with {number}"),
            7 => format!("send {} to out with {number}", first + 2),
            8 => format!("ask {} to b with {number} into {}", first + 1, self.reply),
            9 => format!("ask {} to out with {number} into {}", first + 3, self.reply),
            10 => {
                let (id, place) = *random.pick(&[(23, "b"), (25, "out")]).expect("two");
                format!("send {id} to {place} with {truth}")
            }
            _ => {
                let (id, place) = *random.pick(&[(24, "b"), (26, "out")]).expect("two");
                format!("ask {id} to {place} with {truth} into {}", self.flag)
            }
        }
    }

    /// A number, often the next one.
    fn number(&self, random: &mut Random, depth: usize) -> String {
        if depth > 0 && random.one_in(3) {
            let (a, b) = (self.number(random, depth - 1), self.number(random, depth - 1));
            return match random.below(3) {
                0 => format!("({a} + {b})"),
                1 => format!("({a} - {b})"),
                _ => format!("(- {a})"),
            };
        }
        match random.below(8) {
            0 | 1 => self.counter.to_string(),
            2 => self.step.to_string(),
            3 => format!("{} {}", self.word, random.below(3) as i64 - 1),
            4 => self.reply.to_string(),
            _ => format!("({})", self.ahead),
        }
    }

    fn truth(&self, random: &mut Random, depth: usize) -> String {
        if depth > 0 && random.one_in(2) {
            let a = self.truth(random, depth - 1);
            return match random.below(4) {
                0 => format!("(not {a})"),
                1 => format!("({a} and {})", self.truth(random, depth - 1)),
                // False at first, and worked out all the same.
                2 => format!("(not {} and {a})", self.flag),
                _ => format!("({a} == {})", self.truth(random, depth - 1)),
            };
        }
        let (a, b) = (self.number(random, depth), self.number(random, depth));
        match random.below(6) {
            0 => self.flag.to_string(),
            1 => format!("({a} == {b})"),
            _ => format!("({a} < {b})"),
        }
    }
}

#[cfg(test)]
mod tests {
    use super::*;

    #[test]
    fn all_are_accepted_but_those_with_the_types_exchanged() {
        let mut random = Random::new(3);
        for _ in 0..300 {
            for exchanged in [false, true] {
                let text = text(&mut random, exchanged);
                let file = net::assemble(&text).unwrap_or_else(|error| panic!("{error}\n{text}")).file;
                let number = second::check(&file).map_or_else(|refusal| refusal.number, |_| 0);
                let expected: &[u8] = if exchanged { &[8, 9] } else { &[0] };
                assert!(expected.contains(&number), "{number}\n{text}");
            }
        }
    }
}
