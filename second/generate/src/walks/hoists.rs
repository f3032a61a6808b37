//! Keyed services as networks in text: sessions by hoist number that are told and asked, by clients, by each other and by
//! themselves. Most are accepted; some have an input without the key beside right ones.

use crate::keys;
use crate::random::Random;

pub fn file(random: &mut Random) -> Vec<u8> {
    let text = text(random);
    net::assemble(&text).unwrap_or_else(|error| panic!("{error}\n{text}")).file
}

/// What the services of a network have in common.
struct Hall {
    /// The id that is the key.
    key: u16,
    /// The key has a child.
    deep: bool,
    /// Which services are keyed.
    keyed: Vec<bool>,
    /// The type of an input that has not the key, as its children.
    odd: Option<&'static str>,
}

/// Types of an input that has not the key, with KEY for its id.
const ODD: [&str; 4] = ["KEY?: int", "KEY: long", "KEY?: raw", "60000?: int"];

fn text(random: &mut Random) -> String {
    let count = random.between(2, 3);
    let mut keyed: Vec<bool> = (0..count).map(|_| random.one_in(2)).collect();
    keyed[random.below(count)] = true;
    let hall = Hall {
        key: *random.pick(&[1, 3, 255, 256, 65_535]).expect("an id"),
        deep: random.one_in(3),
        keyed,
        odd: random.one_in(5).then(|| *random.pick(&ODD).expect("a type")),
    };
    let services: String = (0..count).map(|service| hall.service(random, service)).collect();
    format!("{}{services}", hall.types())
}

impl Hall {
    fn types(&self) -> String {
        let below = if self.deep { " { 9: bool }" } else { "" };
        let odd = self.odd.map_or(String::new(), |odd| format!("type Odd = void {{ {odd} }} "));
        format!("type Lift = void {{ KEY: int{below}, 2: int }} {odd}").replace("KEY", &self.key.to_string())
    }

    /// Inputs for lifts, told and asked, and outputs to those of every service, of the own one too.
    fn service(&self, random: &mut Random, service: usize) -> String {
        let keyed = if self.keyed[service] { format!(" keyed by {}", self.key) } else { String::new() };
        let outputs: String = (1..=self.keyed.len())
            .map(|to| {
                let odd = self.odd.map_or(String::new(), |_| format!("output 5 to {to}: Odd "));
                format!("output 3 to {to}: Lift output 4 to {to}: Lift -> Lift {odd}")
            })
            .collect();
        let odd = self.odd.map_or("", |_| "input 5: Odd ");
        format!(
            "service {}{keyed} {{ input 3: Lift input 4: Lift -> Lift {odd}{outputs} output 6 to 100: Lift
                client {}
                starter choice {{ {} }} }}\n",
            service + 1,
            self.client(random, service),
            self.branches(random, service)
        )
    }

    /// Makes a lift at a root.
    fn lift(&self, random: &mut Random, root: u16) -> String {
        let below = if self.deep { format!("set {root}.{}.9 = true; ", self.key) } else { String::new() };
        let number = keys::some(random);
        format!("set {root}.{} = int {number}; {below}set {root}.2 = int {}; ", self.key, random.below(3))
    }

    /// Lifts at 5 and 6 that go to sessions, in a loop.
    fn client(&self, random: &mut Random, service: usize) -> String {
        let receives = !self.keyed[service] || random.one_in(6);
        let body = self.statements(random, service, [5, 6], receives);
        format!("{{ {}{}while true do {{ {body} }} }}", self.lift(random, 5), self.lift(random, 6))
    }

    /// A session keeps its lift at 10 and another one at 11.
    fn branches(&self, random: &mut Random, service: usize) -> String {
        let rest = |random: &mut Random| {
            let lift = self.lift(random, 11);
            let turns = if random.one_in(2) {
                format!(
                    "while 10.2 < int 2 do {{ set 10.2 = int 2; {} }}; ",
                    self.statements(random, service, [10, 11], true)
                )
            } else {
                String::new()
            };
            format!("{{ {lift}{turns}{} }}", self.statements(random, service, [10, 11], true))
        };
        let body =
            if random.one_in(2) { "nil".into() } else { format!("set 10.{} = int {}", self.key, keys::some(random)) };
        let odd = self.odd.map_or("", |_| "on receive 5 into 12 then nil");
        format!(
            "on receive 3 into 10 then {} on answer 4 into 10 do {body} reply 10 then {} {odd}",
            rest(random),
            rest(random)
        )
    }

    /// One to four statements with the lifts at two roots.
    fn statements(&self, random: &mut Random, service: usize, roots: [u16; 2], receives: bool) -> String {
        let count = random.between(1, 4);
        let statements: Vec<String> = (0..count).map(|_| self.statement(random, service, roots, receives)).collect();
        statements.join("; ")
    }

    fn statement(&self, random: &mut Random, service: usize, roots: [u16; 2], receives: bool) -> String {
        let [a, b] = if random.one_in(3) { [roots[1], roots[0]] } else { roots };
        let key = self.key;
        let to = if random.one_in(3) { service + 1 } else { random.between(1, self.keyed.len()) };
        match random.below(12) {
            0..=3 => format!("send 3 to {to} with {a}"),
            4 | 5 => format!("ask 4 to {to} with {a} into {b}"),
            6 => format!("set {a}.{key} = int {}", keys::some(random)),
            7 => format!("set {a}.{key} = {b}.{key}"),
            8 if self.odd.is_some_and(|odd| odd.contains('?')) => format!("send 5 to {to} with void"),
            9 | 10 if receives => format!("receive 3 into {b}"),
            11 if receives => format!("answer 4 into {b} do nil reply {b}"),
            _ => format!("send 6 to 100 with {a}"),
        }
    }
}

#[cfg(test)]
mod tests {
    use super::*;

    #[test]
    fn all_are_accepted_but_those_with_an_odd_input() {
        let mut random = Random::new(3);
        let mut numbers = [0; 24];
        for _ in 0..600 {
            let text = text(&mut random);
            let file = net::assemble(&text).unwrap_or_else(|error| panic!("{error}\n{text}")).file;
            let number = second::check(&file).map_or_else(|refusal| refusal.number, |_| 0);
            numbers[usize::from(number)] += 1;
            let expected: &[u8] = if text.contains("Odd") { &[23] } else { &[0] };
            assert!(expected.contains(&number), "{number}\n{text}");
        }
        assert!(numbers[0] > 400 && numbers[23] > 40, "{numbers:?}");
    }
}
