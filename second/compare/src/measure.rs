//! `stack [--kinds]`: the most stack that each function of the proved code uses, on files and states
//! made for it. One line for each function; with `--kinds` also one for each kind of nest. Exits with 1
//! if one uses more than it may.

use std::cmp::Reverse;
use std::collections::BTreeMap;
use std::process::ExitCode;

use compare::interface::{Interface, ROOM};
use compare::proved::proved;
use compare::stack::{Stack, Stacks, CHECK, COUNTEREXAMPLE, MOVE, PART, TYPES};
use compare::Side;
use generate::declarations::{fixed, limits, Limit};
use generate::hostile::place::At;
use generate::hostile::{self, nest_place};
use generate::nests::{self, Leaf, Level, Nest};
use generate::pairs::{self, largest};
use generate::walks::Call;
use generate::Random;

/// Room to see by how much a ceiling is passed.
const CHECK_ROOM: usize = 32 << 20;
const MOVE_ROOM: usize = 1 << 20;

/// Mixed nests, by seed.
const MIXED: u64 = 200;
/// Texts at each limit, by seed.
const TEXTS: u64 = 20;
/// Pairs of type rows, by seed.
const PAIRS: u64 = 2_000;

/// The functions and the most bytes that each may use.
const FUNCTIONS: [(&str, usize); 13] = [
    ("check", CHECK),
    ("environments", CHECK),
    ("fresh", CHECK),
    ("part", PART),
    ("local", MOVE),
    ("receive", MOVE),
    ("send", MOVE),
    ("reply", MOVE),
    ("outer message", MOVE),
    ("outer reply", MOVE),
    ("close", MOVE),
    ("types", TYPES),
    ("counterexample", COUNTEREXAMPLE),
];

/// The proved code on painted stacks, and the most that was touched.
struct Measure {
    interface: Interface,
    /// By function and kind of input: bytes, and the input.
    most: BTreeMap<(&'static str, &'static str), (usize, String)>,
}

impl Measure {
    fn new() -> Measure {
        let painted = |room| {
            let mut stack = Stack::new(room);
            stack.paint();
            Some(stack)
        };
        let rooms = [CHECK_ROOM, MOVE_ROOM, MOVE_ROOM, CHECK_ROOM, MOVE_ROOM];
        let [check, moves, part, types, counterexample] = rooms.map(painted);
        let stacks = Stacks { check, moves, part, types, counterexample };
        Measure { interface: proved(stacks), most: BTreeMap::new() }
    }

    /// Makes a call and notes what it has touched.
    fn note(&mut self, function: &'static str, kind: &'static str, name: &str, call: impl FnOnce(&Interface)) {
        call(&self.interface);
        let stacks = &mut self.interface.stacks;
        let stack = match function {
            "check" | "environments" | "fresh" => &mut stacks.check,
            "part" => &mut stacks.part,
            "types" => &mut stacks.types,
            "counterexample" => &mut stacks.counterexample,
            _ => &mut stacks.moves,
        };
        let touched = stack.as_mut().map_or(0, Stack::touched);
        let most = self.most.entry((function, kind)).or_default();
        if touched > most.0 {
            *most = (touched, name.into());
        }
    }

    fn file(&mut self, kind: &'static str, name: &str, file: &[u8]) {
        self.note("check", kind, name, |interface| {
            interface.verdict(file);
        });
        let mut nodes = [0; ROOM];
        self.note("environments", kind, name, |interface| {
            interface.list(file, &mut nodes);
        });
        let mut state = vec![0; 65_536];
        self.note("fresh", kind, name, |interface| {
            interface.fresh(file, &mut state);
        });
        self.pair(kind, name, file, 0, 0);
    }

    fn pair(&mut self, kind: &'static str, name: &str, file: &[u8], first: u16, second: u16) {
        let mut out = [0; 512];
        self.note("counterexample", kind, name, |interface| {
            interface.counterexample(file, first, second, &mut out);
        });
    }

    fn call(&mut self, kind: &'static str, name: &str, call: &Call) {
        let (mut state, mut out) = (call.state.clone(), vec![0; call.out_size]);
        let name = format!("{name}, {:?}", call.named);
        self.note(call.named.name(), kind, &name, |interface| {
            interface.step(&call.file, &mut state, &mut out, &call.named, &call.outside);
        });
    }

    fn nest(&mut self, kind: &'static str, name: &str, nest: &Nest, at: At) {
        self.file(kind, name, &nest.tables().write());
        nest_place(nest).each(at, &mut |call| self.call(kind, name, &call));
    }

    /// A kind of nest with everything at its end, as client and starter.
    fn nests(&mut self, level: Level) {
        for leaf in Leaf::ALL {
            let plain = Nest::full(level, leaf);
            let at = if leaf == Leaf::While { At::EveryRow } else { At::Ends };
            let name = format!("{} {}, {leaf:?} at the end", plain.levels.len(), level.name());
            self.nest(level.name(), &name, &plain, at);
            self.nest(level.name(), &format!("{name}, largest messages"), &plain.clone().large(), At::Ends);
            self.nest(level.name(), &format!("{name}, deep conditions"), &plain.clone().deep(), At::Ends);
            let beside = Nest { side: Leaf::Assign, ..plain.clone() };
            self.nest(level.name(), &format!("{name}, assigns beside"), &beside, At::Ends);
            self.nest(level.name(), &format!("{name}, in a starter"), &plain.started(), At::Ends);
        }
    }

    fn mixed(&mut self) {
        for seed in 0..MIXED {
            let leaf = Leaf::ALL[1 + seed as usize % 9];
            let nest = nests::mixed(&mut Random::new(seed), leaf);
            let name = format!("{} mixed levels, seed {seed}", nest.levels.len());
            self.nest(nests::MIXED, &name, &nest, At::Ends);
        }
    }

    fn hostile(&mut self) {
        for case in hostile::all() {
            self.file("hostile", &case.name, &case.file);
            case.each(&mut |call| self.call("hostile", &case.name, &call));
        }
    }

    fn parts(&mut self) {
        for (message, path) in hostile::parts() {
            let name = format!("{} bytes of a message, path {path:?}", message.len());
            self.note("part", "messages", &name, |interface| {
                interface.part(&message, path);
            });
        }
    }

    fn text(&mut self, kind: &'static str, name: &str, text: &[u8]) {
        let mut out = [0; 2048];
        self.note("types", kind, name, |interface| {
            interface.types(text, &mut out);
        });
    }

    fn texts(&mut self) {
        for (opened, closed) in [(1_168, 0), (1_022, 1_022), (255, 255)] {
            let name = format!("{opened} lists in one another, {closed} closed");
            self.text("deep texts", &name, &limits::deep(opened, closed));
        }
        for limit in Limit::ALL {
            for seed in 0..TEXTS {
                self.text("limits", &format!("{limit:?}, seed {seed}"), &limit.text(&mut Random::new(seed)));
            }
        }
        for (number, sample) in fixed().enumerate() {
            self.text("fixed texts", &format!("number {number}"), &sample.text);
        }
    }

    fn pairs(&mut self) {
        for pair in largest::all() {
            self.pair("largest types", pair.name, &pair.file(), 0, 16);
        }
        for seed in 0..PAIRS {
            let pair = pairs::pair(&mut Random::new(seed));
            self.pair("pairs", &format!("seed {seed}"), &pair.file, pair.first, pair.second);
        }
    }

    /// The worst of a function over all kinds of input.
    fn worst(&self, function: &str) -> Option<&(usize, String)> {
        let of_function = self.most.iter().filter(|((of, _), _)| *of == function);
        of_function.map(|(_, most)| most).min_by_key(|(bytes, _)| Reverse(*bytes))
    }
}

fn main() -> ExitCode {
    let mut measure = Measure::new();
    Level::ALL.into_iter().for_each(|level| measure.nests(level));
    measure.mixed();
    measure.hostile();
    measure.parts();
    measure.texts();
    measure.pairs();
    if std::env::args().any(|argument| argument == "--kinds") {
        for ((function, kind), (bytes, name)) in &measure.most {
            println!("{function:14}{bytes:10}  {kind}: {name}");
        }
    }
    let mut code = ExitCode::SUCCESS;
    for (function, most) in FUNCTIONS {
        let (bytes, name) = measure.worst(function).expect("each function is called");
        println!("{function:14}{bytes:10} of {most:8} bytes: {name}");
        if *bytes > most {
            println!("{function:14}passes its ceiling");
            code = ExitCode::FAILURE;
        }
    }
    code
}
