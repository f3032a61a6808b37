//! `bench [hostile]`: microseconds per call, of the library and, with feature `proved`, of the proved code;
//! with `hostile` of the set of `generate::hostile`, for each file its check and its slowest move.

use std::cell::RefCell;
use std::hint::black_box;
use std::process::ExitCode;
use std::time::{Duration, Instant};

use compare::{cases, with_large_stack, Second, Side};
use generate::declarations::limits;
use generate::walks::Call;
use generate::{hostile, maximal, pairs};

/// Least time of a round.
const ROUND: Duration = Duration::from_millis(20);
/// The same where there are thousands of calls to measure.
const SHORT_ROUND: Duration = Duration::from_micros(500);

fn sides() -> Vec<Box<dyn Side>> {
    #[allow(unused_mut)]
    let mut sides: Vec<Box<dyn Side>> = vec![Box::new(Second)];
    #[cfg(feature = "proved")]
    sides.push(Box::new(compare::other()));
    sides
}

/// The best of five rounds, in microseconds per call.
fn measure(least: Duration, mut call: impl FnMut()) -> f64 {
    let mut calls = 1;
    let round = |calls: u32, call: &mut dyn FnMut()| {
        let start = Instant::now();
        for _ in 0..calls {
            call();
        }
        start.elapsed()
    };
    while round(calls, &mut call) < least {
        calls *= 2;
    }
    let times = (0..5).map(|_| round(calls, &mut call));
    times.min().expect("five rounds").as_secs_f64() * 1e6 / f64::from(calls)
}

/// One line: a name, and a time for each side.
fn line(name: &str, sides: &[Box<dyn Side>], call: impl Fn(&dyn Side)) {
    print!("{name:44}");
    for side in sides {
        print!("{:12.3}", measure(ROUND, || call(side.as_ref())));
    }
    println!();
}

fn checks(sides: &[Box<dyn Side>], hall: &[u8], largest: &[u8]) {
    // The last service, which has no starter, names one past the rows. Its last field is a key, which nobody judges.
    let mut damaged = largest.to_vec();
    let last_service = maximal::tables().layout().row(second::tables::Section::Services, 3);
    damaged[last_service + 2] = 0;
    let small: &[u8] = include_bytes!("../../../examples/assign.bin");
    let files: [(&str, &[u8]); 4] = [
        ("check, largest accepted file", largest),
        ("check, smallest accepted file (66 bytes)", small),
        ("check, the hall of examples/", hall),
        ("check, largest file with its last field wrong", &damaged),
    ];
    for (name, file) in files {
        line(name, sides, |side| {
            black_box(side.verdict(black_box(file)));
        });
    }
    let (message, ids) = maximal::message();
    line("part, largest message", sides, |side| {
        black_box(side.part(black_box(&message), black_box(ids)));
    });
}

/// Texts of 8,192 bytes, or of as many names as these have room for.
fn texts(sides: &[Box<dyn Side>]) {
    let out = RefCell::new([0; 2048]);
    let texts: [(&str, Vec<u8>, u32); 4] = [
        ("types, largest right text", limits::largest(), 0),
        ("types, most type names", limits::most_type_names(), 3),
        ("types, most child names", limits::most_child_names(), 3),
        ("types, deepest text", limits::deep(1_168, 0), 21),
    ];
    for (name, text, number) in texts {
        line(name, sides, |side| {
            let answer = side.types(black_box(&text), &mut out.borrow_mut()[..]);
            assert_eq!(answer.number, number, "{name}");
        });
    }
}

/// Messages that break a type: two types of 16 nodes alone, and the largest file, whose rows are tried before.
fn counterexamples(sides: &[Box<dyn Side>], largest: &[u8]) {
    let out = RefCell::new([0; 512]);
    let call = |name: &str, file: &[u8], second: u16, found: bool| {
        line(&format!("counterexample, {name}"), sides, |side| {
            let answer =
                side.counterexample(black_box(file), black_box(0), black_box(second), &mut out.borrow_mut()[..]);
            assert_eq!((answer.number, answer.bytes > 0), (0, found), "{name}");
        });
    };
    let pairs = pairs::largest::all();
    let file = pairs[0].file();
    line("check, two types of 16 nodes", sides, |side| {
        black_box(side.verdict(black_box(&file)));
    });
    pairs.iter().for_each(|pair| call(pair.name, &pair.file(), 16, pair.nodes > 0));
    call("largest file, none", largest, 240, false);
}

/// A time holds a copy of the state before each call, which the first line tells.
fn moves(sides: &[Box<dyn Side>], name: &str, file: &[u8]) {
    let before = vec![0; 65_536];
    let state = RefCell::new(before.clone());
    line(&format!("{name}: copying a state"), sides, |_| {
        black_box(state.borrow_mut()).copy_from_slice(black_box(&before));
    });
    line(&format!("{name}: fresh"), sides, |side| {
        black_box(side.fresh(black_box(file), &mut state.borrow_mut()));
    });
    for case in cases::all(file) {
        let Some((call, number)) = case.call else {
            println!("{:44}{:>12}", format!("{name}: {}", case.name), "none");
            continue;
        };
        let out = RefCell::new(vec![0; 512]);
        line(&format!("{name}: {}", case.name), sides, |side| {
            let (mut state, mut out) = (state.borrow_mut(), out.borrow_mut());
            state.copy_from_slice(&call.state);
            let answer = side.step(black_box(file), &mut state, &mut out, &call.named, &call.outside);
            assert_eq!(answer.number, number, "{}", case.name);
        });
    }
}

/// The file's check, then the move that takes the last side longest; a time holds a copy of the state.
fn hostile_case(sides: &[Box<dyn Side>], case: &hostile::Case) {
    line(&format!("{}: check", case.name), sides, |side| {
        black_box(side.verdict(black_box(&case.file)));
    });
    let mut slowest: Option<(Vec<f64>, Call)> = None;
    case.each(&mut |call| {
        let times: Vec<f64> = sides.iter().map(|side| step(side.as_ref(), &call)).collect();
        if slowest.as_ref().is_none_or(|(most, _)| most.last() < times.last()) {
            slowest = Some((times, call));
        }
    });
    if let Some((times, call)) = slowest {
        print!("{:44}", format!("{}: {}", case.name, call.named.name()));
        times.iter().for_each(|time| print!("{time:12.3}"));
        println!();
    }
}

fn step(side: &dyn Side, call: &Call) -> f64 {
    let (mut state, mut out) = (call.state.clone(), vec![0; call.out_size]);
    measure(SHORT_ROUND, || {
        state.copy_from_slice(&call.state);
        black_box(side.step(black_box(&call.file), &mut state, &mut out, &call.named, &call.outside));
    })
}

fn run(hostile: bool) -> Result<(), String> {
    let largest = maximal::tables().write();
    let hall: &[u8] = include_bytes!("../../../examples/hall.bin");
    let sides = sides();
    print!("{:44}", "microseconds per call");
    sides.iter().for_each(|side| print!("{:>12}", side.name()));
    println!();
    if hostile {
        hostile::all().iter().for_each(|case| hostile_case(&sides, case));
        return Ok(());
    }
    checks(&sides, hall, &largest);
    texts(&sides);
    counterexamples(&sides, &largest);
    moves(&sides, "hall", hall);
    moves(&sides, "largest", &largest);
    Ok(())
}

fn main() -> ExitCode {
    let hostile = std::env::args().any(|argument| argument == "hostile");
    match with_large_stack(move || run(hostile)) {
        Ok(()) => ExitCode::SUCCESS,
        Err(message) => {
            eprintln!("{message}");
            ExitCode::FAILURE
        }
    }
}
