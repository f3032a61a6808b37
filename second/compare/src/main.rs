//! `compare [--seed N] [--files N] [--messages N] [--walks N] [--texts N] [--pairs N] [--file FILE]...`
//!
//! Generates files, messages, walks, texts of type declarations and pairs of type rows, and compares the library's
//! answers with those of the proved code (feature `proved`), or with the library's own behind the same interface.
//! Exits with 1 at the first difference, with 2 if the run missed something that it should have hit.

use std::process::ExitCode;
use std::time::Instant;

use compare::{differing_check, differing_part, other, pairs, texts, walks, with_large_stack, Second, Side};
use compare::{wrong_by_constants, wrong_by_keys, wrong_by_strings};
use generate::declarations::DeclarationHits;
use generate::pairs::PairHits;
use generate::walks::WalkHits;
use generate::{file, messages, Hits, Random};

/// Each refusal, place and kind of row is to be hit this often.
const LEAST: usize = 20;

const KNOWN: &str = "--seed, --files, --messages, --walks, --texts, --pairs or --file";

struct Options {
    seed: u64,
    files: usize,
    messages: usize,
    walks: usize,
    texts: usize,
    pairs: usize,
    named: Vec<String>,
}

fn options() -> Result<Options, String> {
    let mut options = Options {
        seed: 1,
        files: 50_000,
        messages: 200_000,
        walks: 4_000,
        texts: 50_000,
        pairs: 50_000,
        named: Vec::new(),
    };
    let mut arguments = std::env::args().skip(1);
    while let Some(name) = arguments.next() {
        let value = arguments.next().ok_or(format!("{name} needs a value"))?;
        let number = || value.parse::<u64>().map_err(|_| format!("{name} {value}: a number expected"));
        match name.as_str() {
            "--seed" => options.seed = number()?,
            "--files" => options.files = number()? as usize,
            "--messages" => options.messages = number()? as usize,
            "--walks" => options.walks = number()? as usize,
            "--texts" => options.texts = number()? as usize,
            "--pairs" => options.pairs = number()? as usize,
            "--file" => options.named.push(value),
            _ => return Err(format!("{name} is not known; {KNOWN}")),
        }
    }
    Ok(options)
}

fn main() -> ExitCode {
    match with_large_stack(|| options().and_then(|options| run(&options))) {
        Ok(code) => code,
        Err(message) => {
            eprintln!("{message}");
            ExitCode::from(3)
        }
    }
}

/// Exit codes.
const DIFFERENCE: u8 = 1;
const MISSED: u8 = 2;

fn run(options: &Options) -> Result<ExitCode, String> {
    let other = other();
    println!("{} and {}, seed {}", Second.name(), other.name(), options.seed);
    for name in &options.named {
        let file = std::fs::read(name).map_err(|error| format!("{name}: {error}"))?;
        if let Some(difference) = differing_check(&file, &Second, &other) {
            println!("{name}\n{difference}");
            return Ok(ExitCode::from(DIFFERENCE));
        }
    }
    let start = Instant::now();
    let mut missed = Vec::new();
    for part in [files_and_messages, all_walks, all_texts, all_pairs] {
        match part(options, &other) {
            Ok(names) => missed.extend(names),
            Err(difference) => {
                println!("{difference}");
                return Ok(ExitCode::from(DIFFERENCE));
            }
        }
    }
    println!("{:.1} seconds", start.elapsed().as_secs_f64());
    if !missed.is_empty() {
        println!("hit fewer than {LEAST} times:\n  {}", missed.join("\n  "));
        return Ok(ExitCode::from(MISSED));
    }
    Ok(ExitCode::SUCCESS)
}

/// What was hit too seldom, or the report of a difference.
fn files_and_messages(options: &Options, other: &dyn Side) -> Result<Vec<String>, String> {
    let mut random = Random::new(options.seed);
    let mut hits = Hits::default();
    for index in 0..options.files {
        let file = file(&mut random);
        let difference = differing_check(&file, &Second, other);
        let difference = difference.or_else(|| wrong_by_constants(&file)).or_else(|| wrong_by_keys(&file));
        if let Some(difference) = difference {
            return Err(format!("file number {index} of seed {}\n{difference}", options.seed));
        }
        hits.file(&file, &second::check(&file));
    }
    for index in 0..options.messages {
        let (message, ids, damage) = messages::message(&mut random);
        let difference = differing_part(&message, ids, &Second, other).or_else(|| wrong_by_strings(&message, ids));
        if let Some(difference) = difference {
            return Err(format!("message number {index} of seed {}\n{difference}", options.seed));
        }
        hits.message(&message, ids, damage);
    }
    let mut missed = Vec::new();
    if options.files > 0 {
        missed.extend(hits.below_of(false, LEAST));
    }
    if options.messages > 0 {
        missed.extend(hits.below_of(true, LEAST));
    }
    if options.files + options.messages > 0 {
        print!("{hits}");
    }
    println!("{} files and {} messages agree", options.files, options.messages);
    Ok(missed.into_iter().map(String::from).collect())
}

/// The same for walks, each of which has a seed of its own.
fn all_walks(options: &Options, other: &dyn Side) -> Result<Vec<String>, String> {
    if options.walks == 0 {
        return Ok(Vec::new());
    }
    let mut hits = WalkHits::default();
    let mut moves = 0;
    for index in 0..options.walks {
        let mut random = Random::new(options.seed.wrapping_mul(1 << 32).wrapping_add(index as u64));
        let walk = walks::walk(&mut random, &mut hits, other);
        moves += walk.map_err(|report| format!("walk number {index} of seed {}\n{report}", options.seed))?;
    }
    print!("{hits}");
    println!("{} walks of {moves} moves agree and keep property 3, well-formed strings and keys", options.walks);
    Ok(hits.below(LEAST).into_iter().map(String::from).collect())
}

/// The same for texts of type declarations.
fn all_texts(options: &Options, other: &dyn Side) -> Result<Vec<String>, String> {
    if options.texts == 0 {
        return Ok(Vec::new());
    }
    let mut hits = DeclarationHits::default();
    let tried = texts::texts(options.seed, options.texts, &mut hits, other)?;
    print!("{hits}");
    println!("{tried} texts agree");
    Ok(hits.below(LEAST).into_iter().map(String::from).collect())
}

/// The same for pairs of type rows.
fn all_pairs(options: &Options, other: &dyn Side) -> Result<Vec<String>, String> {
    if options.pairs == 0 {
        return Ok(Vec::new());
    }
    let mut hits = PairHits::default();
    pairs::pairs(options.seed, options.pairs, &mut hits, other)?;
    print!("{hits}");
    println!("{} pairs of type rows agree, and their messages break what they should", options.pairs);
    Ok(hits.below(LEAST).into_iter().map(String::from).collect())
}
