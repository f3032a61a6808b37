//! The generator reaches everything that it counts, and its files survive the text's round trip.

use generate::strings::decide::{wrong_part, wrong_refusal};
use generate::{file, keys, messages, Hits, Random};

#[test]
fn everything_is_hit() {
    let mut random = Random::new(7);
    let mut hits = Hits::default();
    for _ in 0..12_000 {
        let file = file(&mut random);
        let verdict = second::check(&file);
        assert!(!wrong_refusal(&file, verdict.as_ref().err()), "{file:02x?}");
        assert!(!keys::decide::wrong_refusal(&file, verdict.as_ref().err()), "{file:02x?}");
        hits.file(&file, &verdict);
    }
    for _ in 0..20_000 {
        let (message, ids, damage) = messages::message(&mut random);
        let empty = second::part(&message, ids).is_empty();
        assert!(!wrong_part(&message, ids, empty), "{message:02x?} {ids:?}");
        hits.message(&message, ids, damage);
    }
    assert!(hits.below(5).is_empty(), "{hits}\n{:?}", hits.below(5));
}

#[test]
fn the_same_seed_gives_the_same_files() {
    let files = |seed| (0..20).scan(Random::new(seed), |random, _| Some(file(random))).collect::<Vec<_>>();
    assert_eq!(files(3), files(3));
    assert_ne!(files(3), files(4));
}

#[test]
fn files_survive_the_round_trip() {
    let mut random = Random::new(11);
    let (mut passed, mut labelled) = (0, 0);
    for _ in 0..1500 {
        let file = file(&mut random);
        if let Ok(text) = net::disassemble(&file) {
            let again = net::assemble(&text).unwrap_or_else(|error| panic!("{error}\n{text}")).file;
            assert!(again == file, "{text}");
            passed += 1;
            labelled += usize::from(text.contains('@'));
        }
    }
    assert!(passed > 700 && labelled > 100, "{passed} files, {labelled} with row labels");
}
