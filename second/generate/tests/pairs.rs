//! Pairs of type rows reach everything that they count, and wrong answers are seen.

use counterexample::{counterexample, Refusal};
use generate::pairs::judge::judge;
use generate::pairs::{largest, pair, Pair, PairHits};
use generate::Random;
use second::{message, Network};

/// The message, empty for none; a refusal leaves the buffer, a message the bytes past it.
fn answer(pair: &Pair) -> Result<Vec<u8>, Refusal> {
    let mut out = vec![0xa5; pair.out_size];
    let result = counterexample(&pair.file, pair.first, pair.second, &mut out);
    let (message, rest) = out.split_at(result.unwrap_or(0));
    assert!(rest.iter().all(|&byte| byte == 0xa5), "{pair:?}");
    result.map(|_| message.to_vec())
}

#[test]
fn everything_is_hit_and_each_answer_is_right() {
    let mut random = Random::new(9);
    let mut hits = PairHits::default();
    let mut related = 0;
    for _ in 0..12_000 {
        let pair = pair(&mut random);
        related += usize::from(pair.edits.is_some());
        let answer = answer(&pair);
        let message = answer.as_deref().map_err(|refusal| (refusal.number, refusal.place));
        let fewest = judge(&pair, message).unwrap_or_else(|wrong| panic!("{wrong}: {pair:?} {answer:?}"));
        hits.pair(&pair, answer.as_deref().map_err(|refusal| *refusal), fewest.as_deref());
    }
    assert!(hits.below(5).is_empty(), "{hits}\n{:#?}", hits.below(5));
    assert!((4_000..6_000).contains(&related), "{related}");
}

#[test]
fn the_same_seed_gives_the_same_pairs() {
    let pairs = |seed| {
        let pair = |random: &mut Random| pair(random);
        let numbers = |pair: Pair| (pair.file, pair.first, pair.second, pair.out_size);
        (0..20).scan(Random::new(seed), |random, _| Some(numbers(pair(random)))).collect::<Vec<_>>()
    };
    assert_eq!(pairs(3), pairs(3));
    assert_ne!(pairs(3), pairs(4));
}

/// Two inputs and the rows of their types.
fn given(first: &str, second: &str) -> Pair {
    let file = net::assemble(&format!("service 1 {{ input 1: {first} input 2: {second} }}")).expect("a file").file;
    let network = Network::read(&file).expect("a file that passes 2 to 5");
    let [first, second] = [0, 1].map(|row: usize| network.operations[row].request as u16);
    Pair { file, first, second, out_size: 512, edits: None }
}

/// Children 1 and 256 alone have as few nodes, and 256 has the lower bytes.
#[test]
fn wrong_answers_are_seen() {
    let pair = given("void { 1?: int, 256?: int, 2?: int { 3: bool } }", "void");
    let child = |id: [u8; 2]| [&[0, 0, 6, 1, 0], &id[..], &[1, 0, 4, 0, 0, 0, 0]].concat();
    let right = child([0, 1]);
    assert_eq!(answer(&pair), Ok(right.clone()));
    assert_eq!(judge(&pair, Ok(&right)), Ok(Some(vec![right.clone(), child([1, 0])])));
    let both = [&[0, 0, 6, 2, 0, 1, 0][..], &right[7..], &right[5..]].concat();
    let high = [&right[..10], &[1, 0, 0, 0]].concat();
    for (message, wrong) in [
        (&[][..], "none is right exactly for a subtype"),
        (&[0, 0, 6, 0, 0], "the message fits the second type"),
        (&right[..13], "these bytes are no message"),
        (&[0, 0, 1, 0, 4, 0, 0, 0, 0], "the message does not fit the first type"),
        (&child([3, 0]), "the message does not fit the first type"),
        (&high, "a value is not the least"),
        (&child([1, 0]), "of all choices"),
        (&both, "of all choices"),
    ] {
        let said = judge(&pair, Ok(message)).expect_err("a wrong answer");
        assert!(said.starts_with(wrong), "{said}");
    }
    assert!(judge(&pair, Err((15, 0))).is_err());
    let swapped = Pair { first: pair.second, second: pair.first, ..pair.clone() };
    assert_eq!(judge(&swapped, Ok(&[])), Ok(Some(Vec::new())));
    assert!(judge(&swapped, Ok(&[0, 0, 6, 0, 0])).is_err());
}

#[test]
fn wrong_refusals_are_seen() {
    let pair = given("int", "long");
    let small = Pair { out_size: 511, ..pair.clone() };
    let short = Pair { file: pair.file[1..].to_vec(), ..pair.clone() };
    let no_row = Pair { second: 2, ..pair };
    for (pair, right) in [(small, (1, 0)), (short, (2, 0)), (no_row, (15, 0))] {
        assert_eq!(judge(&pair, Err(right)), Ok(None));
        assert!(judge(&pair, Err((right.0, 1))).is_err());
        assert!(judge(&pair, Err((right.0 + 1, 0))).is_err());
        assert!(judge(&pair, Ok(&[])).is_err());
    }
}

#[test]
fn the_largest_types_have_the_messages_that_they_tell() {
    for pair in largest::all() {
        let given = Pair { file: pair.file(), first: 0, second: 16, out_size: 512, edits: None };
        let message = answer(&given).expect("no refusal");
        let found = message::nodes(&message).map_or(0, |nodes| nodes.len());
        assert_eq!(found, pair.nodes, "{}", pair.name);
        let network = Network::read(&given.file).expect("a file that passes 2 to 5");
        assert_eq!([0, 16].map(|row: usize| network.types[row].nodes), [16, 16], "{}", pair.name);
    }
}
