//! Texts of declarations reach everything that they count, and their answers keep to the papers' words.

use generate::declarations::{fixed, sample, Break, DeclarationHits, Kind, Limit, Sample, WHOLE};
use generate::Random;
use second::tables::{OperationRow, ServiceRow, Tables, NONE};
use second::Network;
use types::{read_types, write_types, Cause, Refusal, Types};

/// The result; a refusal leaves the buffer, a text that is done the bytes past its count.
fn write(sample: &Sample) -> Result<usize, Refusal> {
    let mut out = vec![0xa5; sample.out_size];
    let result = write_types(&sample.text, &mut out);
    assert!(out[result.unwrap_or(0)..].iter().all(|&byte| byte == 0xa5), "{sample:?}");
    result
}

#[test]
fn everything_is_hit() {
    let mut random = Random::new(9);
    let mut hits = DeclarationHits::default();
    for _ in 0..12_000 {
        let sample = sample(&mut random);
        let result = write(&sample);
        assert!(result.is_ok() || sample.kind != Kind::Right || sample.out_size < 2048, "{sample:?} {result:?}");
        hits.sample(&sample, &result);
    }
    assert!(hits.below(5).is_empty(), "{hits}\n{:#?}", hits.below(5));
}

#[test]
fn the_same_seed_gives_the_same_texts() {
    let texts = |seed| (0..20).scan(Random::new(seed), |random, _| Some(sample(random).text)).collect::<Vec<_>>();
    assert_eq!(texts(3), texts(3));
    assert_ne!(texts(3), texts(4));
}

/// Where nothing else is broken, the cause is the break's own.
fn expected(how: Break) -> Option<Cause> {
    match how {
        Break::RepeatedType => Some(Cause::RepeatedType),
        Break::RepeatedChild => Some(Cause::RepeatedChild),
        Break::UnknownName | Break::LaterName | Break::OwnName => Some(Cause::UnknownType),
        Break::LongName => Some(Cause::NameLength),
        Break::DigitFirst | Break::UnderscoreFirst => Some(Cause::NameStart),
        Break::BasicTypeName => Some(Cause::BasicName),
        Break::EmptyList => Some(Cause::NoChild),
        Break::NameWithBraces => Some(Cause::ListGoesOn),
        Break::NameAsRightSide => Some(Cause::NoBasic),
        _ => None,
    }
}

#[test]
fn each_break_gives_its_cause() {
    let mut random = Random::new(13);
    let (mut broken, mut foreign) = (0, 0);
    for _ in 0..4_000 {
        let sample = sample(&mut random);
        let cause = write(&sample).err().map(|refusal| refusal.cause);
        match sample.kind {
            Kind::Broken(how) if expected(how).is_some() => {
                assert_eq!(cause, expected(how), "{how:?}: {}", String::from_utf8_lossy(&sample.text));
                broken += 1;
            }
            Kind::Broken(Break::Tab | Break::CarriageReturn | Break::Slash | Break::Above127) => {
                // Inside a word it may break that word first.
                assert!(cause.is_some_and(|cause| cause.number() >= 20), "{sample:?}");
                foreign += usize::from(cause == Some(Cause::ForeignByte));
            }
            Kind::BrokenCardinality(_) => assert!(cause.is_some_and(|cause| cause.number() >= 20), "{sample:?}"),
            _ => {}
        }
    }
    assert!(broken > 500 && foreign > 100, "{broken} {foreign}");
}

#[test]
fn each_limit_gives_its_number() {
    let mut random = Random::new(10);
    for limit in Limit::ALL {
        for _ in 0..20 {
            let text = limit.text(&mut random);
            let number = write_types(&text, &mut [0; 2048]).map_or_else(|refusal| refusal.number, |_| 0);
            assert!(limit.numbers().contains(&number), "{limit:?} gives {number}: {}", String::from_utf8_lossy(&text));
        }
    }
    assert_eq!([Limit::Bytes8192, Limit::Bytes8193].map(|limit| limit.text(&mut random).len()), [8192, 8193]);
    let largest = Limit::Largest.text(&mut random);
    assert_eq!((largest.len(), write_types(&largest, &mut [0; 2048])), (8192, Ok(2048)));
}

/// A file with the rows of a text, and an input of each of its first 64 types.
fn file(types: &Types) -> Vec<u8> {
    let input = |(id, row): (u16, usize)| OperationRow { id, request: row as u16, ..OperationRow::default() };
    let firsts = types.declarations.iter().map(|declared| declared.row).take(64);
    let service = ServiceRow { location: 1, starter: NONE, client: NONE, key: 0 };
    let operations = (1..).zip(firsts).map(input).collect();
    Tables { types: types.rows.clone(), operations, services: vec![service], ..Tables::default() }.write()
}

#[test]
fn the_rows_of_a_text_keep_the_rules_of_network_files() {
    let mut random = Random::new(12);
    let mut largest = 0;
    for _ in 0..4_000 {
        let sample = sample(&mut random);
        let Ok(types) = read_types(&sample.text) else { continue };
        largest = largest.max(types.rows.len());
        let mut out = [0; 2048];
        let bytes = write_types(&sample.text, &mut out).expect("a text that is done");
        let file = file(&types);
        assert_eq!(out[..bytes], file[..8 * types.rows.len()], "{sample:?}");
        let network = Network::read(&file).unwrap_or_else(|refusal| panic!("{refusal}: {sample:?}"));
        assert_eq!(network.types.len(), types.rows.len());
    }
    assert_eq!(largest, 256);
}

/// What stands before an offending byte begins a text: alone it is done or ends too soon.
#[test]
fn nothing_offends_before_the_place_of_a_refusal() {
    let mut random = Random::new(11);
    let mut refused = 0;
    let samples = (0..3_000).map(|_| sample(&mut random)).collect::<Vec<_>>();
    for sample in samples.into_iter().chain(fixed()) {
        let Err(refusal) = write_types(&sample.text, &mut [0; 2048]) else { continue };
        if refusal.number < 20 {
            continue;
        }
        refused += 1;
        let before = &sample.text[..refusal.place];
        match write_types(before, &mut [0; 2048]) {
            Err(early) if early.number >= 20 => {
                assert_eq!((early.cause, early.place), (Cause::EndsTooSoon, before.len()), "{sample:?}")
            }
            _ => {}
        }
    }
    assert!(refused > 10_000, "{refused}");
}

/// A word cut short offends at its start or is another right word; elsewhere the text ends too soon or is done.
#[test]
fn the_whole_text_cut_at_every_byte() {
    let is_of_words = |byte: &u8| byte.is_ascii_alphanumeric() || *byte == b'_';
    let (mut done, mut soon, mut words) = (0, 0, 0);
    for length in 0..=WHOLE.len() {
        let text = &WHOLE.as_bytes()[..length];
        match write_types(text, &mut [0; 2048]) {
            Ok(_) => done += 1,
            Err(Refusal { cause: Cause::EndsTooSoon, place, .. }) => {
                assert_eq!(place, length);
                soon += 1;
            }
            Err(refusal) => {
                assert!(text[refusal.place..].iter().all(is_of_words), "{refusal} at length {length}");
                words += 1;
            }
        }
    }
    assert_eq!((done, soon, words), (8, 94, 44));
}
