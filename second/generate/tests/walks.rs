//! Walks reach everything that they count, hold well-formed strings alone, and none from fresh breaks property 3.

use generate::damage;
use generate::strings::held::{in_constants, in_queues, in_trees, seen};
use generate::walks::choose::any_move;
use generate::walks::{encounters, keys, meetings, property, strings, Call, Walk, WalkHits};
use generate::Random;
use stepper::decode::decode;

#[test]
fn everything_is_hit() {
    let mut random = Random::new(5);
    let mut hits = WalkHits::default();
    for _ in 0..1500 {
        for file in [generate::file(&mut random), generate::blunder(&mut random)] {
            let mut state = vec![0; if random.one_in(20) { random.below(70_000) } else { 65_536 }];
            hits.fresh(stepper::fresh(&file, &mut state).map_or_else(|refused| refused.number.into(), |()| 0));
        }
        for call in [meetings::call(&mut random), meetings::call(&mut random), encounters::call(&mut random)] {
            single(&call, &mut hits);
        }
        walk(&mut random, &mut hits);
    }
    assert!(hits.below(2).is_empty(), "{hits}\n{:#?}", hits.below(2));
}

/// A call by itself.
fn single(call: &Call, hits: &mut WalkHits) {
    let (mut state, mut out) = (call.state.clone(), vec![0; call.out_size]);
    let result = stepper::step(&call.file, &mut state, &mut out, &call.named, &call.outside);
    let written = &out[..result.map_or(0, |made| made.bytes)];
    assert_eq!(keys::wrong(call, &result, &state, written), None, "{:?}: {result:?}", call.named);
    hits.call(call, &result);
}

fn walk(random: &mut Random, hits: &mut WalkHits) {
    let mut walk = Walk::begin(random);
    hits.feature(walk.is_keyed(), "a walk over a network with a keyed service");
    let accepted = second::check(&walk.file).is_ok();
    assert!(!seen(&walk.file, &in_constants(&walk.file)).is_broken());
    for _ in 0..walk.moves {
        let call = walk.call(random);
        let mut state = call.state.clone();
        let mut out = vec![0xa5; call.out_size];
        let result = stepper::step(&call.file, &mut state, &mut out, &call.named, &call.outside);
        let written = &out[..result.map_or(0, |made| made.bytes)];
        assert!(!strings::wrong(&call, &result), "{:?}: {result:?}", call.named);
        assert_eq!(keys::wrong(&call, &result, &state, written), None, "{:?}: {result:?}", call.named);
        hits.call(&call, &result);
        hits.feature(!accepted, "a move on a file that 6 to 23 refuse");
        hits.feature(walk.starts_anew(&call, &state), "a session started with the key of one that was closed");
        if walk.from_fresh && call.keeps {
            let after = property::strings_after(&call.named, &state, written);
            hits.from_fresh(&walk, &call.named, &result, &state, &after);
            assert_eq!(keys::broken(&walk.file, &state), None, "{:?}", call.named);
            assert_eq!(property::broken_string(&call.named, &state, written), None, "{:?}", call.named);
            let number = result.map_or_else(|refused| refused.number.into(), |_| 0);
            let before = decode(&walk.network, &call.state).expect("a state");
            let broken = property::broken(&walk.network, &before, &call.named, call.out_size, number);
            assert_eq!(broken, None, "{:?}", call.named);
        }
        walk.made(&call, state);
        let [trees, queues] = [in_trees(&walk.state), in_queues(&walk.state)];
        assert!(!seen(&walk.state, &[trees, queues].concat()).is_broken(), "{:?}", call.named);
    }
    if walk.from_fresh {
        hits.feature(true, "a walk from fresh");
        hits.feature(walk.is_keyed(), "a walk from fresh over a network with a keyed service");
        assert_eq!(property::sweep(random, &walk.file, &walk.network, &walk.state), None);
    }
}

/// Whatever the bytes and numbers are, there is an answer, and a refused call changes nothing.
#[test]
fn any_bytes_are_answered() {
    let mut random = Random::new(6);
    let mut numbers = [0; 24];
    for _ in 0..4000 {
        let file = if random.one_in(3) { damage::odd_bytes(&mut random) } else { generate::file(&mut random) };
        let size = if random.one_in(10) { random.below(70_000) } else { 65_536 };
        let mut state = vec![0; size];
        for _ in 0..random.below(6) {
            let at = random.below(size.max(1));
            state.iter_mut().skip(at).take(3).for_each(|byte| *byte = random.below(7) as u8);
        }
        let mut out = vec![9; random.between(500, 530)];
        let named = match second::Network::read(&file) {
            Ok(network) => any_move(&mut random, &network),
            Err(_) => stepper::Move::Close { service: random.number(), session: random.number() },
        };
        let outside = generate::messages::message(&mut random).0;
        let before = (state.clone(), out.clone());
        match stepper::step(&file, &mut state, &mut out, &named, &outside) {
            Ok(_) => numbers[0] += 1,
            Err(refused) => {
                numbers[usize::from(refused.number)] += 1;
                assert!((state, out) == before, "{refused} changed a buffer");
            }
        }
    }
    assert!([1, 2, 4, 5, 14, 15].iter().all(|&number| numbers[number] > 5), "{numbers:?}");
}

#[test]
fn about_a_third_of_the_walks_have_a_keyed_service() {
    let mut random = Random::new(9);
    let keyed = (0..600).filter(|_| Walk::begin(&mut random).is_keyed()).count();
    assert!((180..250).contains(&keyed), "{keyed} of 600");
}
