//! Keys of sessions: some ints that are often alike, and where keys stand in files, messages and states.

pub mod decide;
pub mod held;
pub mod hits;

use crate::random::Random;

/// Ints that come up again and again: hoist numbers, 0, negative ones, the ends of the range, and some whose bytes
/// are alike but for one.
const SOME: [i32; 10] = [1, 2, 3, 0, -1, -7, i32::MAX, i32::MIN, 0x0100_0001, 0x0101];

/// An int that another message or session is likely to have, or any.
pub fn some(random: &mut Random) -> i32 {
    if random.one_in(8) {
        return random.draw() as i32;
    }
    *random.pick(&SOME).expect("an int")
}

/// An int that none of these is.
pub fn other_than(random: &mut Random, taken: &[i32]) -> i32 {
    loop {
        let key = some(random);
        if !taken.contains(&key) {
            return key;
        }
    }
}
