//! Seeded networks, messages, walks, texts of type declarations and pairs of type rows: right ones that use every
//! kind of row, move and mark, and damaged ones that reach every refusal.

pub mod damage;
pub mod declarations;
pub mod hits;
pub mod hostile;
pub mod keys;
pub mod maximal;
pub mod messages;
pub mod nests;
pub mod networks;
pub mod operators;
pub mod pairs;
pub mod random;
pub mod strings;
pub mod walks;

pub use hits::Hits;
pub use random::Random;

use networks::Blunder;

/// A file with one mistake, made where it can be made.
pub fn blunder(random: &mut Random) -> Vec<u8> {
    let blunder = some_blunder(random);
    networks::tables(random, 0, Some(blunder)).write()
}

/// Any mistake; more often the one that has a place most seldom.
fn some_blunder(random: &mut Random) -> Blunder {
    if random.one_in(8) {
        Blunder::AssignOptionalParent
    } else {
        *random.pick(&Blunder::ALL).expect("a blunder")
    }
}

/// One network file: most are right or nearly so, the others are damaged on purpose.
pub fn file(random: &mut Random) -> Vec<u8> {
    if random.one_in(100) {
        return damage::odd_bytes(random);
    }
    if random.one_in(20) {
        return nests::some(random).tables().write();
    }
    let careless = match random.below(10) {
        0..=6 => 0,
        7 | 8 => 30,
        _ => 100,
    };
    let blunder = random.one_in(3).then(|| some_blunder(random));
    let mut tables = networks::tables(random, careless, blunder);
    match random.below(20) {
        0..=4 => damage::rows(random, &mut tables),
        5 => damage::links(random, &mut tables),
        6 => damage::sizes(random, &mut tables),
        7 => damage::wild(random, &mut tables),
        8 => damage::strings(random, &mut tables),
        _ => {}
    }
    let mut file = tables.write();
    if random.one_in(15) {
        damage::bytes(random, &mut file);
    }
    file
}
