//! Texts of type declarations: right ones that use all of the grammar, damaged ones that break it in each
//! way, and texts at the limits.

pub mod breaks;
pub mod hits;
pub mod limits;
pub mod right;
pub mod tokens;

pub use breaks::{Break, CARDINALITIES};
pub use hits::DeclarationHits;
pub use limits::Limit;
pub use tokens::{Cut, Role};

use types::LEAST_OUT;

use crate::random::Random;
use tokens::{Blanks, Token};

/// A text, and the size of the buffer for its rows.
#[derive(Clone, Debug)]
pub struct Sample {
    pub text: Vec<u8>,
    pub out_size: usize,
    pub kind: Kind,
    /// What a right text uses.
    pub features: Vec<&'static str>,
}

/// What was done to make a text.
#[derive(Clone, Copy, PartialEq, Eq, Debug)]
pub enum Kind {
    Right,
    Broken(Break),
    /// With a broken cardinality, by its number in the list.
    BrokenCardinality(usize),
    Cut(Cut),
    Limit(Limit),
    /// One of the fixed texts.
    Fixed,
}

impl Sample {
    fn new(text: Vec<u8>, kind: Kind) -> Sample {
        Sample { text, out_size: LEAST_OUT, kind, features: Vec::new() }
    }
}

/// A text with every word and mark of the grammar in every place where it may stand.
pub const WHOLE: &str = "type ab:void{.c_1[0,1]:bool{.d:int .e?:double}.f[1,1]:long\n.c_1x : raw}type type:string\n\
                         type Z9 : int { .type? : type .ab:ab .void:void{.f:raw} }";

/// The whole text cut at every byte, and with every byte in every place.
pub fn fixed() -> impl Iterator<Item = Sample> {
    let cuts = (0..=WHOLE.len()).map(|length| WHOLE.as_bytes()[..length].to_vec());
    let bytes = (0..WHOLE.len()).flat_map(|at| {
        (0..=255).map(move |byte| {
            let mut text = WHOLE.as_bytes().to_vec();
            text[at] = byte;
            text
        })
    });
    cuts.chain(bytes).map(|text| Sample::new(text, Kind::Fixed))
}

/// One text: about half are right, the others damaged or at a limit.
pub fn sample(random: &mut Random) -> Sample {
    let mut sample = match random.below(100) {
        0..=39 => right(random),
        40..=74 => broken(random),
        75..=82 => broken_cardinality(random),
        83..=92 => cut(random),
        _ => {
            let limit = *random.pick(&Limit::ALL).expect("a limit");
            Sample::new(limit.text(random), Kind::Limit(limit))
        }
    };
    sample.out_size = match random.below(12) {
        0 => LEAST_OUT - 1,
        1 => random.below(LEAST_OUT),
        2 => random.between(LEAST_OUT + 1, 3 * LEAST_OUT),
        _ => LEAST_OUT,
    };
    sample
}

fn right(random: &mut Random) -> Sample {
    let tokens = tokens::tokens(&right::some(random));
    let blanks = Blanks::some(random);
    let features = hits::features(&tokens, blanks);
    Sample { features, ..Sample::new(tokens::write(random, &tokens, blanks).text, Kind::Right) }
}

/// The tokens of some declarations, so many at least.
fn some_tokens(random: &mut Random, least: usize) -> Vec<Token> {
    loop {
        let declarations = right::some(random);
        if declarations.len() >= least {
            return tokens::tokens(&declarations);
        }
    }
}

fn broken(random: &mut Random) -> Sample {
    let how = *random.pick(&Break::ALL).expect("a break");
    loop {
        let mut tokens = some_tokens(random, 1);
        if how.change(random, &mut tokens) {
            let blanks = Blanks::some(random);
            let mut written = tokens::write(random, &tokens, blanks);
            how.change_bytes(random, &mut written);
            return Sample::new(written.text, Kind::Broken(how));
        }
    }
}

fn broken_cardinality(random: &mut Random) -> Sample {
    let number = random.below(CARDINALITIES.len());
    loop {
        let mut tokens = some_tokens(random, 1);
        if breaks::cardinality(random, &mut tokens, CARDINALITIES[number]) {
            let text = tokens::write(random, &tokens, Blanks::Few).text;
            return Sample::new(text, Kind::BrokenCardinality(number));
        }
    }
}

fn cut(random: &mut Random) -> Sample {
    let tokens = some_tokens(random, 1);
    let blanks = Blanks::some(random);
    let mut written = tokens::write(random, &tokens, blanks);
    let cut = written.cut(random, &tokens);
    Sample::new(written.text, Kind::Cut(cut))
}
