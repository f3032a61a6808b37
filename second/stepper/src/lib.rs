//! A second reading of the hoist network paper's states and moves, written from the paper and the
//! decisions alone.
//!
//! `fresh` writes the fresh state of an accepted file, `step` makes one move. State bytes are read
//! into plain structs (`decode`: refusal 14), changed there (`moves`) and written back (`encode`).
//! A refused call leaves every buffer as it was.

pub mod decode;
mod deliver;
pub mod encode;
pub mod evaluate;
mod local;
pub mod moves;
mod outer;
mod receive;
pub mod refused;
mod reply;
pub mod rows;
mod send;
pub mod state;
pub mod tree;

pub use moves::{Event, Move};
pub use refused::{Bound, Misshape, NotAllowed, Reason, Refused};
pub use state::State;
pub use tree::Tree;

use encode::STATE;
use second::Network;

/// The least out buffer.
pub const OUT: usize = 512;

/// A move that was made (number 0).
#[derive(Clone, Copy, PartialEq, Eq, Debug)]
pub struct Made {
    /// Bytes written to the start of the out buffer; those past them stay.
    pub bytes: usize,
    pub event: Event,
}

/// Refusals 1 to 13 and 23 in order; else the fresh state is written.
pub fn fresh(file: &[u8], state: &mut [u8]) -> Result<(), Refused> {
    if state.len() != STATE {
        return Err(Reason::Buffers.into());
    }
    let network = Network::read(file)?;
    second::typing::environments(&network)?;
    encode::encode(&State::fresh(&network), state);
    Ok(())
}

/// Refusals 1 to 5, 14 to 18, 22, 19 and 15 for a key in order; else the move is made.
pub fn step(file: &[u8], state: &mut [u8], out: &mut [u8], named: &Move, outside: &[u8]) -> Result<Made, Refused> {
    if state.len() != STATE || out.len() < OUT {
        return Err(Reason::Buffers.into());
    }
    let network = Network::read(file)?;
    let mut stepping = moves::Stepping::new(&network, decode::decode(&network, state)?);
    let event = stepping.make(named, outside)?;
    let bytes = stepping.out.len();
    out[..bytes].copy_from_slice(&stepping.out);
    encode::encode(&stepping.state, state);
    Ok(Made { bytes, event })
}
