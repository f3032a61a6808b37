//! A message that fits one type row of a file and not another, a second reading written from the papers and the
//! decisions alone: fewest nodes, then lowest bytes.

pub mod refusal;
pub mod search;

pub use refusal::{Cause, Refusal};
pub use search::least;

use second::Network;

/// The least out buffer.
pub const LEAST_OUT: usize = 512;

/// Writes the message to the start of the out buffer; how many bytes it has, 0 if there is none. Both rows are taken
/// as roots. A refusal (1 to 5, 15) leaves the buffer as it was.
pub fn counterexample(file: &[u8], first: u16, second: u16, out: &mut [u8]) -> Result<usize, Refusal> {
    if out.len() < LEAST_OUT {
        return Err(Refusal::new(Cause::OutBuffer, 0));
    }
    let network = Network::read(file)?;
    let first = row(&network, first).ok_or(Refusal::new(Cause::FirstRow, 0))?;
    let second = row(&network, second).ok_or(Refusal::new(Cause::SecondRow, 0))?;
    let message = least(&network, first, second).unwrap_or_default();
    out[..message.len()].copy_from_slice(&message);
    Ok(message.len())
}

fn row(network: &Network, number: u16) -> Option<usize> {
    let row = usize::from(number);
    (row < network.types.len()).then_some(row)
}
