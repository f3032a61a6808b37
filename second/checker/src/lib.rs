//! A second reading of the hoist network paper, written from the paper alone.
//!
//! `check` gives the environments of an accepted network file or its refusal, `part` the encoding
//! of a message's child. A file goes through `tables` (refusals 2 and 3), `network` (4 and 5) and
//! `typing` (6 to 13, 23); the stepper starts from `Network` as `typing` does.

pub mod environment;
pub mod message;
pub mod network;
pub mod refusal;
pub mod report;
pub mod tables;
pub mod typing;
pub mod value;

pub use environment::{Environment, Node};
pub use message::{part, part_range};
pub use network::Network;
pub use refusal::{Cause, Refusal};
pub use report::report;
pub use tables::Tables;
pub use typing::ServiceEnvironments;
pub use value::{Basic, Value, Worked};

/// The whole checker: refusals 2 to 13 and 23, or each service's environments in row order.
pub fn check(file: &[u8]) -> Result<Vec<ServiceEnvironments>, Refusal> {
    typing::environments(&Network::read(file)?)
}
