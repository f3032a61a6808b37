//! Networks as text: `assemble` makes a network file, `disassemble` a text that assembles to
//! exactly that file, `rows` a list of the rows that moves name. docs/NETWORKS.md teaches the text.

pub mod assemble;
pub mod declared;
pub mod disassemble;
pub mod keys;
pub mod parse;
mod quoted;
pub mod rows;
pub mod sentences;
pub mod source;
pub mod syntax;

pub use assemble::{assemble, assemble_with, Assembled};
pub use declared::{NamedFile, ReadFile};
pub use disassemble::disassemble;
pub use rows::rows;
pub use source::{decode, Error, Refused};
