//! Type declarations as text, a second reading written from the papers alone: a text's T rows, or its
//! refusal.
//!
//! A text goes through `grammar` (refusals 2, 20, 21), which makes `trees`, and `rows` (3, 5).

pub mod grammar;
pub mod refusal;
pub mod rows;
pub mod scanner;
pub mod trees;

pub use refusal::{Cause, Refusal};

use second::tables::TypeRow;

/// The longest text in bytes.
pub const LONGEST: usize = 8_192;

/// The longest name in bytes.
pub const LONGEST_NAME: usize = 16;

/// The smallest out buffer: 256 rows.
pub const LEAST_OUT: usize = 2_048;

/// The rows of a text and what its names stand for.
#[derive(Clone, PartialEq, Eq, Debug)]
pub struct Types {
    pub rows: Vec<TypeRow>,
    /// In the order of the text.
    pub declarations: Vec<Declaration>,
    /// Child names: the first has id 1, the second 2, and so on.
    pub children: Vec<String>,
}

#[derive(Clone, PartialEq, Eq, Debug)]
pub struct Declaration {
    pub name: String,
    /// Its root's row.
    pub row: usize,
}

/// Writes the rows of a text to the start of the out buffer; how many bytes they are. A refusal leaves the
/// buffer as it was.
pub fn write_types(text: &[u8], out: &mut [u8]) -> Result<usize, Refusal> {
    let read = grammar::read(text)?;
    if out.len() < LEAST_OUT {
        return Err(Refusal::new(Cause::OutBuffer, 0, 0));
    }
    let bytes: Vec<u8> = rows::rows(&read)?.0.iter().flat_map(TypeRow::bytes).collect();
    out[..bytes.len()].copy_from_slice(&bytes);
    Ok(bytes.len())
}

/// The rows of a text with its names; refused as if the out buffer were large enough.
pub fn read_types(text: &[u8]) -> Result<Types, Refusal> {
    let read = grammar::read(text)?;
    let (rows, firsts) = rows::rows(&read)?;
    let declaration = |(declared, row): (&grammar::Declared, usize)| Declaration { name: declared.name.into(), row };
    Ok(Types {
        rows,
        declarations: read.declared.iter().zip(firsts).map(declaration).collect(),
        children: read.children.iter().map(|&name| name.into()).collect(),
    })
}
