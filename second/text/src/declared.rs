//! The statement `types`: a file of type declarations, whose rows come first in T.

use second::tables::TypeRow;
use second::Basic;
use types::{read_types, Types};

use crate::source::{line_and_column, Error, Refused, Spot};
use crate::syntax::{Child, Tree};

/// A file that a text names.
pub struct NamedFile {
    /// For messages.
    pub name: String,
    pub bytes: Vec<u8>,
}

/// Gives a file by the name that stands in the text, or says why it cannot be read.
pub type ReadFile<'a> = dyn FnMut(&[u8]) -> Result<NamedFile, String> + 'a;

/// What a file declares; an error has its name, line and column.
pub fn read(file: &NamedFile) -> Result<Types, Error> {
    read_types(&file.bytes).map_err(|refusal| {
        let before = String::from_utf8_lossy(&file.bytes[..refusal.spot]);
        let (line, column) = line_and_column(&before, before.len());
        let message = format!("{refusal}: {}", refusal.cause.sentence());
        Error { line, column, message, file: Some(file.name.clone()), refusal: Some(Refused::Types(refusal)) }
    })
}

/// The type at a row, as a child copies it.
pub fn tree(rows: &[TypeRow], row: usize, spot: Spot) -> Tree {
    let TypeRow { basic, first_child, child_count, .. } = rows[row];
    let first = usize::from(first_child);
    let child =
        |row: usize| Child { id: rows[row].id, optional: rows[row].cardinality == 0, tree: tree(rows, row, spot) };
    Tree {
        spot,
        basic: Basic::from_byte(basic).expect("rows of a text have basic types"),
        children: (first..first + usize::from(child_count)).map(child).collect(),
    }
}
