//! The rows of what a text declares: refusals 3 and 5.

use std::collections::VecDeque;

use second::network::{TYPE_LEVELS, TYPE_NODES};
use second::tables::{Section, TypeRow};

use crate::grammar::{Declared, Read};
use crate::refusal::{Cause, Refusal};
use crate::trees::{TreeNumber, Trees};

/// All rows, and the first row of each declaration.
pub fn rows(read: &Read) -> Result<(Vec<TypeRow>, Vec<usize>), Refusal> {
    let firsts = firsts(read)?;
    for (declared, first) in read.declared.iter().zip(&firsts) {
        let tree = read.trees.get(declared.tree);
        if tree.nodes > TYPE_NODES || tree.levels > TYPE_LEVELS {
            return Err(Refusal::new(Cause::TypeSize, first * Section::Types.width(), declared.spot));
        }
    }
    let mut rows = Vec::new();
    read.declared.iter().for_each(|declared| write(&mut rows, &read.trees, declared));
    Ok((rows, firsts))
}

/// The first row of each declaration, with room for all rows.
fn firsts(read: &Read) -> Result<Vec<usize>, Refusal> {
    let mut firsts = Vec::new();
    let mut end = 0;
    for declared in &read.declared {
        firsts.push(end);
        end += read.trees.get(declared.tree).nodes;
        if end > Section::Types.limit() {
            return Err(Refusal::new(Cause::TooManyRows, 0, declared.spot));
        }
    }
    Ok(firsts)
}

/// Adds the rows of a declaration, level by level; those of one parent's children stand together.
fn write(rows: &mut Vec<TypeRow>, trees: &Trees, declared: &Declared) {
    let row = |id, optional: bool, tree: TreeNumber| TypeRow {
        id,
        cardinality: u8::from(!optional),
        basic: trees.get(tree).basic.byte(),
        first_child: 0,
        child_count: 0,
    };
    let mut waiting = VecDeque::from([(rows.len(), declared.tree)]);
    rows.push(row(0, false, declared.tree));
    while let Some((parent, tree)) = waiting.pop_front() {
        let children = &trees.get(tree).children;
        if !children.is_empty() {
            (rows[parent].first_child, rows[parent].child_count) = (rows.len() as u16, children.len() as u16);
        }
        for child in children {
            waiting.push_back((rows.len(), child.tree));
            rows.push(row(child.id, child.optional, child.tree));
        }
    }
}
