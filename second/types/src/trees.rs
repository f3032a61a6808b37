//! Trees as a text has them: a child that names a type shares that type's tree, which is written out only
//! with its rows.

use second::tables::Section;
use second::Basic;

pub struct Tree {
    pub basic: Basic,
    /// By rising id.
    pub children: Vec<Child>,
    /// Nodes of the tree written out, held at one more than there are rows.
    pub nodes: usize,
    /// Levels of the tree written out.
    pub levels: usize,
}

pub struct Child {
    pub id: u16,
    pub optional: bool,
    pub tree: TreeNumber,
}

#[derive(Clone, Copy)]
pub struct TreeNumber(usize);

#[derive(Default)]
pub struct Trees {
    trees: Vec<Tree>,
}

impl Trees {
    pub fn get(&self, number: TreeNumber) -> &Tree {
        &self.trees[number.0]
    }

    pub fn add(&mut self, basic: Basic, mut children: Vec<Child>) -> TreeNumber {
        children.sort_by_key(|child| child.id);
        let below = || children.iter().map(|child| self.get(child.tree));
        let nodes: usize = 1 + below().map(|tree| tree.nodes).sum::<usize>();
        let levels = 1 + below().map(|tree| tree.levels).max().unwrap_or(0);
        self.trees.push(Tree { basic, children, nodes: nodes.min(Section::Types.limit() + 1), levels });
        TreeNumber(self.trees.len() - 1)
    }
}
