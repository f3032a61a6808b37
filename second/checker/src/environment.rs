//! Environments and types as forests in preorder, subtyping, and placing.

use crate::refusal::Cause;
use crate::value::Basic;

pub const ENVIRONMENT_NODES: usize = 48;
pub const ENVIRONMENT_LEVELS: usize = 6;

/// A node of a tree that is written in preorder.
#[derive(Clone, Copy, PartialEq, Eq, Debug)]
pub struct Node {
    pub id: u16,
    pub mandatory: bool,
    pub basic: Basic,
    /// Nodes of the tree that starts here, this one included.
    pub size: u8,
}

impl Node {
    pub fn leaf(basic: Basic) -> Node {
        Node { id: 0, mandatory: true, basic, size: 1 }
    }
}

/// The trees of a forest in preorder.
pub fn trees(forest: &[Node]) -> impl Iterator<Item = &[Node]> {
    let mut rest = forest;
    std::iter::from_fn(move || {
        let (tree, after) = rest.split_at(rest.first()?.size.into());
        rest = after;
        Some(tree)
    })
}

/// Levels of a forest; a tree without children has one.
pub fn levels(forest: &[Node]) -> usize {
    trees(forest).map(|tree| 1 + levels(&tree[1..])).max().unwrap_or(0)
}

/// T1 ≤ T2. The ids and cardinalities of the two roots are not compared.
pub fn is_subtype(left: &[Node], right: &[Node]) -> bool {
    left[0].basic == right[0].basic && children_fit(&left[1..], &right[1..])
}

/// Both forests have rising ids, so one pass pairs the children.
fn children_fit(left: &[Node], right: &[Node]) -> bool {
    let mut lefts = trees(left).peekable();
    for wanted in trees(right) {
        match lefts.next_if(|tree| tree[0].id <= wanted[0].id) {
            Some(tree) => {
                let unknown = tree[0].id != wanted[0].id;
                let only_optional = wanted[0].mandatory && !tree[0].mandatory;
                if unknown || only_optional || !is_subtype(tree, wanted) {
                    return false;
                }
            }
            None if wanted[0].mandatory => return false,
            None => {}
        }
    }
    lefts.next().is_none()
}

/// Γ: a forest in preorder under an empty root that is not written.
#[derive(Clone, PartialEq, Eq, Debug, Default)]
pub struct Environment {
    nodes: Vec<Node>,
}

/// How far a path goes in an environment.
#[derive(Clone, Copy, PartialEq, Eq, Debug)]
struct Walk {
    /// Steps of the path that are in the environment.
    steps: usize,
    /// All edges of these steps are mandatory.
    firm: bool,
    /// All edges above the last of these steps are mandatory.
    firm_above: bool,
    /// Where the children of the last of these steps stand.
    below: (usize, usize),
}

/// A path in an environment.
#[derive(Clone, Copy, PartialEq, Eq, Debug)]
pub enum Lookup {
    Missing,
    /// The tree's first node, and whether the path stands firm.
    Found {
        at: usize,
        firm: bool,
    },
}

impl Environment {
    pub fn nodes(&self) -> &[Node] {
        &self.nodes
    }

    /// The tree whose first node stands at an index.
    pub fn tree(&self, at: usize) -> &[Node] {
        &self.nodes[at..at + usize::from(self.nodes[at].size)]
    }

    pub fn lookup(&self, path: &[u16]) -> Lookup {
        let walk = self.walk(path);
        if walk.steps < path.len() {
            return Lookup::Missing;
        }
        Lookup::Found { at: walk.below.0 - 1, firm: walk.firm }
    }

    fn walk(&self, path: &[u16]) -> Walk {
        let mut walk = Walk { steps: 0, firm: true, firm_above: true, below: (0, self.nodes.len()) };
        for &id in path {
            let (mut at, end) = walk.below;
            while at < end && self.nodes[at].id < id {
                at += usize::from(self.nodes[at].size);
            }
            if at == end || self.nodes[at].id != id {
                break;
            }
            let node = self.nodes[at];
            walk = Walk {
                steps: walk.steps + 1,
                firm: walk.firm && node.mandatory,
                firm_above: walk.firm,
                below: (at + 1, at + usize::from(node.size)),
            };
        }
        walk
    }

    /// Placing a type, given as a tree in preorder, at a path.
    pub fn place(&mut self, path: &[u16], tree: &[Node]) -> Result<(), Cause> {
        let walk = self.walk(path);
        if walk.steps < path.len() {
            return self.add(path, walk, tree);
        }
        if !walk.firm_above {
            Err(Cause::AboveNotFirm)
        } else if !is_subtype(tree, self.tree(walk.below.0 - 1)) {
            Err(Cause::PlacedType)
        } else {
            Ok(())
        }
    }

    /// Assigning a value of a basic type at a path.
    pub fn assign(&mut self, path: &[u16], basic: Basic) -> Result<(), Cause> {
        let walk = self.walk(path);
        if walk.steps < path.len() {
            return self.add(path, walk, &[Node::leaf(basic)]);
        }
        let tree = self.tree(walk.below.0 - 1);
        if !walk.firm_above {
            Err(Cause::AboveNotFirm)
        } else if tree[0].basic != basic {
            Err(Cause::AssignedBasic)
        } else if !tree[0].mandatory && trees(&tree[1..]).any(|child| child[0].mandatory) {
            Err(Cause::OptionalKeepsMandatory)
        } else {
            Ok(())
        }
    }

    /// The missing steps of a path become mandatory void nodes, the tree stands at its end.
    fn add(&mut self, path: &[u16], walk: Walk, tree: &[Node]) -> Result<(), Cause> {
        if !walk.firm {
            return Err(Cause::PartNotFirm);
        }
        let (&last, voids) = path[walk.steps..].split_last().expect("a step that is missing");
        let added = voids.len() + tree.len();
        if self.nodes.len() + added > ENVIRONMENT_NODES {
            return Err(Cause::PlacedNodes);
        }
        if path.len() - 1 + levels(tree) > ENVIRONMENT_LEVELS {
            return Err(Cause::PlacedLevels);
        }
        let first = path[walk.steps];
        let (mut at, end) = walk.below;
        while at < end && self.nodes[at].id < first {
            at += usize::from(self.nodes[at].size);
        }
        self.grow(&path[..walk.steps], added as u8);
        let steps = voids.iter().enumerate().map(|(step, &id)| Node {
            id,
            mandatory: true,
            basic: Basic::Void,
            size: (added - step) as u8,
        });
        let root = Node { id: last, mandatory: true, ..tree[0] };
        let new = steps.chain([root]).chain(tree[1..].iter().copied());
        self.nodes.splice(at..at, new);
        Ok(())
    }

    /// Adds to the size of every node on a path that is in the environment.
    fn grow(&mut self, path: &[u16], added: u8) {
        let mut at = 0;
        for &id in path {
            while self.nodes[at].id != id {
                at += usize::from(self.nodes[at].size);
            }
            self.nodes[at].size += added;
            at += 1;
        }
    }

    /// The union with another environment: a root of both has one tree (else 10).
    pub fn unite(&mut self, other: &Environment) -> Result<(), Cause> {
        let mut united = Vec::with_capacity(self.nodes.len() + other.nodes.len());
        let mut lefts = trees(&self.nodes).peekable();
        for right in trees(&other.nodes) {
            while let Some(left) = lefts.next_if(|left| left[0].id < right[0].id) {
                united.extend_from_slice(left);
            }
            if let Some(left) = lefts.next_if(|left| left[0].id == right[0].id) {
                if left != right {
                    return Err(Cause::StarterRoots);
                }
            }
            united.extend_from_slice(right);
        }
        united.extend(lefts.flatten());
        self.nodes = united;
        Ok(())
    }

    /// Each node in preorder with its path.
    pub fn visit<F: FnMut(&[u16], &Node)>(&self, mut see: F) {
        fn go<F: FnMut(&[u16], &Node)>(forest: &[Node], path: &mut Vec<u16>, see: &mut F) {
            for tree in trees(forest) {
                path.push(tree[0].id);
                see(path, &tree[0]);
                go(&tree[1..], path, see);
                path.pop();
            }
        }
        go(&self.nodes, &mut Vec::with_capacity(ENVIRONMENT_LEVELS), &mut see);
    }
}
