//! Trees of values: a session's tree, and messages.

use second::environment::{is_subtype, Node, ENVIRONMENT_LEVELS, ENVIRONMENT_NODES};
use second::message::{MESSAGE_LEVELS, MESSAGE_NODES};
use second::{Basic, Network, Value};

/// Bytes of a node before its value: id, basic type, child count, length.
const HEADER: usize = 5;

/// A node with everything below it. Children have rising ids that are not 0.
#[derive(Clone, PartialEq, Eq, Debug)]
pub struct Tree {
    pub id: u16,
    pub basic: Basic,
    pub value: Vec<u8>,
    pub children: Vec<Tree>,
}

/// How large a tree may be, its root included.
#[derive(Clone, Copy)]
struct Limits {
    nodes: usize,
    levels: usize,
}

const MESSAGE: Limits = Limits { nodes: MESSAGE_NODES, levels: MESSAGE_LEVELS };

/// "Below its empty root": the root is one node and one level more.
const SESSION: Limits = Limits { nodes: ENVIRONMENT_NODES + 1, levels: ENVIRONMENT_LEVELS + 1 };

impl Tree {
    pub fn void(id: u16) -> Tree {
        Tree { id, basic: Basic::Void, value: Vec::new(), children: Vec::new() }
    }

    pub fn leaf(value: &Value) -> Tree {
        Tree { id: 0, basic: value.basic(), value: value.bytes(), children: Vec::new() }
    }

    /// The bytes are a message and nothing else.
    pub fn read_message(bytes: &[u8]) -> Option<Tree> {
        Tree::read_whole(bytes, MESSAGE)
    }

    /// The bytes are a session's tree and nothing else: a void root, 48 nodes and 6 levels below it.
    pub fn read_session(bytes: &[u8]) -> Option<Tree> {
        Tree::read_whole(bytes, SESSION).filter(|root| root.basic == Basic::Void)
    }

    fn read_whole(bytes: &[u8], limits: Limits) -> Option<Tree> {
        let mut rest = bytes;
        let mut left = limits.nodes;
        let tree = Tree::read(&mut rest, &mut left, limits.levels)?;
        (rest.is_empty() && tree.id == 0).then_some(tree)
    }

    /// Reads a node and its children off the front of the bytes.
    fn read(rest: &mut &[u8], nodes_left: &mut usize, levels_left: usize) -> Option<Tree> {
        if *nodes_left == 0 || levels_left == 0 {
            return None;
        }
        *nodes_left -= 1;
        let (header, after) = rest.split_at_checked(HEADER)?;
        let basic = Basic::from_byte(header[2])?;
        let (value, after) = after.split_at_checked(usize::from(header[4]))?;
        if !basic.holds(value) {
            return None;
        }
        *rest = after;
        let mut children: Vec<Tree> = Vec::new();
        for _ in 0..header[3] {
            let child = Tree::read(rest, nodes_left, levels_left - 1)?;
            let before = children.last().map_or(0, |child| child.id);
            if child.id <= before {
                return None;
            }
            children.push(child);
        }
        Some(Tree { id: u16::from_le_bytes([header[0], header[1]]), basic, value: value.to_vec(), children })
    }

    pub fn bytes(&self) -> Vec<u8> {
        let mut bytes = Vec::new();
        self.write(&mut bytes);
        bytes
    }

    fn write(&self, bytes: &mut Vec<u8>) {
        bytes.extend(self.id.to_le_bytes());
        bytes.extend([self.basic.byte(), self.children.len() as u8, self.value.len() as u8]);
        bytes.extend(&self.value);
        self.children.iter().for_each(|child| child.write(bytes));
    }

    pub fn nodes(&self) -> usize {
        1 + self.children.iter().map(Tree::nodes).sum::<usize>()
    }

    /// A node alone has one level.
    pub fn levels(&self) -> usize {
        1 + self.children.iter().map(Tree::levels).max().unwrap_or(0)
    }

    fn within(&self, limits: Limits) -> bool {
        self.nodes() <= limits.nodes && self.levels() <= limits.levels
    }

    /// At most 16 nodes and 4 levels.
    pub fn is_message(&self) -> bool {
        self.within(MESSAGE)
    }

    /// At most 48 nodes and 6 levels below the root.
    pub fn is_session(&self) -> bool {
        self.within(SESSION)
    }

    pub fn find(&self, path: &[u16]) -> Option<&Tree> {
        let Some((&id, below)) = path.split_first() else { return Some(self) };
        self.children.iter().find(|child| child.id == id)?.find(below)
    }

    /// The node at a path; missing steps are made as void nodes.
    pub fn reach(&mut self, path: &[u16]) -> &mut Tree {
        let Some((&id, below)) = path.split_first() else { return self };
        let at = match self.children.binary_search_by_key(&id, |child| child.id) {
            Ok(at) => at,
            Err(at) => {
                self.children.insert(at, Tree::void(id));
                at
            }
        };
        self.children[at].reach(below)
    }

    /// "Assign sets one root value and keeps children."
    pub fn assign(&mut self, path: &[u16], value: &Value) {
        let node = self.reach(path);
        node.basic = value.basic();
        node.value = value.bytes();
    }

    /// Puts a message at a path; it "replaces the subtree".
    pub fn replace(&mut self, path: &[u16], message: &Tree) {
        let node = self.reach(path);
        *node = Tree { id: node.id, ..message.clone() };
    }

    /// A message "fits T if that is ≤ T": its own type has every child mandatory.
    pub fn fits(&self, network: &Network, type_row: usize) -> bool {
        let mut own = Vec::new();
        self.own_type(&mut own);
        is_subtype(&own, &network.write_out(type_row))
    }

    fn own_type(&self, nodes: &mut Vec<Node>) {
        nodes.push(Node { id: self.id, mandatory: true, basic: self.basic, size: self.nodes() as u8 });
        self.children.iter().for_each(|child| child.own_type(nodes));
    }

    /// The value of the node itself.
    pub fn root_value(&self) -> Option<Value> {
        Value::read(self.basic, &self.value)
    }
}

#[cfg(test)]
mod tests {
    use super::*;

    #[test]
    fn messages_are_what_the_reader_takes_for_one() {
        let good = [0, 0, 6, 1, 0, 5, 0, 1, 0, 4, 1, 2, 3, 4];
        let tree = Tree::read_message(&good).expect("a message");
        assert_eq!((tree.nodes(), tree.levels(), tree.bytes()), (2, 2, good.to_vec()));
        for at in 0..good.len() {
            for byte in 0..=255 {
                let mut bytes = good;
                bytes[at] = byte;
                assert_eq!(Tree::read_message(&bytes).is_some(), second::message::nodes(&bytes).is_some(), "{bytes:?}");
            }
        }
        assert_eq!(Tree::read_message(&[]), None);
    }

    #[test]
    fn assigning_keeps_children_and_replacing_does_not() {
        let mut tree = Tree::void(0);
        tree.assign(&[5, 7], &Value::Int(12));
        assert_eq!(tree.find(&[5]).map(|node| (node.basic, node.nodes())), Some((Basic::Void, 2)));
        tree.assign(&[5], &Value::Bool(true));
        assert_eq!(tree.find(&[5]).map(|node| (node.basic, node.nodes())), Some((Basic::Bool, 2)));
        tree.assign(&[3], &Value::Void);
        assert_eq!(tree.children.iter().map(|child| child.id).collect::<Vec<_>>(), [3, 5]);
        tree.replace(&[5], &Tree::leaf(&Value::Long(1)));
        assert_eq!(tree.find(&[5]).map(|node| (node.id, node.nodes())), Some((5, 1)));
        assert_eq!(tree.find(&[5, 7]), None);
    }

    #[test]
    fn sessions_have_48_nodes_and_6_levels_below_a_void_root() {
        let mut wide = Tree::void(0);
        (1..=48).for_each(|id| wide.assign(&[id], &Value::Void));
        assert!(wide.is_session() && Tree::read_session(&wide.bytes()).is_some());
        wide.assign(&[49], &Value::Void);
        assert!(!wide.is_session() && Tree::read_session(&wide.bytes()).is_none());
        let mut deep = Tree::void(0);
        deep.assign(&[1; 6], &Value::Void);
        assert!(deep.is_session() && Tree::read_session(&deep.bytes()).is_some());
        deep.assign(&[1; 7], &Value::Void);
        assert!(!deep.is_session() && Tree::read_session(&deep.bytes()).is_none());
        assert_eq!(Tree::read_session(&Tree::leaf(&Value::Bool(true)).bytes()), None);
    }
}
