//! Messages and the message reader.

use std::ops::Range;

use crate::network::Path;
use crate::tables::u16_at;
use crate::value::Basic;

pub const MESSAGE_NODES: usize = 16;
pub const MESSAGE_LEVELS: usize = 4;

/// Bytes of a node before its value: id, basic type, child count, length.
const HEADER: usize = 5;

/// One node of a message, where its value stands and where its whole encoding ends.
#[derive(Clone, PartialEq, Eq, Debug)]
pub struct MessageNode {
    pub id: u16,
    pub basic: Basic,
    /// 1 for the root.
    pub level: usize,
    pub start: usize,
    pub value: Range<usize>,
    pub end: usize,
}

/// The nodes of a message in preorder, or None if the bytes are no message.
pub fn nodes(message: &[u8]) -> Option<Vec<MessageNode>> {
    let mut nodes = Vec::with_capacity(MESSAGE_NODES);
    let end = read_node(message, 0, 1, &mut nodes)?;
    (end == message.len() && nodes[0].id == 0).then_some(nodes)
}

/// Reads a node and its children; the end of its encoding.
fn read_node(message: &[u8], start: usize, level: usize, nodes: &mut Vec<MessageNode>) -> Option<usize> {
    if level > MESSAGE_LEVELS || nodes.len() == MESSAGE_NODES {
        return None;
    }
    let header = message.get(start..start + HEADER)?;
    let basic = Basic::from_byte(header[2])?;
    let value = start + HEADER..start + HEADER + usize::from(header[4]);
    if !basic.holds(message.get(value.clone())?) {
        return None;
    }
    let index = nodes.len();
    let mut end = value.end;
    nodes.push(MessageNode { id: u16_at(header, 0), basic, level, start, value, end });
    let mut before = 0;
    for _ in 0..header[3] {
        let child = nodes.len();
        end = read_node(message, end, level + 1, nodes)?;
        if nodes[child].id <= before {
            return None;
        }
        before = nodes[child].id;
    }
    nodes[index].end = end;
    Some(end)
}

/// Where the child at a path stands in a message; `0..0` for a missing child and for a malformed
/// path or message.
pub fn part_range(message: &[u8], ids: [u16; 4]) -> Range<usize> {
    find(message, ids).unwrap_or(0..0)
}

/// The whole encoding of the child at a path, or the empty part.
pub fn part(message: &[u8], ids: [u16; 4]) -> &[u8] {
    &message[part_range(message, ids)]
}

fn find(message: &[u8], ids: [u16; 4]) -> Option<Range<usize>> {
    let path = Path::new(ids)?;
    let nodes = nodes(message)?;
    let mut parent = &nodes[0];
    for &id in path.ids() {
        parent = nodes.iter().find(|node| {
            node.id == id && node.level == parent.level + 1 && node.start >= parent.start && node.end <= parent.end
        })?;
    }
    Some(parent.start..parent.end)
}

#[cfg(test)]
mod tests {
    use super::*;

    fn node(id: u16, basic: Basic, value: &[u8], children: &[Vec<u8>]) -> Vec<u8> {
        let mut bytes = id.to_le_bytes().to_vec();
        bytes.extend([basic.byte(), children.len() as u8, value.len() as u8]);
        bytes.extend(value);
        bytes.extend(children.concat());
        bytes
    }

    /// void { 3: int 7, 5: string "ab" { 2: bool { 9: long } }, 8: void }
    fn sample() -> Vec<u8> {
        let deepest = node(9, Basic::Long, &[1; 8], &[]);
        let flag = node(2, Basic::Bool, &[1], &[deepest]);
        node(
            0,
            Basic::Void,
            &[],
            &[
                node(3, Basic::Int, &[7, 0, 0, 0], &[]),
                node(5, Basic::String, b"ab", &[flag]),
                node(8, Basic::Void, &[], &[]),
            ],
        )
    }

    #[test]
    fn parts_at_each_level() {
        let message = sample();
        let deepest = node(9, Basic::Long, &[1; 8], &[]);
        let flag = node(2, Basic::Bool, &[1], std::slice::from_ref(&deepest));
        assert_eq!(part(&message, [3, 0, 0, 0]), node(3, Basic::Int, &[7, 0, 0, 0], &[]));
        assert_eq!(part(&message, [5, 0, 0, 0]), node(5, Basic::String, b"ab", std::slice::from_ref(&flag)));
        assert_eq!(part(&message, [5, 2, 0, 0]), flag);
        assert_eq!(part(&message, [5, 2, 9, 0]), deepest);
        assert_eq!(part(&message, [8, 0, 0, 0]), [8, 0, 6, 0, 0]);
        assert_eq!(part_range(&message, [3, 0, 0, 0]), 5..14);
    }

    #[test]
    fn missing_children_and_malformed_paths_give_the_empty_part() {
        let message = sample();
        for ids in [
            [4, 0, 0, 0],
            [2, 0, 0, 0],
            [3, 9, 0, 0],
            [5, 9, 0, 0],
            [8, 2, 0, 0],
            [5, 2, 8, 0],
            [5, 2, 9, 1],
            [0, 0, 0, 0],
            [0, 5, 0, 0],
            [5, 0, 2, 0],
            [5, 2, 0, 9],
        ] {
            assert_eq!(part_range(&message, ids), 0..0, "{ids:?}");
        }
    }

    #[test]
    fn malformed_messages_give_the_empty_part() {
        let good = sample();
        assert!(nodes(&good).is_some());
        let broken = |change: &dyn Fn(&mut Vec<u8>)| {
            let mut bytes = good.clone();
            change(&mut bytes);
            assert_eq!(part_range(&bytes, [3, 0, 0, 0]), 0..0, "{bytes:?}");
        };
        broken(&|bytes| bytes[0] = 1); // root id
        broken(&|bytes| bytes[2] = 7); // basic type
        broken(&|bytes| bytes[3] = 2); // child count too small: bytes left over
        broken(&|bytes| bytes[3] = 4); // child count too large
        broken(&|bytes| bytes[4] = 1); // a void value of one byte
        broken(&|bytes| bytes[9] = 3); // an int of three bytes
        broken(&|bytes| bytes[14] = 3); // ids 3, 3
        broken(&|bytes| bytes[5] = 0); // child id 0
        broken(&|bytes| bytes.push(0)); // something after it
        broken(&|bytes| bytes.truncate(bytes.len() - 1));
        broken(&|bytes| bytes.clear());
    }

    /// A broken string is no value: the message is none, for its other children too.
    #[test]
    fn a_broken_string_anywhere_gives_the_empty_part() {
        let with = |basic: Basic, text: &[u8]| {
            let below = node(9, basic, text, &[]);
            node(0, Basic::Void, &[], &[node(3, Basic::Int, &[7, 0, 0, 0], &[]), node(5, Basic::Void, &[], &[below])])
        };
        let found = |message: &[u8]| [[3, 0, 0, 0], [5, 0, 0, 0], [5, 9, 0, 0]].map(|ids| part_range(message, ids));
        assert_eq!(found(&with(Basic::String, "荷重".as_bytes())), [5..14, 14..30, 19..30]);
        assert_eq!(found(&with(Basic::String, b"\xE8\x8D")), [0..0, 0..0, 0..0]);
        assert_eq!(found(&with(Basic::Raw, b"\xE8\x8D")), [5..14, 14..26, 19..26]);
    }

    #[test]
    fn sixteen_nodes_and_four_levels() {
        let wide = |children: u16| {
            let children: Vec<_> = (1..=children).map(|id| node(id, Basic::Void, &[], &[])).collect();
            node(0, Basic::Void, &[], &children)
        };
        assert!(nodes(&wide(15)).is_some());
        assert!(nodes(&wide(16)).is_none());
        let deep = |levels: u16| {
            let chain =
                (2..levels).fold(node(1, Basic::Void, &[], &[]), |below, _| node(1, Basic::Void, &[], &[below]));
            node(0, Basic::Void, &[], &[chain])
        };
        assert!(nodes(&deep(4)).is_some());
        assert!(nodes(&deep(5)).is_none());
    }
}
