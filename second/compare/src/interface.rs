//! The C interface of the proved code, include/pokhveti.h. Everything that depends on its shape is
//! here, in `proved.rs` (the declarations) and in `itself.rs` (the library behind it).

use std::ops::Range;

use stepper::Move;

use crate::moves::{Moves, StepAnswer};
use crate::stack::{run, Given, Stacks};
use crate::{Answer, AnswerNode, Side, UNTOUCHED};

/// Bytes of a node's record.
pub const RECORD: usize = 18;

/// Room for four services with two environments of 48 nodes each.
pub const ROOM: usize = 4 * 2 * 48 * RECORD;

/// What is answered to a buffer without room for all nodes.
pub const NO_ROOM: u32 = 1;

/// The functions of the interface, and the stacks on which they run.
pub struct Interface {
    pub name: &'static str,
    pub check: unsafe extern "C" fn(*const u8, usize, *mut usize) -> u32,
    pub environments: unsafe extern "C" fn(*const u8, usize, *mut u8, usize, *mut usize) -> u32,
    pub part: unsafe extern "C" fn(*const u8, usize, u16, u16, u16, u16, *mut usize) -> usize,
    pub moves: Moves,
    /// Text, out buffer; bytes, place.
    pub types: unsafe extern "C" fn(*const u8, usize, *mut u8, usize, *mut usize, *mut usize) -> u32,
    /// File, out buffer; first, second row; bytes, place.
    pub counterexample: unsafe extern "C" fn(*const u8, usize, *mut u8, usize, u16, u16, *mut usize, *mut usize) -> u32,
    pub stacks: Stacks,
}

impl Interface {
    /// Number and count, with the nodes in the lent buffer.
    pub fn list(&self, file: &[u8], nodes: &mut [u8]) -> (u32, usize) {
        let mut count = usize::MAX;
        // SAFETY: the file is readable for its length, the buffer is writable for its, and so is the count.
        let number = run(&self.stacks.check, file, || unsafe {
            (self.environments)(file.as_ptr(), file.len(), nodes.as_mut_ptr(), nodes.len(), &mut count)
        });
        (number, count)
    }

    /// Panics if the answer is another one to a buffer of so many bytes, or if that buffer is changed.
    fn list_short(&self, file: &[u8], size: usize, expected: (u32, usize)) {
        let mut short = vec![UNTOUCHED; size];
        assert_eq!(self.list(file, &mut short), expected, "number and count with a buffer of {size} bytes");
        assert!(short.iter().all(|byte| *byte == UNTOUCHED), "a buffer of {size} bytes was changed");
    }
}

impl Side for Interface {
    fn name(&self) -> &'static str {
        self.name
    }

    fn verdict(&self, file: &[u8]) -> (u32, usize) {
        let mut place = usize::MAX;
        // SAFETY: the file is readable for its length, the place is writable.
        let number = run(&self.stacks.check, file, || unsafe { (self.check)(file.as_ptr(), file.len(), &mut place) });
        (number, place)
    }

    /// Panics if the nodes come with another number than the verdict's, or a lent buffer is changed that is to stay.
    fn check(&self, file: &[u8]) -> Answer {
        let (number, place) = self.verdict(file);
        let mut room = [UNTOUCHED; ROOM];
        let (listed, count) = self.list(file, &mut room);
        assert_eq!(listed, number, "the number with the nodes is another than the checker's");
        assert!(count * RECORD <= ROOM, "{count} nodes are more than there can be");
        let (written, rest) = room.split_at(count * RECORD);
        assert!(rest.iter().all(|byte| *byte == UNTOUCHED), "bytes past the {count} nodes were changed");
        let nodes = written.chunks(RECORD).map(node).collect();
        let without_room = if count > 0 { NO_ROOM } else { number };
        self.list_short(file, 0, (without_room, count));
        self.list_short(file, (count * RECORD).saturating_sub(1), (without_room, count));
        Answer { number, place, nodes }
    }

    fn part(&self, message: &[u8], ids: [u16; 4]) -> Range<usize> {
        let mut start = usize::MAX;
        let [a, b, c, d] = ids;
        // SAFETY: the message is readable for its length, the start is writable.
        let length = run(&self.stacks.part, message, || unsafe {
            (self.part)(message.as_ptr(), message.len(), a, b, c, d, &mut start)
        });
        start..start + length
    }

    fn fresh(&self, file: &[u8], state: &mut [u8]) -> StepAnswer {
        run(&self.stacks.check, file, || self.moves.fresh(file, state))
    }

    fn step(&self, file: &[u8], state: &mut [u8], out: &mut [u8], named: &Move, outside: &[u8]) -> StepAnswer {
        let given = Given { state: &raw const *state, named: Some(named), ..file.into() };
        run(&self.stacks.moves, given, || self.moves.step(file, state, out, named, outside))
    }

    fn types(&self, text: &[u8], out: &mut [u8]) -> StepAnswer {
        let (mut bytes, mut place) = (usize::MAX, usize::MAX);
        // SAFETY: the text is readable and the buffer writable for their lengths, bytes and place are writable.
        let number = run(&self.stacks.types, text, || unsafe {
            (self.types)(text.as_ptr(), text.len(), out.as_mut_ptr(), out.len(), &mut bytes, &mut place)
        });
        StepAnswer { number, place, bytes }
    }

    fn counterexample(&self, file: &[u8], first: u16, second: u16, out: &mut [u8]) -> StepAnswer {
        let (mut bytes, mut place) = (usize::MAX, usize::MAX);
        let given = Given { rows: Some((first, second)), ..file.into() };
        let (f, fl, o, ol) = (file.as_ptr(), file.len(), out.as_mut_ptr(), out.len());
        // SAFETY: the file is readable and the buffer writable for their lengths, bytes and place are writable.
        let number = run(&self.stacks.counterexample, given, || unsafe {
            (self.counterexample)(f, fl, o, ol, first, second, &mut bytes, &mut place)
        });
        StepAnswer { number, place, bytes }
    }
}

fn node(record: &[u8]) -> AnswerNode {
    AnswerNode {
        service: record[0],
        client: record[1] != 0,
        mandatory: record[2] != 0,
        basic: record[3],
        length: record[4],
        path: std::array::from_fn(|step| u16::from_le_bytes([record[6 + 2 * step], record[7 + 2 * step]])),
    }
}

/// A node's record.
pub fn record(node: &AnswerNode) -> [u8; RECORD] {
    let mut record = [0; RECORD];
    record[..5].copy_from_slice(&[node.service, node.client.into(), node.mandatory.into(), node.basic, node.length]);
    for (to, id) in record[6..].chunks_mut(2).zip(node.path) {
        to.copy_from_slice(&id.to_le_bytes());
    }
    record
}
