//! The library behind the interface of the proved code, to try the comparison without that code.

use std::slice;

use stepper::Move;

use crate::interface::{record, Interface, NO_ROOM, RECORD};
use crate::moves::Moves;
use crate::stack::Stacks;
use crate::{Second, Side};

unsafe extern "C" fn check(file: *const u8, length: usize, place: *mut usize) -> u32 {
    let answer = Second.check(unsafe { slice::from_raw_parts(file, length) });
    unsafe { *place = answer.place };
    answer.number
}

unsafe extern "C" fn environments(
    file: *const u8,
    length: usize,
    nodes: *mut u8,
    room: usize,
    count: *mut usize,
) -> u32 {
    let answer = Second.check(unsafe { slice::from_raw_parts(file, length) });
    unsafe { *count = answer.nodes.len() };
    if answer.number != 0 {
        return answer.number;
    }
    if room < answer.nodes.len() * RECORD {
        return NO_ROOM;
    }
    let nodes = unsafe { slice::from_raw_parts_mut(nodes, room) };
    for (to, from) in nodes.chunks_mut(RECORD).zip(&answer.nodes) {
        to.copy_from_slice(&record(from));
    }
    0
}

unsafe extern "C" fn part(
    message: *const u8,
    length: usize,
    first: u16,
    second: u16,
    third: u16,
    fourth: u16,
    start: *mut usize,
) -> usize {
    let part = Second.part(unsafe { slice::from_raw_parts(message, length) }, [first, second, third, fourth]);
    unsafe { *start = part.start };
    part.len()
}

/// What every move is given.
struct Given {
    file: (*const u8, usize),
    state: (*mut u8, usize),
    out: (*mut u8, usize),
    bytes: *mut usize,
    place: *mut usize,
}

/// Makes a move by the library.
unsafe fn make(given: Given, outside: &[u8], named: Move) -> u32 {
    let file = unsafe { slice::from_raw_parts(given.file.0, given.file.1) };
    let state = unsafe { slice::from_raw_parts_mut(given.state.0, given.state.1) };
    let out = unsafe { slice::from_raw_parts_mut(given.out.0, given.out.1) };
    let answer = Second.step(file, state, out, &named, outside);
    unsafe {
        *given.bytes = answer.bytes;
        *given.place = answer.place;
    }
    answer.number
}

unsafe extern "C" fn fresh(
    file: *const u8,
    length: usize,
    state: *mut u8,
    state_size: usize,
    place: *mut usize,
) -> u32 {
    let file = unsafe { slice::from_raw_parts(file, length) };
    let state = unsafe { slice::from_raw_parts_mut(state, state_size) };
    let answer = Second.fresh(file, state);
    unsafe { *place = answer.place };
    answer.number
}

unsafe extern "C" fn local(
    file: *const u8,
    length: usize,
    state: *mut u8,
    state_size: usize,
    out: *mut u8,
    out_size: usize,
    service: u16,
    session: u16,
    row: u16,
    bytes: *mut usize,
    place: *mut usize,
) -> u32 {
    let given = Given { file: (file, length), state: (state, state_size), out: (out, out_size), bytes, place };
    unsafe { make(given, &[], Move::Local { service, session, row }) }
}

unsafe extern "C" fn receive(
    file: *const u8,
    length: usize,
    state: *mut u8,
    state_size: usize,
    out: *mut u8,
    out_size: usize,
    service: u16,
    session: u16,
    row: u16,
    bytes: *mut usize,
    place: *mut usize,
) -> u32 {
    let given = Given { file: (file, length), state: (state, state_size), out: (out, out_size), bytes, place };
    unsafe { make(given, &[], Move::Receive { service, session, row }) }
}

unsafe extern "C" fn send(
    file: *const u8,
    length: usize,
    state: *mut u8,
    state_size: usize,
    out: *mut u8,
    out_size: usize,
    service: u16,
    session: u16,
    row: u16,
    target: u16,
    bytes: *mut usize,
    place: *mut usize,
) -> u32 {
    let given = Given { file: (file, length), state: (state, state_size), out: (out, out_size), bytes, place };
    unsafe { make(given, &[], Move::Send { service, session, row, target }) }
}

unsafe extern "C" fn reply(
    file: *const u8,
    length: usize,
    state: *mut u8,
    state_size: usize,
    out: *mut u8,
    out_size: usize,
    service: u16,
    session: u16,
    row: u16,
    bytes: *mut usize,
    place: *mut usize,
) -> u32 {
    let given = Given { file: (file, length), state: (state, state_size), out: (out, out_size), bytes, place };
    unsafe { make(given, &[], Move::Reply { service, session, row }) }
}

unsafe extern "C" fn outer_message(
    file: *const u8,
    length: usize,
    state: *mut u8,
    state_size: usize,
    out: *mut u8,
    out_size: usize,
    outside: *const u8,
    outside_length: usize,
    service: u16,
    id: u16,
    target: u16,
    number: u32,
    bytes: *mut usize,
    place: *mut usize,
) -> u32 {
    let given = Given { file: (file, length), state: (state, state_size), out: (out, out_size), bytes, place };
    let outside = unsafe { slice::from_raw_parts(outside, outside_length) };
    unsafe { make(given, outside, Move::OuterMessage { service, id, target, number }) }
}

unsafe extern "C" fn outer_reply(
    file: *const u8,
    length: usize,
    state: *mut u8,
    state_size: usize,
    out: *mut u8,
    out_size: usize,
    outside: *const u8,
    outside_length: usize,
    service: u16,
    session: u16,
    row: u16,
    bytes: *mut usize,
    place: *mut usize,
) -> u32 {
    let given = Given { file: (file, length), state: (state, state_size), out: (out, out_size), bytes, place };
    let outside = unsafe { slice::from_raw_parts(outside, outside_length) };
    unsafe { make(given, outside, Move::OuterReply { service, session, row }) }
}

unsafe extern "C" fn close(
    file: *const u8,
    length: usize,
    state: *mut u8,
    state_size: usize,
    out: *mut u8,
    out_size: usize,
    service: u16,
    session: u16,
    bytes: *mut usize,
    place: *mut usize,
) -> u32 {
    let given = Given { file: (file, length), state: (state, state_size), out: (out, out_size), bytes, place };
    unsafe { make(given, &[], Move::Close { service, session }) }
}

unsafe extern "C" fn types(
    text: *const u8,
    length: usize,
    out: *mut u8,
    out_size: usize,
    bytes: *mut usize,
    place: *mut usize,
) -> u32 {
    let text = unsafe { slice::from_raw_parts(text, length) };
    let answer = Second.types(text, unsafe { slice::from_raw_parts_mut(out, out_size) });
    unsafe {
        *bytes = answer.bytes;
        *place = answer.place;
    }
    answer.number
}

unsafe extern "C" fn counterexample(
    file: *const u8,
    length: usize,
    out: *mut u8,
    out_size: usize,
    first: u16,
    second: u16,
    bytes: *mut usize,
    place: *mut usize,
) -> u32 {
    let file = unsafe { slice::from_raw_parts(file, length) };
    let out = unsafe { slice::from_raw_parts_mut(out, out_size) };
    let answer = Second.counterexample(file, first, second, out);
    unsafe {
        *bytes = answer.bytes;
        *place = answer.place;
    }
    answer.number
}

const MOVES: Moves = Moves { fresh, local, receive, send, reply, outer_message, outer_reply, close };

/// On the caller's stack: the library is no part of what is stated.
pub fn itself() -> Interface {
    Interface {
        name: "itself",
        check,
        environments,
        part,
        moves: MOVES,
        types,
        counterexample,
        stacks: Stacks::default(),
    }
}
