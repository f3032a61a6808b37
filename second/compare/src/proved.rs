//! The proved code, linked from libhost.a.

use crate::interface::Interface;
use crate::moves::Moves;
use crate::stack::Stacks;

extern "C" {
    fn pokhveti_check(file: *const u8, length: usize, place: *mut usize) -> u32;
    fn pokhveti_environments(file: *const u8, length: usize, nodes: *mut u8, room: usize, count: *mut usize) -> u32;
    fn pokhveti_part(
        message: *const u8,
        length: usize,
        first: u16,
        second: u16,
        third: u16,
        fourth: u16,
        start: *mut usize,
    ) -> usize;
    fn pokhveti_fresh(file: *const u8, length: usize, state: *mut u8, state_size: usize, place: *mut usize) -> u32;
    fn pokhveti_local(
        file: *const u8,
        length: usize,
        state: *mut u8,
        state_size: usize,
        out: *mut u8,
        out_size: usize,
        service: u16,
        session: u16,
        row: u16,
        bytes: *mut usize,
        place: *mut usize,
    ) -> u32;
    fn pokhveti_receive(
        file: *const u8,
        length: usize,
        state: *mut u8,
        state_size: usize,
        out: *mut u8,
        out_size: usize,
        service: u16,
        session: u16,
        row: u16,
        bytes: *mut usize,
        place: *mut usize,
    ) -> u32;
    fn pokhveti_send(
        file: *const u8,
        length: usize,
        state: *mut u8,
        state_size: usize,
        out: *mut u8,
        out_size: usize,
        service: u16,
        session: u16,
        row: u16,
        target: u16,
        bytes: *mut usize,
        place: *mut usize,
    ) -> u32;
    fn pokhveti_reply(
        file: *const u8,
        length: usize,
        state: *mut u8,
        state_size: usize,
        out: *mut u8,
        out_size: usize,
        service: u16,
        session: u16,
        row: u16,
        bytes: *mut usize,
        place: *mut usize,
    ) -> u32;
    fn pokhveti_outer_message(
        file: *const u8,
        length: usize,
        state: *mut u8,
        state_size: usize,
        out: *mut u8,
        out_size: usize,
        outside: *const u8,
        outside_length: usize,
        service: u16,
        id: u16,
        target: u16,
        number: u32,
        bytes: *mut usize,
        place: *mut usize,
    ) -> u32;
    fn pokhveti_outer_reply(
        file: *const u8,
        length: usize,
        state: *mut u8,
        state_size: usize,
        out: *mut u8,
        out_size: usize,
        outside: *const u8,
        outside_length: usize,
        service: u16,
        session: u16,
        row: u16,
        bytes: *mut usize,
        place: *mut usize,
    ) -> u32;
    fn pokhveti_close(
        file: *const u8,
        length: usize,
        state: *mut u8,
        state_size: usize,
        out: *mut u8,
        out_size: usize,
        service: u16,
        session: u16,
        bytes: *mut usize,
        place: *mut usize,
    ) -> u32;
    fn pokhveti_types(
        text: *const u8,
        length: usize,
        out: *mut u8,
        out_size: usize,
        bytes: *mut usize,
        place: *mut usize,
    ) -> u32;
    fn pokhveti_counterexample(
        file: *const u8,
        length: usize,
        out: *mut u8,
        out_size: usize,
        first: u16,
        second: u16,
        bytes: *mut usize,
        place: *mut usize,
    ) -> u32;
}

const MOVES: Moves = Moves {
    fresh: pokhveti_fresh,
    local: pokhveti_local,
    receive: pokhveti_receive,
    send: pokhveti_send,
    reply: pokhveti_reply,
    outer_message: pokhveti_outer_message,
    outer_reply: pokhveti_outer_reply,
    close: pokhveti_close,
};

pub fn proved(stacks: Stacks) -> Interface {
    Interface {
        name: "proved",
        check: pokhveti_check,
        environments: pokhveti_environments,
        part: pokhveti_part,
        moves: MOVES,
        types: pokhveti_types,
        counterexample: pokhveti_counterexample,
        stacks,
    }
}
