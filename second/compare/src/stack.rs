//! Stacks of a stated size for calls of the proved code, and how much of one a call has touched.
//!
//! A call runs with its stack pointer at the end of such a stack, and below the stack no byte can be
//! written: a call that needs more ends the program, with a note of what was called.

use std::arch::asm;
use std::ffi::c_void;
use std::fmt;
use std::ptr;
use std::sync::atomic::{AtomicPtr, AtomicU64, AtomicUsize, Ordering};

use stepper::Move;

/// The most bytes of stack that check, environments and fresh may use.
pub const CHECK: usize = 2 << 20;
/// The most that each move may use.
pub const MOVE: usize = 128 << 10;
/// The most that part may use.
pub const PART: usize = 4 << 10;
/// The most that types may use.
pub const TYPES: usize = 1 << 20;
/// The most that counterexample may use.
pub const COUNTEREXAMPLE: usize = 16 << 10;

/// Room for the frames from which the proved code is called.
const WRAPPER: usize = 512;

const PAGE: usize = 4096;
/// What an untouched stack holds, in each eight bytes.
const PAINT: u64 = 0xA5C3_96F0_5A3C_690F;

const NO_ACCESS: i32 = 0;
const READ_WRITE: i32 = 3;
const PRIVATE_ANONYMOUS: i32 = 0x22;

extern "C" {
    fn mmap(at: *mut c_void, length: usize, protection: i32, flags: i32, file: i32, offset: i64) -> *mut c_void;
    fn mprotect(at: *mut c_void, length: usize, protection: i32) -> i32;
    fn munmap(at: *mut c_void, length: usize) -> i32;
}

/// A stack of so many bytes, just above a page that can not be touched.
pub struct Stack {
    map: *mut u8,
    length: usize,
    bytes: usize,
}

impl Stack {
    /// For calls that may use so many bytes, a multiple of 16.
    pub fn new(most: usize) -> Stack {
        let bytes = most + WRAPPER;
        let length = PAGE + bytes.next_multiple_of(PAGE);
        // SAFETY: a new mapping, of which the first page is closed.
        unsafe {
            let map = mmap(ptr::null_mut(), length, READ_WRITE, PRIVATE_ANONYMOUS, -1, 0);
            assert!(map as isize != -1 && mprotect(map, PAGE, NO_ACCESS) == 0, "no memory for a stack");
            Stack { map: map.cast(), length, bytes }
        }
    }

    /// The lowest byte.
    fn bottom(&self) -> *mut u8 {
        self.map.wrapping_add(PAGE)
    }

    /// Makes a call on this stack.
    fn run<T, F: FnOnce() -> T>(&self, call: F) -> T {
        let mut job = Job { call: Some(call), result: None };
        let entry: extern "C" fn(*mut Job<T, F>) = start::<T, F>;
        // SAFETY: r12 keeps the old stack pointer, since the called function preserves it; the new one is
        // a multiple of 16 as the calling convention asks.
        unsafe {
            asm!(
                "xchg rsp, r12",
                "call {entry}",
                "mov rsp, r12",
                entry = in(reg) entry,
                in("rdi") &mut job,
                inout("r12") self.bottom().wrapping_add(self.bytes) => _,
                clobber_abi("C"),
            );
        }
        job.result.expect("the call has returned")
    }

    fn words(&mut self) -> &mut [u64] {
        // SAFETY: the stack's own bytes, while no call runs on it.
        unsafe { std::slice::from_raw_parts_mut(self.bottom().cast(), self.bytes / 8) }
    }

    /// Forgets what calls have touched.
    pub fn paint(&mut self) {
        self.words().fill(PAINT);
    }

    /// Bytes from the stack's end down to the lowest that was touched since it was painted; they are
    /// painted again.
    pub fn touched(&mut self) -> usize {
        let words = self.words();
        let lowest = words.iter().position(|&word| word != PAINT).unwrap_or(words.len());
        words[lowest..].fill(PAINT);
        8 * (words.len() - lowest)
    }
}

impl Drop for Stack {
    fn drop(&mut self) {
        // SAFETY: the mapping of `new`.
        unsafe { munmap(self.map.cast(), self.length) };
    }
}

struct Job<T, F> {
    call: Option<F>,
    result: Option<T>,
}

extern "C" fn start<T, F: FnOnce() -> T>(job: *mut Job<T, F>) {
    // SAFETY: `run` keeps the job until the call has returned.
    let job = unsafe { &mut *job };
    job.result = job.call.take().map(|call| call());
}

/// Where the functions of an interface run; None for the caller's own stack.
#[derive(Default)]
pub struct Stacks {
    /// For check, environments and fresh.
    pub check: Option<Stack>,
    pub moves: Option<Stack>,
    pub part: Option<Stack>,
    pub types: Option<Stack>,
    pub counterexample: Option<Stack>,
}

impl Stacks {
    /// Just what each function may use.
    pub fn stated() -> Stacks {
        report_overflow();
        let most = [CHECK, MOVE, PART, TYPES, COUNTEREXAMPLE];
        let [check, moves, part, types, counterexample] = most.map(|most| Some(Stack::new(most)));
        Stacks { check, moves, part, types, counterexample }
    }
}

/// What a call is given, to be reported if it passes its stack.
#[derive(Clone, Copy)]
pub struct Given<'a> {
    /// The file, message or text.
    pub read: &'a [u8],
    pub state: *const [u8],
    pub named: Option<&'a Move>,
    /// Two type rows.
    pub rows: Option<(u16, u16)>,
}

impl<'a> From<&'a [u8]> for Given<'a> {
    fn from(read: &'a [u8]) -> Given<'a> {
        Given { read, state: &[], named: None, rows: None }
    }
}

/// Makes a call.
pub fn run<'a, T>(stack: &Option<Stack>, given: impl Into<Given<'a>>, call: impl FnOnce() -> T) -> T {
    let Some(stack) = stack else { return call() };
    let given = given.into();
    let named = given.named.map_or(ptr::null(), ptr::from_ref);
    NAMED.store(named.cast_mut(), Ordering::Relaxed);
    let rows = given.rows.map_or(NO_ROWS, |(first, second)| u64::from(first) << 16 | u64::from(second));
    ROWS.store(rows, Ordering::Relaxed);
    for (note, bytes) in BYTES.iter().zip([ptr::from_ref(given.read), given.state]) {
        note.0.store(bytes.cast::<u8>().cast_mut(), Ordering::Relaxed);
        note.1.store(bytes.len(), Ordering::Relaxed);
    }
    stack.run(call)
}

/// What the call that runs now was given.
static BYTES: [(AtomicPtr<u8>, AtomicUsize); 2] = [const { (AtomicPtr::new(ptr::null_mut()), AtomicUsize::new(0)) }; 2];
static NAMED: AtomicPtr<Move> = AtomicPtr::new(ptr::null_mut());
/// The first of two type rows above the second's 16 bits.
static ROWS: AtomicU64 = AtomicU64::new(NO_ROWS);
const NO_ROWS: u64 = u64::MAX;

const SEGMENTATION: i32 = 11;
const ON_ANOTHER_STACK: i32 = 0x0800_0000;

/// glibc's `struct sigaction` on x86-64.
#[repr(C)]
struct Action {
    handler: extern "C" fn(i32),
    mask: [u64; 16],
    flags: i32,
    restorer: usize,
}

extern "C" {
    fn sigaction(signal: i32, new: *const Action, old: *mut Action) -> i32;
    fn write(file: i32, bytes: *const u8, length: usize) -> isize;
    fn _exit(code: i32) -> !;
}

/// From now on a call that passes its stack ends the program with 1.
fn report_overflow() {
    let action = Action { handler: passed, mask: [0; 16], flags: ON_ANOTHER_STACK, restorer: 0 };
    // SAFETY: the handler runs on the stack that std gives each thread for its own such handler.
    unsafe { sigaction(SEGMENTATION, &action, ptr::null_mut()) };
}

/// Standard output without a buffer: nothing is allocated where the program may be anywhere.
struct Out;

impl fmt::Write for Out {
    fn write_str(&mut self, text: &str) -> fmt::Result {
        // SAFETY: the text is readable.
        unsafe { write(1, text.as_ptr(), text.len()) };
        Ok(())
    }
}

extern "C" fn passed(_: i32) {
    let _ = tell(&mut Out);
    // SAFETY: ends the program.
    unsafe { _exit(1) }
}

fn tell(out: &mut impl fmt::Write) -> fmt::Result {
    out.write_str("a call passes the end of its stack")?;
    for (note, name) in BYTES.iter().zip(["file, message or text", "state"]) {
        write!(out, "\n{name} ")?;
        for at in 0..note.1.load(Ordering::Relaxed) {
            // SAFETY: the call is not over, so what it was given is still there.
            write!(out, "{:02x}", unsafe { *note.0.load(Ordering::Relaxed).add(at) })?;
        }
    }
    // SAFETY: the same.
    writeln!(out, "\nmove {:?}", unsafe { NAMED.load(Ordering::Relaxed).as_ref() })?;
    match ROWS.load(Ordering::Relaxed) {
        NO_ROWS => Ok(()),
        rows => writeln!(out, "type rows {} {}", rows >> 16, rows & 0xffff),
    }
}

#[cfg(test)]
mod tests {
    use super::*;
    use std::hint::black_box;

    /// Touches so many KiB of stack, one frame each.
    fn deep(frames: usize) -> usize {
        let frame = black_box([frames as u8; 1024]);
        if frames == 0 {
            0
        } else {
            deep(frames - 1) + usize::from(black_box(frame)[frames % 1024] == frames as u8)
        }
    }

    #[test]
    fn a_call_gives_its_result_and_touches_what_it_uses() {
        let mut stack = Stack::new(256 << 10);
        stack.paint();
        assert_eq!(stack.touched(), 0);
        let uses = [0, 1, 10, 50].map(|frames| {
            assert_eq!(stack.run(|| deep(frames)), frames);
            stack.touched()
        });
        assert!(uses[0] > 1024 && uses[0] < 8192, "{uses:?}");
        let frame = uses[1] - uses[0];
        assert!(frame >= 1024 && uses[3] - uses[0] == 50 * frame && uses[2] - uses[0] == 10 * frame, "{uses:?}");
    }

    #[test]
    fn what_was_given_is_told() {
        let stack = Some(Stack::new(256 << 10));
        let told = |given: Given| {
            run(&stack, given, || {
                let mut text = String::new();
                tell(&mut text).map(|()| text).expect("a string takes any text")
            })
        };
        let state = [7; 2];
        let named = Move::Close { service: 1, session: 2 };
        let given = Given { read: &[0xA5, 1], state: &state, named: Some(&named), rows: None };
        let head = "a call passes the end of its stack\nfile, message or text a501\nstate ";
        assert_eq!(told(given), format!("{head}0707\nmove Some(Close {{ service: 1, session: 2 }})\n"));
        let given = Given { rows: Some((3, 65_535)), ..Given::from(&[0xA5, 1][..]) };
        assert_eq!(told(given), format!("{head}\nmove None\ntype rows 3 65535\n"));
    }

    #[test]
    fn without_a_stack_a_call_runs_where_it_is() {
        assert_eq!(run(&None, &[][..], || deep(3)), 3);
    }
}
