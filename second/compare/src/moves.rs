//! Fresh and the moves behind the C interface of the proved code.

use stepper::Move;

/// What a call that writes gives back: fresh, a move, types or counterexample.
#[derive(Clone, Copy, PartialEq, Eq, Debug)]
pub struct StepAnswer {
    /// 0 for done.
    pub number: u32,
    pub place: usize,
    /// Bytes written to the start of the out buffer.
    pub bytes: usize,
}

pub type Fresh = unsafe extern "C" fn(*const u8, usize, *mut u8, usize, *mut usize) -> u32;

/// File, state, out buffer; service, session, row; bytes, place.
pub type RowMove = unsafe extern "C" fn(
    *const u8,
    usize,
    *mut u8,
    usize,
    *mut u8,
    usize,
    u16,
    u16,
    u16,
    *mut usize,
    *mut usize,
) -> u32;

/// The same with a target after the row.
pub type SendMove = unsafe extern "C" fn(
    *const u8,
    usize,
    *mut u8,
    usize,
    *mut u8,
    usize,
    u16,
    u16,
    u16,
    u16,
    *mut usize,
    *mut usize,
) -> u32;

/// File, state, out buffer, outside; service, id, target, number; bytes, place.
pub type OuterMessageMove = unsafe extern "C" fn(
    *const u8,
    usize,
    *mut u8,
    usize,
    *mut u8,
    usize,
    *const u8,
    usize,
    u16,
    u16,
    u16,
    u32,
    *mut usize,
    *mut usize,
) -> u32;

/// File, state, out buffer, outside; service, session, row; bytes, place.
pub type OuterReplyMove = unsafe extern "C" fn(
    *const u8,
    usize,
    *mut u8,
    usize,
    *mut u8,
    usize,
    *const u8,
    usize,
    u16,
    u16,
    u16,
    *mut usize,
    *mut usize,
) -> u32;

/// File, state, out buffer; service, session; bytes, place.
pub type CloseMove =
    unsafe extern "C" fn(*const u8, usize, *mut u8, usize, *mut u8, usize, u16, u16, *mut usize, *mut usize) -> u32;

/// The functions of the interface that make states and moves.
pub struct Moves {
    pub fresh: Fresh,
    pub local: RowMove,
    pub receive: RowMove,
    pub send: SendMove,
    pub reply: RowMove,
    pub outer_message: OuterMessageMove,
    pub outer_reply: OuterReplyMove,
    pub close: CloseMove,
}

impl Moves {
    pub fn fresh(&self, file: &[u8], state: &mut [u8]) -> StepAnswer {
        let mut place = usize::MAX;
        // SAFETY: the file is readable and the state writable for their lengths, the place is writable.
        let number = unsafe { (self.fresh)(file.as_ptr(), file.len(), state.as_mut_ptr(), state.len(), &mut place) };
        StepAnswer { number, place, bytes: 0 }
    }

    pub fn step(&self, file: &[u8], state: &mut [u8], out: &mut [u8], named: &Move, outside: &[u8]) -> StepAnswer {
        let (mut bytes, mut place) = (usize::MAX, usize::MAX);
        let (f, fl) = (file.as_ptr(), file.len());
        let (s, sl) = (state.as_mut_ptr(), state.len());
        let (o, ol) = (out.as_mut_ptr(), out.len());
        let (x, xl) = (outside.as_ptr(), outside.len());
        let (b, p) = (&mut bytes, &mut place);
        // SAFETY: file and outside are readable for their lengths, state and out writable for theirs; the
        // four share no byte; bytes and place are writable.
        let number = unsafe {
            match *named {
                Move::Local { service, session, row } => (self.local)(f, fl, s, sl, o, ol, service, session, row, b, p),
                Move::Receive { service, session, row } => {
                    (self.receive)(f, fl, s, sl, o, ol, service, session, row, b, p)
                }
                Move::Send { service, session, row, target } => {
                    (self.send)(f, fl, s, sl, o, ol, service, session, row, target, b, p)
                }
                Move::Reply { service, session, row } => (self.reply)(f, fl, s, sl, o, ol, service, session, row, b, p),
                Move::OuterMessage { service, id, target, number } => {
                    (self.outer_message)(f, fl, s, sl, o, ol, x, xl, service, id, target, number, b, p)
                }
                Move::OuterReply { service, session, row } => {
                    (self.outer_reply)(f, fl, s, sl, o, ol, x, xl, service, session, row, b, p)
                }
                Move::Close { service, session } => (self.close)(f, fl, s, sl, o, ol, service, session, b, p),
            }
        };
        StepAnswer { number, place, bytes }
    }
}
