//! Refusals of fresh and of moves: the paper's number and place, and the rule behind them.

use std::fmt;

use second::{Cause, Refusal};

/// Why state bytes stand for no state of the file's shape (14), by the rules of docs/STATE.md.
#[derive(Clone, Copy, PartialEq, Eq, Debug, PartialOrd, Ord, Hash)]
pub enum Misshape {
    /// Rule 1: a slot's first byte is neither 0 nor 1, or a free slot holds something.
    Slot,
    /// Rule 1: a byte that is not named is not 0.
    KeptZero,
    /// Rule 2: a live session of a service without a client or starter.
    NobodyRuns,
    /// Rule 3: the tree, its length or the bytes after it.
    Tree,
    /// Rule 4: used entries after unused ones, or bytes in an unused entry.
    QueueOrder,
    /// Rule 4: the operation of a queued message.
    QueueOperation,
    /// Rule 4: the message, its length or the bytes after it.
    QueueMessage,
    /// Rule 4: a destination that is there or missing against the operation's kind.
    QueueDestination,
    /// Rule 5: progress that the row's kind does not have.
    Progress,
    /// Rule 5: a part that the row does not have.
    Part,
    /// Rule 5: progress of a row of another behaviour, or of no row.
    OtherRow,
    /// Rule 6: a destination outside the file's services, sessions and rows.
    Destination,
    /// Rule 7: a key in a live session that holds none.
    Key,
    /// Rule 7: two live sessions of a service with one key.
    TwinKeys,
}

impl Misshape {
    pub const ALL: [Misshape; 14] = {
        use Misshape::*;
        [
            Slot,
            KeptZero,
            NobodyRuns,
            Tree,
            QueueOrder,
            QueueOperation,
            QueueMessage,
            QueueDestination,
            Progress,
            Part,
            OtherRow,
            Destination,
            Key,
            TwinKeys,
        ]
    };
}

/// Why a move is not allowed (15).
#[derive(Clone, Copy, PartialEq, Eq, Debug, PartialOrd, Ord, Hash)]
pub enum NotAllowed {
    /// No such service or session, or a free one.
    NoSession,
    /// No such row, a row of another behaviour or of a kind that the move is not for.
    OtherRow,
    NotReady,
    /// A row's operation that 6 refuses.
    Operation,
    /// No message of the operation is queued.
    NothingQueued,
    /// No input is met, or none has the id.
    NoInput,
    /// No such target session, or one that can not be started.
    Target,
    /// The row is not received, or its body is not done.
    NothingToAnswer,
    /// The destination is no live session with a waiting row.
    NobodyWaits,
    /// The row does not wait, or not for an outsider.
    NotWaiting,
    /// The session that is to be closed is not done.
    NotDone,
    /// After 19: a message to a keyed service has no int where its key should be.
    NoKey,
    /// After 19: the target is session 0 of a keyed service, which holds no key.
    KeylessTarget,
    /// After 19: the live target has another key.
    OtherKey,
    /// After 19: a live session has the key of a message that would start another.
    KeyHeld,
}

impl NotAllowed {
    pub const ALL: [NotAllowed; 15] = {
        use NotAllowed::*;
        [
            NoSession,
            OtherRow,
            NotReady,
            Operation,
            NothingQueued,
            NoInput,
            Target,
            NothingToAnswer,
            NobodyWaits,
            NotWaiting,
            NotDone,
            NoKey,
            KeylessTarget,
            OtherKey,
            KeyHeld,
        ]
    };
}

/// Which type a message is compared with (19).
#[derive(Clone, Copy, PartialEq, Eq, Debug, PartialOrd, Ord, Hash)]
pub enum Bound {
    /// The input's request type or the waiting row's reply type.
    Inside,
    /// The sender's own type.
    Outside,
}

#[derive(Clone, Copy, PartialEq, Eq, Debug, PartialOrd, Ord, Hash)]
pub enum Reason {
    /// 1
    Buffers,
    /// 2 to 13, 23
    File(Cause),
    /// 14
    State(Misshape),
    /// 15
    NotAllowed(NotAllowed),
    /// 16
    QueueFull,
    /// 17
    NoMessage,
    /// 18
    Missing,
    /// 18
    WrongKind,
    /// 18
    TreeSize,
    /// 22, between 18 and 19: an int or long sum is outside its width.
    Beyond,
    /// 19: a tree that fits no type, since it is no message.
    LargeMessage(Bound),
    /// 19
    Unfit(Bound),
}

/// A refusal of fresh or of a move.
#[derive(Clone, Copy, PartialEq, Eq, Debug)]
pub struct Refused {
    pub number: u8,
    pub place: usize,
    pub reason: Reason,
}

impl From<Reason> for Refused {
    fn from(reason: Reason) -> Refused {
        let number = match reason {
            Reason::Buffers => 1,
            Reason::File(cause) => cause.number(),
            Reason::State(_) => 14,
            Reason::NotAllowed(_) => 15,
            Reason::QueueFull => 16,
            Reason::NoMessage => 17,
            Reason::Missing | Reason::WrongKind | Reason::TreeSize => 18,
            Reason::Beyond => 22,
            Reason::LargeMessage(_) | Reason::Unfit(_) => 19,
        };
        Refused { number, place: 0, reason }
    }
}

impl From<Misshape> for Refused {
    fn from(misshape: Misshape) -> Refused {
        Reason::State(misshape).into()
    }
}

impl From<NotAllowed> for Refused {
    fn from(why: NotAllowed) -> Refused {
        Reason::NotAllowed(why).into()
    }
}

impl From<Refusal> for Refused {
    fn from(refusal: Refusal) -> Refused {
        Refused { number: refusal.number, place: refusal.place, reason: Reason::File(refusal.cause) }
    }
}

impl fmt::Display for Refused {
    fn fmt(&self, f: &mut fmt::Formatter) -> fmt::Result {
        write!(f, "refused {} {} ({:?})", self.number, self.place, self.reason)
    }
}
