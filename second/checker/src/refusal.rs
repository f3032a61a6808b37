//! Refusals: the paper's number and place, and the rule behind them.

use std::fmt;

/// Why a file is refused. Several causes share a number; `Cause::number` is the paper's.
#[derive(Clone, Copy, PartialEq, Eq, Debug, PartialOrd, Ord, Hash)]
pub enum Cause {
    // 2
    Length,
    Trailer,
    // 3
    TooManyRows,
    NoService,
    // 4, by the place that the paper names
    Field,
    TypeRun,
    ChoiceRun,
    Constant,
    BrokenText,
    TypeRoot,
    ChildId,
    NeverUsed,
    SecondUse,
    RepeatedInput,
    RepeatedOutput,
    RepeatedLocation,
    // 5
    TypeSize,
    ExpressionSize,
    // 6
    OtherService,
    OtherDirection,
    OtherKind,
    // 7
    ReadMissing,
    ReadNotFirm,
    PresenceMissing,
    AboveNotFirm,
    PartNotFirm,
    OptionalKeepsMandatory,
    ReplyMissing,
    ReplyNotFirm,
    // 8
    Operand,
    Condition,
    // 9
    PlacedType,
    AssignedBasic,
    SentType,
    ReplyType,
    // 10
    IfSides,
    WhileBody,
    ChoiceBranches,
    StarterRoots,
    // 11
    SharedRoot,
    // 12
    PlacedNodes,
    PlacedLevels,
    UnionNodes,
    // 13
    NoInput,
    InputKind,
    InputRequest,
    InputReply,
    // 23
    KeyMissing,
    KeyOptional,
    KeyBasic,
}

impl Cause {
    pub const ALL: [Cause; 50] = {
        use Cause::*;
        [
            Length,
            Trailer,
            TooManyRows,
            NoService,
            Field,
            TypeRun,
            ChoiceRun,
            Constant,
            BrokenText,
            TypeRoot,
            ChildId,
            NeverUsed,
            SecondUse,
            RepeatedInput,
            RepeatedOutput,
            RepeatedLocation,
            TypeSize,
            ExpressionSize,
            OtherService,
            OtherDirection,
            OtherKind,
            ReadMissing,
            ReadNotFirm,
            PresenceMissing,
            AboveNotFirm,
            PartNotFirm,
            OptionalKeepsMandatory,
            ReplyMissing,
            ReplyNotFirm,
            Operand,
            Condition,
            PlacedType,
            AssignedBasic,
            SentType,
            ReplyType,
            IfSides,
            WhileBody,
            ChoiceBranches,
            StarterRoots,
            SharedRoot,
            PlacedNodes,
            PlacedLevels,
            UnionNodes,
            NoInput,
            InputKind,
            InputRequest,
            InputReply,
            KeyMissing,
            KeyOptional,
            KeyBasic,
        ]
    };

    pub fn number(self) -> u8 {
        use Cause::*;
        match self {
            Length | Trailer => 2,
            TooManyRows | NoService => 3,
            Field | TypeRun | ChoiceRun | Constant | BrokenText | TypeRoot | ChildId | NeverUsed | SecondUse
            | RepeatedInput | RepeatedOutput | RepeatedLocation => 4,
            TypeSize | ExpressionSize => 5,
            OtherService | OtherDirection | OtherKind => 6,
            ReadMissing
            | ReadNotFirm
            | PresenceMissing
            | AboveNotFirm
            | PartNotFirm
            | OptionalKeepsMandatory
            | ReplyMissing
            | ReplyNotFirm => 7,
            Operand | Condition => 8,
            PlacedType | AssignedBasic | SentType | ReplyType => 9,
            IfSides | WhileBody | ChoiceBranches | StarterRoots => 10,
            SharedRoot => 11,
            PlacedNodes | PlacedLevels | UnionNodes => 12,
            NoInput | InputKind | InputRequest | InputReply => 13,
            KeyMissing | KeyOptional | KeyBasic => 23,
        }
    }

    /// One line for a fitter.
    pub fn sentence(self) -> &'static str {
        use Cause::*;
        match self {
            Length => "the file's length is not 28 to 32768 bytes",
            Trailer => "the trailer's starts and counts do not fit the file",
            TooManyRows => "a section has too many rows",
            NoService => "there is no service",
            Field => "a field breaks its row's rule",
            TypeRun => "the children are no run of later rows",
            ChoiceRun => "the branches are no run of later branch rows",
            Constant => "the constant is no value of its basic type in the data",
            BrokenText => "the string constant is not well-formed UTF-8",
            TypeRoot => "the operation's type is no mandatory root row with id 0",
            ChildId => "child ids must rise strictly and not be 0",
            NeverUsed => "the behaviour row is never used",
            SecondUse => "the row uses a behaviour row that is used already",
            RepeatedInput => "the service has an input of this id already",
            RepeatedOutput => "the service has an output of this id and location already",
            RepeatedLocation => "another service has this location",
            TypeSize => "the type written out has more than 16 nodes or 4 levels",
            ExpressionSize => "the expression has more than 8 levels",
            OtherService => "the operation belongs to another service",
            OtherDirection => "the operation has the other direction",
            OtherKind => "one of operation and statement is two-way, the other is not",
            ReadMissing => "the path that is read is not there",
            ReadNotFirm => "the path that is read may be absent",
            PresenceMissing => "the path that is tested can never be there",
            AboveNotFirm => "the path above the one written may be absent",
            PartNotFirm => "the node under which the path would be made may be absent",
            OptionalKeepsMandatory => "the node assigned is optional and has a mandatory child",
            ReplyMissing => "the reply path is not there",
            ReplyNotFirm => "the reply path may be absent",
            Operand => "an operand has a wrong basic type",
            Condition => "the condition is no bool",
            PlacedType => "the type received is no subtype of what the path holds",
            AssignedBasic => "the value's basic type is not the one that the path holds",
            SentType => "the value sent is no subtype of the request type",
            ReplyType => "what the reply path holds is no subtype of the reply type",
            IfSides => "the two sides of the if leave different environments",
            WhileBody => "the body of the while changes the environment",
            ChoiceBranches => "the branches of the choice leave different environments",
            StarterRoots => "two starter branches give one root different types",
            SharedRoot => "both sides of the parallel use one root",
            PlacedNodes => "the environment passes 48 nodes",
            PlacedLevels => "the environment passes 6 levels",
            UnionNodes => "the starter's environment passes 48 nodes",
            NoInput => "the service at this location has no such input",
            InputKind => "one of output and input is two-way, the other is not",
            InputRequest => "the output's request type is no subtype of the input's",
            InputReply => "the input's reply type is no subtype of the output's",
            KeyMissing => "the service is keyed, and the input's request type has no such child",
            KeyOptional => "the service is keyed, and the key is an optional child of the input's request type",
            KeyBasic => "the service is keyed, and the key is no int in the input's request type",
        }
    }
}

/// A refusal of the checker, 2 to 13 or 23.
#[derive(Clone, Copy, PartialEq, Eq, Debug)]
pub struct Refusal {
    pub number: u8,
    pub place: usize,
    pub cause: Cause,
}

impl Refusal {
    pub fn new(cause: Cause, place: usize) -> Refusal {
        Refusal { number: cause.number(), place, cause }
    }
}

impl fmt::Display for Refusal {
    fn fmt(&self, f: &mut fmt::Formatter) -> fmt::Result {
        write!(f, "refused {} {}", self.number, self.place)
    }
}
