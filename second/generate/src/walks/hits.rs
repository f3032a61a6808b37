//! What walks have hit, so that a run that misses something can fail.

use std::collections::BTreeMap;
use std::fmt;

use second::network::{Behaviour, Direction, Operation};
use second::Network;
use stepper::decode::decode;
use stepper::rows::Rows;
use stepper::state::{Destination, Progress, Session};
use stepper::{Bound, Event, Made, Misshape, Move, NotAllowed, Reason, Refused, State};

use super::{key_hits, property, strings, sums, Call, Walk};
use crate::nests;
use crate::strings::{Seen, StringHits};

/// Each name was to be hit often enough.
pub struct WalkHits {
    counts: BTreeMap<String, usize>,
    strings: StringHits,
}

/// The numbers that each kind of move can give.
const NUMBERS: [(&str, &[u8]); 7] = [
    ("local", &[0, 1, 2, 3, 4, 5, 14, 15, 18, 22]),
    ("receive", &[0, 1, 2, 3, 4, 5, 14, 15, 18]),
    ("send", &[0, 1, 2, 3, 4, 5, 14, 15, 16, 18, 19, 22]),
    ("reply", &[0, 1, 2, 3, 4, 5, 14, 15, 18, 19]),
    ("outer message", &[0, 1, 2, 3, 4, 5, 14, 15, 16, 17, 18, 19]),
    ("outer reply", &[0, 1, 2, 3, 4, 5, 14, 15, 17, 18, 19]),
    ("close", &[0, 1, 2, 3, 4, 5, 14, 15]),
];

const EVENTS: [(&str, &[Event]); 7] = [
    (
        "local",
        &[
            Event::Assigned,
            Event::ThenTaken,
            Event::ElseTaken,
            Event::BodyTaken,
            Event::BodyTakenAgain,
            Event::WhileDone,
        ],
    ),
    ("receive", &[Event::Received, Event::Settled]),
    ("send", &[Event::Queued, Event::Started, Event::SentOutside]),
    ("reply", &[Event::Replied, Event::OutsiderAnswered]),
    ("outer message", &[Event::Queued, Event::Started]),
    ("outer reply", &[Event::OuterReplied]),
    ("close", &[Event::Closed]),
];

/// Why a kind of move is not allowed (15).
const NOT_ALLOWED: [(&str, &[NotAllowed]); 7] = {
    use NotAllowed::*;
    [
        ("local", &[NoSession, OtherRow, NotReady]),
        ("receive", &[NoSession, OtherRow, NotReady, Operation, NothingQueued]),
        ("send", &[NoSession, OtherRow, NotReady, Operation, NoInput, Target, NoKey, KeylessTarget, OtherKey, KeyHeld]),
        ("reply", &[NoSession, OtherRow, NothingToAnswer, Operation, NobodyWaits]),
        ("outer message", &[NoInput, Target, Operation, NoKey, KeylessTarget, OtherKey, KeyHeld]),
        ("outer reply", &[NoSession, OtherRow, NotWaiting, Operation]),
        ("close", &[NoSession, NotDone]),
    ]
};

const VALUES: [(&str, &[Reason]); 7] = {
    use Reason::*;
    [
        ("assign", &[Missing, WrongKind, TreeSize]),
        ("condition", &[Missing, WrongKind]),
        ("receive", &[TreeSize]),
        ("send", &[Missing, WrongKind, TreeSize]),
        ("reply", &[Missing, TreeSize]),
        ("outer message", &[TreeSize]),
        ("outer reply", &[TreeSize]),
    ]
};

const FITS: [(&str, &[Reason]); 4] = {
    use Bound::*;
    use Reason::*;
    [
        ("send", &[Unfit(Inside), Unfit(Outside), LargeMessage(Inside), LargeMessage(Outside)]),
        ("reply", &[Unfit(Inside), Unfit(Outside), LargeMessage(Inside), LargeMessage(Outside)]),
        ("outer message", &[Unfit(Inside)]),
        ("outer reply", &[Unfit(Inside)]),
    ]
};

const FEATURES: [&str; 21] = [
    "a walk from fresh",
    "a move from fresh",
    "a walk over a network with a keyed service",
    "a walk from fresh over a network with a keyed service",
    "a session started with the key of one that was closed",
    "a move on a file that 6 to 23 refuse",
    "a session closed with messages in its queue",
    "a message that is not the oldest taken",
    "a session that sends to itself",
    "a session that answers itself",
    "a session started by a one-way of a service",
    "a session started by a request of a service",
    "a session started by a request from outside",
    "a solicit-response sent outside",
    "a choice or if settled inside a while",
    "an input received in a branch that was taken before",
    "a row named in the body of an input whose choice is not taken",
    "a reply of a row below one that is not taken",
    "a while's body taken over rows with marks",
    "a while's body taken over 100 rows",
    "a nest closed",
];

impl Default for WalkHits {
    fn default() -> WalkHits {
        let mut names: Vec<String> = (0..=13).chain([23]).map(|number| format!("fresh {number:2}")).collect();
        for (kind, numbers) in NUMBERS {
            names.extend(numbers.iter().map(|number| format!("{kind} {number:2}")));
        }
        for (kind, events) in EVENTS {
            names.extend(events.iter().map(|event| format!("{kind}  0 {event:?}")));
        }
        names.extend(Misshape::ALL.map(|misshape| format!("any move 14 {misshape:?}")));
        for (kind, reasons) in NOT_ALLOWED {
            names.extend(reasons.iter().map(|why| format!("{kind} 15 {why:?}")));
        }
        for (kind, reasons) in VALUES {
            names.extend(reasons.iter().map(|reason| format!("{kind} 18 {reason:?}")));
        }
        for (kind, reasons) in FITS {
            names.extend(reasons.iter().map(|reason| format!("{kind} 19 {reason:?}")));
        }
        names.extend(sums::names());
        names.extend(key_hits::names());
        names.extend(FEATURES.map(String::from));
        names.extend(property::HOLDERS.map(held_name));
        for result in ["made", "refused by 15 to 22"] {
            names.extend(nests::names().map(|name| format!("a move {result} below {name}")));
        }
        let counts = names.into_iter().map(|name| (name, 0)).collect();
        WalkHits { counts, strings: StringHits::at(&strings::PLACES) }
    }
}

impl fmt::Display for WalkHits {
    fn fmt(&self, f: &mut fmt::Formatter) -> fmt::Result {
        for (name, count) in &self.counts {
            writeln!(f, "{count:8}  {name}")?;
        }
        write!(f, "{}", self.strings)
    }
}

impl WalkHits {
    fn hit(&mut self, name: String) {
        *self.counts.get_mut(&name).unwrap_or_else(|| panic!("{name} is not among the names that are counted")) += 1;
    }

    pub fn feature(&mut self, holds: bool, feature: &str) {
        if holds {
            self.hit(feature.into());
        }
    }

    /// Names that were hit less often.
    pub fn below(&self, least: usize) -> Vec<&str> {
        let few = self.counts.iter().filter(|(_, &count)| count < least).map(|(name, _)| name.as_str());
        few.chain(self.strings.below(least)).collect()
    }

    /// A call on a state from fresh, its result, the state after it and what the strings hold then.
    pub fn from_fresh(
        &mut self,
        walk: &Walk,
        named: &Move,
        result: &Result<Made, Refused>,
        state: &[u8],
        after: &[Seen; 4],
    ) {
        self.hit("a move from fresh".into());
        key_hits::from_fresh(&walk.file, state, result).into_iter().for_each(|name| self.hit(name));
        for (holder, _) in property::HOLDERS.iter().zip(after).filter(|(_, seen)| **seen != Seen::default()) {
            self.hit(held_name(holder));
        }
        if result.is_err_and(|refused| refused.reason == Reason::Beyond) {
            self.hit(sums::row_name(&walk.network, named) + ", from fresh");
        }
    }

    pub fn fresh(&mut self, number: u32) {
        self.hit(format!("fresh {number:2}"));
    }

    /// A call by the second implementation and its result.
    pub fn call(&mut self, call: &Call, result: &Result<Made, Refused>) {
        strings::deciding(call, result).iter().for_each(|(place, seen)| self.strings.hit(*place, seen));
        key_hits::of_call(call, result).into_iter().for_each(|name| self.hit(name));
        let kind = call.named.name();
        let read = || {
            let network = Network::read(&call.file).expect("a file that passes 2 to 5");
            let state = decode(&network, &call.state).expect("a state of the file's shape");
            (network, state)
        };
        match result {
            Ok(made) => {
                self.hit(format!("{kind}  0"));
                self.hit(format!("{kind}  0 {:?}", made.event));
                let (network, state) = read();
                self.made(&network, &state, &call.named, made.event);
                self.early(&network, &state, &call.named);
                self.nests(&network, &state, &call.named, "made");
            }
            Err(refused) => {
                self.hit(format!("{kind} {:2}", refused.number));
                self.refused(call, kind, refused);
                if refused.number >= 15 {
                    let (network, state) = read();
                    self.nests(&network, &state, &call.named, "refused by 15 to 22");
                    let names = sums::refused(&network, &state, &call.named, refused);
                    names.into_iter().for_each(|name| self.hit(name));
                }
                if refused.reason == Reason::NotAllowed(NotAllowed::NotReady) {
                    let (network, state) = read();
                    self.early(&network, &state, &call.named);
                }
            }
        }
    }

    fn nests(&mut self, network: &Network, before: &State, named: &Move, result: &str) {
        let depths = nests::depths(network);
        match session_and_row(before, named).and_then(|(_, row)| depths.get(row)) {
            Some(depths) => {
                nests::nests_of(depths).iter().for_each(|name| self.hit(format!("a move {result} below {name}")));
            }
            None => {
                let nest = depths.iter().any(|depths| !nests::nests_of(depths).is_empty());
                let closed = result == "made" && matches!(named, Move::Close { .. });
                self.feature(nest && closed, "a nest closed");
            }
        }
    }

    /// A row that nothing keeps from being ready but that the choice above it is not taken.
    fn early(&mut self, network: &Network, before: &State, named: &Move) {
        let Some((live, row)) = session_and_row(before, named) else { return };
        let rows = Rows::of(network);
        let early = network.behaviours.iter().enumerate().any(|(choice, behaviour)| {
            let untaken = is_choice(behaviour) && live.progress[choice] == Progress::Undone;
            untaken && inputs(network, behaviour).iter().any(|&input| in_received_body(&rows, live, input, row))
        });
        self.feature(early, "a row named in the body of an input whose choice is not taken");
    }

    fn refused(&mut self, call: &Call, kind: &str, refused: &Refused) {
        let number = refused.number;
        match refused.reason {
            Reason::State(misshape) => self.hit(format!("any move 14 {misshape:?}")),
            Reason::NotAllowed(why) => self.hit(format!("{kind} 15 {why:?}")),
            reason @ (Reason::Missing | Reason::WrongKind | Reason::TreeSize) => {
                let what = match call.named {
                    Move::Local { row, .. } if is_assign(&call.file, row) => "assign",
                    Move::Local { .. } => "condition",
                    _ => kind,
                };
                self.hit(format!("{what} {number} {reason:?}"));
            }
            reason @ (Reason::LargeMessage(_) | Reason::Unfit(_)) => self.hit(format!("{kind} {number} {reason:?}")),
            _ => {}
        }
    }

    fn made(&mut self, network: &Network, before: &State, named: &Move, event: Event) {
        match *named {
            Move::Close { service, session } => {
                let queue = before.live(service.into(), session.into()).map_or(0, |session| session.queue.len());
                self.feature(queue > 0, "a session closed with messages in its queue");
            }
            Move::Receive { service, session, row } => {
                let oldest = before.live(service.into(), session.into()).and_then(|session| session.queue.first());
                let later = oldest.is_some_and(|queued| Some(queued.operation) != operation_of(network, row));
                self.feature(later, "a message that is not the oldest taken");
            }
            Move::Send { .. } => self.sent(network, named, event),
            Move::Reply { service, session, row } => {
                let here = (usize::from(service), usize::from(session));
                let progress = before.live(here.0, here.1).map(|live| live.progress[usize::from(row)]);
                let own = matches!(progress, Some(Progress::Received(Destination::Row { service, session, .. }))
                    if (service, session) == here);
                self.feature(own, "a session that answers itself");
            }
            Move::OuterMessage { service, id, .. } => {
                let named = |row: &&Operation| {
                    (row.service, row.id, row.direction) == (usize::from(service), id, Direction::In)
                };
                let two_way = network.operations.iter().find(named).is_some_and(|row| row.reply.is_some());
                self.feature(event == Event::Started && two_way, "a session started by a request from outside");
            }
            Move::Local { .. } | Move::OuterReply { .. } => {}
        }
        let inside = match *named {
            Move::Local { row, .. } if matches!(event, Event::ThenTaken | Event::ElseTaken) => in_a_while(network, row),
            Move::Receive { row, .. } if event == Event::Settled => in_a_while(network, row),
            _ => false,
        };
        self.feature(inside, "a choice or if settled inside a while");
        self.oddities(network, before, named, event);
    }

    /// Moves that only damaged states allow.
    fn oddities(&mut self, network: &Network, before: &State, named: &Move, event: Event) {
        let Some((live, row)) = session_and_row(before, named) else { return };
        let rows = Rows::of(network);
        let choices = || (0..network.behaviours.len()).filter(|&row| is_choice(&network.behaviours[row]));
        let is_input = choices().any(|choice| inputs(network, &network.behaviours[choice]).contains(&row));
        self.feature(event == Event::Received && is_input, "an input received in a branch that was taken before");
        let is_reply = matches!(named, Move::Reply { .. });
        let untaken = (0..network.behaviours.len()).any(|above| {
            takes_a_part(&network.behaviours[above])
                && !matches!(live.progress[above], Progress::Taken(_))
                && rows.below(above).contains(&row)
        });
        self.feature(is_reply && untaken, "a reply of a row below one that is not taken");
        let taken = matches!(event, Event::BodyTaken | Event::BodyTakenAgain);
        self.feature(taken && rows.below(row).len() >= 100, "a while's body taken over 100 rows");
        let marked = rows.below(row).iter().any(|&below| live.progress[below] != Progress::Undone);
        self.feature(event == Event::BodyTaken && marked, "a while's body taken over rows with marks");
    }

    fn sent(&mut self, network: &Network, named: &Move, event: Event) {
        let Move::Send { service, session, row, target } = *named else { return };
        let two_way = matches!(network.behaviours[usize::from(row)], Behaviour::SolicitResponse { .. });
        let started = event == Event::Started;
        self.feature(started && two_way, "a session started by a request of a service");
        self.feature(started && !two_way, "a session started by a one-way of a service");
        self.feature(event == Event::SentOutside && two_way, "a solicit-response sent outside");
        let location = operation_of(network, row).map(|operation| network.operations[operation].location);
        let own = location == Some(network.services[usize::from(service)].location) && target == session;
        self.feature(event == Event::Queued && own, "a session that sends to itself");
    }
}

fn held_name(holder: &str) -> String {
    format!("a string in {holder}, from fresh")
}

/// The live session and the row that a move names.
fn session_and_row<'a>(state: &'a State, named: &Move) -> Option<(&'a Session, usize)> {
    let (Move::Local { service, session, row }
    | Move::Receive { service, session, row }
    | Move::Send { service, session, row, .. }
    | Move::Reply { service, session, row }
    | Move::OuterReply { service, session, row }) = *named
    else {
        return None;
    };
    Some((state.live(service.into(), session.into())?, row.into()))
}

/// The input rows of a choice.
fn inputs(network: &Network, choice: &Behaviour) -> Vec<usize> {
    choice.parts().into_iter().filter_map(|branch| network.behaviours[branch].parts().first().copied()).collect()
}

/// Whether a row would be ready in the body of an input that is marked as received.
fn in_received_body(rows: &Rows, live: &Session, input: usize, row: usize) -> bool {
    let Behaviour::RequestResponse { body, .. } = rows.network.behaviours[input] else { return false };
    matches!(live.progress[input], Progress::Received(_)) && rows.ready(live, body).iter().any(|ready| ready.row == row)
}

fn is_choice(behaviour: &Behaviour) -> bool {
    matches!(behaviour, Behaviour::Choice { .. })
}

fn takes_a_part(behaviour: &Behaviour) -> bool {
    matches!(behaviour, Behaviour::If { .. } | Behaviour::While { .. } | Behaviour::Choice { .. })
}

fn is_assign(file: &[u8], row: u16) -> bool {
    let network = Network::read(file).expect("a file that passes 2 to 5");
    matches!(network.behaviours[usize::from(row)], Behaviour::Assign { .. })
}

/// The operation of a row that has one.
fn operation_of(network: &Network, row: u16) -> Option<usize> {
    match network.behaviours[usize::from(row)] {
        Behaviour::OneWay { operation, .. }
        | Behaviour::RequestResponse { operation, .. }
        | Behaviour::Notification { operation, .. }
        | Behaviour::SolicitResponse { operation, .. } => Some(operation),
        _ => None,
    }
}

fn in_a_while(network: &Network, row: u16) -> bool {
    let rows = Rows::of(network);
    (0..network.behaviours.len()).any(|above| {
        matches!(network.behaviours[above], Behaviour::While { .. }) && rows.below(above).contains(&row.into())
    })
}
