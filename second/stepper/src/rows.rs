//! Behaviour rows and their progress: whose they are, what is done, what is ready.

use second::network::{Behaviour, Direction};
use second::Network;

use crate::state::{Progress, Session};

/// The rows of a network and the client or starter to which each belongs.
pub struct Rows<'a> {
    pub network: &'a Network,
    tops: Vec<usize>,
}

/// A row that is ready.
#[derive(Clone, Copy, PartialEq, Eq, Debug)]
pub struct Ready {
    pub row: usize,
    /// The choice that a receive would settle, and the branch.
    pub settles: Option<(usize, usize)>,
}

impl<'a> Rows<'a> {
    pub fn of(network: &'a Network) -> Rows<'a> {
        // Sub-behaviours are later rows and each row is used once: one pass downwards.
        let mut tops: Vec<usize> = (0..network.behaviours.len()).collect();
        for row in 0..tops.len() {
            for part in network.behaviours[row].parts() {
                tops[part] = tops[row];
            }
        }
        Rows { network, tops }
    }

    /// What a session runs: session 0 the client, 1 to 3 the starter.
    pub fn root(&self, service: usize, session: usize) -> Option<usize> {
        let service = self.network.services.get(service)?;
        if session == 0 {
            service.client
        } else {
            service.starter
        }
    }

    /// The client or starter to which a row belongs.
    pub fn top(&self, row: usize) -> Option<usize> {
        self.tops.get(row).copied()
    }

    /// A row of the session's own behaviour.
    pub fn belongs(&self, service: usize, session: usize, row: usize) -> bool {
        self.top(row).is_some() && self.top(row) == self.root(service, session)
    }

    /// Refusal 6 for the operation of a row that runs in a service; rows without one have none.
    pub fn operation_passes(&self, service: usize, row: usize) -> bool {
        use Behaviour::*;
        let (operation, direction, two_way) = match self.network.behaviours[row] {
            OneWay { operation, .. } => (operation, Direction::In, false),
            RequestResponse { operation, .. } => (operation, Direction::In, true),
            Notification { operation, .. } => (operation, Direction::Out, false),
            SolicitResponse { operation, .. } => (operation, Direction::Out, true),
            _ => return false,
        };
        let operation = &self.network.operations[operation];
        (operation.service, operation.direction, operation.reply.is_some()) == (service, direction, two_way)
    }

    /// "A nil is done, and so is a sequence, parallel, if or choice whose chosen parts are."
    pub fn done(&self, session: &Session, row: usize) -> bool {
        use Behaviour::*;
        let progress = session.progress[row];
        match &self.network.behaviours[row] {
            Nil => true,
            OneWay { .. }
            | RequestResponse { .. }
            | Notification { .. }
            | SolicitResponse { .. }
            | While { .. }
            | Assign { .. } => progress == Progress::Done,
            Sequence(a, b) | Parallel(a, b) => self.done(session, *a) && self.done(session, *b),
            Branch { input, then } => self.done(session, *input) && self.done(session, *then),
            If { .. } | Choice { .. } => self.taken(row, progress).is_some_and(|part| self.done(session, part)),
        }
    }

    /// The part that an if, while or choice has taken.
    fn taken(&self, row: usize, progress: Progress) -> Option<usize> {
        match progress {
            Progress::Taken(part) => self.network.behaviours[row].parts().get(part).copied(),
            _ => None,
        }
    }

    /// Every ready row of a session that runs this root.
    pub fn ready(&self, session: &Session, root: usize) -> Vec<Ready> {
        let mut found = Vec::new();
        self.collect(session, root, None, &mut found);
        found
    }

    /// Goes down from a row that is reached: "nothing before it in a sequence is undone".
    fn collect(&self, session: &Session, row: usize, settles: Option<(usize, usize)>, found: &mut Vec<Ready>) {
        use Behaviour::*;
        let progress = session.progress[row];
        let ready = Ready { row, settles };
        match &self.network.behaviours[row] {
            Nil => {}
            Sequence(a, b) | Branch { input: a, then: b } => {
                self.collect(session, *a, None, found);
                if self.done(session, *a) {
                    self.collect(session, *b, None, found);
                }
            }
            Parallel(a, b) => {
                self.collect(session, *a, None, found);
                self.collect(session, *b, None, found);
            }
            Choice { branches } if progress == Progress::Undone => {
                for (branch, row_of_branch) in branches.clone().enumerate() {
                    if let Branch { input, .. } = self.network.behaviours[row_of_branch] {
                        self.collect(session, input, Some((row, branch)), found);
                    }
                }
            }
            _ if progress == Progress::Undone => found.push(ready),
            RequestResponse { body, .. } if matches!(progress, Progress::Received(_)) => {
                self.collect(session, *body, None, found);
            }
            // "A while whose body is done is [ready] again."
            While { body, .. } if progress == Progress::Taken(0) && self.done(session, *body) => found.push(ready),
            If { .. } | While { .. } | Choice { .. } => {
                if let Some(part) = self.taken(row, progress) {
                    self.collect(session, part, None, found);
                }
            }
            _ => {}
        }
    }

    /// Every row below a row.
    pub fn below(&self, row: usize) -> Vec<usize> {
        let mut rows = self.network.behaviours[row].parts();
        let mut next = 0;
        while next < rows.len() {
            rows.extend(self.network.behaviours[rows[next]].parts());
            next += 1;
        }
        rows
    }
}
