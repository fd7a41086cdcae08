//! A run: the events of a list of bytes in order, a row for each.

use crate::event::Event;
use crate::monitor::{Answer, Monitor};
use crate::sets::RoleSet;

/// An event's kind, and what it was answered.
#[derive(Clone, Copy, Debug, Default, PartialEq, Eq)]
pub struct Row {
    pub kind: u8,
    pub number: u8,
    pub subject: u8,
    pub place: u8,
    pub roles: RoleSet,
}

impl Row {
    fn new(event: Event, answer: Answer) -> Row {
        Row {
            kind: event.kind(),
            number: answer.number(),
            subject: answer.subject() as u8,
            place: answer.place(),
            roles: answer.roles(),
        }
    }
}

/// How many rows were filled, how many bytes their events took, and the number
/// of the end.
#[derive(Clone, Copy, Debug, Default, PartialEq, Eq)]
pub struct Outcome {
    pub rows: usize,
    pub bytes: usize,
    pub end: u8,
}

/// The end of a run that wants rows.
const NO_ROW: u8 = 10;

/// Decides the events and fills the rows, until something ends it.
pub fn run(monitor: &mut Monitor, bytes: &[u8], rows: &mut [Row]) -> Outcome {
    let mut rest = bytes;
    let mut filled = 0;
    let end = loop {
        if !rest.is_empty() && filled == rows.len() {
            break NO_ROW;
        }
        match Event::take(rest) {
            Ok((event, after)) => {
                rows[filled] = Row::new(event, monitor.decide(event));
                filled += 1;
                rest = after;
            }
            Err(stop) => break stop as u8,
        }
    };
    Outcome {
        rows: filled,
        bytes: bytes.len() - rest.len(),
        end,
    }
}

#[cfg(test)]
mod tests {
    use super::*;
    use crate::hierarchy::Hierarchy;
    use crate::policy::Policy;

    /// Of a policy with one user, role and session.
    fn outcome(bytes: &[u8], rows: usize) -> Outcome {
        let policy = Policy::empty(1, 1, 1);
        let hierarchy = Hierarchy::new(&policy.inherits);
        let mut monitor = Monitor::new(policy, hierarchy);
        run(&mut monitor, bytes, &mut vec![Row::default(); rows])
    }

    fn ends(rows: usize, bytes: usize, end: u8) -> Outcome {
        Outcome { rows, bytes, end }
    }

    #[test]
    fn every_end() {
        assert_eq!(outcome(&[], 0), ends(0, 0, 0));
        assert_eq!(outcome(&[34, 0], 1), ends(1, 2, 0));
        assert_eq!(outcome(&[34, 0, 35, 0], 1), ends(1, 2, 10));
        assert_eq!(outcome(&[0], 0), ends(0, 0, 10));
        assert_eq!(outcome(&[34, 0, 0], 2), ends(1, 2, 1));
        assert_eq!(outcome(&[34, 0, 36, 0], 2), ends(1, 2, 2));
    }
}
