//! The eight events, and taking them from bytes.

/// The kinds of the events' records.
pub mod kind {
    pub const ASSIGN: u8 = 32;
    pub const DEASSIGN: u8 = 33;
    pub const ENABLE: u8 = 34;
    pub const DISABLE: u8 = 35;
    pub const OPEN: u8 = 36;
    pub const CLOSE: u8 = 37;
    pub const ACTIVATE: u8 = 38;
    pub const DEACTIVATE: u8 = 39;
}

/// The numbers are as they stand in the bytes: they may be out of range.
#[derive(Clone, Copy, Debug, PartialEq, Eq)]
pub enum Event {
    Assign { user: usize, role: usize },
    Deassign { user: usize, role: usize },
    Enable { role: usize },
    Disable { role: usize },
    Open { session: usize, user: usize },
    Close { session: usize },
    Activate { session: usize, role: usize },
    Deactivate { session: usize, role: usize },
}

/// Why no further event was taken. The discriminant is the printed number.
#[derive(Clone, Copy, Debug, PartialEq, Eq)]
pub enum Stop {
    NoByte = 0,
    UnknownKind = 1,
    CutBody = 2,
}

impl Event {
    /// Takes one event from the front of the bytes; the rest comes with it.
    pub fn take(bytes: &[u8]) -> Result<(Event, &[u8]), Stop> {
        let (&kind, after) = bytes.split_first().ok_or(Stop::NoByte)?;
        let length = match kind {
            kind::ENABLE | kind::DISABLE | kind::CLOSE => 1,
            kind::ASSIGN..=kind::DEACTIVATE => 2,
            _ => return Err(Stop::UnknownKind),
        };
        if after.len() < length {
            return Err(Stop::CutBody);
        }
        let (body, rest) = after.split_at(length);
        let first = usize::from(body[0]);
        let last = usize::from(body[length - 1]);
        let event = match kind {
            kind::ASSIGN => Event::Assign {
                user: first,
                role: last,
            },
            kind::DEASSIGN => Event::Deassign {
                user: first,
                role: last,
            },
            kind::ENABLE => Event::Enable { role: first },
            kind::DISABLE => Event::Disable { role: first },
            kind::OPEN => Event::Open {
                session: first,
                user: last,
            },
            kind::CLOSE => Event::Close { session: first },
            kind::ACTIVATE => Event::Activate {
                session: first,
                role: last,
            },
            _ => Event::Deactivate {
                session: first,
                role: last,
            },
        };
        Ok((event, rest))
    }

    pub fn kind(self) -> u8 {
        match self {
            Event::Assign { .. } => kind::ASSIGN,
            Event::Deassign { .. } => kind::DEASSIGN,
            Event::Enable { .. } => kind::ENABLE,
            Event::Disable { .. } => kind::DISABLE,
            Event::Open { .. } => kind::OPEN,
            Event::Close { .. } => kind::CLOSE,
            Event::Activate { .. } => kind::ACTIVATE,
            Event::Deactivate { .. } => kind::DEACTIVATE,
        }
    }
}

#[cfg(test)]
mod tests {
    use super::*;

    #[test]
    fn every_kind_is_taken() {
        let bytes = [
            32, 1, 2, 33, 3, 4, 34, 5, 35, 6, 36, 7, 8, 37, 9, 38, 10, 11, 39, 12, 255,
        ];
        let mut rest = &bytes[..];
        let mut events = Vec::new();
        while let Ok((event, after)) = Event::take(rest) {
            events.push(event);
            rest = after;
        }
        assert_eq!(
            events,
            [
                Event::Assign { user: 1, role: 2 },
                Event::Deassign { user: 3, role: 4 },
                Event::Enable { role: 5 },
                Event::Disable { role: 6 },
                Event::Open {
                    session: 7,
                    user: 8
                },
                Event::Close { session: 9 },
                Event::Activate {
                    session: 10,
                    role: 11
                },
                Event::Deactivate {
                    session: 12,
                    role: 255
                },
            ]
        );
        assert!(events
            .iter()
            .zip(32..)
            .all(|(event, kind)| event.kind() == kind));
    }

    #[test]
    fn why_none_is_taken() {
        assert_eq!(Event::take(&[]), Err(Stop::NoByte));
        for kind in (0..32).chain(40..=255) {
            assert_eq!(Event::take(&[kind]), Err(Stop::UnknownKind));
        }
        for kind in 32..40 {
            assert_eq!(Event::take(&[kind]), Err(Stop::CutBody));
        }
        assert_eq!(Event::take(&[38, 1]), Err(Stop::CutBody));
    }
}
