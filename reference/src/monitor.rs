//! The monitor: decides events, one after the other.

use crate::event::Event;
use crate::hierarchy::Hierarchy;
use crate::policy::Policy;
use crate::rules::{self, Objection, Scene};
use crate::sets::RoleSet;
use crate::state::{Hindrance, State};

#[derive(Clone, Copy, Debug, PartialEq, Eq)]
pub enum Answer {
    Granted { ended: RoleSet },
    Hindered(Hindrance),
    Refused(Objection),
}

impl Answer {
    pub fn number(self) -> u8 {
        match self {
            Answer::Granted { .. } => 0,
            Answer::Hindered(hindrance) => hindrance.number(),
            Answer::Refused(objection) => objection.breach.number,
        }
    }

    pub fn subject(self) -> usize {
        match self {
            Answer::Granted { .. } => 0,
            Answer::Hindered(hindrance) => hindrance.subject(),
            Answer::Refused(objection) => objection.breach.subject,
        }
    }

    pub fn place(self) -> u8 {
        match self {
            Answer::Refused(objection) => objection.place,
            _ => 0,
        }
    }

    pub fn roles(self) -> RoleSet {
        match self {
            Answer::Granted { ended } => ended,
            _ => 0,
        }
    }
}

/// A policy that passed the six questions, and a state that fits it.
#[derive(Clone, Debug)]
pub struct Monitor {
    policy: Policy,
    hierarchy: Hierarchy,
    state: State,
}

impl Monitor {
    /// Begins with the new state.
    pub fn new(policy: Policy, hierarchy: Hierarchy) -> Monitor {
        let state = State::new(&policy);
        Monitor {
            policy,
            hierarchy,
            state,
        }
    }

    pub fn policy(&self) -> &Policy {
        &self.policy
    }

    pub fn state(&self) -> &State {
        &self.state
    }

    pub fn scene(&self) -> Scene<'_> {
        Scene {
            policy: &self.policy,
            hierarchy: &self.hierarchy,
            state: &self.state,
        }
    }

    pub fn hindrance(&self, event: Event) -> Option<Hindrance> {
        self.state.hindrance(&self.policy, &self.hierarchy, event)
    }

    /// Decides the event. Only a grant changes the state.
    pub fn decide(&mut self, event: Event) -> Answer {
        if let Some(hindrance) = self.hindrance(event) {
            return Answer::Hindered(hindrance);
        }
        if let Some(objection) = rules::house(self.scene(), event) {
            return Answer::Refused(objection);
        }
        Answer::Granted {
            ended: self.state.grant(&self.hierarchy, event),
        }
    }
}
