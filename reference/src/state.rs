//! What stands at one moment: the state, which events are possible in it, and
//! what a grant makes of it.

use crate::event::Event;
use crate::hierarchy::Hierarchy;
use crate::policy::Policy;
use crate::sets::{count_roles, has_role, lowest_role, role_bit, user_bit};
use crate::sets::{RoleSet, UserSet};

/// An open session.
#[derive(Clone, Copy, Debug, PartialEq, Eq)]
pub struct Session {
    pub owner: usize,
    pub active: RoleSet,
}

#[derive(Clone, Debug, PartialEq, Eq)]
pub struct State {
    /// By user: the roles assigned directly.
    pub assigned: Vec<RoleSet>,
    /// By user: the roles for which these authorise.
    pub authorised: Vec<RoleSet>,
    pub enabled: RoleSet,
    /// By session: none where it is closed.
    pub sessions: Vec<Option<Session>>,
}

/// The first question that an event fails.
#[derive(Clone, Copy, Debug, PartialEq, Eq)]
pub enum Hindrance {
    OutOfRange,
    AlreadyAuthorised,
    NotAssigned,
    AlreadyEnabled,
    AlreadyDisabled,
    SessionOpen,
    SessionClosed,
    RoleDisabled,
    OwnerNotAuthorised,
    AlreadyActive,
    NotActive,
    ActiveSomewhere,
    /// The lowest role active for the user that would lose its authority.
    AuthorityLost {
        role: usize,
    },
}

impl Hindrance {
    pub fn number(self) -> u8 {
        match self {
            Hindrance::OutOfRange => 4,
            Hindrance::AlreadyAuthorised => 21,
            Hindrance::NotAssigned => 22,
            Hindrance::AlreadyEnabled => 23,
            Hindrance::AlreadyDisabled => 24,
            Hindrance::SessionOpen => 25,
            Hindrance::SessionClosed => 26,
            Hindrance::RoleDisabled => 27,
            Hindrance::OwnerNotAuthorised => 28,
            Hindrance::AlreadyActive => 29,
            Hindrance::NotActive => 30,
            Hindrance::ActiveSomewhere => 31,
            Hindrance::AuthorityLost { .. } => 32,
        }
    }

    pub fn subject(self) -> usize {
        match self {
            Hindrance::AuthorityLost { role } => role,
            _ => 0,
        }
    }
}

impl State {
    /// No assignments, all roles disabled, all sessions closed.
    pub fn new(policy: &Policy) -> State {
        State {
            assigned: vec![0; policy.users],
            authorised: vec![0; policy.users],
            enabled: 0,
            sessions: vec![None; policy.sessions],
        }
    }

    pub fn open_sessions(&self) -> impl Iterator<Item = &Session> {
        self.sessions.iter().flatten()
    }

    /// The sessions that the user owns.
    pub fn sessions_of(&self, user: usize) -> impl Iterator<Item = &Session> {
        let is_theirs = move |session: &&Session| session.owner == user;
        self.open_sessions().filter(is_theirs)
    }

    /// The roles active in any session.
    pub fn active_for_anyone(&self) -> RoleSet {
        self.open_sessions()
            .fold(0, |sum, session| sum | session.active)
    }

    /// The roles active in any session that the user owns.
    pub fn active_for(&self, user: usize) -> RoleSet {
        self.sessions_of(user)
            .fold(0, |sum, session| sum | session.active)
    }

    /// How many seats the user takes: one for each role active in each session
    /// that the user owns.
    pub fn seats_of(&self, user: usize) -> usize {
        self.sessions_of(user)
            .map(|session| count_roles(session.active))
            .sum()
    }

    /// How many sessions have the role active.
    pub fn sessions_using(&self, role: usize) -> usize {
        self.open_sessions()
            .filter(|session| has_role(session.active, role))
            .count()
    }

    /// The users who have the role active, in whatever session of theirs.
    pub fn users_using(&self, role: usize) -> UserSet {
        self.open_sessions()
            .filter(|session| has_role(session.active, role))
            .fold(0, |sum, session| sum | user_bit(session.owner))
    }

    /// The users who are authorised for the role.
    pub fn users_authorised_for(&self, role: usize) -> UserSet {
        let users = self.authorised.iter().enumerate();
        users
            .filter(|(_, &roles)| has_role(roles, role))
            .fold(0, |sum, (user, _)| sum | user_bit(user))
    }

    /// The roles assigned to anybody.
    pub fn assigned_to_anyone(&self) -> RoleSet {
        self.assigned.iter().fold(0, |sum, roles| sum | roles)
    }

    /// Why the event is not possible; none where it is. The questions are put
    /// in their order.
    pub fn hindrance(
        &self,
        policy: &Policy,
        hierarchy: &Hierarchy,
        event: Event,
    ) -> Option<Hindrance> {
        if !in_range(policy, event) {
            return Some(Hindrance::OutOfRange);
        }
        match event {
            Event::Assign { user, role } => {
                if has_role(self.authorised[user], role) {
                    return Some(Hindrance::AlreadyAuthorised);
                }
            }
            Event::Deassign { user, role } => {
                if !has_role(self.assigned[user], role) {
                    return Some(Hindrance::NotAssigned);
                }
                let others = self.assigned[user] & !role_bit(role);
                let lost = self.active_for(user) & !hierarchy.authority(others);
                if let Some(role) = lowest_role(lost) {
                    return Some(Hindrance::AuthorityLost { role });
                }
            }
            Event::Enable { role } => {
                if has_role(self.enabled, role) {
                    return Some(Hindrance::AlreadyEnabled);
                }
            }
            Event::Disable { role } => {
                if !has_role(self.enabled, role) {
                    return Some(Hindrance::AlreadyDisabled);
                }
                if has_role(self.active_for_anyone(), role) {
                    return Some(Hindrance::ActiveSomewhere);
                }
            }
            Event::Open { session, .. } => {
                if self.sessions[session].is_some() {
                    return Some(Hindrance::SessionOpen);
                }
            }
            Event::Close { session } => {
                if self.sessions[session].is_none() {
                    return Some(Hindrance::SessionClosed);
                }
            }
            Event::Activate { session, role } => {
                let Some(session) = self.sessions[session] else {
                    return Some(Hindrance::SessionClosed);
                };
                if !has_role(self.enabled, role) {
                    return Some(Hindrance::RoleDisabled);
                }
                if !has_role(self.authorised[session.owner], role) {
                    return Some(Hindrance::OwnerNotAuthorised);
                }
                if has_role(session.active, role) {
                    return Some(Hindrance::AlreadyActive);
                }
            }
            Event::Deactivate { session, role } => {
                let Some(session) = self.sessions[session] else {
                    return Some(Hindrance::SessionClosed);
                };
                if !has_role(session.active, role) {
                    return Some(Hindrance::NotActive);
                }
            }
        }
        None
    }

    /// Makes the change that a possible event asks for, and gives the roles
    /// that it lists: for a closing those that ended, else none.
    pub fn grant(&mut self, hierarchy: &Hierarchy, event: Event) -> RoleSet {
        match event {
            Event::Assign { user, role } => {
                self.assigned[user] |= role_bit(role);
                self.authorised[user] = hierarchy.authority(self.assigned[user]);
            }
            Event::Deassign { user, role } => {
                self.assigned[user] &= !role_bit(role);
                self.authorised[user] = hierarchy.authority(self.assigned[user]);
            }
            Event::Enable { role } => self.enabled |= role_bit(role),
            Event::Disable { role } => self.enabled &= !role_bit(role),
            Event::Open { session, user } => {
                self.sessions[session] = Some(Session {
                    owner: user,
                    active: 0,
                });
            }
            Event::Close { session } => {
                return self.sessions[session]
                    .take()
                    .map_or(0, |closed| closed.active);
            }
            Event::Activate { session, role } => {
                if let Some(session) = &mut self.sessions[session] {
                    session.active |= role_bit(role);
                }
            }
            Event::Deactivate { session, role } => {
                if let Some(session) = &mut self.sessions[session] {
                    session.active &= !role_bit(role);
                }
            }
        }
        0
    }
}

/// Is each number of the event within the sizes of the policy?
fn in_range(policy: &Policy, event: Event) -> bool {
    match event {
        Event::Assign { user, role } | Event::Deassign { user, role } => {
            user < policy.users && role < policy.roles
        }
        Event::Enable { role } | Event::Disable { role } => role < policy.roles,
        Event::Open { session, user } => session < policy.sessions && user < policy.users,
        Event::Close { session } => session < policy.sessions,
        Event::Activate { session, role } | Event::Deactivate { session, role } => {
            session < policy.sessions && role < policy.roles
        }
    }
}
