//! The five families of rules and the house pile. They are asked about
//! possible events only.

use crate::event::Event;
use crate::hierarchy::Hierarchy;
use crate::policy::{Condition, Policy};
use crate::sets::{count_roles, has_role, has_user, lowest_role, lowest_user, role_bit};
use crate::sets::{roles_of, user_bit, users_of, RoleSet};
use crate::state::{Session, State};

/// What the rules look at.
#[derive(Clone, Copy)]
pub struct Scene<'a> {
    pub policy: &'a Policy,
    pub hierarchy: &'a Hierarchy,
    /// The state before the event.
    pub state: &'a State,
}

/// The first question of a family that an event fails.
#[derive(Clone, Copy, Debug, PartialEq, Eq)]
pub struct Breach {
    pub number: u8,
    /// A role or a user, by the number.
    pub subject: usize,
}

/// The answer of a pile: a breach and the place of its rule, from 1 at the top.
#[derive(Clone, Copy, Debug, PartialEq, Eq)]
pub struct Objection {
    pub breach: Breach,
    pub place: u8,
}

/// The house pile, from the top. The topmost family that does not admit the
/// event answers.
pub fn house(scene: Scene, event: Event) -> Option<Objection> {
    let at = |place| move |breach| Objection { breach, place };
    cardinality(scene, event)
        .map(at(1))
        .or_else(|| separation(scene, event).map(at(2)))
        .or_else(|| assignment_conflicts(scene, event).map(at(3)))
        .or_else(|| precedence(scene, event).map(at(4)))
        .or_else(|| dependency(scene, event).map(at(5)))
}

/// No more than so many, counted in the state after the event.
pub fn cardinality(scene: Scene, event: Event) -> Option<Breach> {
    let Scene {
        policy,
        hierarchy,
        state,
    } = scene;
    match event {
        Event::Assign { user, role } => {
            let authorised_after = hierarchy.authority(state.assigned[user] | role_bit(role));
            let users_after = |role| {
                let before = state.users_authorised_for(role) & !user_bit(user);
                let user_after = has_role(authorised_after, role);
                before.count_ones() as usize + usize::from(user_after)
            };
            let over = (0..policy.roles)
                .filter(|&role| policy.max_users_of_role[role].is_some())
                .find(|&role| exceeds(users_after(role), policy.max_users_of_role[role]));
            if let Some(role) = over {
                return breach(41, role);
            }
            let roles_after = count_roles(authorised_after);
            if exceeds(roles_after, policy.max_roles_of_user[user]) {
                return breach(42, user);
            }
            None
        }
        Event::Activate { session, role } => {
            let owner = opened(state, session).owner;
            // The event is possible, so the role is not active in this session
            // yet: the owner takes one seat more, and one session more uses it.
            let seats_after = state.seats_of(owner) + 1;
            if exceeds(seats_after, policy.max_seats_of_user[owner]) {
                return breach(43, owner);
            }
            let sessions_after = state.sessions_using(role) + 1;
            if exceeds(sessions_after, policy.max_sessions_of_role[role]) {
                return breach(44, role);
            }
            None
        }
        _ => None,
    }
}

/// Never these two together.
pub fn separation(scene: Scene, event: Event) -> Option<Breach> {
    let Scene { policy, state, .. } = scene;
    match event {
        Event::Assign { user, role } => {
            breach_by_role(45, state.authorised[user] & policy.static_conflicts[role])
        }
        Event::Activate { session, role } => {
            let owner = opened(state, session).owner;
            let clashing = state.active_for(owner) & policy.dynamic_conflicts[role];
            if let Some(other) = lowest_role(clashing) {
                return breach(46, other);
            }
            let rivals = policy.user_conflicts[role][owner] & state.users_using(role);
            breach(47, lowest_user(rivals)?)
        }
        _ => None,
    }
}

/// These two, not both: nobody who is listed with the user for the role holds
/// it, or a senior or junior of it for which the two are listed too. To hold is
/// to be assigned directly.
pub fn assignment_conflicts(scene: Scene, event: Event) -> Option<Breach> {
    let Scene {
        policy,
        hierarchy,
        state,
    } = scene;
    let Event::Assign { user, role } = event else {
        return None;
    };
    let is_related = |held| hierarchy.is_senior(held, role) || hierarchy.is_senior(role, held);
    let stands_against = |&other: &usize| {
        roles_of(state.assigned[other]).any(|held| {
            is_related(held) && has_user(policy.assignment_conflicts[held][user], other)
        })
    };
    let listed = policy.assignment_conflicts[role][user];
    breach(48, users_of(listed).find(stands_against)?)
}

/// First that, then this: what is required stands before the event.
pub fn precedence(scene: Scene, event: Event) -> Option<Breach> {
    use Condition::*;
    let Scene { policy, state, .. } = scene;
    // The lowest required role that does not stand among the given ones.
    let lack = |number, role, condition, standing: RoleSet| {
        breach_by_role(number, policy.required(role, condition) & !standing)
    };
    match event {
        Event::Enable { role } => lack(51, role, Enabled, state.enabled),
        Event::Assign { user, role } => lack(52, role, AssignedToSameUser, state.assigned[user])
            .or_else(|| lack(53, role, AssignedToAnyone, state.assigned_to_anyone())),
        Event::Activate { session, role } => {
            let Session { owner, active } = opened(state, session);
            lack(54, role, ActiveForAnyone, state.active_for_anyone())
                .or_else(|| lack(55, role, ActiveInSameSession, active))
                .or_else(|| lack(56, role, ActiveForOwner, state.active_for(owner)))
        }
        _ => None,
    }
}

/// This only while that, judged in the state after the whole event.
pub fn dependency(scene: Scene, event: Event) -> Option<Breach> {
    let Scene { policy, state, .. } = scene;
    // The session that changes, and its active roles after the event.
    let (changed, changed_active) = match event {
        Event::Activate { session, role } => {
            (session, opened(state, session).active | role_bit(role))
        }
        Event::Deactivate { session, role } => {
            (session, opened(state, session).active & !role_bit(role))
        }
        Event::Close { session } => (session, 0),
        _ => return None,
    };
    let active_after = state
        .sessions
        .iter()
        .enumerate()
        .filter(|&(session, _)| session != changed)
        .filter_map(|(_, session)| session.as_ref())
        .fold(changed_active, |sum, session| sum | session.active);
    let needed = roles_of(active_after).fold(0, |sum, role| sum | policy.depends_on[role]);
    breach_by_role(61, needed & !active_after)
}

/// The session of a possible event other than an opening: it is open.
fn opened(state: &State, session: usize) -> Session {
    state.sessions[session].expect("a possible event has its session open")
}

/// Is the count over the limit? A limit that the policy does not have is none.
fn exceeds(count: usize, limit: Option<u8>) -> bool {
    limit.is_some_and(|most| count > most.into())
}

fn breach(number: u8, subject: usize) -> Option<Breach> {
    Some(Breach { number, subject })
}

/// A breach by the lowest role of the set; none where the set is empty.
fn breach_by_role(number: u8, roles: RoleSet) -> Option<Breach> {
    breach(number, lowest_role(roles)?)
}
