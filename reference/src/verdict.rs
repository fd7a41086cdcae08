//! The six questions to a policy that was read. Each is a search for the
//! lowest names that show the flaw, compared first name first.

use crate::hierarchy::Hierarchy;
use crate::policy::{Policy, UserPairs};
use crate::sets::{has_role, lowest_role, lowest_user, roles_of, user_bit};

/// What a policy fails by, with the names that show it.
#[derive(Clone, Copy, Debug, PartialEq, Eq)]
pub enum Flaw {
    /// Two roles are each senior to the other.
    Circle { lower: usize, higher: usize },
    /// A role is in static or dynamic conflict with itself.
    SelfConflict { role: usize },
    /// A senior lacks a static conflict of its junior.
    LostConflict {
        senior: usize,
        junior: usize,
        other: usize,
    },
    /// A pair is in both static and dynamic conflict.
    BothConflicts { lower: usize, higher: usize },
    /// Two users conflict for a junior and not for its senior.
    LostUsers {
        senior: usize,
        junior: usize,
        lower: usize,
        higher: usize,
    },
    /// Two users may not share an assignment of a junior, and may one of its
    /// senior.
    LostAssignmentConflict {
        senior: usize,
        junior: usize,
        lower: usize,
        higher: usize,
    },
}

impl Flaw {
    pub fn number(self) -> u8 {
        match self {
            Flaw::Circle { .. } => 11,
            Flaw::SelfConflict { .. } => 12,
            Flaw::LostConflict { .. } => 13,
            Flaw::BothConflicts { .. } => 14,
            Flaw::LostUsers { .. } => 15,
            Flaw::LostAssignmentConflict { .. } => 16,
        }
    }

    pub fn names(self) -> [usize; 4] {
        match self {
            Flaw::Circle { lower, higher } => [lower, higher, 0, 0],
            Flaw::SelfConflict { role } => [role, 0, 0, 0],
            Flaw::LostConflict {
                senior,
                junior,
                other,
            } => [senior, junior, other, 0],
            Flaw::BothConflicts { lower, higher } => [lower, higher, 0, 0],
            Flaw::LostUsers {
                senior,
                junior,
                lower,
                higher,
            }
            | Flaw::LostAssignmentConflict {
                senior,
                junior,
                lower,
                higher,
            } => [senior, junior, lower, higher],
        }
    }
}

/// The first question that fails, if one does.
pub fn flaw(policy: &Policy, hierarchy: &Hierarchy) -> Option<Flaw> {
    circle(policy, hierarchy)
        .or_else(|| self_conflict(policy))
        .or_else(|| lost_conflict(policy, hierarchy))
        .or_else(|| both_conflicts(policy))
        .or_else(|| lost_users(policy, hierarchy))
        .or_else(|| lost_assignment_conflict(policy, hierarchy))
}

fn circle(policy: &Policy, hierarchy: &Hierarchy) -> Option<Flaw> {
    for lower in 0..policy.roles {
        for higher in lower + 1..policy.roles {
            if hierarchy.is_senior(lower, higher) && hierarchy.is_senior(higher, lower) {
                return Some(Flaw::Circle { lower, higher });
            }
        }
    }
    None
}

fn self_conflict(policy: &Policy) -> Option<Flaw> {
    let in_conflict = |&role: &usize| {
        has_role(policy.static_conflicts[role], role)
            || has_role(policy.dynamic_conflicts[role], role)
    };
    let role = (0..policy.roles).find(in_conflict)?;
    Some(Flaw::SelfConflict { role })
}

fn lost_conflict(policy: &Policy, hierarchy: &Hierarchy) -> Option<Flaw> {
    for senior in 0..policy.roles {
        for junior in roles_of(hierarchy.juniors(senior)) {
            let lost = policy.static_conflicts[junior] & !policy.static_conflicts[senior];
            if let Some(other) = lowest_role(lost) {
                return Some(Flaw::LostConflict {
                    senior,
                    junior,
                    other,
                });
            }
        }
    }
    None
}

fn both_conflicts(policy: &Policy) -> Option<Flaw> {
    for lower in 0..policy.roles {
        // Pairs are stored both ways, so the lowest has its lower role first.
        let both = policy.static_conflicts[lower] & policy.dynamic_conflicts[lower];
        if let Some(higher) = lowest_role(both) {
            return Some(Flaw::BothConflicts { lower, higher });
        }
    }
    None
}

fn lost_users(policy: &Policy, hierarchy: &Hierarchy) -> Option<Flaw> {
    let [senior, junior, lower, higher] = lost_pair(&policy.user_conflicts, hierarchy)?;
    Some(Flaw::LostUsers {
        senior,
        junior,
        lower,
        higher,
    })
}

fn lost_assignment_conflict(policy: &Policy, hierarchy: &Hierarchy) -> Option<Flaw> {
    let [senior, junior, lower, higher] = lost_pair(&policy.assignment_conflicts, hierarchy)?;
    Some(Flaw::LostAssignmentConflict {
        senior,
        junior,
        lower,
        higher,
    })
}

/// The lowest senior, junior and two users who are listed for the junior and
/// not for the senior.
fn lost_pair(listed: &UserPairs, hierarchy: &Hierarchy) -> Option<[usize; 4]> {
    for (senior, listed_for_senior) in listed.iter().enumerate() {
        for junior in roles_of(hierarchy.juniors(senior)) {
            for (lower, listed_with_lower) in listed[junior].iter().enumerate() {
                let above = !(user_bit(lower) | (user_bit(lower) - 1));
                let lost = listed_with_lower & !listed_for_senior[lower] & above;
                if let Some(higher) = lowest_user(lost) {
                    return Some([senior, junior, lower, higher]);
                }
            }
        }
    }
    None
}
