//! The tables of a policy, and reading them from bytes.

use crate::sets::{role_bit, user_bit, RoleSet, UserSet};

pub const MAX_USERS: u8 = 64;
pub const MAX_ROLES: u8 = 32;
pub const MAX_SESSIONS: u8 = 64;

/// The kinds of a policy's records.
pub mod kind {
    pub const SIZES: u8 = 1;
    pub const INHERITS: u8 = 2;
    pub const STATIC_PAIR: u8 = 3;
    pub const DYNAMIC_PAIR: u8 = 4;
    pub const CONFLICTING_USERS: u8 = 5;
    pub const USERS_OF_ROLE: u8 = 6;
    pub const ROLES_OF_USER: u8 = 7;
    pub const SEATS_OF_USER: u8 = 8;
    pub const SESSIONS_OF_ROLE: u8 = 9;
    pub const REQUIRES: u8 = 10;
    pub const DEPENDS: u8 = 11;
    pub const END: u8 = 12;
    pub const ASSIGNMENT_CONFLICT: u8 = 13;
}

/// How many bytes follow the kind; none for a kind that no policy has.
pub fn body_length(kind: u8) -> Option<usize> {
    match kind {
        kind::SIZES | kind::CONFLICTING_USERS | kind::REQUIRES => Some(3),
        kind::ASSIGNMENT_CONFLICT => Some(3),
        kind::INHERITS..=kind::DEPENDS => Some(2),
        kind::END => Some(0),
        _ => None,
    }
}

/// In which sense a role requires another.
#[derive(Clone, Copy, Debug, PartialEq, Eq)]
pub enum Condition {
    Enabled,
    AssignedToSameUser,
    AssignedToAnyone,
    ActiveForAnyone,
    ActiveInSameSession,
    ActiveForOwner,
}

impl Condition {
    fn from_byte(byte: u8) -> Option<Condition> {
        match byte {
            1 => Some(Condition::Enabled),
            2 => Some(Condition::AssignedToSameUser),
            3 => Some(Condition::AssignedToAnyone),
            4 => Some(Condition::ActiveForAnyone),
            5 => Some(Condition::ActiveInSameSession),
            6 => Some(Condition::ActiveForOwner),
            _ => None,
        }
    }
}

/// Why a record was refused. The discriminant is the printed number.
#[derive(Clone, Copy, Debug, PartialEq, Eq)]
pub enum Fault {
    UnknownKind = 1,
    CutBody = 2,
    MisplacedSizes = 3,
    OutOfRange = 4,
    Equal = 5,
    SecondLimit = 6,
    NoRecord = 7,
}

/// A fault and the index of the first byte of the refused record.
#[derive(Clone, Copy, Debug, PartialEq, Eq)]
pub struct Refusal {
    pub fault: Fault,
    pub place: usize,
}

/// Pairs of users: by role, then by user, the users listed with that user.
pub type UserPairs = Vec<Vec<UserSet>>;

/// The tables as they were written. Pairs are stored both ways.
#[derive(Clone, Debug)]
pub struct Policy {
    pub users: usize,
    pub roles: usize,
    pub sessions: usize,
    /// By senior role: the roles that it inherits directly.
    pub inherits: Vec<RoleSet>,
    /// By role: the roles in static conflict with it.
    pub static_conflicts: Vec<RoleSet>,
    /// By role: the roles in dynamic conflict with it.
    pub dynamic_conflicts: Vec<RoleSet>,
    /// The users who may not both have the role active.
    pub user_conflicts: UserPairs,
    /// The users who may not share an assignment of the role.
    pub assignment_conflicts: UserPairs,
    /// By role: how many users may be authorised for it.
    pub max_users_of_role: Vec<Option<u8>>,
    /// By user: for how many roles the user may be authorised.
    pub max_roles_of_user: Vec<Option<u8>>,
    /// By user: how many seats the user may take, one for each role active in
    /// each session of theirs.
    pub max_seats_of_user: Vec<Option<u8>>,
    /// By role: in how many sessions it may be active.
    pub max_sessions_of_role: Vec<Option<u8>>,
    /// By role, then by condition: the required roles.
    required: Vec<[RoleSet; 6]>,
    /// By role: the roles that it depends on.
    pub depends_on: Vec<RoleSet>,
}

impl Policy {
    /// Empty tables of the given sizes.
    pub fn empty(users: usize, roles: usize, sessions: usize) -> Policy {
        Policy {
            users,
            roles,
            sessions,
            inherits: vec![0; roles],
            static_conflicts: vec![0; roles],
            dynamic_conflicts: vec![0; roles],
            user_conflicts: vec![vec![0; users]; roles],
            assignment_conflicts: vec![vec![0; users]; roles],
            max_users_of_role: vec![None; roles],
            max_roles_of_user: vec![None; users],
            max_seats_of_user: vec![None; users],
            max_sessions_of_role: vec![None; roles],
            required: vec![[0; 6]; roles],
            depends_on: vec![0; roles],
        }
    }

    /// Reads a policy from the front of the bytes, up to and including its end
    /// record, and says how many bytes it took.
    pub fn read(bytes: &[u8]) -> Result<(Policy, usize), Refusal> {
        let mut policy = Policy::empty(1, 1, 1);
        let mut place = 0;
        loop {
            let refusal = |fault| Refusal { fault, place };
            let (&kind, after) = bytes[place..]
                .split_first()
                .ok_or(refusal(Fault::NoRecord))?;
            let length = body_length(kind).ok_or(refusal(Fault::UnknownKind))?;
            let body = after.get(..length).ok_or(refusal(Fault::CutBody))?;
            if (kind == kind::SIZES) != (place == 0) {
                return Err(refusal(Fault::MisplacedSizes));
            }
            policy.enter(kind, body).map_err(refusal)?;
            place += 1 + length;
            if kind == kind::END {
                return Ok((policy, place));
            }
        }
    }

    /// The roles that the role requires in the sense of the condition.
    pub fn required(&self, role: usize, condition: Condition) -> RoleSet {
        self.required[role][condition as usize]
    }

    /// Enters one whole record: first all its numbers must be in range, then
    /// those that must differ be different, then a limit be the first.
    fn enter(&mut self, kind: u8, body: &[u8]) -> Result<(), Fault> {
        match (kind, body) {
            (kind::SIZES, &[users, roles, sessions]) => {
                *self = Policy::empty(
                    size(users, MAX_USERS)?,
                    size(roles, MAX_ROLES)?,
                    size(sessions, MAX_SESSIONS)?,
                );
            }
            (kind::INHERITS, &[senior, junior]) => {
                let (senior, junior) = (self.role(senior)?, self.role(junior)?);
                self.inherits[senior] |= role_bit(junior);
            }
            (kind::STATIC_PAIR, &[a, b]) => {
                let (a, b) = (self.role(a)?, self.role(b)?);
                self.static_conflicts[a] |= role_bit(b);
                self.static_conflicts[b] |= role_bit(a);
            }
            (kind::DYNAMIC_PAIR, &[a, b]) => {
                let (a, b) = (self.role(a)?, self.role(b)?);
                self.dynamic_conflicts[a] |= role_bit(b);
                self.dynamic_conflicts[b] |= role_bit(a);
            }
            (kind::CONFLICTING_USERS, &[role, a, b]) => {
                let (role, a, b) = self.user_pair(role, a, b)?;
                enter_users(&mut self.user_conflicts[role], a, b);
            }
            (kind::ASSIGNMENT_CONFLICT, &[role, a, b]) => {
                let (role, a, b) = self.user_pair(role, a, b)?;
                enter_users(&mut self.assignment_conflicts[role], a, b);
            }
            (kind::USERS_OF_ROLE..=kind::SESSIONS_OF_ROLE, &[subject, limit]) => {
                set_limit(self.limit_of(kind, subject)?, limit)?;
            }
            (kind::REQUIRES, &[condition, role, required]) => {
                let condition = Condition::from_byte(condition).ok_or(Fault::OutOfRange)?;
                let (role, required) = (self.role(role)?, self.role(required)?);
                self.required[role][condition as usize] |= role_bit(required);
            }
            (kind::DEPENDS, &[role, on]) => {
                let (role, on) = (self.role(role)?, self.role(on)?);
                if role == on {
                    return Err(Fault::Equal);
                }
                self.depends_on[role] |= role_bit(on);
            }
            (kind::END, &[]) => {}
            _ => unreachable!("the body has the length of its kind"),
        }
        Ok(())
    }

    /// The numbers of a record that lists two users for a role.
    fn user_pair(&self, role: u8, a: u8, b: u8) -> Result<(usize, usize, usize), Fault> {
        let (role, a, b) = (self.role(role)?, self.user(a)?, self.user(b)?);
        if a == b {
            return Err(Fault::Equal);
        }
        Ok((role, a, b))
    }

    /// The limit of this kind for this role or user.
    fn limit_of(&mut self, kind: u8, subject: u8) -> Result<&mut Option<u8>, Fault> {
        let of_role = matches!(kind, kind::USERS_OF_ROLE | kind::SESSIONS_OF_ROLE);
        let subject = if of_role {
            self.role(subject)?
        } else {
            self.user(subject)?
        };
        let limits = match kind {
            kind::USERS_OF_ROLE => &mut self.max_users_of_role,
            kind::ROLES_OF_USER => &mut self.max_roles_of_user,
            kind::SEATS_OF_USER => &mut self.max_seats_of_user,
            _ => &mut self.max_sessions_of_role,
        };
        Ok(&mut limits[subject])
    }

    fn role(&self, byte: u8) -> Result<usize, Fault> {
        below(byte, self.roles)
    }

    fn user(&self, byte: u8) -> Result<usize, Fault> {
        below(byte, self.users)
    }
}

fn size(byte: u8, most: u8) -> Result<usize, Fault> {
    if (1..=most).contains(&byte) {
        Ok(byte.into())
    } else {
        Err(Fault::OutOfRange)
    }
}

fn below(byte: u8, count: usize) -> Result<usize, Fault> {
    let number = usize::from(byte);
    if number < count {
        Ok(number)
    } else {
        Err(Fault::OutOfRange)
    }
}

/// Enters a pair of users both ways.
fn enter_users(users: &mut [UserSet], a: usize, b: usize) {
    users[a] |= user_bit(b);
    users[b] |= user_bit(a);
}

fn set_limit(limit: &mut Option<u8>, value: u8) -> Result<(), Fault> {
    if limit.is_some() {
        return Err(Fault::SecondLimit);
    }
    *limit = Some(value);
    Ok(())
}

#[cfg(test)]
mod tests {
    use super::*;

    fn fault(bytes: &[u8]) -> (u8, usize) {
        let refusal = Policy::read(bytes).unwrap_err();
        (refusal.fault as u8, refusal.place)
    }

    #[test]
    fn each_fault_with_its_place() {
        assert_eq!(fault(&[]), (7, 0));
        assert_eq!(fault(&[1, 2, 4, 2]), (7, 4));
        assert_eq!(fault(&[0]), (1, 0));
        assert_eq!(fault(&[1, 2, 4, 2, 32, 0, 0]), (1, 4));
        assert_eq!(fault(&[1, 2, 4, 2, 14]), (1, 4));
        assert_eq!(fault(&[1, 2, 4]), (2, 0));
        assert_eq!(fault(&[1, 2, 4, 2, 10, 1, 0]), (2, 4));
        assert_eq!(fault(&[1, 2, 4, 2, 13]), (2, 4));
        assert_eq!(fault(&[1, 2, 4, 2, 13, 0, 1]), (2, 4));
        assert_eq!(fault(&[12]), (3, 0));
        assert_eq!(fault(&[13, 0, 0, 1]), (3, 0));
        assert_eq!(fault(&[1, 2, 4, 2, 1, 2, 4, 2]), (3, 4));
        assert_eq!(fault(&[1, 0, 4, 2]), (4, 0));
        assert_eq!(fault(&[1, 65, 4, 2]), (4, 0));
        assert_eq!(fault(&[1, 64, 33, 2]), (4, 0));
        assert_eq!(fault(&[1, 64, 32, 65]), (4, 0));
        assert_eq!(fault(&[1, 2, 4, 2, 2, 0, 4]), (4, 4));
        assert_eq!(fault(&[1, 2, 4, 2, 10, 7, 0, 0]), (4, 4));
        assert_eq!(fault(&[1, 2, 4, 2, 10, 0, 0, 0]), (4, 4));
        assert_eq!(fault(&[1, 2, 4, 2, 7, 2, 0]), (4, 4));
        assert_eq!(fault(&[1, 2, 4, 2, 13, 4, 0, 1]), (4, 4));
        assert_eq!(fault(&[1, 2, 4, 2, 13, 3, 2, 1]), (4, 4));
        assert_eq!(fault(&[1, 2, 4, 2, 13, 3, 0, 2]), (4, 4));
        assert_eq!(fault(&[1, 2, 4, 2, 5, 0, 1, 1]), (5, 4));
        assert_eq!(fault(&[1, 2, 4, 2, 13, 3, 1, 1]), (5, 4));
        assert_eq!(fault(&[1, 2, 4, 2, 11, 3, 3]), (5, 4));
        assert_eq!(fault(&[1, 2, 4, 2, 6, 3, 9, 6, 3, 9]), (6, 7));
    }

    #[test]
    fn the_earlier_question_answers() {
        // A cut body before a misplaced sizes record.
        assert_eq!(fault(&[1, 2, 4, 2, 1, 2, 4]), (2, 4));
        assert_eq!(fault(&[2, 0]), (2, 0));
        // A misplaced sizes record before its range.
        assert_eq!(fault(&[1, 2, 4, 2, 1, 0, 0, 0]), (3, 4));
        assert_eq!(fault(&[2, 0, 0]), (3, 0));
        // The range before the difference.
        assert_eq!(fault(&[1, 2, 4, 2, 5, 0, 2, 2]), (4, 4));
        assert_eq!(fault(&[1, 2, 4, 2, 5, 4, 1, 1]), (4, 4));
        assert_eq!(fault(&[1, 2, 4, 2, 13, 0, 2, 2]), (4, 4));
        assert_eq!(fault(&[1, 2, 4, 2, 13, 4, 1, 1]), (4, 4));
    }

    #[test]
    fn what_is_no_fault() {
        // Limits of different kinds, the same number as user and as role, and
        // everything said twice.
        let bytes = [
            1, 2, 4, 2, 6, 1, 0, 7, 1, 255, 8, 1, 1, 9, 1, 1, 6, 0, 1, //
            2, 1, 1, 3, 2, 3, 3, 3, 2, 4, 0, 0, 10, 6, 2, 2, 10, 6, 2, 2, 11, 3, 1, 11, 3,
            1, //
            5, 0, 1, 0, 5, 0, 0, 1, 13, 2, 0, 1, 13, 2, 1, 0, 12, 99,
        ];
        let (policy, read) = Policy::read(&bytes).unwrap();
        assert_eq!(read, bytes.len() - 1);
        assert_eq!(policy.max_users_of_role, [Some(1), Some(0), None, None]);
        assert_eq!(policy.max_roles_of_user, [None, Some(255)]);
        assert_eq!(policy.static_conflicts, [0, 0, 8, 4]);
        assert_eq!(policy.user_conflicts[0], [2, 1]);
        assert_eq!(policy.user_conflicts[2], [0, 0]);
        assert_eq!(policy.assignment_conflicts[0], [0, 0]);
        assert_eq!(policy.assignment_conflicts[2], [2, 1]);
        assert_eq!(policy.required(2, Condition::ActiveForOwner), 4);
    }
}
