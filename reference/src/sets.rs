//! Sets of roles and of users, as bits: role r is bit r.

pub type RoleSet = u32;
pub type UserSet = u64;

pub fn role_bit(role: usize) -> RoleSet {
    1 << role
}

pub fn user_bit(user: usize) -> UserSet {
    1 << user
}

pub fn has_role(set: RoleSet, role: usize) -> bool {
    set & role_bit(role) != 0
}

pub fn has_user(set: UserSet, user: usize) -> bool {
    set & user_bit(user) != 0
}

/// How many members a set of roles has.
pub fn count_roles(set: RoleSet) -> usize {
    set.count_ones() as usize
}

pub fn lowest_role(set: RoleSet) -> Option<usize> {
    (set != 0).then(|| set.trailing_zeros() as usize)
}

pub fn lowest_user(set: UserSet) -> Option<usize> {
    (set != 0).then(|| set.trailing_zeros() as usize)
}

/// The members of a set of roles, lowest first.
pub fn roles_of(mut set: RoleSet) -> impl Iterator<Item = usize> {
    std::iter::from_fn(move || {
        let lowest = lowest_role(set)?;
        set &= set - 1;
        Some(lowest)
    })
}

/// The members of a set of users, lowest first.
pub fn users_of(mut set: UserSet) -> impl Iterator<Item = usize> {
    std::iter::from_fn(move || {
        let lowest = lowest_user(set)?;
        set &= set - 1;
        Some(lowest)
    })
}

#[cfg(test)]
mod tests {
    use super::*;

    #[test]
    fn members_come_lowest_first() {
        let set = role_bit(31) | role_bit(0) | role_bit(7);
        assert_eq!(roles_of(set).collect::<Vec<_>>(), [0, 7, 31]);
        assert_eq!(users_of(user_bit(63)).collect::<Vec<_>>(), [63]);
        assert_eq!(lowest_role(0), None);
        assert_eq!(lowest_user(0), None);
    }
}
