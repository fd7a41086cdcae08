//! Seniority: a is senior to b when a is b, or a inherits some c that is
//! senior to b.

use crate::sets::{has_role, role_bit, roles_of, RoleSet};

#[derive(Clone, Debug)]
pub struct Hierarchy {
    /// By role: all roles that it is senior to, itself among them.
    juniors: Vec<RoleSet>,
}

impl Hierarchy {
    /// Follows the inheriting steps from each role as far as they go.
    pub fn new(inherits: &[RoleSet]) -> Hierarchy {
        let reached_from = |senior| {
            let mut reached = role_bit(senior);
            let mut to_visit = vec![senior];
            while let Some(role) = to_visit.pop() {
                let fresh = inherits[role] & !reached;
                reached |= fresh;
                to_visit.extend(roles_of(fresh));
            }
            reached
        };
        Hierarchy {
            juniors: (0..inherits.len()).map(reached_from).collect(),
        }
    }

    pub fn is_senior(&self, senior: usize, junior: usize) -> bool {
        has_role(self.juniors[senior], junior)
    }

    /// All roles that the role is senior to, itself among them.
    pub fn juniors(&self, role: usize) -> RoleSet {
        self.juniors[role]
    }

    /// The roles for which a set of assigned roles authorises.
    pub fn authority(&self, assigned: RoleSet) -> RoleSet {
        roles_of(assigned).fold(0, |sum, role| sum | self.juniors[role])
    }
}

#[cfg(test)]
mod tests {
    use super::*;

    #[test]
    fn seniority_goes_down_any_number_of_steps() {
        // 0 inherits 3, 3 inherits 5.
        let hierarchy = Hierarchy::new(&[8, 0, 0, 32, 0, 0]);
        assert_eq!(hierarchy.juniors(0), 1 + 8 + 32);
        assert!(hierarchy.is_senior(3, 5));
        assert!(!hierarchy.is_senior(5, 3));
        assert_eq!(hierarchy.authority(2 + 8), 2 + 8 + 32);
        assert_eq!(hierarchy.authority(0), 0);
    }

    #[test]
    fn circles_come_to_an_end() {
        let hierarchy = Hierarchy::new(&[2, 4, 1]);
        assert_eq!(hierarchy.juniors(1), 7);
    }
}
