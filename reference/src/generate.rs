//! Inputs to compare by: policies that mostly pass, nearly pass or are damaged,
//! and events that mostly mean something. The same seed and index always give
//! the same input.
//!
//! To choose events that are possible, the generator runs the monitor of this
//! crate beside it. That only biases the choice; nothing is expected by it.

use std::collections::BTreeSet;

use crate::event::{kind as event_kind, Event};
use crate::hierarchy::Hierarchy;
use crate::monitor::Monitor;
use crate::policy::{body_length, kind, Policy, MAX_ROLES, MAX_SESSIONS, MAX_USERS};
use crate::random::Random;
use crate::roll::INPUT_LIMIT;
use crate::sets::{has_role, role_bit, roles_of};
use crate::state::Session;
use crate::verdict;

/// The highest limit that a record can give.
const HIGHEST_LIMIT: usize = u8::MAX as usize;

/// The input of this index in the series of the seed.
pub fn input(seed: u64, index: u64) -> Vec<u8> {
    let start = Random::new(seed).next_u64() ^ Random::new(!index).next_u64();
    let random = &mut Random::new(start);
    let mut plan = if random.chance(3) {
        Plan::for_many_seats(random)
    } else {
        Plan::new(random)
    };
    match random.weighted(&[600, 200, 190, 10]) {
        0 => {
            let policy = plan.records(random).concat();
            with_events(random, &plan, policy)
        }
        1 => {
            plan.spoil(random);
            let policy = plan.records(random).concat();
            with_events(random, &plan, policy)
        }
        2 => {
            let records = plan.records(random);
            let policy = damaged(random, &plan, records);
            if random.chance(40) {
                with_events(random, &plan, policy)
            } else {
                policy
            }
        }
        _ => near_the_limit(random, &plan),
    }
}

/// A session and a role, active in it or to be activated.
type Seat = (usize, usize);

/// The numbers that a policy and its events mostly speak of. Where the sizes
/// are large, a few of them, so that events meet each other.
struct Cast {
    users: Vec<usize>,
    roles: Vec<usize>,
    sessions: Vec<usize>,
}

fn cast_of(random: &mut Random, size: usize) -> Vec<usize> {
    if size <= 6 || random.chance(30) {
        return (0..size).collect();
    }
    let mut cast = BTreeSet::new();
    if random.chance(70) {
        cast.insert(size - 1);
    }
    if random.chance(50) {
        cast.insert(0);
    }
    let count = random.between(3, 6);
    while cast.len() < count {
        cast.insert(random.below(size));
    }
    cast.into_iter().collect()
}

/// Role, user, user, the lower user first.
type ListedUsers = BTreeSet<(usize, usize, usize)>;

/// A policy to be written. Pairs have their lower number first.
struct Plan {
    users: usize,
    roles: usize,
    sessions: usize,
    cast: Cast,
    inherits: BTreeSet<(usize, usize)>,
    static_pairs: BTreeSet<(usize, usize)>,
    dynamic_pairs: BTreeSet<(usize, usize)>,
    conflicting_users: ListedUsers,
    assignment_conflicts: ListedUsers,
    /// Kind, user or role, limit.
    limits: Vec<(u8, usize, u8)>,
    /// Condition, role, required role.
    required: Vec<(usize, usize, usize)>,
    depends: Vec<(usize, usize)>,
    /// Users who are to take seats in several sessions.
    seat_takers: Vec<usize>,
    /// One of them who is to take about as many as the highest limit allows.
    taker_of_many: Option<usize>,
}

fn ordered(a: usize, b: usize) -> (usize, usize) {
    (a.min(b), a.max(b))
}

/// Two different members, if there are two.
fn two_of(random: &mut Random, from: &[usize]) -> Option<(usize, usize)> {
    if from.len() < 2 {
        return None;
    }
    let first = random.below(from.len());
    let second = (first + random.between(1, from.len() - 1)) % from.len();
    Some((from[first], from[second]))
}

/// No more than so many of them, in some order.
fn some_of(random: &mut Random, from: &[usize], most: usize) -> Vec<usize> {
    let mut some = from.to_vec();
    random.shuffle(&mut some);
    some.truncate(most);
    some
}

/// Users, roles and sessions.
type Sizes = (usize, usize, usize);

fn sizes(random: &mut Random) -> Sizes {
    let most = (MAX_USERS.into(), MAX_ROLES.into(), MAX_SESSIONS.into());
    match random.weighted(&[62, 18, 12, 8]) {
        0 => (
            random.between(2, 5),
            random.between(2, 6),
            random.between(2, 5),
        ),
        1 => (
            random.between(1, 12),
            random.between(1, 12),
            random.between(1, 10),
        ),
        2 => most,
        _ => (
            random.between(1, most.0),
            random.between(1, most.1),
            random.between(1, most.2),
        ),
    }
}

fn limit(random: &mut Random) -> u8 {
    [0, 1, 2, 3, 4, 254, 255][random.weighted(&[4, 38, 30, 14, 7, 1, 6])]
}

impl Plan {
    /// No records but the sizes.
    fn empty(random: &mut Random, (users, roles, sessions): Sizes) -> Plan {
        let cast = Cast {
            users: cast_of(random, users),
            roles: cast_of(random, roles),
            sessions: cast_of(random, sessions),
        };
        Plan {
            users,
            roles,
            sessions,
            cast,
            inherits: BTreeSet::new(),
            static_pairs: BTreeSet::new(),
            dynamic_pairs: BTreeSet::new(),
            conflicting_users: BTreeSet::new(),
            assignment_conflicts: BTreeSet::new(),
            limits: Vec::new(),
            required: Vec::new(),
            depends: Vec::new(),
            seat_takers: Vec::new(),
            taker_of_many: None,
        }
    }

    /// A policy that passes the six questions. How much of each sort of
    /// record it has differs widely from plan to plan.
    fn new(random: &mut Random) -> Plan {
        let sizes = sizes(random);
        let mut plan = Plan::empty(random, sizes);
        // What inherits, requires or depends stands before the other in here,
        // mostly, so that there are no circles.
        let mut order = plan.cast.roles.clone();
        if random.chance(50) {
            random.shuffle(&mut order);
        }
        plan.add_hierarchy(random, &order);
        plan.add_conflicts(random);
        plan.add_conflicting_users(random);
        plan.add_assignment_conflicts(random);
        plan.add_limits(random);
        plan.add_seat_takers(random);
        plan.add_requirements(random, &order);
        plan
    }

    /// A policy under which a user can take more seats than the highest limit
    /// allows: that takes many roles or many sessions, and no conflicts.
    fn for_many_seats(random: &mut Random) -> Plan {
        let users = random.between(1, 3);
        let roles = random.pick(&[4, 5, 8, 16, 31, 32]);
        let fewest = (HIGHEST_LIMIT + 1).div_ceil(roles);
        let sessions = random.between(fewest, (fewest + 3).min(MAX_SESSIONS.into()));
        let mut plan = Plan::empty(random, (users, roles, sessions));
        let order = plan.cast.roles.clone();
        plan.add_hierarchy(random, &order);
        let user = random.pick(&plan.cast.users);
        plan.seat_takers.push(user);
        plan.taker_of_many = Some(user);
        if let Some(limit) = random.pick(&[Some(254), Some(255), Some(255), None]) {
            plan.set_limit(kind::SEATS_OF_USER, user, limit);
        }
        plan
    }

    fn hierarchy(&self) -> Hierarchy {
        let mut inherits = vec![0; self.roles];
        for &(senior, junior) in &self.inherits {
            inherits[senior] |= role_bit(junior);
        }
        Hierarchy::new(&inherits)
    }

    fn seniors(&self, junior: usize) -> Vec<usize> {
        let hierarchy = self.hierarchy();
        let is_senior = |&role: &usize| hierarchy.is_senior(role, junior);
        (0..self.roles).filter(is_senior).collect()
    }

    fn add_hierarchy(&mut self, random: &mut Random, order: &[usize]) {
        let density = random.pick(&[0, 5, 10, 20, 30, 50]);
        for (index, &senior) in order.iter().enumerate() {
            for &junior in &order[index + 1..] {
                if random.chance(density) {
                    self.inherits.insert((senior, junior));
                }
            }
        }
        // Two that inherit the same role.
        if let ([.., _, _, junior], true) = (order, random.chance(30)) {
            if let Some((a, b)) = two_of(random, &order[..order.len() - 1]) {
                self.inherits.extend([(a, *junior), (b, *junior)]);
            }
        }
        if random.chance(5) {
            let role = random.pick(order);
            self.inherits.insert((role, role));
        }
    }

    fn add_conflicts(&mut self, random: &mut Random) {
        for _ in 0..random.pick(&[0, 0, 1, 2, 3]) {
            let Some((a, b)) = two_of(random, &self.cast.roles) else {
                break;
            };
            // All seniors of the one against all seniors of the other.
            let (above_a, above_b) = (self.seniors(a), self.seniors(b));
            if above_a.iter().any(|role| above_b.contains(role)) {
                continue;
            }
            for &a in &above_a {
                for &b in &above_b {
                    self.static_pairs.insert(ordered(a, b));
                }
            }
        }
        for _ in 0..random.pick(&[0, 0, 1, 2, 4]) {
            let Some((a, b)) = two_of(random, &self.cast.roles) else {
                break;
            };
            if !self.static_pairs.contains(&ordered(a, b)) {
                self.dynamic_pairs.insert(ordered(a, b));
            }
        }
    }

    fn add_conflicting_users(&mut self, random: &mut Random) {
        for _ in 0..random.pick(&[0, 0, 2, 4, 8]) {
            let Some((a, b)) = two_of(random, &self.cast.users) else {
                break;
            };
            let junior = random.pick(&self.cast.roles);
            self.list_users(kind::CONFLICTING_USERS, junior, (a, b));
        }
    }

    /// Users who may not share an assignment: a few pairs, each listed for
    /// several roles, so that what they hold meets.
    fn add_assignment_conflicts(&mut self, random: &mut Random) {
        let count = random.pick(&[0, 0, 1, 2, 4, 8]);
        // Sometimes the same user is in all the pairs.
        let shared = random.chance(50).then(|| random.pick(&self.cast.users));
        for _ in 0..count {
            let Some((a, b)) = two_of(random, &self.cast.users) else {
                break;
            };
            let a = shared.filter(|&user| user != b).unwrap_or(a);
            for _ in 0..random.between(1, 3) {
                let junior = self.role_to_list_for(random);
                self.list_users(kind::ASSIGNMENT_CONFLICT, junior, (a, b));
            }
        }
    }

    /// Sometimes a role that is inherited by two others, neither of them senior
    /// to the other; sometimes one that has juniors, which are not listed then.
    fn role_to_list_for(&self, random: &mut Random) -> usize {
        let hierarchy = self.hierarchy();
        let is_suitable: &dyn Fn(usize) -> bool = match random.weighted(&[4, 3, 3]) {
            0 => &|_| true,
            1 => &|role| !self.seniors_apart(role).is_empty(),
            _ => &|role| hierarchy.juniors(role) != role_bit(role),
        };
        let suitable = self.cast.roles.iter().copied();
        let suitable: Vec<_> = suitable.filter(|&role| is_suitable(role)).collect();
        if suitable.is_empty() {
            return random.pick(&self.cast.roles);
        }
        random.pick(&suitable)
    }

    /// Pairs of seniors of the role, neither of the two senior to the other.
    fn seniors_apart(&self, role: usize) -> Vec<(usize, usize)> {
        let hierarchy = self.hierarchy();
        let seniors = self.seniors(role);
        let mut apart = Vec::new();
        for &a in &seniors {
            let is_apart = |&b: &usize| !hierarchy.is_senior(a, b) && !hierarchy.is_senior(b, a);
            apart.extend(seniors.iter().copied().filter(is_apart).map(|b| (a, b)));
        }
        apart
    }

    /// Lists two users for a role and all its seniors, by records of the kind.
    fn list_users(&mut self, kind: u8, junior: usize, (a, b): (usize, usize)) {
        let (lower, higher) = ordered(a, b);
        for role in self.seniors(junior) {
            self.listed(kind).insert((role, lower, higher));
        }
    }

    /// The users who may not share an assignment of the role with this one.
    fn users_listed_with(&self, user: usize, role: usize) -> Vec<usize> {
        let of_role = |&&(listed_for, _, _): &&(usize, usize, usize)| listed_for == role;
        let listed = self.assignment_conflicts.iter().filter(of_role);
        let other = |&(_, a, b): &(usize, usize, usize)| match user {
            user if user == a => Some(b),
            user if user == b => Some(a),
            _ => None,
        };
        listed.filter_map(other).collect()
    }

    /// The users that are listed by records of the kind.
    fn listed(&mut self, kind: u8) -> &mut ListedUsers {
        match kind {
            kind::CONFLICTING_USERS => &mut self.conflicting_users,
            _ => &mut self.assignment_conflicts,
        }
    }

    fn add_limits(&mut self, random: &mut Random) {
        for kind in kind::USERS_OF_ROLE..=kind::SESSIONS_OF_ROLE {
            let of_role = matches!(kind, kind::USERS_OF_ROLE | kind::SESSIONS_OF_ROLE);
            let (size, cast) = if of_role {
                (self.roles, &self.cast.roles)
            } else {
                (self.users, &self.cast.users)
            };
            let density = random.pick(&[0, 0, 0, 15, 30, 60]);
            for subject in 0..size {
                let density = if cast.contains(&subject) {
                    density
                } else {
                    density / 10
                };
                if random.chance(density) {
                    self.limits.push((kind, subject, limit(random)));
                }
            }
        }
    }

    /// Users who are to take seats in several sessions, mostly with a limit
    /// about as high as the seats that they come to. Sometimes a role is limited
    /// too, so that an activation can be over both limits, or over the second
    /// alone.
    fn add_seat_takers(&mut self, random: &mut Random) {
        let count = random.pick(&[0, 1, 1, 2]);
        for user in some_of(random, &self.cast.users, count) {
            self.seat_takers.push(user);
            if random.chance(85) {
                let limit = random.pick(&[0, 1, 1, 1, 1, 2, 2, 2, 2, 3, 3, 3, 4, 5, 6, 8]);
                self.set_limit(kind::SEATS_OF_USER, user, limit);
            }
        }
        if count > 0 && random.chance(30) {
            let role = random.pick(&self.cast.roles);
            let limit = random.pick(&[1, 2, 3, 4]);
            self.set_limit(kind::SESSIONS_OF_ROLE, role, limit);
        }
    }

    /// Sets a limit, in the place of one of the same kind.
    fn set_limit(&mut self, kind: u8, subject: usize, limit: u8) {
        let is_another = |&(of_kind, of, _): &(u8, usize, u8)| (of_kind, of) != (kind, subject);
        self.limits.retain(is_another);
        self.limits.push((kind, subject, limit));
    }

    fn add_requirements(&mut self, random: &mut Random, order: &[usize]) {
        let arranged = |random: &mut Random, (a, b): (usize, usize)| {
            let place = |role| order.iter().position(|&other| other == role);
            if random.chance(85) && place(a) > place(b) {
                (b, a)
            } else {
                (a, b)
            }
        };
        for _ in 0..random.pick(&[0, 0, 1, 2, 3, 6]) {
            let condition = random.between(1, 6);
            if random.chance(3) {
                let role = random.pick(order);
                self.required.push((condition, role, role));
            } else if let Some(two) = two_of(random, order) {
                let (role, required) = arranged(random, two);
                self.required.push((condition, role, required));
            }
        }
        for _ in 0..random.pick(&[0, 0, 1, 2, 4]) {
            if let Some(two) = two_of(random, order) {
                self.depends.push(arranged(random, two));
            }
        }
    }

    /// Makes flaws, one or a few, that the six questions may find.
    fn spoil(&mut self, random: &mut Random) {
        for _ in 0..random.pick(&[1, 1, 1, 2, 2, 3]) {
            match random.weighted(&[12, 10, 24, 20, 30, 40, 6]) {
                0 => self.spoil_hierarchy(random),
                1 => {
                    let role = random.pick(&self.cast.roles);
                    if random.chance(50) {
                        self.static_pairs.insert((role, role));
                    } else {
                        self.dynamic_pairs.insert((role, role));
                    }
                }
                2 => self.spoil_static_pairs(random),
                3 => self.spoil_dynamic_pairs(random),
                4 => self.spoil_users(random, kind::CONFLICTING_USERS),
                5 => self.spoil_users(random, kind::ASSIGNMENT_CONFLICT),
                _ => self.exchange_kind(random),
            }
        }
    }

    /// A role and one of its proper juniors. If there is none, one is made.
    fn senior_and_junior(&mut self, random: &mut Random) -> Option<(usize, usize)> {
        let hierarchy = self.hierarchy();
        let mut steps = Vec::new();
        for senior in 0..self.roles {
            let juniors = roles_of(hierarchy.juniors(senior));
            steps.extend(
                juniors
                    .filter(|&junior| junior != senior)
                    .map(|junior| (senior, junior)),
            );
        }
        if steps.is_empty() {
            let step = two_of(random, &self.cast.roles)?;
            self.inherits.insert(step);
            return Some(step);
        }
        Some(random.pick(&steps))
    }

    fn spoil_hierarchy(&mut self, random: &mut Random) {
        if let Some((senior, junior)) = self.senior_and_junior(random) {
            self.inherits.insert((junior, senior));
        }
    }

    fn spoil_static_pairs(&mut self, random: &mut Random) {
        let pairs: Vec<_> = self.static_pairs.iter().copied().collect();
        if !pairs.is_empty() && random.chance(60) {
            self.static_pairs.remove(&random.pick(&pairs));
        } else if let Some((_, junior)) = self.senior_and_junior(random) {
            for _ in 0..random.between(1, 3) {
                let other = random.below(self.roles);
                self.static_pairs.insert(ordered(junior, other));
            }
        }
    }

    fn spoil_dynamic_pairs(&mut self, random: &mut Random) {
        let pairs: Vec<_> = self.static_pairs.iter().copied().collect();
        if !pairs.is_empty() {
            self.dynamic_pairs.insert(random.pick(&pairs));
        } else if let Some((a, b)) = two_of(random, &self.cast.roles) {
            self.static_pairs.insert(ordered(a, b));
            self.dynamic_pairs.insert(ordered(a, b));
        }
    }

    /// Takes out users that are listed by records of the kind, or lists some
    /// for a junior alone.
    fn spoil_users(&mut self, random: &mut Random, kind: u8) {
        let triples: Vec<_> = self.listed(kind).iter().copied().collect();
        if !triples.is_empty() && random.chance(50) {
            for _ in 0..random.between(1, 3) {
                self.listed(kind).remove(&random.pick(&triples));
            }
        } else if let Some((_, junior)) = self.senior_and_junior(random) {
            for _ in 0..random.between(1, 4) {
                if let Some((a, b)) = two_of(random, &self.cast.users) {
                    let (lower, higher) = ordered(a, b);
                    self.listed(kind).insert((junior, lower, higher));
                }
            }
        }
    }

    /// Users who may not share the assignment of a junior: for its senior they
    /// are listed by the other kind, which says nothing of it.
    fn exchange_kind(&mut self, random: &mut Random) {
        let Some((senior, junior)) = self.senior_and_junior(random) else {
            return;
        };
        let Some((a, b)) = two_of(random, &self.cast.users) else {
            return;
        };
        let (lower, higher) = ordered(a, b);
        self.list_users(kind::CONFLICTING_USERS, senior, (a, b));
        self.list_users(kind::ASSIGNMENT_CONFLICT, junior, (a, b));
        self.assignment_conflicts.remove(&(senior, lower, higher));
    }

    fn sizes_record(&self) -> Vec<u8> {
        vec![
            kind::SIZES,
            self.users as u8,
            self.roles as u8,
            self.sessions as u8,
        ]
    }

    /// The records in some order, the sizes first and the end last.
    fn records(&self, random: &mut Random) -> Vec<Vec<u8>> {
        let mut records = Vec::new();
        for &(senior, junior) in &self.inherits {
            records.push(vec![kind::INHERITS, senior as u8, junior as u8]);
        }
        for (kind, pairs) in [
            (kind::STATIC_PAIR, &self.static_pairs),
            (kind::DYNAMIC_PAIR, &self.dynamic_pairs),
        ] {
            for &(lower, higher) in pairs {
                let mut record = vec![kind, lower as u8, higher as u8];
                random.shuffle(&mut record[1..]);
                records.push(record);
            }
        }
        for (kind, listed) in [
            (kind::CONFLICTING_USERS, &self.conflicting_users),
            (kind::ASSIGNMENT_CONFLICT, &self.assignment_conflicts),
        ] {
            for &(role, lower, higher) in listed {
                let mut record = vec![kind, role as u8, lower as u8, higher as u8];
                random.shuffle(&mut record[2..]);
                records.push(record);
            }
        }
        for &(condition, role, required) in &self.required {
            records.push(vec![
                kind::REQUIRES,
                condition as u8,
                role as u8,
                required as u8,
            ]);
        }
        for &(role, on) in &self.depends {
            records.push(vec![kind::DEPENDS, role as u8, on as u8]);
        }
        // All of these may be said twice; limits may not.
        if !records.is_empty() && random.chance(20) {
            for _ in 0..random.between(1, 3) {
                records.push(records[random.below(records.len())].clone());
            }
        }
        for &(kind, subject, limit) in &self.limits {
            records.push(vec![kind, subject as u8, limit]);
        }
        random.shuffle(&mut records);
        records.insert(0, self.sizes_record());
        records.push(vec![kind::END]);
        records
    }
}

/// A kind that neither the policy nor the events have.
fn unknown_kind(random: &mut Random) -> u8 {
    loop {
        let any = random.byte();
        let kind = random.pick(&[0, 14, 31, 40, 64, 255, any]);
        if body_length(kind).is_none()
            && !(event_kind::ASSIGN..=event_kind::DEACTIVATE).contains(&kind)
        {
            return kind;
        }
    }
}

/// The records, damaged in one way or two.
fn damaged(random: &mut Random, plan: &Plan, mut records: Vec<Vec<u8>>) -> Vec<u8> {
    for _ in 0..random.pick(&[1, 1, 1, 1, 2]) {
        damage_records(random, plan, &mut records);
    }
    let mut bytes = records.concat();
    if bytes.is_empty() {
        return bytes;
    }
    match random.weighted(&[60, 24, 12, 2, 2]) {
        0 => {}
        1 => bytes.truncate(random.below(bytes.len() + 1)),
        2 => {
            let place = random.below(bytes.len());
            bytes[place] = match random.below(3) {
                0 => bytes[place] ^ (1 << random.below(8)),
                1 => random.below(15) as u8,
                _ => random.byte(),
            };
        }
        3 => bytes.clear(),
        _ => {
            bytes = (0..random.between(1, 40))
                .map(|_| random.below(15) as u8)
                .collect()
        }
    }
    bytes
}

fn damage_records(random: &mut Random, plan: &Plan, records: &mut Vec<Vec<u8>>) {
    // Behind the first record, and before the last if there are several.
    let place = random.between(1, (records.len() - 1).max(1));
    match random.below(17) {
        // Nothing: the bytes may be damaged as a whole.
        0 | 1 => {}
        2 | 3 => records.insert(place, foreign_record(random, plan)),
        // The sizes are missing, late, or there twice.
        4 => {
            records.remove(0);
            if random.chance(60) {
                records.insert(random.below(records.len() + 1), plan.sizes_record());
            }
        }
        5 => {
            let mut second = plan.sizes_record();
            if random.chance(40) {
                second[random.between(1, 3)] = random.pick(&[0, 65, 255]);
            }
            records.insert(place, second);
        }
        // The end is missing, or comes early.
        6 => {
            records.pop();
        }
        7 => {
            records.pop();
            records.insert(random.below(records.len() + 1), vec![kind::END]);
        }
        // A second limit.
        8 | 9 => {
            let kind = limit_kind(random);
            let of_role = matches!(kind, kind::USERS_OF_ROLE | kind::SESSIONS_OF_ROLE);
            let size = if of_role { plan.roles } else { plan.users };
            let subject = random.below(size) as u8;
            records.insert(place, vec![kind, subject, limit(random)]);
            let later = random.between(place, records.len());
            records.insert(later, vec![kind, subject, limit(random)]);
        }
        10 | 11 => records.insert(place, record_of_equals(random, plan)),
        // Sizes out of range, or at their ends.
        12 => {
            let mut sizes = plan.sizes_record();
            sizes[random.between(1, 3)] = random.pick(&[0, 1, 32, 33, 64, 65, 255]);
            records[0] = sizes;
        }
        _ => records.insert(place, record_out_of_range(random, plan)),
    }
}

/// A record of an unknown kind, or of an event.
fn foreign_record(random: &mut Random, plan: &Plan) -> Vec<u8> {
    let role = random.below(plan.roles) as u8;
    let user = random.below(plan.users) as u8;
    if random.chance(50) {
        let kind = random.between(event_kind::ASSIGN.into(), event_kind::DEACTIVATE.into());
        return vec![kind as u8, user, role];
    }
    let mut record = vec![unknown_kind(random)];
    if random.chance(50) {
        record.extend([role, user]);
    }
    record
}

/// One of the four kinds of limits.
fn limit_kind(random: &mut Random) -> u8 {
    random.between(kind::USERS_OF_ROLE.into(), kind::SESSIONS_OF_ROLE.into()) as u8
}

/// A role that the policy does not have.
fn past_roles(random: &mut Random, plan: &Plan) -> u8 {
    random.pick(&[plan.roles, plan.roles + 1, 32, 64, 255]) as u8
}

/// A user that the policy does not have.
fn past_users(random: &mut Random, plan: &Plan) -> u8 {
    random.pick(&[plan.users, plan.users + 1, 64, 65, 255]) as u8
}

/// Two that must differ are equal, perhaps out of range as well.
fn record_of_equals(random: &mut Random, plan: &Plan) -> Vec<u8> {
    let user = if random.chance(25) {
        past_users(random, plan)
    } else {
        random.below(plan.users) as u8
    };
    let role = if random.chance(15) {
        past_roles(random, plan)
    } else {
        random.below(plan.roles) as u8
    };
    match random.below(3) {
        0 => vec![kind::CONFLICTING_USERS, role, user, user],
        1 => vec![kind::ASSIGNMENT_CONFLICT, role, user, user],
        _ => vec![kind::DEPENDS, role, role],
    }
}

/// A record that has a number out of range: a role, a user or a condition.
fn record_out_of_range(random: &mut Random, plan: &Plan) -> Vec<u8> {
    let past_roles = past_roles(random, plan);
    let past_users = past_users(random, plan);
    let role = random.below(plan.roles) as u8;
    let user = random.below(plan.users) as u8;
    let condition = random.between(1, 6) as u8;
    match random.weighted(&[1, 1, 1, 1, 1, 2, 2, 2, 1, 1, 1, 6, 6]) {
        0 => vec![kind::INHERITS, past_roles, role],
        1 => vec![kind::INHERITS, role, past_roles],
        2 => vec![kind::STATIC_PAIR, past_roles, role],
        3 => vec![kind::DYNAMIC_PAIR, role, past_roles],
        4 => vec![kind::CONFLICTING_USERS, role, user, past_users],
        5 => vec![kind::ASSIGNMENT_CONFLICT, past_roles, user, 0],
        6 => vec![kind::ASSIGNMENT_CONFLICT, role, past_users, user],
        7 => vec![kind::ASSIGNMENT_CONFLICT, role, user, past_users],
        8 => vec![kind::REQUIRES, condition, past_roles, role],
        9 => vec![kind::REQUIRES, condition, role, past_roles],
        10 => vec![kind::DEPENDS, past_roles, role],
        11 => vec![kind::REQUIRES, random.pick(&[0, 7, 255]), role, role],
        _ => {
            let subject = random.pick(&[past_roles, past_users]);
            vec![limit_kind(random), subject, limit(random)]
        }
    }
}

/// The policy followed by events.
fn with_events(random: &mut Random, plan: &Plan, policy: Vec<u8>) -> Vec<u8> {
    let mut script = Script::new(random, plan, policy);
    let count = match script.random.weighted(&[3, 5, 80, 9, 3]) {
        0 => 0,
        1 => script.random.between(1, 9),
        2 => script.random.between(10, 300),
        3 => script.random.between(301, 1000),
        _ => script.random.between(1001, 4000),
    };
    // After a policy that is refused, events are not looked at.
    let count = if script.monitor.is_none() {
        count.min(30)
    } else {
        script.put_many_seats();
        count
    };
    script.put_many(count);
    script.break_off()
}

/// An input about as long as is allowed, or just longer.
fn near_the_limit(random: &mut Random, plan: &Plan) -> Vec<u8> {
    let over = random.between(2, 5000);
    let length = INPUT_LIMIT - 1 + random.pick(&[0, 1, 1, 1, 2, 2, 1 + over]);
    let records = plan.records(random);
    let mut policy = records.concat();
    match random.below(4) {
        // Events up to there, the last one perhaps cut.
        0 | 1 => {
            let mut script = Script::new(random, plan, policy);
            while script.bytes.len() < length {
                script.put_many(100);
            }
            let mut bytes = script.bytes;
            bytes.truncate(length);
            bytes
        }
        2 => padded_policy(random, plan, records, length),
        // Some events, and nothing that means anything behind them.
        _ => {
            let mut script = Script::new(random, plan, policy);
            script.put_many(50);
            policy = script.bytes;
            policy.resize(length, 0);
            policy
        }
    }
}

/// A policy of this length, by records that say nothing new.
fn padded_policy(
    random: &mut Random,
    plan: &Plan,
    mut records: Vec<Vec<u8>>,
    length: usize,
) -> Vec<u8> {
    let end = records.pop().unwrap_or_default();
    let mut bytes = records.concat();
    let padding = length - end.len() - bytes.len();
    let role = random.pick(&plan.cast.roles) as u8;
    for _ in 0..padding % 3 {
        bytes.extend([kind::REQUIRES, 1, role, role]);
    }
    // These have 4 bytes: three at a time leave a multiple of 3, as it was.
    if let Some(&(role, a, b)) = plan.assignment_conflicts.first() {
        let record = [kind::ASSIGNMENT_CONFLICT, role as u8, b as u8, a as u8];
        for _ in 0..random.below(padding / 12) {
            bytes.extend(record.repeat(3));
        }
    }
    while bytes.len() + end.len() < length {
        let role = random.below(plan.roles) as u8;
        bytes.extend([kind::INHERITS, role, role]);
    }
    bytes.extend(end);
    bytes
}

/// Writes events behind a policy, and runs them beside if it passes.
struct Script<'a> {
    random: &'a mut Random,
    plan: &'a Plan,
    hierarchy: Hierarchy,
    monitor: Option<Monitor>,
    bytes: Vec<u8>,
    /// Where each event starts.
    starts: Vec<usize>,
}

impl<'a> Script<'a> {
    fn new(random: &'a mut Random, plan: &'a Plan, policy: Vec<u8>) -> Script<'a> {
        let monitor = Policy::read(&policy).ok().and_then(|(read, _)| {
            let hierarchy = Hierarchy::new(&read.inherits);
            let passed = verdict::flaw(&read, &hierarchy).is_none();
            passed.then(|| Monitor::new(read, hierarchy))
        });
        Script {
            random,
            plan,
            hierarchy: plan.hierarchy(),
            monitor,
            bytes: policy,
            starts: Vec::new(),
        }
    }

    fn put(&mut self, event: Event) {
        self.starts.push(self.bytes.len());
        self.bytes.push(event.kind());
        match event {
            Event::Assign {
                user: first,
                role: last,
            }
            | Event::Deassign {
                user: first,
                role: last,
            }
            | Event::Open {
                session: first,
                user: last,
            }
            | Event::Activate {
                session: first,
                role: last,
            }
            | Event::Deactivate {
                session: first,
                role: last,
            } => {
                self.bytes.extend([first as u8, last as u8]);
            }
            Event::Enable { role: only }
            | Event::Disable { role: only }
            | Event::Close { session: only } => {
                self.bytes.push(only as u8);
            }
        }
        if let Some(monitor) = &mut self.monitor {
            monitor.decide(event);
        }
    }

    fn put_many(&mut self, count: usize) {
        let mut end = self.starts.len() + count;
        if self.starts.is_empty() && self.random.chance(85) {
            self.put_opening(count / 2);
        }
        let provoking = self.random.pick(&[0, 5, 10, 20]);
        let mut share = |is_asked, of: &[usize]| if is_asked { self.random.pick(of) } else { 0 };
        let disputes = share(!self.plan.assignment_conflicts.is_empty(), &[0, 5, 15]);
        let seats = share(!self.plan.seat_takers.is_empty(), &[0, 2, 4]);
        let possible = self.random.pick(&[40, 60, 75]);
        let weights = self.random.pick(&[
            [18, 8, 12, 7, 8, 5, 34, 8],
            [10, 4, 6, 3, 6, 3, 60, 8],
            [35, 12, 8, 3, 8, 4, 26, 4],
            [12, 12, 12, 12, 12, 12, 14, 14],
        ]);
        while self.starts.len() < end {
            let sorts = [provoking, possible, 100 - possible, disputes, seats];
            let event = match self.random.weighted(&sorts) {
                0 => self.provoking_event(&weights),
                1 => self.possible_event(&weights),
                2 => self.any_event(&weights),
                3 => {
                    self.put_about_assignments();
                    continue;
                }
                _ => {
                    // These are many, and not to be in the place of others.
                    let before = self.starts.len();
                    self.put_few_seats();
                    end += self.starts.len() - before;
                    continue;
                }
            };
            self.put(event);
        }
    }

    fn put_about_assignments(&mut self) {
        if self.random.chance(25) {
            self.put_apart();
        } else {
            self.put_dispute();
        }
    }

    /// Assigns a role, or a senior or junior of it, to one or a few users who
    /// are listed for it with another user, and then to that user. Mostly their
    /// assignments end one by one then, and the user asks again each time.
    fn put_dispute(&mut self) {
        let listed: Vec<_> = self.plan.assignment_conflicts.iter().copied().collect();
        let (role, lower, higher) = self.random.pick(&listed);
        let user = self.random.pick(&[lower, higher]);
        let others = self.plan.users_listed_with(user, role);
        let most = self.random.between(1, 3);
        let others = some_of(self.random, &others, most);
        if self.random.chance(50) {
            self.put_end_of_assignments(user);
        }
        let held: Vec<_> = others
            .iter()
            .map(|&other| (other, self.related_role(role)))
            .collect();
        for &(user, role) in &held {
            self.put(Event::Assign { user, role });
        }
        let asked = Event::Assign {
            user,
            role: self.related_role(role),
        };
        self.put(asked);
        if self.random.chance(60) {
            for &(user, role) in &held {
                self.put(Event::Deassign { user, role });
                self.put(asked);
            }
        }
    }

    /// Assigns two seniors of a role, neither of them senior to the other, to
    /// two users who are listed for it: each is authorised for a junior of what
    /// the other holds, and does not hold it.
    fn put_apart(&mut self) {
        let listed: Vec<_> = self.plan.assignment_conflicts.iter().copied().collect();
        for _ in 0..8 {
            let (role, lower, higher) = self.random.pick(&listed);
            let apart = self.plan.seniors_apart(role);
            if apart.is_empty() {
                continue;
            }
            let (held, asked) = self.random.pick(&apart);
            self.put_end_of_assignments(lower);
            self.put_end_of_assignments(higher);
            for (user, role) in [(lower, held), (higher, asked)] {
                self.put(Event::Assign { user, role });
            }
            return;
        }
    }

    /// The role itself, or a senior or junior of it.
    fn related_role(&mut self, role: usize) -> usize {
        let related: Vec<_> = match self.random.weighted(&[4, 4, 3]) {
            0 => vec![role],
            1 => self.plan.seniors(role),
            _ => roles_of(self.hierarchy.juniors(role)).collect(),
        };
        self.random.pick(&related)
    }

    /// Ends the assignments that the user has, as far as that is possible.
    fn put_end_of_assignments(&mut self, user: usize) {
        let Some(monitor) = &self.monitor else {
            return;
        };
        let assigned = monitor.state().assigned.get(user).copied();
        for role in roles_of(assigned.unwrap_or(0)) {
            self.put(Event::Deassign { user, role });
        }
    }

    /// Has a user take seats in several sessions. Some that the user takes are
    /// freed before, and some of the sessions may be another user's.
    fn put_few_seats(&mut self) {
        let user = self.random.pick(&self.plan.seat_takers);
        for _ in 0..self.random.pick(&[0, 1, 3]) {
            self.put_freeing(user);
        }
        let (most_sessions, most_roles) = (self.random.between(2, 5), self.random.between(1, 3));
        let sessions = some_of(self.random, &self.plan.cast.sessions, most_sessions);
        let roles = some_of(self.random, &self.plan.cast.roles, most_roles);
        for &session in &sessions {
            let owner = self.opened(session).map(|open| open.owner);
            if owner.is_some_and(|owner| owner != user) && self.random.chance(40) {
                self.put(Event::Close { session });
            }
        }
        let seats = self.seats_to_take(&sessions, &roles);
        self.put_seats(user, &roles, &seats);
    }

    /// Where a user is to take about as many seats as the highest limit allows:
    /// has the user take so many and a few more, if the policy has them.
    fn put_many_seats(&mut self) {
        let Some(user) = self.plan.taker_of_many else {
            return;
        };
        let sessions: Vec<_> = (0..self.plan.sessions).collect();
        let roles: Vec<_> = (0..self.plan.roles).collect();
        let mut seats = self.seats_to_take(&sessions, &roles);
        seats.truncate(HIGHEST_LIMIT + self.random.below(5));
        self.put_seats(user, &roles, &seats);
    }

    /// Each of the sessions with each of the roles, in some order.
    fn seats_to_take(&mut self, sessions: &[usize], roles: &[usize]) -> Vec<Seat> {
        let of_session = |&session| roles.iter().map(move |&role| (session, role));
        let mut seats: Vec<_> = sessions.iter().flat_map(of_session).collect();
        self.random.shuffle(&mut seats);
        seats
    }

    /// Gives the user the roles and asks for the seats. Mostly some that the
    /// user takes are freed then, and those that the user lacks asked for again.
    fn put_seats(&mut self, user: usize, roles: &[usize], seats: &[Seat]) {
        for &role in roles {
            self.put_if_possible(Event::Enable { role });
            self.put_if_possible(Event::Assign { user, role });
        }
        self.put_taking(user, seats);
        for _ in 0..self.random.pick(&[0, 1, 1, 2, 3]) {
            self.put_freeing(user);
            self.put_taking(user, seats);
        }
    }

    /// Opens for the user those of the sessions that are closed, and asks for
    /// the roles that are not active in them yet.
    fn put_taking(&mut self, user: usize, seats: &[Seat]) {
        for &(session, role) in seats {
            self.put_if_possible(Event::Open { session, user });
            self.put_if_possible(Event::Activate { session, role });
        }
    }

    /// Frees a seat of the user by a deactivation, or all of a session by a
    /// closing.
    fn put_freeing(&mut self, user: usize) {
        let seats = self.seats_taken(user);
        if seats.is_empty() {
            return;
        }
        let (session, role) = self.random.pick(&seats);
        if self.random.chance(60) {
            self.put(Event::Deactivate { session, role });
        } else {
            self.put(Event::Close { session });
        }
    }

    /// The seats that the user takes.
    fn seats_taken(&self, user: usize) -> Vec<Seat> {
        let mut seats = Vec::new();
        for session in 0..self.plan.sessions {
            if let Some(open) = self.opened(session).filter(|open| open.owner == user) {
                seats.extend(roles_of(open.active).map(|role| (session, role)));
            }
        }
        seats
    }

    /// The session, where it is open.
    fn opened(&self, session: usize) -> Option<Session> {
        let state = self.monitor.as_ref()?.state();
        state.sessions.get(session).copied().flatten()
    }

    fn is_possible(&self, event: Event) -> bool {
        let hindrance = |monitor: &Monitor| monitor.hindrance(event);
        self.monitor.as_ref().and_then(hindrance).is_none()
    }

    fn put_if_possible(&mut self, event: Event) {
        if self.is_possible(event) {
            self.put(event);
        }
    }

    /// Enables most roles, opens most sessions and assigns some roles, in some
    /// order, and with no more than so many events.
    fn put_opening(&mut self, most: usize) {
        let cast = &self.plan.cast;
        let random = &mut *self.random;
        let mut events = Vec::new();
        for &role in &cast.roles {
            if random.chance(90) {
                events.push(Event::Enable { role });
            }
        }
        for &session in &cast.sessions {
            if random.chance(75) {
                let user = random.pick(&cast.users);
                events.push(Event::Open { session, user });
            }
        }
        for &user in &cast.users {
            for _ in 0..random.between(0, 2) {
                let role = random.pick(&cast.roles);
                events.push(Event::Assign { user, role });
            }
        }
        random.shuffle(&mut events);
        for &event in events.iter().take(most) {
            self.put(event);
        }
    }

    /// Mostly one of the cast, sometimes any, seldom one out of range.
    fn number(&mut self, cast: &[usize], size: usize) -> usize {
        match self.random.weighted(&[950, 40, 10]) {
            0 => self.random.pick(cast),
            1 => self.random.below(size),
            _ => self.random.pick(&[size, size + 1, 32, 63, 64, 128, 255]),
        }
    }

    fn user(&mut self) -> usize {
        self.number(&self.plan.cast.users, self.plan.users)
    }

    fn role(&mut self) -> usize {
        self.number(&self.plan.cast.roles, self.plan.roles)
    }

    fn session(&mut self) -> usize {
        self.number(&self.plan.cast.sessions, self.plan.sessions)
    }

    /// Any event, its kind by the weights of the eight.
    fn any_event(&mut self, weights: &[usize; 8]) -> Event {
        match self.random.weighted(weights) {
            0 => Event::Assign {
                user: self.user(),
                role: self.role(),
            },
            1 => Event::Deassign {
                user: self.user(),
                role: self.role(),
            },
            2 => Event::Enable { role: self.role() },
            3 => Event::Disable { role: self.role() },
            4 => Event::Open {
                session: self.session(),
                user: self.user(),
            },
            5 => Event::Close {
                session: self.session(),
            },
            6 => Event::Activate {
                session: self.session(),
                role: self.role(),
            },
            _ => Event::Deactivate {
                session: self.session(),
                role: self.role(),
            },
        }
    }

    /// An event that is possible, if one is found soon.
    fn possible_event(&mut self, weights: &[usize; 8]) -> Event {
        let mut event = self.any_event(weights);
        for _ in 0..10 {
            if self.is_possible(event) {
                break;
            }
            event = self.any_event(weights);
        }
        event
    }

    /// An event that is not possible because of what stands in the state.
    fn provoking_event(&mut self, weights: &[usize; 8]) -> Event {
        for _ in 0..10 {
            let event = self.any_event(weights);
            let Some(monitor) = &self.monitor else {
                return event;
            };
            let state = monitor.state();
            let stands = match event {
                Event::Assign { user, role } => state
                    .authorised
                    .get(user)
                    .is_some_and(|&roles| role < 32 && has_role(roles, role)),
                Event::Deassign { user, role } => {
                    state
                        .assigned
                        .get(user)
                        .is_some_and(|&roles| role < 32 && has_role(roles, role))
                        && state.active_for(user) != 0
                }
                Event::Enable { role } => role < 32 && has_role(state.enabled, role),
                Event::Disable { role } => role < 32 && has_role(state.active_for_anyone(), role),
                Event::Open { session, .. } => {
                    state.sessions.get(session).is_some_and(Option::is_some)
                }
                Event::Close { session } => {
                    state.sessions.get(session).is_some_and(Option::is_none)
                }
                Event::Activate { session, role } | Event::Deactivate { session, role } => {
                    let open = state.sessions.get(session).copied().flatten();
                    open.is_some_and(|open| {
                        let active = role < 32 && has_role(open.active, role);
                        active == matches!(event, Event::Activate { .. })
                    })
                }
            };
            if stands {
                return event;
            }
        }
        self.any_event(weights)
    }

    /// The input; sometimes with an unknown kind between the events or behind
    /// them, or with its last event cut.
    fn break_off(mut self) -> Vec<u8> {
        match self.random.weighted(&[86, 5, 2, 7]) {
            0 => {}
            1 if !self.starts.is_empty() => {
                let start = self.random.pick(&self.starts);
                let kind = self.breaking_kind();
                self.bytes.insert(start, kind);
            }
            1 | 2 => {
                let kind = self.breaking_kind();
                self.bytes.push(kind);
            }
            _ => {
                let kind = self
                    .random
                    .between(event_kind::ASSIGN.into(), event_kind::DEACTIVATE.into())
                    as u8;
                self.bytes.push(kind);
                let short = matches!(
                    kind,
                    event_kind::ENABLE | event_kind::DISABLE | event_kind::CLOSE
                );
                if !short && self.random.chance(50) {
                    self.bytes.push(0);
                }
            }
        }
        self.bytes
    }

    /// A kind that is not one of an event.
    fn breaking_kind(&mut self) -> u8 {
        if self.random.chance(30) {
            let last = kind::ASSIGNMENT_CONFLICT.into();
            self.random.between(kind::SIZES.into(), last) as u8
        } else {
            unknown_kind(self.random)
        }
    }
}
