//! What the documentation promises of every state and family, asked of the
//! reference on generated inputs. The promises are written out here by their
//! definitions, as slow as they come.

use std::collections::{BTreeMap, BTreeSet};

use reference::event::Event;
use reference::generate;
use reference::hierarchy::Hierarchy;
use reference::monitor::{Answer, Monitor};
use reference::policy::{Policy, UserPairs, MAX_ROLES};
use reference::roll::INPUT_LIMIT;
use reference::rules::{assignment_conflicts, cardinality, dependency, separation, Scene};
use reference::sets::{has_role, has_user, roles_of, users_of};
use reference::state::{Session, State};
use reference::verdict;

/// Seniority by its definition; the steps left bound the search.
fn is_senior(policy: &Policy, senior: usize, junior: usize, steps: usize) -> bool {
    senior == junior
        || steps > 0
            && (0..policy.roles).any(|role| {
                has_role(policy.inherits[senior], role)
                    && is_senior(policy, role, junior, steps - 1)
            })
}

/// By senior, then by junior.
fn seniority(policy: &Policy) -> Vec<Vec<bool>> {
    // A table of one step more, as often as there are roles, says the same as
    // the definition, and is quick enough for 32 roles.
    let roles = policy.roles;
    let mut table: Vec<Vec<bool>> = (0..roles)
        .map(|a| (0..roles).map(|b| a == b).collect())
        .collect();
    for _ in 0..roles {
        table = (0..roles)
            .map(|a| {
                (0..roles)
                    .map(|b| {
                        a == b || (0..roles).any(|c| has_role(policy.inherits[a], c) && table[c][b])
                    })
                    .collect()
            })
            .collect();
    }
    table
}

fn is_within(count: usize, limit: Option<u8>) -> bool {
    limit.is_none_or(|limit| count <= limit.into())
}

fn is_active_for(state: &State, user: usize, role: usize) -> bool {
    state
        .open_sessions()
        .any(|session| session.owner == user && has_role(session.active, role))
}

fn is_active(state: &State, role: usize) -> bool {
    state
        .open_sessions()
        .any(|session| has_role(session.active, role))
}

/// The seats of a user: the pairs of a session of theirs and a role active in
/// it.
fn seats(state: &State, user: usize) -> BTreeSet<(usize, usize)> {
    let mut seats = BTreeSet::new();
    for (session, open) in state.sessions.iter().enumerate() {
        for role in 0..MAX_ROLES.into() {
            let is_seat = |open: &Session| open.owner == user && has_role(open.active, role);
            if open.as_ref().is_some_and(is_seat) {
                seats.insert((session, role));
            }
        }
    }
    seats
}

fn within_limits(policy: &Policy, state: &State) -> bool {
    let (users, roles) = (0..policy.users, 0..policy.roles);
    roles.clone().all(|role| {
        let authorised = users
            .clone()
            .filter(|&user| has_role(state.authorised[user], role));
        let using = state
            .open_sessions()
            .filter(|session| has_role(session.active, role));
        is_within(authorised.count(), policy.max_users_of_role[role])
            && is_within(using.count(), policy.max_sessions_of_role[role])
    }) && users.clone().all(|user| {
        let authorised = roles
            .clone()
            .filter(|&role| has_role(state.authorised[user], role));
        is_within(authorised.count(), policy.max_roles_of_user[user])
            && is_within(seats(state, user).len(), policy.max_seats_of_user[user])
    })
}

fn separated(policy: &Policy, state: &State) -> bool {
    let (users, roles) = (0..policy.users, 0..policy.roles);
    users.clone().all(|user| {
        roles.clone().all(|a| {
            roles.clone().all(|b| {
                let is_authorised = |role| has_role(state.authorised[user], role);
                let is_active = |role| is_active_for(state, user, role);
                let clash =
                    has_role(policy.static_conflicts[a], b) && is_authorised(a) && is_authorised(b)
                        || has_role(policy.dynamic_conflicts[a], b) && is_active(a) && is_active(b);
                !clash
            })
        })
    }) && roles.clone().all(|role| {
        let using: Vec<usize> = users
            .clone()
            .filter(|&user| is_active_for(state, user, role))
            .collect();
        using.iter().all(|&a| {
            using
                .iter()
                .all(|&b| !has_user(policy.user_conflicts[role][a], b))
        })
    })
}

/// Is one of the two roles senior to the other? Every role is to itself.
fn is_related(seniority: &[Vec<bool>], a: usize, b: usize) -> bool {
    seniority[a][b] || seniority[b][a]
}

/// No two users who are listed together hold roles a and b, one each, where a
/// is senior to b and the two are listed for both.
fn unshared(policy: &Policy, seniority: &[Vec<bool>], state: &State) -> bool {
    let listed = &policy.assignment_conflicts;
    let holds = |user: usize, role| has_role(state.assigned[user], role);
    (0..policy.users).all(|user| {
        roles_of(state.assigned[user]).all(|a| {
            users_of(listed[a][user]).all(|other| {
                (0..policy.roles).all(|b| {
                    let clash =
                        seniority[a][b] && has_user(listed[b][user], other) && holds(other, b);
                    !clash
                })
            })
        })
    })
}

/// The users other than this one whose roles stand against its assignment,
/// where to have a role is what the sets say.
fn standing_against<'a>(
    policy: &'a Policy,
    seniority: &'a [Vec<bool>],
    sets: &'a [u32],
    (user, role): (usize, usize),
) -> impl Iterator<Item = usize> + 'a {
    let listed = move |a: usize, b| has_user(policy.assignment_conflicts[a][user], b);
    (0..policy.users).filter(move |&other| {
        other != user
            && listed(role, other)
            && (0..policy.roles).any(|held| {
                has_role(sets[other], held)
                    && is_related(seniority, held, role)
                    && listed(held, other)
            })
    })
}

fn met(policy: &Policy, state: &State) -> bool {
    (0..policy.roles).all(|role| {
        !is_active(state, role)
            || (0..policy.roles)
                .all(|on| !has_role(policy.depends_on[role], on) || is_active(state, on))
    })
}

fn fits(policy: &Policy, seniority: &[Vec<bool>], state: &State) -> bool {
    let roles = 0..policy.roles;
    state.open_sessions().all(|session| {
        roles.clone().all(|role| {
            !has_role(session.active, role)
                || has_role(state.enabled, role) && has_role(state.authorised[session.owner], role)
        })
    }) && (0..policy.users).all(|user| {
        roles.clone().all(|role| {
            let by_definition = roles
                .clone()
                .any(|senior| has_role(state.assigned[user], senior) && seniority[senior][role]);
            has_role(state.authorised[user], role) == by_definition
        })
    })
}

/// The monitor of an input that passes, and its events.
fn monitor(input: &[u8]) -> Option<(Monitor, &[u8])> {
    let (policy, read) = Policy::read(input).ok()?;
    let hierarchy = Hierarchy::new(&policy.inherits);
    if verdict::flaw(&policy, &hierarchy).is_some() {
        return None;
    }
    Some((Monitor::new(policy, hierarchy), &input[read..]))
}

/// Of a possible event: that the state after it fits the policy, and that each
/// of the four families admits it exactly where it allows that state.
fn ask_whether_exact(scene: Scene, seniority: &[Vec<bool>], event: Event) {
    let Scene {
        policy,
        hierarchy,
        state,
    } = scene;
    let mut after = state.clone();
    after.grant(hierarchy, event);
    assert!(fits(policy, seniority, &after));
    let admitted = [
        cardinality(scene, event).is_none(),
        separation(scene, event).is_none(),
        assignment_conflicts(scene, event).is_none(),
        dependency(scene, event).is_none(),
    ];
    let allowed = [
        within_limits(policy, &after),
        separated(policy, &after),
        unshared(policy, seniority, &after),
        met(policy, &after),
    ];
    assert_eq!(admitted, allowed, "{event:?}");
}

/// Of so many generated inputs those whose policy passes, and which are not
/// too long to look through.
fn passing_inputs(seed: u64, count: u64) -> impl Iterator<Item = Vec<u8>> {
    (0..count)
        .map(move |index| generate::input(seed, index))
        .filter(|input| input.len() <= INPUT_LIMIT / 4 && monitor(input).is_some())
}

#[test]
fn every_state_fits_and_four_families_are_exact() {
    let mut decided = 0;
    for input in passing_inputs(7, 300) {
        let (mut monitor, mut rest) = monitor(&input).expect("its policy passes");
        let policy = monitor.policy().clone();
        let seniority = seniority(&policy);
        // The large ones are slow to look through.
        let most = if policy.users * policy.roles > 100 {
            40
        } else {
            400
        };
        for _ in 0..most {
            let Ok((event, after)) = Event::take(rest) else {
                break;
            };
            rest = after;
            if monitor.hindrance(event).is_none() {
                ask_whether_exact(monitor.scene(), &seniority, event);
            }
            let before = monitor.state().clone();
            match monitor.decide(event) {
                Answer::Granted { .. } => assert_ne!(*monitor.state(), before),
                _ => assert_eq!(*monitor.state(), before),
            }
            let state = monitor.state();
            assert!(
                within_limits(&policy, state) && separated(&policy, state) && met(&policy, state)
            );
            assert!(unshared(&policy, &seniority, state));
            decided += 1;
        }
    }
    assert!(decided > 5_000, "{decided}");
}

/// How often the assignments of generated inputs come to what the family
/// tells apart.
#[derive(Debug, Default)]
struct Assignments {
    refused: usize,
    same_role: usize,
    senior_held: usize,
    junior_held: usize,
    two_against: usize,
    granted_again: usize,
    /// Where inherited authority would have counted, and does not.
    inherited_only: usize,
    /// Where the held role is related and the two are not listed for it.
    senior_only: usize,
    /// Where the family does not answer, since one above it does.
    answered_above: usize,
}

impl Assignments {
    /// Asks of an assignment that is possible what the family answers, and
    /// counts what it came to.
    fn ask(&mut self, scene: Scene, seniority: &[Vec<bool>], asked: (usize, usize)) {
        let Scene { policy, state, .. } = scene;
        let (user, role) = asked;
        let against: Vec<usize> =
            standing_against(policy, seniority, &state.assigned, asked).collect();
        let named = assignment_conflicts(scene, Event::Assign { user, role });
        let named = named.map(|breach| (breach.number, breach.subject));
        assert_eq!(named, against.first().map(|&lowest| (48, lowest)));
        if let Some(&lowest) = against.first() {
            assert_ne!(lowest, user);
            let held = state.assigned[lowest];
            let above = roles_of(held).any(|held| held != role && seniority[held][role]);
            let below = roles_of(held).any(|held| held != role && seniority[role][held]);
            self.refused += 1;
            self.same_role += usize::from(has_role(held, role));
            self.senior_held += usize::from(above);
            self.junior_held += usize::from(below);
            self.two_against += usize::from(against.len() > 1);
        } else {
            let mut inherited = standing_against(policy, seniority, &state.authorised, asked);
            self.inherited_only += usize::from(inherited.next().is_some());
            let listed = users_of(policy.assignment_conflicts[role][user]);
            let unlisted = listed.flat_map(|other| roles_of(state.assigned[other]));
            let related = unlisted.filter(|&held| is_related(seniority, held, role));
            self.senior_only += usize::from(related.count() > 0);
        }
    }

    fn all(&self) -> [usize; 9] {
        [
            self.refused,
            self.same_role,
            self.senior_held,
            self.junior_held,
            self.two_against,
            self.granted_again,
            self.inherited_only,
            self.senior_only,
            self.answered_above,
        ]
    }
}

/// That the lowest other user is named, and that the inputs come to all of it.
#[test]
fn assignment_conflicts_name_the_lowest_other_user() {
    let mut counts = Assignments::default();
    for input in passing_inputs(10, 300) {
        let (mut monitor, mut rest) = monitor(&input).expect("its policy passes");
        let policy = monitor.policy().clone();
        let seniority = seniority(&policy);
        let mut refused = Vec::new();
        while let Ok((event, after)) = Event::take(rest) {
            rest = after;
            let possible = monitor.hindrance(event).is_none();
            if let (Event::Assign { user, role }, true) = (event, possible) {
                counts.ask(monitor.scene(), &seniority, (user, role));
            }
            let stands = possible && assignment_conflicts(monitor.scene(), event).is_some();
            match monitor.decide(event).number() {
                48 => refused.push(event),
                0 => counts.granted_again += usize::from(refused.contains(&event)),
                _ => counts.answered_above += usize::from(stands),
            }
        }
    }
    assert!(counts.all().iter().all(|&count| count > 100), "{counts:?}");
}

/// What a possible activation makes of the seats of the owner.
struct Activation {
    owner: usize,
    limit: Option<u8>,
    /// The seats of the owner after it.
    seats: BTreeSet<(usize, usize)>,
    /// The different roles among these.
    roles: usize,
    /// Whether the owner has the role active in another session.
    is_elsewhere: bool,
    /// Whether the role would be active in too many sessions.
    is_used_too_often: bool,
    /// How many seats everybody takes together after it.
    seats_of_all: usize,
}

impl Activation {
    fn new(scene: Scene, (session, role): (usize, usize)) -> Activation {
        let Scene { policy, state, .. } = scene;
        let open = state.sessions[session].expect("the activation is possible");
        let mut seats_of_all = 1;
        let mut using = 1;
        for user in 0..policy.users {
            let seats = seats(state, user);
            seats_of_all += seats.len();
            using += seats.iter().filter(|&&(_, active)| active == role).count();
        }
        let mut seats = seats(state, open.owner);
        let is_elsewhere = seats.iter().any(|&(_, active)| active == role);
        seats.insert((session, role));
        let roles: BTreeSet<usize> = seats.iter().map(|&(_, role)| role).collect();
        Activation {
            owner: open.owner,
            limit: policy.max_seats_of_user[open.owner],
            seats,
            roles: roles.len(),
            is_elsewhere,
            is_used_too_often: !is_within(using, policy.max_sessions_of_role[role]),
            seats_of_all,
        }
    }

    /// Number and subject that cardinality names, by its two questions.
    fn expected(&self, role: usize) -> Option<(u8, usize)> {
        if !is_within(self.seats.len(), self.limit) {
            return Some((43, self.owner));
        }
        self.is_used_too_often.then_some((44, role))
    }

    fn reaches_limit(&self) -> bool {
        self.limit
            .is_some_and(|most| self.seats.len() == most.into())
    }
}

/// How often the activations of generated inputs come to what a limit of seats
/// tells apart.
#[derive(Debug, Default)]
struct Seats {
    /// Refused, and no further role would have been active for the owner.
    refused_elsewhere: usize,
    refused_new_role: usize,
    /// Refused, and the different roles would have been within the limit.
    refused_new_role_of_few: usize,
    refused_first: usize,
    /// Refused by 43, and 44 would refuse it too.
    refused_by_both: usize,
    /// Refused by 44 where the seats are within a limit.
    refused_by_sessions: usize,
    /// Granted at exactly the limit, with a role in two sessions.
    granted_in_two: usize,
    /// Granted where everybody's seats would have been over the limit.
    granted_beside_others: usize,
    reused_after_deactivation: usize,
    reused_after_closing: usize,
    refused_at_highest: usize,
    granted_past_highest: usize,
    /// By user: the last event that freed a seat of a user who took all that
    /// the limit allows.
    freed: BTreeMap<usize, Event>,
}

impl Seats {
    fn count(&mut self, activation: &Activation, number: u8) {
        let Activation { seats, limit, .. } = activation;
        let is_elsewhere = activation.is_elsewhere;
        let is_of_few = is_within(activation.roles, *limit);
        match number {
            43 => {
                self.refused_elsewhere += usize::from(is_elsewhere);
                self.refused_new_role += usize::from(!is_elsewhere);
                self.refused_new_role_of_few += usize::from(!is_elsewhere && is_of_few);
                self.refused_first += usize::from(seats.len() == 1);
                self.refused_by_both += usize::from(activation.is_used_too_often);
                self.refused_at_highest += usize::from(*limit == Some(255));
            }
            44 => self.refused_by_sessions += usize::from(limit.is_some()),
            0 => {
                let is_in_two = activation.roles < seats.len() && activation.reaches_limit();
                let is_beside_others = !is_within(activation.seats_of_all, *limit);
                self.granted_in_two += usize::from(is_in_two);
                self.granted_beside_others += usize::from(is_beside_others);
                self.granted_past_highest += usize::from(seats.len() > 255);
                self.count_reused(activation);
            }
            _ => {}
        }
    }

    /// Of a granted activation: whether it takes the last seat again.
    fn count_reused(&mut self, activation: &Activation) {
        if activation.reaches_limit() {
            match self.freed.remove(&activation.owner) {
                Some(Event::Deactivate { .. }) => self.reused_after_deactivation += 1,
                Some(_) => self.reused_after_closing += 1,
                None => {}
            }
        }
    }

    /// Keeps the granted event where it freed seats of a user at the limit.
    fn keep_freeing(&mut self, policy: &Policy, before: &State, event: Event) {
        let (Event::Deactivate { session, .. } | Event::Close { session }) = event else {
            return;
        };
        let open = before.sessions[session].expect("the event was possible");
        let taken = seats(before, open.owner).len();
        let limit = policy.max_seats_of_user[open.owner];
        if open.active != 0 && limit.is_some_and(|most| taken == most.into()) {
            self.freed.insert(open.owner, event);
        }
    }

    fn frequent(&self) -> [usize; 10] {
        [
            self.refused_elsewhere,
            self.refused_new_role,
            self.refused_new_role_of_few,
            self.refused_first,
            self.refused_by_both,
            self.refused_by_sessions,
            self.granted_in_two,
            self.granted_beside_others,
            self.reused_after_deactivation,
            self.reused_after_closing,
        ]
    }
}

/// That 43 counts the pairs of a session of the owner and a role active in it
/// and stands before 44, and that the inputs come to all of it.
#[test]
fn a_limit_of_seats_counts_sessions_with_roles() {
    let mut counts = Seats::default();
    for input in passing_inputs(11, 1000) {
        let (mut monitor, mut rest) = monitor(&input).expect("its policy passes");
        counts.freed.clear();
        while let Ok((event, after)) = Event::take(rest) {
            rest = after;
            if monitor.hindrance(event).is_some() {
                continue;
            }
            let scene = monitor.scene();
            if let Event::Activate { session, role } = event {
                let activation = Activation::new(scene, (session, role));
                let named = cardinality(scene, event);
                let named = named.map(|breach| (breach.number, breach.subject));
                assert_eq!(named, activation.expected(role));
                counts.count(&activation, monitor.decide(event).number());
            } else {
                let before = monitor.state().clone();
                if monitor.decide(event).number() == 0 {
                    counts.keep_freeing(monitor.policy(), &before, event);
                }
            }
        }
    }
    let is_frequent = |&count: &usize| count > 100;
    assert!(counts.frequent().iter().all(is_frequent), "{counts:?}");
    let at_highest = [counts.refused_at_highest, counts.granted_past_highest];
    assert!(at_highest.iter().all(|&count| count > 5), "{counts:?}");
}

#[test]
fn seniority_is_the_defined_one() {
    let mut compared = 0;
    for index in 0..400 {
        let Ok((policy, _)) = Policy::read(&generate::input(8, index)) else {
            continue;
        };
        let hierarchy = Hierarchy::new(&policy.inherits);
        let table = seniority(&policy);
        for (a, row) in table.iter().enumerate() {
            for (b, &expected) in row.iter().enumerate() {
                assert_eq!(hierarchy.is_senior(a, b), expected);
                if policy.roles <= 5 {
                    assert_eq!(is_senior(&policy, a, b, policy.roles), expected);
                    compared += 1;
                }
            }
        }
    }
    assert!(compared > 1_000, "{compared}");
}

/// The soonest names that are a witness: the last name of all runs fastest.
fn search(sizes: [usize; 4], is_witness: &dyn Fn([usize; 4]) -> bool) -> Option<[usize; 4]> {
    let [w, x, y, z] = sizes;
    (0..w * x * y * z)
        .map(|n| [n / (x * y * z), n / (y * z) % x, n / z % y, n % z])
        .find(|&names| is_witness(names))
}

/// The six questions again, by searching all names in their order.
fn soonest_witness(policy: &Policy) -> Option<(u8, [usize; 4])> {
    let senior = seniority(policy);
    let (users, roles) = (policy.users, policy.roles);
    let is_static = |a: usize, b| has_role(policy.static_conflicts[a], b);
    let is_dynamic = |a: usize, b| has_role(policy.dynamic_conflicts[a], b);
    let lost = |listed: &UserPairs| {
        let is_listed = |role: usize, a: usize, b| has_user(listed[role][a], b);
        search([roles, roles, users, users], &|[a, b, u, v]| {
            u < v && senior[a][b] && is_listed(b, u, v) && !is_listed(a, u, v)
        })
    };
    let circle = || {
        search([roles, roles, 1, 1], &|[a, b, _, _]| {
            a < b && senior[a][b] && senior[b][a]
        })
    };
    let itself = || {
        search([roles, 1, 1, 1], &|[a, ..]| {
            is_static(a, a) || is_dynamic(a, a)
        })
    };
    let lost_conflict = || {
        search([roles, roles, roles, 1], &|[a, b, c, _]| {
            senior[a][b] && is_static(b, c) && !is_static(a, c)
        })
    };
    let both = || {
        search([roles, roles, 1, 1], &|[a, b, _, _]| {
            is_static(a, b) && is_dynamic(a, b)
        })
    };
    let numbered = |number| move |names| (number, names);
    circle()
        .map(numbered(11))
        .or_else(|| itself().map(numbered(12)))
        .or_else(|| lost_conflict().map(numbered(13)))
        .or_else(|| both().map(numbered(14)))
        .or_else(|| lost(&policy.user_conflicts).map(numbered(15)))
        .or_else(|| lost(&policy.assignment_conflicts).map(numbered(16)))
}

#[test]
fn verdicts_are_the_soonest_witness() {
    let mut flaws = BTreeMap::new();
    for index in 0..1500 {
        let Ok((policy, _)) = Policy::read(&generate::input(9, index)) else {
            continue;
        };
        if policy.roles > 8 || policy.users > 8 {
            continue;
        }
        let expected = soonest_witness(&policy);
        let flaw = verdict::flaw(&policy, &Hierarchy::new(&policy.inherits));
        assert_eq!(flaw.map(|flaw| (flaw.number(), flaw.names())), expected);
        if let Some((number, _)) = expected {
            *flaws.entry(number).or_insert(0) += 1;
        }
    }
    let is_frequent = |number| flaws.get(&number).is_some_and(|&times| times > 5);
    assert!((11..=16).all(is_frequent), "{flaws:?}");
}

#[test]
fn the_generator_is_deterministic() {
    for index in 0..50 {
        assert_eq!(generate::input(3, index), generate::input(3, index));
    }
    assert_ne!(generate::input(3, 0), generate::input(3, 1));
    assert_ne!(generate::input(3, 0), generate::input(4, 0));
}
