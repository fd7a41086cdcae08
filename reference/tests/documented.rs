//! The sample, and the examples of the documentation.

use reference::roll::write_roll;

fn roll(input: &[u8]) -> String {
    let mut out = Vec::new();
    write_roll(input, &mut out).unwrap();
    String::from_utf8(out).unwrap()
}

/// The rows for a policy and events, each as its number, subject, place, roles.
fn answers(policy: &[u8], events: &[&[u8]]) -> Vec<[u64; 4]> {
    let text = roll(&[policy, &events.concat()].concat());
    let mut lines: Vec<Vec<&str>> = text.lines().map(|line| line.split(' ').collect()).collect();
    let end = lines.pop().unwrap();
    assert_eq!(end[0], "end", "{text}");
    let first = lines.remove(0);
    assert_eq!(first[..2], ["policy", "0"], "{text}");
    assert_eq!(lines.len(), events.len(), "{text}");
    let number = |word: &&str| word.parse::<u64>().unwrap();
    lines
        .iter()
        .map(|line| std::array::from_fn(|field| number(&line[field + 2])))
        .collect()
}

/// Puts events of which all but the last must be granted; the last answer.
fn last(policy: &[u8], events: &[&[u8]]) -> [u64; 4] {
    let mut answers = answers(policy, events);
    let last = answers.pop().unwrap();
    for (index, answer) in answers.iter().enumerate() {
        assert_eq!(answer[0], 0, "event {index} of {events:?}");
    }
    last
}

const GRANTED: [u64; 4] = [0, 0, 0, 0];

const SAMPLE: [u8; 17] = [1, 2, 4, 2, 2, 0, 1, 3, 1, 2, 3, 0, 2, 11, 3, 1, 12];

// The events, named.
fn assign(user: u8, role: u8) -> [u8; 3] {
    [32, user, role]
}
fn deassign(user: u8, role: u8) -> [u8; 3] {
    [33, user, role]
}
fn enable(role: u8) -> [u8; 2] {
    [34, role]
}
fn disable(role: u8) -> [u8; 2] {
    [35, role]
}
fn open(session: u8, user: u8) -> [u8; 3] {
    [36, session, user]
}
fn close(session: u8) -> [u8; 2] {
    [37, session]
}
fn activate(session: u8, role: u8) -> [u8; 3] {
    [38, session, role]
}
fn deactivate(session: u8, role: u8) -> [u8; 3] {
    [39, session, role]
}

#[test]
fn the_sample() {
    let events = [
        0x20, 0, 0, 0x20, 0, 2, 0x20, 0, 3, 0x22, 1, 0x22, 3, 0x24, 0, 0, 0x26, 0, 3, 0x26, 0, 1,
        0x26, 0, 3, 0x27, 0, 1, 0x25, 0,
    ];
    let expected = "\
policy 0 17 0 0 0 0
0 32 0 0 0 0
1 32 45 0 2 0
2 32 0 0 0 0
3 34 0 0 0 0
4 34 0 0 0 0
5 36 0 0 0 0
6 38 61 1 5 0
7 38 0 0 0 0
8 38 0 0 0 0
9 39 61 1 5 0
10 37 0 0 0 10
end 11 30 0
";
    assert_eq!(roll(&[&SAMPLE[..], &events].concat()), expected);
}

#[test]
fn policies() {
    let cases: [(&[u8], &str); 16] = [
        (&SAMPLE[..12], "policy 2 10 0 0 0 0\n"),
        (&SAMPLE[..10], "policy 7 10 0 0 0 0\n"),
        (&[], "policy 7 0 0 0 0 0\n"),
        (&[12], "policy 3 0 0 0 0 0\n"),
        (
            &[1, 2, 4, 2, 2, 0, 1, 3, 1, 2, 12],
            "policy 13 11 0 1 2 0\n",
        ),
        (
            &[1, 6, 6, 2, 2, 4, 3, 2, 3, 2, 2, 2, 4, 12],
            "policy 11 14 2 3 0 0\n",
        ),
        (
            &[1, 6, 6, 2, 3, 3, 3, 4, 1, 1, 12],
            "policy 12 11 1 0 0 0\n",
        ),
        (
            &[1, 2, 4, 2, 2, 0, 1, 3, 1, 2, 11, 3, 1, 12],
            "policy 13 14 0 1 2 0\n",
        ),
        (
            &[1, 6, 6, 2, 3, 4, 2, 4, 2, 4, 12],
            "policy 14 11 2 4 0 0\n",
        ),
        (
            &[1, 6, 6, 2, 2, 0, 2, 5, 2, 5, 1, 5, 2, 3, 0, 12],
            "policy 15 16 0 2 0 3\n",
        ),
        (
            &[1, 3, 3, 1, 2, 0, 1, 13, 1, 1, 0, 12],
            "policy 16 12 0 1 0 1\n",
        ),
        (
            &[1, 3, 3, 1, 2, 0, 1, 13, 1, 1, 0, 13, 0, 0, 1, 12],
            "policy 0 16 0 0 0 0\nend 0 0 0\n",
        ),
        // Listed for the senior alone.
        (
            &[1, 3, 3, 1, 2, 0, 1, 13, 0, 0, 1, 12],
            "policy 0 12 0 0 0 0\nend 0 0 0\n",
        ),
        // The kinds 5 and 13 say nothing of each other.
        (
            &[1, 3, 3, 1, 2, 0, 1, 13, 1, 1, 0, 5, 0, 0, 1, 12],
            "policy 16 16 0 1 0 1\n",
        ),
        (
            &[1, 2, 4, 2, 2, 0, 1, 3, 0, 1, 12],
            "policy 13 11 0 1 0 0\n",
        ),
        (
            &[1, 2, 4, 2, 2, 0, 1, 12],
            "policy 0 8 0 0 0 0\nend 0 0 0\n",
        ),
    ];
    for (input, expected) in cases {
        assert_eq!(roll(input), expected);
    }
}

#[test]
fn earlier_questions_and_lower_names() {
    // 11 before 12; 12 before 13; and so on; 15 before 16.
    let sizes = [1, 6, 6, 2];
    let circle = [2, 3, 4, 2, 4, 3];
    let itself = [4, 5, 5];
    let lost = [2, 0, 1, 3, 1, 2];
    let both = [3, 4, 5, 4, 4, 5];
    let users = [2, 2, 3, 5, 3, 0, 1];
    // Its names are lower than those of the 15.
    let assignments = [2, 0, 1, 13, 1, 1, 0];
    let with = |parts: &[&[u8]]| roll(&[&sizes[..], &parts.concat(), &[12]].concat());
    assert_eq!(
        with(&[&users, &both, &lost, &itself, &circle]),
        "policy 11 33 3 4 0 0\n"
    );
    assert_eq!(
        with(&[&users, &both, &lost, &itself]),
        "policy 12 27 5 0 0 0\n"
    );
    assert_eq!(with(&[&users, &both, &lost]), "policy 13 24 0 1 2 0\n");
    assert_eq!(with(&[&users, &both]), "policy 14 18 4 5 0 0\n");
    assert_eq!(with(&[&users]), "policy 15 12 2 3 0 1\n");
    assert_eq!(
        with(&[&assignments, &users, &both]),
        "policy 14 25 4 5 0 0\n"
    );
    assert_eq!(with(&[&assignments, &users]), "policy 15 19 2 3 0 1\n");
    assert_eq!(with(&[&assignments]), "policy 16 12 0 1 0 1\n");
    // The lowest four: senior, junior, lower user, higher user.
    let several = [2, 0, 5, 2, 0, 4, 2, 1, 2, 13, 2, 0, 1, 13, 5, 0, 1];
    let lowest = [13, 4, 3, 5, 13, 4, 4, 2, 13, 4, 5, 2];
    assert_eq!(with(&[&several]), "policy 16 22 0 5 0 1\n");
    assert_eq!(with(&[&several, &lowest]), "policy 16 34 0 4 2 4\n");
    // The first name counts first: senior 0 with a high junior and other role
    // comes before senior 1 with lower ones.
    let both_lost = [2, 0, 4, 3, 4, 5, 2, 1, 2, 3, 2, 3];
    assert_eq!(with(&[&both_lost]), "policy 13 17 0 4 5 0\n");
}

#[test]
fn the_limit_of_the_input() {
    let mut input = SAMPLE.to_vec();
    input.resize(65_536, 0);
    assert_eq!(roll(&input), "policy 0 17 0 0 0 0\nend 0 0 1\n");
    input.push(0);
    assert_eq!(roll(&input), "input 9\n");
}

#[test]
fn how_the_events_end() {
    let with = |events: &[u8]| roll(&[&SAMPLE[..], events].concat());
    let first = "policy 0 17 0 0 0 0\n";
    assert_eq!(with(&[]), format!("{first}end 0 0 0\n"));
    assert_eq!(with(&[13, 0, 0, 1]), format!("{first}end 0 0 1\n"));
    assert_eq!(with(&[31]), format!("{first}end 0 0 1\n"));
    assert_eq!(with(&[40]), format!("{first}end 0 0 1\n"));
    assert_eq!(with(&[32, 0]), format!("{first}end 0 0 2\n"));
    assert_eq!(
        with(&[34, 0, 37]),
        format!("{first}0 34 0 0 0 0\nend 1 2 2\n")
    );
    assert_eq!(
        with(&[34, 0, 12, 34, 1]),
        format!("{first}0 34 0 0 0 0\nend 1 2 1\n")
    );
    // A number out of range is an answer, and the run goes on.
    assert_eq!(
        with(&[34, 255, 34, 0]),
        format!("{first}0 34 4 0 0 0\n1 34 0 0 0 0\nend 2 4 0\n")
    );
}

/// The state of the events' page, and each of its examples put to it.
#[test]
fn hindrances() {
    let to_there: [&[u8]; 8] = [
        &assign(0, 0),
        &assign(0, 3),
        &assign(1, 2),
        &enable(1),
        &enable(2),
        &enable(3),
        &open(0, 0),
        &activate(0, 1),
    ];
    let put = |event: &[u8]| last(&SAMPLE, &[&to_there[..], &[event]].concat());
    let hindered = |number| [number, 0, 0, 0];
    assert_eq!(put(&assign(2, 0)), hindered(4));
    assert_eq!(put(&assign(0, 4)), hindered(4));
    assert_eq!(put(&open(2, 0)), hindered(4));
    assert_eq!(put(&open(1, 2)), hindered(4));
    assert_eq!(put(&close(2)), hindered(4));
    assert_eq!(put(&assign(0, 1)), hindered(21));
    assert_eq!(put(&deassign(0, 1)), hindered(22));
    assert_eq!(put(&enable(1)), hindered(23));
    assert_eq!(put(&disable(0)), hindered(24));
    assert_eq!(put(&open(0, 1)), hindered(25));
    assert_eq!(put(&close(1)), hindered(26));
    assert_eq!(put(&activate(1, 0)), hindered(26));
    assert_eq!(put(&deactivate(1, 0)), hindered(26));
    assert_eq!(put(&activate(0, 0)), hindered(27));
    assert_eq!(put(&activate(0, 2)), hindered(28));
    assert_eq!(put(&activate(0, 1)), hindered(29));
    assert_eq!(put(&deactivate(0, 3)), hindered(30));
    assert_eq!(put(&disable(1)), hindered(31));
    assert_eq!(put(&deassign(0, 0)), [32, 1, 0, 0]);
    assert_eq!(put(&activate(0, 3)), GRANTED);
    assert_eq!(put(&deassign(0, 3)), GRANTED);
    assert_eq!(put(&open(1, 0)), GRANTED);
    assert_eq!(put(&open(1, 1)), GRANTED);
    assert_eq!(put(&close(0)), [0, 0, 0, 2]);
    // From a senior role to its junior.
    let steps: [&[u8]; 4] = [
        &deactivate(0, 1),
        &deassign(0, 0),
        &assign(0, 1),
        &activate(0, 1),
    ];
    assert_eq!(
        last(&SAMPLE, &[&to_there[..], &steps[..]].concat()),
        GRANTED
    );
}

/// Three users, five roles, three sessions; role 0 inherits role 1.
fn house(records: &[u8]) -> Vec<u8> {
    [&[1, 3, 5, 3, 2, 0, 1], records, &[12]].concat()
}

static ENABLING: [[u8; 2]; 5] = [[34, 0], [34, 1], [34, 2], [34, 3], [34, 4]];

/// The events behind those that enable every role.
fn once_enabled<'a>(events: &[&'a [u8]]) -> Vec<&'a [u8]> {
    let enabling = ENABLING.iter().map(|event| &event[..]);
    enabling.chain(events.iter().copied()).collect()
}

fn put(records: &[u8], events: &[&[u8]]) -> [u64; 4] {
    last(&house(records), &once_enabled(events))
}

#[test]
fn cardinality() {
    let limit = [6, 1, 2];
    let two: [&[u8]; 2] = [&assign(0, 0), &assign(1, 1)];
    assert_eq!(put(&limit, &two), GRANTED);
    assert_eq!(put(&limit, &[two[0], two[1], &assign(2, 1)]), [41, 1, 1, 0]);
    assert_eq!(put(&limit, &[two[0], two[1], &assign(2, 0)]), [41, 1, 1, 0]);
    // Both roles are over: the lower one is named.
    assert_eq!(put(&[6, 1, 0, 6, 0, 0], &[&assign(2, 0)]), [41, 0, 1, 0]);
    // 41 before 42.
    assert_eq!(put(&[6, 4, 0, 7, 2, 0], &[&assign(2, 4)]), [41, 4, 1, 0]);

    let limit = [7, 0, 2];
    assert_eq!(put(&limit, &[&assign(0, 3), &assign(0, 0)]), [42, 0, 1, 0]);
    assert_eq!(put(&limit, &[&assign(0, 3), &assign(0, 1)]), GRANTED);

    let scanning: [&[u8]; 5] = [
        &assign(0, 1),
        &assign(0, 3),
        &open(0, 0),
        &open(1, 0),
        &activate(0, 1),
    ];
    let then = |limit: &[u8], event: &[u8]| put(limit, &[&scanning[..], &[event]].concat());
    assert_eq!(then(&[8, 0, 1], &activate(1, 3)), [43, 0, 1, 0]);
    assert_eq!(then(&[8, 0, 1], &activate(0, 3)), [43, 0, 1, 0]);
    assert_eq!(then(&[8, 0, 1], &activate(1, 1)), [43, 0, 1, 0]);
    assert_eq!(then(&[8, 0, 2], &activate(1, 1)), GRANTED);
    assert_eq!(then(&[9, 1, 1], &activate(1, 1)), [44, 1, 1, 0]);
    assert_eq!(then(&[9, 1, 2], &activate(1, 1)), GRANTED);
    // 43 before 44.
    assert_eq!(then(&[8, 0, 1, 9, 3, 0], &activate(1, 3)), [43, 0, 1, 0]);

    let three: [&[u8]; 8] = [
        &assign(0, 1),
        &assign(1, 1),
        &open(0, 0),
        &open(1, 1),
        &open(2, 1),
        &activate(0, 1),
        &activate(1, 1),
        &activate(2, 1),
    ];
    assert_eq!(put(&[9, 1, 2], &three), [44, 1, 1, 0]);
    assert_eq!(put(&[9, 1, 255], &three), GRANTED);
}

/// The example of the families' page, as it is pasted.
#[test]
fn the_seats_of_ana() {
    let input = [
        1, 2, 5, 3, 8, 0, 2, 12, //
        32, 0, 1, 32, 0, 3, 32, 1, 1, 34, 1, 34, 3, 36, 0, 0, 36, 1, 0, 36, 2, 1, //
        38, 0, 1, 38, 1, 1, 38, 1, 3, 38, 2, 1, //
        39, 0, 1, 38, 1, 3, 38, 0, 1, 37, 1, 38, 0, 3,
    ];
    let expected = "\
policy 0 8 0 0 0 0
0 32 0 0 0 0
1 32 0 0 0 0
2 32 0 0 0 0
3 34 0 0 0 0
4 34 0 0 0 0
5 36 0 0 0 0
6 36 0 0 0 0
7 36 0 0 0 0
8 38 0 0 0 0
9 38 0 0 0 0
10 38 43 0 1 0
11 38 0 0 0 0
12 39 0 0 0 0
13 38 0 0 0 0
14 38 43 0 1 0
15 37 0 0 0 10
16 38 0 0 0 0
end 17 48 0
";
    assert_eq!(roll(&input), expected);
}

/// The answers where users 0 and 1 have roles 0 and 3, and role 1 by role 0;
/// sessions 0 and 1 are user 0's, and session 2 is user 1's.
fn seated(records: &[u8], events: &[&[u8]]) -> Vec<[u64; 4]> {
    let opening: [&[u8]; 7] = [
        &assign(0, 0),
        &assign(0, 3),
        &assign(1, 0),
        &assign(1, 3),
        &open(0, 0),
        &open(1, 0),
        &open(2, 1),
    ];
    let all = once_enabled(&[&opening, events].concat());
    answers(&house(records), &all).split_off(all.len() - events.len())
}

/// 43 for a user, whose session it is.
fn no_seat(user: u64) -> [u64; 4] {
    [43, user, 1, 0]
}

#[test]
fn what_takes_a_seat() {
    let (one, other) = (activate(0, 1), activate(1, 1));
    // The same role in another session, and another role in either.
    let three: [&[u8]; 4] = [&one, &other, &activate(0, 3), &activate(1, 3)];
    // Two roles in one session, and then each of them in another.
    let two_roles: [&[u8]; 4] = [&one, &activate(0, 3), &other, &activate(1, 3)];
    let refused = no_seat(0);
    // Four seats, in whatever order they are taken: as many as the limit says.
    for events in [three, two_roles] {
        for limit in 0..=4 {
            let answers = seated(&[8, 0, limit], &events);
            let (first, later) = answers.split_at(limit.into());
            assert_eq!(first, vec![GRANTED; first.len()]);
            assert_eq!(later, vec![refused; later.len()]);
        }
        assert_eq!(seated(&[], &events), [GRANTED; 4]);
    }
    // An active senior is not an active junior: it takes one seat.
    let senior: [&[u8]; 3] = [&activate(0, 0), &one, &other];
    assert_eq!(seated(&[8, 0, 2], &senior), [GRANTED, GRANTED, refused]);
    assert_eq!(seated(&[8, 0, 0], &[&one]), [refused]);
}

#[test]
fn whose_seats_they_are() {
    let refused = no_seat(0);
    // Neither another user's seats nor a session with no active role.
    let with_other: [&[u8]; 6] = [
        &close(1),
        &activate(2, 1),
        &activate(2, 3),
        &activate(0, 1),
        &open(1, 0),
        &activate(1, 1),
    ];
    let answers = seated(&[8, 0, 1], &with_other);
    assert_eq!((&answers[..5], answers[5]), (&[GRANTED; 5][..], refused));
    // The subject is the owner, and user 0 has no limit here.
    let theirs: [&[u8]; 4] = [
        &activate(0, 1),
        &activate(1, 1),
        &activate(2, 1),
        &activate(2, 3),
    ];
    assert_eq!(
        seated(&[8, 1, 1], &theirs),
        [GRANTED, GRANTED, GRANTED, no_seat(1)]
    );
    assert_eq!(seated(&[8, 1, 0], &theirs)[2..], [no_seat(1), no_seat(1)]);
    assert_eq!(seated(&[8, 2, 0], &theirs), [GRANTED; 4]);
}

#[test]
fn seats_are_free_again() {
    let events: [&[u8]; 11] = [
        &activate(0, 1),
        &activate(1, 1),
        &activate(1, 3),
        &deactivate(0, 1),
        &activate(1, 3),
        &activate(0, 1),
        &close(1),
        &activate(0, 1),
        &activate(0, 3),
        &open(1, 0),
        &activate(1, 1),
    ];
    let numbers: Vec<u64> = seated(&[8, 0, 2], &events)
        .iter()
        .map(|answer| answer[0])
        .collect();
    assert_eq!(numbers, [0, 0, 43, 0, 0, 43, 0, 0, 0, 0, 43]);
    // Where the role is active in another session, that seat stays taken.
    let events: [&[u8]; 5] = [
        &activate(0, 1),
        &activate(1, 1),
        &deactivate(1, 1),
        &activate(1, 3),
        &activate(0, 3),
    ];
    let answers = seated(&[8, 0, 2], &events);
    assert_eq!((&answers[..4], answers[4]), (&[GRANTED; 4][..], no_seat(0)));
}

#[test]
fn what_counts_no_seats() {
    let both: [&[u8]; 3] = [&activate(0, 1), &activate(1, 1), &activate(2, 1)];
    let then = |records: &[u8]| seated(records, &both);
    // 43 before 44; and 44, which counts sessions, where the seats suffice.
    let over_both = [8, 0, 1, 9, 1, 1];
    assert_eq!(then(&over_both)[1..], [no_seat(0), [44, 1, 1, 0]]);
    assert_eq!(then(&[8, 0, 2, 9, 1, 1])[1], [44, 1, 1, 0]);
    assert_eq!(then(&[8, 0, 2, 9, 1, 2])[1..], [GRANTED, [44, 1, 1, 0]]);
    // What is active for a user is a set: a role is still in it when one of two
    // sessions no longer has it.
    let clash: [&[u8]; 4] = [
        &activate(0, 1),
        &activate(1, 1),
        &deactivate(0, 1),
        &activate(0, 3),
    ];
    let conflict = |records: &[u8]| seated(&[records, &[4, 1, 3]].concat(), &clash);
    assert_eq!(conflict(&[8, 0, 2])[1..], [GRANTED, GRANTED, [46, 1, 2, 0]]);
    assert_eq!(conflict(&[8, 0, 1])[1..], [no_seat(0), GRANTED, GRANTED]);
    let required = |records: &[u8]| seated(&[records, &[10, 6, 3, 1]].concat(), &clash);
    assert_eq!(required(&[8, 0, 2])[3], GRANTED);
    assert_eq!(required(&[8, 0, 1])[3], [56, 1, 4, 0]);
    // Cardinality stands above the other families.
    let below = [4, 1, 3, 10, 5, 3, 4, 11, 3, 4];
    let at_once: [&[u8]; 2] = [&activate(0, 1), &activate(1, 3)];
    let with = |limit: u8| seated(&[&[8, 0, limit], &below[..]].concat(), &at_once)[1];
    assert_eq!(with(1), no_seat(0));
    assert_eq!(with(2), [46, 1, 2, 0]);
}

/// The answers where the only user activates each role in each session.
fn take_all(roles: u8, sessions: u8, limit: &[u8]) -> Vec<[u64; 4]> {
    let policy = [&[1, 1, roles, sessions], limit, &[12]].concat();
    let mut events: Vec<Vec<u8>> = Vec::new();
    for role in 0..roles {
        events.extend([assign(0, role).to_vec(), enable(role).to_vec()]);
    }
    events.extend((0..sessions).map(|session| open(session, 0).to_vec()));
    let before = events.len();
    for session in 0..sessions {
        events.extend((0..roles).map(|role| activate(session, role).to_vec()));
    }
    let events: Vec<&[u8]> = events.iter().map(|event| &event[..]).collect();
    answers(&policy, &events).split_off(before)
}

#[test]
fn the_highest_limits_of_seats() {
    for (roles, sessions) in [(32, 8), (4, 64), (32, 64)] {
        let seats = usize::from(roles) * usize::from(sessions);
        for limit in [254, 255] {
            let answers = take_all(roles, sessions, &[8, 0, limit]);
            let (granted, refused) = answers.split_at(limit.into());
            assert_eq!(granted, vec![GRANTED; granted.len()]);
            assert_eq!(refused, vec![no_seat(0); seats - granted.len()]);
        }
        assert_eq!(take_all(roles, sessions, &[]), vec![GRANTED; seats]);
    }
}

#[test]
fn separation() {
    let conflicts = [3, 1, 2, 3, 0, 2];
    assert_eq!(
        put(&conflicts, &[&assign(0, 0), &assign(0, 2)]),
        [45, 0, 2, 0]
    );
    assert_eq!(
        put(&conflicts, &[&assign(0, 1), &assign(0, 2)]),
        [45, 1, 2, 0]
    );
    assert_eq!(put(&conflicts, &[&assign(0, 1), &assign(1, 2)]), GRANTED);

    let to_there: [&[u8]; 5] = [
        &assign(0, 1),
        &assign(0, 3),
        &open(0, 0),
        &open(1, 0),
        &activate(0, 1),
    ];
    let then = |event: &[u8]| put(&[4, 1, 3], &[&to_there[..], &[event]].concat());
    assert_eq!(then(&activate(1, 3)), [46, 1, 2, 0]);
    assert_eq!(then(&activate(1, 1)), GRANTED);

    let to_there: [&[u8]; 6] = [
        &assign(0, 2),
        &assign(1, 2),
        &open(0, 0),
        &open(1, 1),
        &activate(1, 2),
        &activate(0, 2),
    ];
    assert_eq!(put(&[5, 2, 0, 1], &to_there), [47, 1, 2, 0]);
    assert_eq!(put(&[5, 2, 0, 2], &to_there), GRANTED);
    // Cardinality stands above separation.
    assert_eq!(put(&[5, 2, 0, 1, 9, 2, 1], &to_there), [44, 2, 1, 0]);
}

#[test]
fn assignment_conflicts() {
    let couple = [13, 1, 0, 1, 13, 0, 0, 1];
    let refused = |user| [48, user, 3, 0];
    let then = |first: [u8; 3], second: [u8; 3]| put(&couple, &[&first, &second]);
    assert_eq!(then(assign(0, 1), assign(1, 1)), refused(0));
    assert_eq!(then(assign(0, 1), assign(1, 0)), refused(0));
    assert_eq!(then(assign(0, 0), assign(1, 1)), refused(0));
    assert_eq!(then(assign(0, 0), assign(1, 0)), refused(0));
    assert_eq!(then(assign(1, 1), assign(0, 1)), refused(1));
    assert_eq!(then(assign(0, 1), assign(2, 1)), GRANTED);
    assert_eq!(then(assign(0, 1), assign(1, 2)), GRANTED);

    // An assignment that has ended does not count.
    let ended: [&[u8]; 4] = [&assign(0, 1), &deassign(0, 1), &assign(1, 0), &assign(0, 1)];
    assert_eq!(put(&couple, &ended[..3]), GRANTED);
    assert_eq!(put(&couple, &ended), refused(1));

    // Two users stand against it: the lower is named, then the other.
    let two = [13, 1, 0, 2, 13, 0, 2, 0, 13, 1, 2, 1, 13, 0, 1, 2];
    let against: [&[u8]; 5] = [
        &assign(1, 0),
        &assign(0, 1),
        &assign(2, 1),
        &deassign(0, 1),
        &assign(2, 1),
    ];
    let answers = answers(&house(&two), &against);
    assert_eq!(answers[2], refused(0));
    assert_eq!(answers[4], refused(1));
}

#[test]
fn what_is_no_assignment_conflict() {
    // Listed for the senior only.
    let senior_only = [13, 0, 0, 1];
    let then = |first: [u8; 3], second: [u8; 3]| put(&senior_only, &[&first, &second]);
    assert_eq!(then(assign(0, 0), assign(1, 0)), [48, 0, 3, 0]);
    assert_eq!(then(assign(0, 0), assign(1, 1)), GRANTED);
    assert_eq!(then(assign(0, 1), assign(1, 0)), GRANTED);
    assert_eq!(then(assign(0, 1), assign(1, 1)), GRANTED);

    // Inherited is not held: the vault, role 4, inherits scanning too.
    let both_above = [2, 4, 1, 13, 0, 0, 1, 13, 1, 0, 1, 13, 4, 0, 1];
    assert_eq!(put(&both_above, &[&assign(0, 0), &assign(1, 4)]), GRANTED);
    assert_eq!(
        put(&both_above, &[&assign(0, 0), &assign(1, 1)]),
        [48, 0, 3, 0]
    );

    // Kind 5 is about what is active, and kind 13 about assignments.
    let active: [&[u8]; 6] = [
        &assign(0, 2),
        &assign(1, 2),
        &open(0, 0),
        &open(1, 1),
        &activate(1, 2),
        &activate(0, 2),
    ];
    assert_eq!(put(&[5, 2, 0, 1], &active), [47, 1, 2, 0]);
    assert_eq!(put(&[13, 2, 0, 1], &active[..2]), [48, 0, 3, 0]);
}

#[test]
fn the_place_of_assignment_conflicts() {
    let events: [&[u8]; 2] = [&assign(0, 2), &assign(1, 2)];
    let with = |records: &[u8]| put(&[&[13, 2, 0, 1], records].concat(), &events);
    // Cardinality and separation stand above it, precedence below.
    assert_eq!(with(&[]), [48, 0, 3, 0]);
    assert_eq!(with(&[6, 2, 1]), [41, 2, 1, 0]);
    assert_eq!(with(&[7, 1, 0]), [42, 1, 1, 0]);
    assert_eq!(with(&[10, 2, 3, 4, 10, 3, 4, 3]), [48, 0, 3, 0]);
    let records = [13, 2, 0, 1, 10, 2, 2, 3];
    let events: [&[u8]; 4] = [&assign(0, 3), &assign(0, 2), &assign(1, 2), &deassign(0, 2)];
    assert_eq!(put(&records, &events[..3]), [48, 0, 3, 0]);
    let after = [&events[..2], &[events[3], events[2]]].concat();
    assert_eq!(put(&records, &after), [52, 3, 4, 0]);
    let apart: [&[u8]; 3] = [&assign(1, 3), &assign(0, 2), &assign(1, 2)];
    let records = [13, 2, 0, 1, 3, 2, 3];
    assert_eq!(put(&records, &apart), [45, 3, 2, 0]);
}

/// The table of the families' page, as it is pasted.
#[test]
fn the_couple() {
    let input = [
        1, 3, 3, 1, 2, 0, 1, 13, 1, 0, 1, 13, 0, 0, 1, 12, //
        32, 0, 1, 32, 1, 1, 32, 1, 0, 32, 2, 1, 32, 1, 2, //
        33, 0, 1, 32, 1, 0, 32, 0, 1,
    ];
    let expected = "\
policy 0 16 0 0 0 0
0 32 0 0 0 0
1 32 48 0 3 0
2 32 48 0 3 0
3 32 0 0 0 0
4 32 0 0 0 0
5 33 0 0 0 0
6 32 0 0 0 0
7 32 48 1 3 0
end 8 24 0
";
    assert_eq!(roll(&input), expected);
}

/// The other runs of the families' page with a place that is not 0: what sees
/// the active role alone, and the required role that comes by a senior one.
#[test]
fn places_of_the_pasted_runs() {
    let refusals = |input: &[u8]| -> Vec<String> {
        let text = roll(input);
        let rows = text.lines().filter(|line| line.split(' ').count() == 6);
        rows.filter(|row| row.split(' ').nth(2) != Some("0"))
            .map(String::from)
            .collect()
    };
    let active = [
        1, 1, 5, 2, 2, 0, 1, 9, 1, 1, 4, 1, 3, 11, 4, 1, 12, //
        32, 0, 0, 32, 0, 3, 32, 0, 4, 34, 0, 34, 1, 34, 3, 34, 4, 36, 0, 0, 36, 1, 0, //
        38, 0, 0, 38, 1, 0, 38, 0, 3, 38, 0, 4, //
        38, 0, 1, 39, 0, 3, 38, 0, 1, 38, 0, 4, 38, 1, 1,
    ];
    assert_eq!(
        refusals(&active),
        ["12 38 61 1 5 0", "13 38 46 3 2 0", "17 38 44 1 1 0"]
    );
    let required = [
        1, 1, 4, 1, 2, 0, 1, 10, 2, 3, 1, 12, 32, 0, 0, 32, 0, 3, 32, 0, 1, //
        33, 0, 0, 32, 0, 1, 32, 0, 0, 32, 0, 3,
    ];
    assert_eq!(refusals(&required), ["1 32 52 1 4 0", "2 32 21 0 0 0"]);
    let chain = [
        1, 2, 5, 2, 11, 3, 2, 11, 2, 4, 4, 3, 4, 12, //
        32, 0, 3, 32, 0, 2, 32, 0, 4, 34, 3, 34, 2, 34, 4, 36, 0, 0, //
        38, 0, 3, 38, 0, 4, 38, 0, 2, 38, 0, 3, 39, 0, 4,
    ];
    assert_eq!(
        refusals(&chain),
        ["7 38 61 2 5 0", "10 38 46 4 2 0", "11 39 61 4 5 0"]
    );
}

#[test]
fn precedence() {
    assert_eq!(last(&house(&[10, 1, 1, 4]), &[&enable(1)]), [51, 4, 4, 0]);
    assert_eq!(
        last(&house(&[10, 1, 1, 4]), &[&enable(4), &enable(1)]),
        GRANTED
    );
    // What was required may go again.
    assert_eq!(
        last(
            &house(&[10, 1, 1, 4]),
            &[&enable(4), &enable(1), &disable(4)]
        ),
        GRANTED
    );

    let required = [10, 2, 0, 1];
    assert_eq!(put(&required, &[&assign(0, 0)]), [52, 1, 4, 0]);
    assert_eq!(
        put(&required, &[&assign(1, 1), &assign(0, 0)]),
        [52, 1, 4, 0]
    );
    assert_eq!(put(&required, &[&assign(0, 1), &assign(0, 0)]), GRANTED);
    // Inherited is not assigned.
    assert_eq!(
        put(&[10, 2, 2, 1], &[&assign(0, 0), &assign(0, 2)]),
        [52, 1, 4, 0]
    );
    assert_eq!(
        put(&[10, 3, 2, 1], &[&assign(0, 0), &assign(0, 2)]),
        [53, 1, 4, 0]
    );

    assert_eq!(put(&[10, 3, 1, 2], &[&assign(0, 1)]), [53, 2, 4, 0]);
    assert_eq!(
        put(&[10, 3, 1, 2], &[&assign(2, 2), &assign(0, 1)]),
        GRANTED
    );
    // 52 before 53, and the lowest of several.
    assert_eq!(
        put(&[10, 3, 1, 0, 10, 2, 1, 4, 10, 2, 1, 3], &[&assign(0, 1)]),
        [52, 3, 4, 0]
    );

    let to_there: [&[u8]; 3] = [&assign(0, 1), &open(0, 0), &activate(0, 1)];
    assert_eq!(put(&[10, 4, 1, 4], &to_there), [54, 4, 4, 0]);

    let to_there: [&[u8]; 5] = [
        &assign(0, 1),
        &assign(0, 3),
        &open(0, 0),
        &open(1, 0),
        &activate(1, 1),
    ];
    let then = |records: &[u8], event: &[u8]| put(records, &[&to_there[..], &[event]].concat());
    assert_eq!(then(&[10, 5, 3, 1], &activate(0, 3)), [55, 1, 4, 0]);
    assert_eq!(then(&[10, 5, 3, 1], &activate(1, 3)), GRANTED);
    assert_eq!(then(&[10, 6, 3, 1], &activate(0, 3)), GRANTED);
    assert_eq!(then(&[10, 4, 3, 1], &activate(0, 3)), GRANTED);
    assert_eq!(
        then(&[10, 6, 3, 0, 10, 5, 3, 1, 10, 4, 3, 2], &activate(0, 3)),
        [54, 2, 4, 0]
    );

    let to_there: [&[u8]; 6] = [
        &assign(0, 3),
        &assign(1, 1),
        &open(0, 0),
        &open(1, 1),
        &activate(1, 1),
        &activate(0, 3),
    ];
    assert_eq!(put(&[10, 6, 3, 1], &to_there), [56, 1, 4, 0]);
    assert_eq!(put(&[10, 4, 3, 1], &to_there), GRANTED);
}

#[test]
fn dependency() {
    let to_there: [&[u8]; 5] = [
        &assign(0, 1),
        &assign(0, 3),
        &open(0, 0),
        &open(1, 0),
        &open(2, 0),
    ];
    let then = |events: &[&[u8]]| put(&[11, 3, 1], &[&to_there[..], events].concat());
    assert_eq!(then(&[&activate(0, 3)]), [61, 1, 5, 0]);
    assert_eq!(then(&[&activate(0, 1), &activate(1, 3)]), GRANTED);
    assert_eq!(
        then(&[&activate(0, 1), &activate(1, 3), &deactivate(0, 1)]),
        [61, 1, 5, 0]
    );
    assert_eq!(
        then(&[
            &activate(0, 1),
            &activate(2, 1),
            &activate(1, 3),
            &deactivate(0, 1)
        ]),
        GRANTED
    );
    assert_eq!(
        then(&[&activate(0, 1), &activate(1, 3), &close(0)]),
        [61, 1, 5, 0]
    );
    assert_eq!(
        then(&[&activate(0, 1), &activate(0, 3), &close(0)]),
        [0, 0, 0, 10]
    );
}
