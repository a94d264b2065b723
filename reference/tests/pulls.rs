//! Pull takes out every equal member (request (c) of paper 02): its corners, and where it shows what it left.

mod common;

use common::{after, list, Desk};
use reference_plant::field::{Field, ADD, LIST, PULL};
use reference_plant::generator::{generate, Profile};
use reference_plant::lines::{parse, Call};
use reference_plant::plant::Plant;
use reference_plant::refusal::Refusal;

const LOW: i32 = i32::MIN;
const HIGH: i32 = i32::MAX;

/// A desk with key 0 at field 0 of document 0, where a list of these members was loaded.
fn desk_with(members: &[i32]) -> Desk {
    let mut desk = Desk::new();
    desk.accept(&["2 0 1 0 0 0 0 0 0 0 0"]);
    for member in members {
        desk.accept(&[&format!("1 0 0 5 {member}")]);
    }
    desk
}

/// The answer of a read with this mark that shows a list of these members.
fn shown(mark: u8, members: &[i32]) -> String {
    let words = list(members).words().map(|word| word.to_string());
    format!("0 {mark} {}", words.join(" "))
}

/// Holds what a session shows that begins, reads key 0 and is abandoned.
fn expect_read(desk: &mut Desk, answer: &str) {
    let session = desk.plant.next_number;
    desk.accept(&["3"]);
    desk.expect(&[(&format!("4 {session} 0"), answer), (&format!("7 {session}"), "0")]);
}

/// All lists of the values that have up to six members.
fn lists(values: &[i32]) -> Vec<Vec<i32>> {
    let mut all = vec![Vec::new()];
    let mut from = 0;
    for _ in 0..6 {
        let shorter = from..all.len();
        from = all.len();
        for at in shorter {
            for &value in values {
                all.push([&all[at][..], &[value]].concat());
            }
        }
    }
    all
}

/// Three values in all lists of up to six members; 0 is one of them, because unused values are 0 too.
#[test]
fn every_list_keeps_the_others_in_order() {
    let all = lists(&[0, 4, -7]);
    assert_eq!(all.len(), 1_093);
    for members in all {
        for value in [0, 4, -7, 5] {
            let mut left = members.clone();
            left.retain(|&member| member != value);
            assert_eq!(after(list(&members), PULL, value), Ok(list(&left)), "{value} from {members:?}");
        }
    }
}

#[test]
fn members_go_wherever_they_stand() {
    let six = list(&[4, 7, 4, 7, 5, 4]);
    assert_eq!(after(six, PULL, 4), Ok(list(&[7, 7, 5])));
    assert_eq!(after(list(&[7, 7, 5]), PULL, 7), Ok(list(&[5])));
    assert_eq!(after(six, PULL, 7), Ok(list(&[4, 4, 5, 4])));
    assert_eq!(after(six, PULL, 5), Ok(list(&[4, 7, 4, 7, 4])));
    let mut desk = desk_with(&[4, 7, 4, 7, 5, 4]);
    desk.expect(&[
        ("3", "0 1"),
        ("5 1 0 0 6 4", "0 1"),
        ("4 1 0", &shown(2, &[7, 7, 5])),
        ("5 1 0 0 6 7", "0 2"),
        ("4 1 0", &shown(2, &[5])),
        ("5 1 0 0 6 5", "0 3"),
        ("4 1 0", &shown(2, &[])),
    ]);
}

/// The list that is left without members is not absent: inc does not go with it, and push goes on with it.
#[test]
fn one_pull_empties_six_equal_members() {
    for value in [4, 0, -1, LOW, HIGH] {
        assert_eq!(after(list(&[value; 6]), PULL, value), Ok(list(&[])));
        let mut desk = desk_with(&[value; 6]);
        desk.expect(&[
            ("3", "0 1"),
            (&format!("5 1 0 0 6 {value}"), "0 1"),
            ("4 1 0", &shown(2, &[])),
            ("5 1 0 0 3 1", "6"),
            (&format!("5 1 0 0 6 {value}"), "0 2"),
            ("4 1 0", &shown(2, &[])),
            (&format!("5 1 0 0 5 {value}"), "0 3"),
            ("4 1 0", &shown(2, &[value])),
        ]);
    }
    assert_ne!(list(&[]), Field::EMPTY);
}

/// A pull of what is not there changes nothing and is a change of the session all the same.
#[test]
fn without_an_equal_member_all_stay() {
    for members in [&[][..], &[7], &[4, 4], &[4, 7, 4, 7, 5, 4], &[0, 0, 0]] {
        assert_eq!(after(list(members), PULL, 6), Ok(list(members)));
    }
    // Unused values are 0 and no members.
    assert_eq!(after(list(&[4, 4]), PULL, 0), Ok(list(&[4, 4])));
    let mut desk = desk_with(&[4, 4]);
    desk.expect(&[("3", "0 1"), ("5 1 0 0 6 0", "0 1"), ("4 1 0", &shown(2, &[4, 4])), ("15 1", "0 0 1 1")]);
    desk.expect(&[("6 1", "0 1"), ("3", "0 2"), ("4 2 0", &shown(1, &[4, 4]))]);
}

#[test]
fn an_absent_field_stays_absent() {
    assert_eq!(after(Field::EMPTY, PULL, 4), Ok(Field::EMPTY));
    assert_eq!(after(Field::EMPTY, PULL, 0), Ok(Field::EMPTY));
    let mut desk = desk_with(&[]);
    desk.expect(&[("1 0 0 6 4", "0"), ("1 0 0 6 0", "0"), ("3", "0 1"), ("5 1 0 0 6 4", "0 1")]);
    desk.expect(&[("4 1 0", "0 2 0 0 0 0 0 0 0 0"), ("5 1 0 0 3 9", "0 2"), ("4 1 0", "0 2 1 1 9 0 0 0 0 0")]);
}

#[test]
fn a_number_is_no_list() {
    assert_eq!(after(Field::number(4), PULL, 4), Err(Refusal::WrongKind));
    assert_eq!(after(Field::number(0), PULL, 0), Err(Refusal::WrongKind));
    let mut desk = desk_with(&[]);
    desk.expect(&[("1 0 0 1 4", "0"), ("1 0 0 6 4", "6"), ("3", "0 1"), ("3", "0 2")]);
    desk.expect(&[("4 1 0", "0 1 1 1 4 0 0 0 0 0"), ("5 2 0 0 6 4", "6"), ("5 2 0 0 6 7", "6")]);
    // The refused pull took no lease and doomed nobody.
    desk.expect(&[("15 2", "0 0 0 0"), ("4 1 0", "0 0 1 1 4 0 0 0 0 0")]);
}

#[test]
fn a_load_pulls_every_equal_member() {
    let mut desk = desk_with(&[4, 7, 4, 7, 5, 4]);
    desk.expect(&[("1 0 0 5 4", "7"), ("1 0 0 6 4", "0")]);
    assert_eq!(desk.plant.store[0], list(&[7, 7, 5]));
    desk.expect(&[("1 0 0 6 4", "0"), ("1 0 0 5 9", "0"), ("1 0 0 6 7", "0")]);
    assert_eq!(desk.plant.store[0], list(&[5, 9]));
    expect_read(&mut desk, &shown(1, &[5, 9]));
    let mut desk = desk_with(&[7; 6]);
    desk.expect(&[("14 0", "0"), ("1 0 0 6 7", "20"), ("14 1", "0"), ("1 0 0 6 7", "0"), ("1 0 0 3 1", "6")]);
    assert_eq!(desk.plant.store[0], list(&[]));
    expect_read(&mut desk, &shown(1, &[]));
    desk.expect(&[("1 0 0 6 7", "12")]);
}

#[test]
fn negative_and_extreme_members_are_told_apart() {
    let members = [LOW, HIGH, -1, LOW, 1, HIGH];
    assert_eq!(after(list(&members), PULL, LOW), Ok(list(&[HIGH, -1, 1, HIGH])));
    assert_eq!(after(list(&members), PULL, HIGH), Ok(list(&[LOW, -1, LOW, 1])));
    assert_eq!(after(list(&members), PULL, -1), Ok(list(&[LOW, HIGH, LOW, 1, HIGH])));
    assert_eq!(after(list(&members), PULL, LOW + 1), Ok(list(&members)));
    assert_eq!(after(list(&members), PULL, HIGH - 1), Ok(list(&members)));
    let mut desk = desk_with(&members);
    desk.expect(&[
        ("1 0 0 6 2147483648", "1"),
        ("1 0 0 6 -2147483648", "0"),
        ("3", "0 1"),
        ("5 1 0 0 6 -2147483649", "1"),
        ("5 1 0 0 6 2147483647", "0 1"),
        ("4 1 0", &shown(2, &[-1, 1])),
    ]);
}

/// After the pull the value is no member, however often it was there: add puts it last, once.
#[test]
fn an_add_after_the_pull_begins_anew() {
    assert_eq!(after(list(&[7]), ADD, 4), Ok(list(&[7, 4])));
    let mut desk = desk_with(&[4, 4, 7, 4]);
    desk.expect(&[
        ("3", "0 1"),
        ("5 1 0 0 4 4", "0 1"),
        ("4 1 0", &shown(2, &[4, 4, 7, 4])),
        ("5 1 0 0 6 4", "0 2"),
        ("5 1 0 0 4 4", "0 3"),
        ("5 1 0 0 4 4", "0 4"),
        ("4 1 0", &shown(2, &[7, 4])),
    ]);
}

/// A full list refuses a push with 7. After a pull as many are accepted as members went, then 7 comes again.
#[test]
fn a_pull_makes_room() {
    for equal in 0..=6 {
        let members: Vec<i32> = (0..6).map(|at| if at < equal { 4 } else { 10 + at }).collect();
        let mut desk = desk_with(&members);
        desk.expect(&[("3", "0 1"), ("5 1 0 0 5 9", "7"), ("5 1 0 0 4 9", "7"), ("5 1 0 0 6 4", "0 1")]);
        for pushed in 0..equal {
            desk.expect(&[("5 1 0 0 5 9", &format!("0 {}", pushed + 2))]);
        }
        desk.expect(&[("5 1 0 0 5 9", "7"), ("6 1", "0 1")]);
        let stays = members.iter().copied().filter(|&member| member != 4);
        let now: Vec<i32> = stays.chain([9; 6]).take(6).collect();
        expect_read(&mut desk, &shown(1, &now));
    }
}

/// What a pull left, from the session's own read to the store.
#[test]
fn a_pull_shows_the_same_everywhere() {
    let left = &[7, 7, 5];
    let mut desk = desk_with(&[4, 7, 4, 7, 5, 4]);
    expect_read(&mut desk, &shown(1, &[4, 7, 4, 7, 5, 4]));
    // Its own read, and after its commit the cached key.
    desk.expect(&[("3", "0 2"), ("5 2 0 0 6 4", "0 1"), ("4 2 0", &shown(2, left)), ("6 2", "0 1")]);
    assert_eq!(desk.plant.store[0], list(&[4, 7, 4, 7, 5, 4]));
    expect_read(&mut desk, &shown(0, left));
    desk.expect(&[("14 0", "0")]);
    expect_read(&mut desk, &shown(0, left));
    // Another session pulls without the store from what the cached key shows.
    desk.expect(&[("3", "0 5"), ("5 5 0 0 6 7", "0 1"), ("4 5 0", &shown(2, &[5])), ("7 5", "0")]);
    desk.expect(&[("14 1", "0"), ("9 0", "0 2"), ("10 0 0", "0 1")]);
    assert_eq!(desk.plant.store[0], list(left));
    expect_read(&mut desk, &shown(0, left));
    // A lapse drops the key: with the row and without the buffered session the store shows it.
    desk.expect(&[("3", "0 7"), ("4 7 0", &shown(0, left)), ("8 300", "0 300")]);
    expect_read(&mut desk, &shown(1, left));
    desk.expect(&[("11 0", "0 1"), ("3", "0 9"), ("4 9 0", &shown(0, left)), ("8 300", "0 600")]);
    expect_read(&mut desk, &shown(1, left));
}

/// A key that is not cached shows the store with the buffered pull, in commit order with other changes.
#[test]
fn a_buffered_pull_is_worked_out_in_commit_order() {
    let mut desk = desk_with(&[4, 7, 4]);
    desk.commit_one("0 0 5 4");
    desk.commit_one("0 0 6 4");
    desk.commit_one("0 0 5 4");
    expect_read(&mut desk, &shown(1, &[7, 4]));
    for left in [&[4, 7, 4, 4][..], &[7], &[7, 4]] {
        desk.accept(&["9 0", "10 0 0", "11 0"]);
        assert_eq!(desk.plant.store[0], list(left));
        expect_read(&mut desk, &shown(0, &[7, 4]));
    }
}

/// Without the store and without a cached key a list after a buffered unset is known, and so is what a pull left of it.
#[test]
fn a_pull_without_the_store() {
    let mut desk = desk_with(&[9]);
    desk.accept(&["14 0", "3"]);
    desk.expect(&[("5 1 0 0 6 9", "20"), ("5 1 0 0 2 0", "0 1")]);
    for (at, change) in ["5 4", "5 7", "5 4", "5 4", "6 4"].iter().enumerate() {
        desk.expect(&[(&format!("5 1 0 0 {change}"), &format!("0 {}", at + 2))]);
    }
    desk.expect(&[("4 1 0", &shown(2, &[7])), ("6 1", "0 1")]);
    expect_read(&mut desk, &shown(1, &[7]));
    desk.commit_one("0 0 6 7");
    expect_read(&mut desk, &shown(0, &[]));
    desk.accept(&["14 1"]);
    desk.carry_all(0);
    assert_eq!(desk.plant.store[0], list(&[]));
}

/// Carried twice, the pull would take out what was pushed after it.
#[test]
fn a_pull_is_carried_once() {
    let mut desk = desk_with(&[4, 4, 7]);
    desk.commit_one("0 0 6 4");
    desk.commit_one("0 0 5 4");
    desk.expect(&[("9 0", "0 1"), ("10 0 1", "0 0"), ("8 300", "0 300"), ("9 1", "0 1"), ("10 1 0", "0 2")]);
    assert_eq!(desk.plant.store[0], list(&[7]));
    desk.expect(&[("11 1", "0 1"), ("9 1", "0 2"), ("10 1 0", "0 1"), ("11 1", "0 1"), ("10 0 0", "0 2")]);
    assert_eq!(desk.plant.store[0], list(&[7, 4]));
    expect_read(&mut desk, &shown(1, &[7, 4]));
}

/// A session that read the list before is doomed by the pull, as by every other change.
#[test]
fn a_pull_dooms_the_readers() {
    for value in [4, 9] {
        let mut desk = desk_with(&[4, 7, 4]);
        desk.expect(&[("3", "0 1"), ("3", "0 2"), ("3", "0 3"), ("4 1 0", &shown(1, &[4, 7, 4]))]);
        desk.expect(&[(&format!("5 2 0 0 6 {value}"), "0 1"), ("4 1 0", "3"), ("4 1 0", "2"), ("4 3 0", "4")]);
        let left = if value == 4 { &[7][..] } else { &[4, 7, 4] };
        desk.expect(&[("4 2 0", &shown(2, left)), ("6 2", "0 1")]);
        expect_read(&mut desk, &shown(0, left));
    }
}

#[test]
fn a_pull_that_is_not_committed_leaves_the_list() {
    let members = &[4, 7, 4];
    let mut desk = desk_with(members);
    expect_read(&mut desk, &shown(1, members));
    desk.expect(&[("3", "0 2"), ("5 2 0 0 6 4", "0 1"), ("4 2 0", &shown(2, &[7])), ("7 2", "0")]);
    expect_read(&mut desk, &shown(0, members));
    desk.expect(&[("3", "0 4"), ("5 4 0 0 6 4", "0 1"), ("8 300", "0 300"), ("6 4", "3")]);
    expect_read(&mut desk, &shown(1, members));
    assert_eq!(desk.plant.store[0], list(members));
}

/// How many members are equal to what the line pulls from a list, by a session or, as session 0, by load.
fn equal_members(plant: &Plant, line: &[u8]) -> Option<usize> {
    let Call { call, numbers } = parse(line).ok()?;
    let (session, change) = match call {
        1 => (0, &numbers[..4]),
        5 => (numbers[0], &numbers[1..5]),
        _ => return None,
    };
    let &[document, field, 6, value] = change else {
        return None;
    };
    let place = u8::try_from(4 * document + field).ok()?;
    // A free slot has number 0 and no changes: it sees the fields as a load does.
    let slot = plant.sessions.iter().position(|slot| i64::from(slot.number) == session)?;
    let seen = plant.seen(slot, place);
    let equal = seen.members().iter().filter(|&&member| i64::from(member) == value).count();
    (seen.kind == LIST).then_some(equal)
}

/// In each file of the profile sessions pull what a list has not at all, once, and so on up to six times. Loads pull
/// repeats too.
#[test]
fn the_profile_pulls_repeats() {
    for seed in 1..=10 {
        let mut file = Vec::new();
        generate(&mut file, seed, 10_000, Profile::Pulls).unwrap();
        let mut desk = Desk::new();
        let (mut loads, mut sessions) = ([0; 7], [0; 7]);
        for line in file.split(|&byte| byte == b'\n') {
            let equal = equal_members(&desk.plant, line);
            let counts = if desk.plant.begun() { &mut sessions } else { &mut loads };
            if let (Some(equal), true) = (equal, desk.raw(line).starts_with(b" 0")) {
                counts[equal] += 1;
            }
        }
        assert!(sessions.iter().all(|&count| count > 0), "seed {seed}: {sessions:?}");
        assert!(loads[2..].iter().any(|&count| count > 0), "seed {seed}: {loads:?}");
    }
}
