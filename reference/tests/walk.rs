//! The walk from the newest change back to the first set or unset of a place (request (d) of paper 02): what it finds
//! and how many changes it looked at.

mod common;

use common::Desk;
use reference_plant::field::{Change, SET, UNSET};
use reference_plant::generator::{generate, Profile};
use reference_plant::lines::{parse, Call};
use reference_plant::plant::{Plant, PLACES};
use reference_plant::walk::Finding;

/// Begins a session and makes the changes. Answers its number.
fn open(desk: &mut Desk, changes: &[&str]) -> u64 {
    let session: u64 = desk.ask("3").strip_prefix("0 ").unwrap().parse().unwrap();
    for change in changes {
        desk.accept(&[&format!("5 {session} {change}")]);
    }
    session
}

/// As `open`, and the session commits.
fn commit(desk: &mut Desk, changes: &[&str]) {
    let session = open(desk, changes);
    desk.accept(&[&format!("6 {session}")]);
}

/// What the walk of the session finds for field 0 of document 0: whether it is set or unset, and how many it looked at.
fn walk(desk: &Desk, session: u64) -> (bool, usize) {
    walk_of(desk, session, 0)
}

fn walk_of(desk: &Desk, session: u64, place: u8) -> (bool, usize) {
    let slot = desk.plant.sessions.iter().position(|slot| u64::from(slot.number) == session).unwrap();
    let Finding { settled, looked_at } = desk.plant.walk(slot, place);
    (settled, looked_at)
}

/// What the walk of a session without changes finds; it is abandoned.
fn walk_anew(desk: &mut Desk) -> (bool, usize) {
    let session = open(desk, &[]);
    let found = walk(desk, session);
    desk.accept(&[&format!("7 {session}")]);
    found
}

#[test]
fn without_a_change_it_looks_at_none() {
    let mut desk = Desk::new();
    desk.accept(&["1 0 0 1 100"]);
    assert_eq!(walk_anew(&mut desk), (false, 0));
    // A session without changes takes no buffer place.
    commit(&mut desk, &[]);
    assert_eq!(walk_anew(&mut desk), (false, 0));
}

#[test]
fn an_own_set_or_unset_stops_it() {
    for change in ["0 0 1 4", "0 0 1 0", "0 0 2 0"] {
        let mut desk = Desk::new();
        let session = open(&mut desk, &[change]);
        assert_eq!(walk(&desk, session), (true, 1), "{change}");
        desk.accept(&[&format!("5 {session} 1 0 3 1"), &format!("5 {session} 0 0 3 1")]);
        assert_eq!(walk(&desk, session), (true, 3), "{change}");
        desk.accept(&[&format!("5 {session} {change}")]);
        assert_eq!(walk(&desk, session), (true, 1), "{change}");
    }
}

/// Each of them depends on the value before.
#[test]
fn inc_add_push_and_pull_do_not_stop_it() {
    for change in ["0 0 3 1", "0 0 4 1", "0 0 5 1", "0 0 6 1"] {
        let mut desk = Desk::new();
        let session = open(&mut desk, &[change, change]);
        assert_eq!(walk(&desk, session), (false, 2), "{change}");
        desk.accept(&[&format!("6 {session}")]);
        assert_eq!(walk_anew(&mut desk), (false, 2), "{change}");
        commit(&mut desk, &["0 0 2 0", change]);
        commit(&mut desk, &[change]);
        assert_eq!(walk_anew(&mut desk), (true, 3), "{change}");
    }
}

/// They count though: another field of the document, and the same field of another one.
#[test]
fn sets_of_other_places_do_not_stop_it() {
    let mut desk = Desk::new();
    commit(&mut desk, &["0 1 1 4", "1 0 2 0", "0 3 2 0"]);
    let session = open(&mut desk, &["0 1 1 4", "63 0 1 4"]);
    assert_eq!(walk(&desk, session), (false, 5));
    assert_eq!(walk_of(&desk, session, 1), (true, 2));
    assert_eq!(walk_of(&desk, session, 3), (true, 3));
    assert_eq!(walk_of(&desk, session, 4), (true, 4));
    assert_eq!(walk_of(&desk, session, 252), (true, 1));
    assert_eq!(walk_of(&desk, session, 255), (false, 5));
}

#[test]
fn the_newest_session_comes_first_and_its_last_change() {
    let mut desk = Desk::new();
    commit(&mut desk, &["9 0 1 1", "9 1 1 1", "9 2 1 1"]);
    commit(&mut desk, &["8 0 1 1", "0 0 1 4"]);
    assert_eq!(walk_anew(&mut desk), (true, 1));
    commit(&mut desk, &["0 0 2 0", "8 0 1 1", "8 1 1 1"]);
    assert_eq!(walk_anew(&mut desk), (true, 3));
    let session = open(&mut desk, &[]);
    assert_eq!(walk_of(&desk, session, 32), (true, 2));
    assert_eq!(walk_of(&desk, session, 33), (true, 1));
    assert_eq!(walk_of(&desk, session, 38), (true, 6));
    assert_eq!(walk_of(&desk, session, 36), (true, 8));
    assert_eq!(walk_of(&desk, session, 39), (false, 8));
}

#[test]
fn of_two_sets_the_newer_stops_it() {
    let mut desk = Desk::new();
    commit(&mut desk, &["0 0 1 1", "0 0 1 2", "5 0 1 1"]);
    assert_eq!(walk_anew(&mut desk), (true, 2));
    commit(&mut desk, &["0 0 2 0", "0 0 5 7", "5 0 1 1", "5 0 3 1"]);
    assert_eq!(walk_anew(&mut desk), (true, 4));
    let session = open(&mut desk, &["0 0 5 7"]);
    assert_eq!(walk(&desk, session), (true, 5));
    desk.accept(&[&format!("5 {session} 0 0 1 3"), &format!("5 {session} 0 0 3 3")]);
    assert_eq!(walk(&desk, session), (true, 2));
}

#[test]
fn own_changes_are_newer_than_buffered_ones() {
    let mut desk = Desk::new();
    let early = open(&mut desk, &["0 0 1 1", "1 0 1 1"]);
    // It begins later and commits sooner.
    commit(&mut desk, &["2 0 1 1", "3 0 1 1"]);
    assert_eq!(walk(&desk, early), (true, 2));
    assert_eq!(walk_of(&desk, early, 8), (true, 4));
    desk.accept(&[&format!("6 {early}")]);
    let late = open(&mut desk, &["2 0 3 1", "2 1 3 1", "2 2 3 1"]);
    assert_eq!(walk(&desk, late), (true, 5));
    assert_eq!(walk_of(&desk, late, 8), (true, 7));
}

/// Changes of other open sessions, of those that ended without commit and refused ones are not there.
#[test]
fn only_own_and_committed_changes_count() {
    let mut desk = Desk::new();
    let other = open(&mut desk, &["0 0 1 1"]);
    let session = open(&mut desk, &["1 0 1 1"]);
    assert_eq!(walk(&desk, session), (false, 1));
    desk.accept(&[&format!("7 {other}"), "14 0"]);
    assert_eq!(walk(&desk, session), (false, 1));
    desk.expect(&[(&format!("5 {session} 0 0 3 1"), "20"), (&format!("5 {session} 0 0 2 1"), "1")]);
    assert_eq!(walk(&desk, session), (false, 1));
    let lapsed = open(&mut desk, &["2 0 1 1"]);
    desk.accept(&["8 300"]);
    desk.expect(&[(&format!("6 {lapsed}"), "3"), (&format!("6 {session}"), "3")]);
    assert_eq!(walk_anew(&mut desk), (false, 0));
}

/// 32 sessions of eight changes each: the very first sets the place and the others are incs of it and sets of others.
#[test]
fn the_oldest_of_a_full_buffer_is_found_last() {
    let mut desk = Desk::new();
    desk.accept(&["2 0 1 0 0 0 0 0 0 0 0", "2 1 1 63 3 0 0 0 0 0 0"]);
    commit(&mut desk, &["0 0 1 1", "0 0 3 1", "0 1 1 1", "7 0 1 1", "0 0 3 1", "0 0 3 1", "0 0 3 1", "0 0 3 1"]);
    for _ in 1..32 {
        commit(&mut desk, &["0 0 3 1", "0 1 1 1", "1 0 1 1", "1 0 2 0", "0 2 1 1", "0 3 2 0", "2 0 1 1", "0 0 3 -1"]);
    }
    assert_eq!(walk_anew(&mut desk), (true, 256));
    let full = open(&mut desk, &["0 0 3 1"; 8]);
    assert_eq!(walk(&desk, full), (true, 264));
    assert_eq!(walk_of(&desk, full, 28), (true, 8 + 256 - 3));
    assert_eq!(walk_of(&desk, full, 8), (true, 8 + 2));
    // None at all: every change.
    assert_eq!(walk_of(&desk, full, 255), (false, 264));
    // Known by that first change alone. A read asks for it with eight own changes; a change would meet refusal 5.
    desk.expect(&[
        ("14 0", "0"),
        (&format!("4 {full} 0"), "0 2 1 1 14 0 0 0 0 0"),
        (&format!("4 {full} 1"), "20"),
        (&format!("5 {full} 0 0 3 1"), "5"),
        (&format!("7 {full}"), "0"),
    ]);
    let session = open(&mut desk, &["0 0 3 1"]);
    assert_eq!(walk(&desk, session), (true, 257));
    desk.expect(&[(&format!("5 {session} 63 3 3 1"), "20")]);
}

/// The oldest has its row and a slow worker: it is buffered still, and counts until the delete.
#[test]
fn a_session_with_a_row_is_not_passed_over() {
    let mut desk = Desk::new();
    desk.accept(&["2 0 1 0 0 0 0 0 0 0 0"]);
    commit(&mut desk, &["0 0 1 4", "1 0 1 1"]);
    commit(&mut desk, &["0 0 3 5"]);
    desk.accept(&["9 0"]);
    assert_eq!(walk_anew(&mut desk), (true, 3));
    desk.expect(&[("10 0 0", "0 1"), ("14 0", "0")]);
    assert_eq!(walk_anew(&mut desk), (true, 3));
    let session = open(&mut desk, &["0 0 3 1"]);
    assert_eq!(walk(&desk, session), (true, 4));
    desk.expect(&[(&format!("4 {session} 0"), "0 2 1 1 10 0 0 0 0 0"), ("11 0", "0 1")]);
    assert_eq!(walk(&desk, session), (false, 2));
    desk.expect(&[(&format!("4 {session} 0"), "20"), (&format!("5 {session} 0 0 3 1"), "20")]);
    desk.accept(&[&format!("5 {session} 0 0 1 1")]);
    assert_eq!(walk(&desk, session), (true, 1));
    desk.expect(&[(&format!("4 {session} 0"), "0 2 1 1 1 0 0 0 0 0")]);
}

/// The buffer's places are used again when sessions left it: the order stays that of the commits.
#[test]
fn the_order_is_that_of_the_commits() {
    let mut desk = Desk::new();
    for at in 0..100 {
        commit(&mut desk, &[&format!("{} 0 1 1", at % 10), "20 0 3 1"]);
        if desk.plant.buffer_count == 32 {
            desk.accept(&["9 0", "10 0 0", "11 0", "13"]);
        }
    }
    let buffered = 2 * desk.plant.buffer_count;
    let session = open(&mut desk, &["20 0 3 1"]);
    for document in 0..10 {
        let newer = 2 * (9 - usize::from(document));
        assert_eq!(walk_of(&desk, session, 4 * document), (true, 1 + newer + 2), "document {document}");
    }
    assert_eq!(walk_of(&desk, session, 80), (false, 1 + buffered));
}

/// Neither the store nor a cached key has a part in it.
#[test]
fn store_and_cached_keys_are_not_looked_at() {
    let mut desk = Desk::new();
    desk.accept(&["1 0 0 1 100", "2 0 1 0 0 0 0 0 0 0 0"]);
    let session = open(&mut desk, &["1 0 1 1"]);
    desk.expect(&[(&format!("4 {session} 0"), "0 1 1 1 100 0 0 0 0 0")]);
    assert_eq!(walk(&desk, session), (false, 1));
    desk.accept(&["14 0", &format!("5 {session} 0 0 3 1")]);
    assert_eq!(walk(&desk, session), (false, 2));
}

/// All changes that a walk may look at, newest first.
fn newest_first(plant: &Plant, slot: usize) -> Vec<Change> {
    let mut changes: Vec<Change> =
        (0..plant.buffer_count).flat_map(|at| plant.buffered(at).changes()).copied().collect();
    changes.extend(plant.sessions[slot].changes());
    changes.reverse();
    changes
}

/// In generated files, for every place: the place of the first set or unset in that list, and what is known by it.
#[test]
fn in_generated_files_it_finds_the_first_in_the_list() {
    for (seed, profile) in [(1, Profile::Mixed), (2, Profile::Storm), (3, Profile::Work), (4, Profile::Away)] {
        let mut file = Vec::new();
        generate(&mut file, seed, 5_000, profile).unwrap();
        let mut desk = Desk::new();
        for (at, line) in file.split(|&byte| byte == b'\n').enumerate() {
            desk.raw(line);
            let slot = at % desk.plant.sessions.len();
            if at % 9 != 0 || desk.plant.sessions[slot].number == 0 {
                continue;
            }
            let changes = newest_first(&desk.plant, slot);
            for place in 0..PLACES {
                let stops = |change: &Change| usize::from(change.place) == place && [SET, UNSET].contains(&change.kind);
                let first = changes.iter().position(stops);
                let due =
                    Finding { settled: first.is_some(), looked_at: first.map_or(changes.len(), |first| first + 1) };
                assert_eq!(desk.plant.walk(slot, place as u8), due, "seed {seed}, line {}", at + 1);
                let known = desk.plant.near || desk.plant.shown[place] > 0 || due.settled;
                assert_eq!(desk.plant.known(slot, place as u8), known);
            }
        }
    }
}

/// What a line meets without the store: how a place is known that it needs, or why it is not.
const CASES: [&str; 16] = [
    "own",
    "cached",
    "newest",
    "between",
    "oldest",
    "oldest with its row",
    "first of 256 changes",
    "first of 264 changes",
    "own changes of other kinds",
    "buffered changes of other kinds",
    "another field of the document",
    "nothing",
    "one place unknown",
    "all places unknown",
    "set or unset unknown",
    "told no longer",
];

fn how_known(plant: &Plant, slot: usize, place: u8) -> &'static str {
    let own = plant.sessions[slot].changes();
    let changes = newest_first(plant, slot);
    let Finding { settled, looked_at } = plant.walk(slot, place);
    let oldest = plant.buffered(0);
    let newer: usize = (1..plant.buffer_count).map(|at| plant.buffered(at).changes().len()).sum();
    match settled {
        true if looked_at <= own.len() => "own",
        _ if plant.shown[usize::from(place)] > 0 => "cached",
        true if looked_at == 264 => "first of 264 changes",
        true if looked_at >= 256 && looked_at == changes.len() => "first of 256 changes",
        true if looked_at > own.len() + newer && plant.rows().contains(&oldest.number) => "oldest with its row",
        true if looked_at > own.len() + newer => "oldest",
        true if looked_at <= own.len() + plant.buffered(plant.buffer_count - 1).changes().len() => "newest",
        true => "between",
        false if own.iter().any(|change| change.place == place) => "own changes of other kinds",
        false if changes.iter().any(|change| change.place == place) => "buffered changes of other kinds",
        false if changes.iter().any(|change| change.place / 4 == place / 4) => "another field of the document",
        false => "nothing",
    }
}

/// The cases that the line is, if it was accepted or refused 20.
fn cases(plant: &Plant, line: &[u8]) -> Vec<&'static str> {
    let Some(Call { call: call @ (4 | 5 | 11), numbers }) = parse(line).ok().filter(|_| !plant.near) else {
        return Vec::new();
    };
    if call == 11 {
        let oldest = plant.buffered(0).changes();
        return if oldest.iter().any(|change| how_known(plant, 0, change.place).starts_with("oldest with")) {
            vec!["told no longer"]
        } else {
            Vec::new()
        };
    }
    let Some(slot) = plant.sessions.iter().position(|slot| i64::from(slot.number) == numbers[0]) else {
        return Vec::new();
    };
    let unknown = |place: &u8| !plant.known(slot, *place);
    if call == 5 {
        let place = (4 * numbers[1] + numbers[2]) as u8;
        return match numbers[3] {
            1 | 2 if unknown(&place) => vec!["set or unset unknown"],
            1 | 2 => Vec::new(),
            _ => vec![how_known(plant, slot, place)],
        };
    }
    let places = plant.keys[numbers[1] as usize].places();
    match places.iter().filter(|place| unknown(place)).count() {
        0 => places.iter().map(|&place| how_known(plant, slot, place)).collect(),
        1 if places.len() > 1 => vec!["one place unknown"],
        count if count == places.len() => vec!["all places unknown"],
        _ => Vec::new(),
    }
}

/// In each file of the profile each case occurs, most of them often.
#[test]
fn the_profile_has_each_case() {
    for seed in 1..=10 {
        let mut file = Vec::new();
        generate(&mut file, seed, 10_000, Profile::Away).unwrap();
        let mut desk = Desk::new();
        let mut counts = CASES.map(|case| (case, 0));
        for line in file.split(|&byte| byte == b'\n') {
            let before = desk.plant.clone();
            if matches!(&desk.raw(line)[..2], b" 0" | b"20") {
                for case in cases(&before, line) {
                    counts.iter_mut().filter(|(name, _)| *name == case).for_each(|(_, count)| *count += 1);
                }
            }
        }
        assert!(counts.iter().all(|&(_, count)| count >= 5), "seed {seed}: {counts:?}");
        assert!(counts.iter().filter(|&&(_, count)| count >= 50).count() >= 10, "seed {seed}: {counts:?}");
    }
}
