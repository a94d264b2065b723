//! What must hold after every call, checked on generated files from the tables themselves.

use reference_plant::field::Field;
use reference_plant::generator::{generate, Profile};
use reference_plant::lines::{answer, parse, LONGEST_ANSWER};
use reference_plant::plant::*;

/// The field as paper 01 defines it: the store's, followed by the buffered changes of sessions
/// without a row, in commit order.
fn defined_field(plant: &Plant, place: usize) -> Field {
    let mut field = plant.store[place];
    for at in 0..plant.buffer_count {
        let buffered = plant.buffered(at);
        if plant.rows().contains(&buffered.number) {
            continue;
        }
        for change in buffered.changes().iter().filter(|change| usize::from(change.place) == place) {
            field.make(change.kind, change.value).expect("a buffered change fits its place");
        }
    }
    field
}

/// That the tables kept for speed are what they stand for, and that no table is past its rules.
fn check_tables(plant: &Plant) {
    for place in 0..PLACES {
        assert_eq!(plant.stock[place], defined_field(plant, place));
        let shown = plant.cached().iter().filter(|&&key| {
            let key = &plant.keys[usize::from(key)];
            key.places().contains(&(place as u8))
        });
        assert_eq!(usize::from(plant.shown[place]), shown.count());
    }
    assert_eq!(plant.cached().iter().fold(0, |set, &key| set | 1 << key), plant.cached_set);
    assert_eq!(plant.cached_set.count_ones() as usize, plant.cached_count);

    let mut exclusive = 0;
    for session in &plant.sessions {
        assert_eq!(session.shared & session.exclusive, 0);
        assert_eq!(exclusive & session.exclusive, 0);
        exclusive |= session.exclusive;
        let held = session.shared | session.exclusive;
        if session.number == 0 || session.doomed {
            assert_eq!((held, session.change_count), (0, 0));
            continue;
        }
        let mut lapse = session.begun + SESSION_TICKS;
        for document in (0..DOCUMENTS).filter(|document| held >> document & 1 == 1) {
            lapse = lapse.min(session.begun + u64::from(session.granted[document]) + LEASE_TICKS);
        }
        assert_eq!(session.lapse, lapse);
        assert!(plant.clock < lapse);
        for change in session.changes() {
            assert_eq!(session.exclusive >> change.document() & 1, 1);
        }
    }
    assert_eq!(plant.exclusive, exclusive);
    for session in &plant.sessions {
        assert_eq!(session.shared & exclusive, 0);
    }

    // Of the buffered sessions only the oldest can have a row, and a session in a hand is the
    // oldest buffered one or has a row.
    for at in 1..plant.buffer_count {
        assert!(!plant.rows().contains(&plant.buffered(at).number));
    }
    for hand in plant.hands.iter().filter(|hand| hand.session != 0) {
        let oldest = plant.buffer_count > 0 && plant.buffered(0).number == hand.session;
        assert!(oldest || plant.rows().contains(&hand.session));
    }
}

/// Request (b) on the tables: of the rows whose session is neither buffered nor in a hand a sweep removes the first
/// sixteen, or all, and answers their number. An apply that carries puts its row last. All other rows stay in order.
fn check_rows(call: u8, before: &Plant, after: &Plant) {
    let mut left = before.rows().to_vec();
    if call == 13 {
        let buffered: Vec<u32> = (0..before.buffer_count).map(|at| before.buffered(at).number).collect();
        let in_hand = before.hands.map(|hand| hand.session);
        let mut gone = before.rows().to_vec();
        gone.retain(|row| !buffered.contains(row) && !in_hand.contains(row));
        gone.truncate(SWEPT);
        left.retain(|row| !gone.contains(row));
        assert_eq!(before.clone().sweep(), Ok(gone.len() as u32));
    }
    if call == 10 && after.row_count > before.row_count {
        left.push(after.buffered(0).number);
    }
    assert_eq!(after.rows(), left);
}

/// Demand 3's last sentence: one worker is cut, 300 ticks pass, and it alone brings the store to
/// the whole history by four calls for each buffered session, none of them refused.
fn check_recovery(plant: &Plant, worker: i64) {
    if plant.clock + LEASE_TICKS > CLOCK_END {
        return;
    }
    let mut plant = plant.clone();
    let whole = plant.stock;
    plant.cut(worker).unwrap();
    plant.advance(300).unwrap();
    plant.store(1).unwrap();
    for _ in 0..plant.buffer_count {
        let oldest = plant.buffered(0).number;
        assert_eq!(plant.take(worker), Ok(oldest));
        plant.sweep().unwrap();
        plant.apply(worker, 0).unwrap();
        assert_eq!(plant.delete(worker), Ok(1));
    }
    assert_eq!(plant.buffer_count, 0);
    assert!(plant.store == whole);
}

fn check_file(seed: u64, lines: u64, profile: Profile) {
    let mut file = Vec::new();
    generate(&mut file, seed, lines, profile).unwrap();
    let mut plant = Plant::new();
    for (at, line) in file.split(|&byte| byte == b'\n').enumerate() {
        let before = plant.clone();
        let mut out = [0; LONGEST_ANSWER];
        answer(&mut plant, line, &mut out);
        match &out[..2] {
            b" 0" => {
                check_tables(&plant);
                check_rows(parse(line).unwrap().call, &before, &plant);
            }
            // 3 and 4 end the session and change nothing that others see.
            b" 3" | b" 4" => {
                check_tables(&plant);
                let session = parse(line).unwrap().numbers[0];
                assert!(plant.sessions.iter().all(|slot| i64::from(slot.number) != session));
                assert!(plant.stock == before.stock && plant.cached() == before.cached());
                let sessions = |plant: &Plant| plant.sessions.iter().filter(|slot| slot.number != 0).count();
                assert_eq!(sessions(&plant) + 1, sessions(&before));
            }
            _ => assert!(plant == before, "line {} of seed {seed} was refused and changed the plant", at + 1),
        }
        if at % 7 == 0 {
            check_recovery(&plant, (at % WORKERS) as i64);
        }
    }
}

#[test]
fn mixed_files() {
    (100..112).for_each(|seed| check_file(seed, 2_000, Profile::Mixed));
}

#[test]
fn storm_files() {
    (200..206).for_each(|seed| check_file(seed, 2_000, Profile::Storm));
}

#[test]
fn work_files() {
    (300..302).for_each(|seed| check_file(seed, 2_000, Profile::Work));
}

#[test]
fn hits_files() {
    (400..406).for_each(|seed| check_file(seed, 2_000, Profile::Hits));
}

#[test]
fn sweeps_files() {
    (500..506).for_each(|seed| check_file(seed, 2_000, Profile::Sweeps));
}

#[test]
fn pulls_files() {
    (600..606).for_each(|seed| check_file(seed, 2_000, Profile::Pulls));
}

#[test]
fn away_files() {
    (700..706).for_each(|seed| check_file(seed, 2_000, Profile::Away));
}

/// The same seed gives the same file, another one another, each with as many lines as asked for.
#[test]
fn files_follow_from_their_seeds() {
    for profile in Profile::EXACT {
        let file = |seed: u64| {
            let mut file = Vec::new();
            generate(&mut file, seed, 500, profile).unwrap();
            file
        };
        for seed in 1..20 {
            assert!(file(seed) == file(seed));
            assert!(file(seed) != file(seed + 1));
            let bytes = file(seed);
            let ends = bytes.iter().filter(|&&byte| byte == b'\n').count();
            assert_eq!(ends + usize::from(*bytes.last().unwrap() != b'\n'), 500);
        }
    }
}
