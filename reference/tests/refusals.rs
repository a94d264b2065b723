//! A test for each refusal, with its place among the refusals of its calls.

mod common;

use common::Desk;
use reference_plant::calls::ReadAnswer;
use reference_plant::plant::CLOCK_END;
use reference_plant::refusal::Refusal;

#[test]
fn refusal_1_out_of_range() {
    let mut desk = Desk::new();
    for call in [
        "1 -1 0 1 0",
        "1 64 0 1 0",
        "1 0 -1 1 0",
        "1 0 4 1 0",
        "1 0 0 0 0",
        "1 0 0 7 0",
        "1 0 0 1 2147483648",
        "1 0 0 1 -2147483649",
        "1 0 0 2 1",
        "2 -1 1 0 0 0 0 0 0 0 0",
        "2 32 1 0 0 0 0 0 0 0 0",
        "2 0 1 64 0 0 0 0 0 0 0",
        "2 0 1 0 4 0 0 0 0 0 0",
        "2 0 1 0 0 0 0 0 0 64 0",
        "2 0 1 0 0 0 0 0 0 0 -1",
        "4 1 -1",
        "4 1 32",
        "5 1 64 0 1 0",
        "5 1 0 4 1 0",
        "5 1 0 0 0 0",
        "5 1 0 0 7 0",
        "5 1 0 0 2 -1",
        "5 1 0 0 3 4294967296",
        "8 -1",
        "8 65536",
        "9 -1",
        "9 4",
        "10 4 0",
        "10 0 3",
        "10 0 -1",
        "11 4",
        "12 4",
        "14 2",
        "14 -1",
    ] {
        assert_eq!(desk.ask(call), "1", "{call}");
    }
    // 1 stands before what else the calls would meet, and frees no slot of a doomed session.
    desk.expect(&[
        ("3", "0 1"),
        ("1 64 0 1 0", "1"),
        ("2 0 9 64 0 0 0 0 0 0 0", "1"),
        ("8 1000", "0 1000"),
        ("4 1 32", "1"),
        ("5 1 0 0 7 0", "1"),
        ("15 1", "3"),
    ]);
}

#[test]
fn refusal_2_no_session() {
    let mut desk = Desk::new();
    desk.expect(&[
        ("4 1 0", "2"),
        ("5 1 0 0 1 0", "2"),
        ("6 1", "2"),
        ("7 1", "2"),
        ("15 1", "2"),
        ("3", "0 1"),
        ("7 1", "0"),
        ("7 1", "2"),
        ("3", "0 2"),
        ("6 2", "0 0"),
        ("6 2", "2"),
        ("6 0", "2"),
    ]);
}

#[test]
fn refusal_3_doomed_frees_the_slot_in_every_call() {
    for call in ["4 1 0", "5 1 0 0 1 0", "6 1", "7 1", "15 1"] {
        let mut desk = Desk::new();
        desk.expect(&[
            ("3", "0 1"),
            ("8 999", "0 999"),
            ("15 1", "0 0 0 0"),
            ("8 1", "0 1000"),
            (call, "3"),
            (call, "2"),
        ]);
    }
}

#[test]
fn refusal_4_ends_the_session() {
    let mut desk = Desk::new();
    desk.expect(&[
        ("2 0 2 7 0 8 0 0 0 0 0", "0"),
        ("2 1 1 9 0 0 0 0 0 0 0", "0"),
        ("3", "0 1"),
        ("3", "0 2"),
        ("3", "0 3"),
        ("5 1 8 3 1 1", "0 1"),
        ("5 2 9 0 1 5", "0 1"),
        ("5 2 8 0 1 5", "4"),
        ("6 2", "2"),
        // What 2 held is free again and what it changed is gone.
        ("4 3 1", "0 1 0 0 0 0 0 0 0 0"),
        ("4 3 0", "4"),
        ("15 3", "2"),
        ("15 1", "0 0 1 1"),
    ]);
    // None of the leases of the refused read was granted, and nobody was doomed.
    desk.expect(&[("3", "0 4"), ("5 4 7 0 1 1", "0 1"), ("5 4 9 0 1 1", "0 2"), ("15 4", "0 0 2 2")]);
}

#[test]
fn refusal_5_eight_changes() {
    let mut desk = Desk::new();
    desk.accept(&["3", "3", "5 2 9 0 1 1"]);
    for changes in 1..=8 {
        assert_eq!(desk.ask("5 1 0 0 3 1"), format!("0 {changes}"));
    }
    // 5 stands before 4 and before 6, and ends nobody.
    desk.expect(&[
        ("5 1 0 0 3 1", "5"),
        ("5 1 9 0 1 1", "5"),
        ("5 1 0 0 4 1", "5"),
        ("15 1", "0 0 1 8"),
        ("6 1", "0 1"),
    ]);
}

#[test]
fn refusal_6_wrong_kind() {
    let mut desk = Desk::new();
    desk.expect(&[
        ("1 0 0 1 1", "0"),
        ("1 0 0 4 1", "6"),
        ("1 0 0 5 1", "6"),
        ("1 0 0 6 1", "6"),
        ("1 0 1 5 1", "0"),
        ("1 0 1 3 1", "6"),
        ("1 0 1 6 1", "0"),
        // The list is empty now and still a list.
        ("1 0 1 3 1", "6"),
        ("1 0 1 2 0", "0"),
        ("1 0 1 6 1", "0"),
        ("1 0 1 3 1", "0"),
        ("3", "0 1"),
        ("5 1 0 0 4 1", "6"),
        ("5 1 0 0 5 1", "6"),
        ("5 1 0 0 6 1", "6"),
        ("15 1", "0 0 0 0"),
        ("5 1 0 0 2 0", "0 1"),
        ("5 1 0 0 5 1", "0 2"),
        ("5 1 0 0 3 1", "6"),
        ("5 1 0 0 1 1", "0 3"),
    ]);
}

#[test]
fn refusal_7_seventh_member() {
    let mut desk = Desk::new();
    for member in 1..=6 {
        desk.accept(&[&format!("1 0 0 5 {member}")]);
    }
    desk.expect(&[
        ("1 0 0 5 1", "7"),
        ("1 0 0 4 7", "7"),
        ("1 0 0 4 1", "0"),
        ("3", "0 1"),
        ("5 1 0 0 5 1", "7"),
        ("5 1 0 0 4 7", "7"),
        ("15 1", "0 0 0 0"),
        ("5 1 0 0 4 6", "0 1"),
    ]);
}

#[test]
fn refusal_8_sum_outside() {
    let mut desk = Desk::new();
    desk.expect(&[
        ("1 0 0 3 -2147483648", "0"),
        ("1 0 0 3 -1", "8"),
        ("3", "0 1"),
        ("5 1 0 0 3 -1", "8"),
        ("15 1", "0 0 0 0"),
        ("5 1 0 0 3 2147483647", "0 1"),
        ("5 1 0 0 3 2147483647", "0 2"),
        ("5 1 0 0 3 2147483647", "8"),
    ]);
}

/// 6, 7, 8 and 20 take no lease and doom nobody.
#[test]
fn refused_changes_doom_nobody() {
    let mut desk = Desk::new();
    desk.accept(&["2 0 3 0 0 0 1 0 2 0 0", "1 0 0 1 2147483647"]);
    for member in 1..=6 {
        desk.accept(&[&format!("1 0 1 5 {member}")]);
    }
    desk.accept(&["3", "3", "4 1 0"]);
    desk.expect(&[
        ("5 2 0 0 4 1", "6"),
        ("5 2 0 1 5 1", "7"),
        ("5 2 0 0 3 1", "8"),
        ("14 0", "0"),
        ("5 2 0 3 3 1", "20"),
        ("15 1", "0 1 0 0"),
        ("15 2", "0 0 0 0"),
    ]);
}

#[test]
fn refusal_9_key_undefined() {
    let mut desk = Desk::new();
    // 2 and 3 stand before 9, 9 before 20.
    desk.expect(&[
        ("4 1 5", "2"),
        ("3", "0 1"),
        ("14 0", "0"),
        ("4 1 5", "9"),
        ("15 1", "0 0 0 0"),
        ("8 1000", "0 1000"),
        ("4 1 5", "3"),
    ]);
}

#[test]
fn refusal_10_eight_sessions() {
    let mut desk = Desk::new();
    for session in 1..=8 {
        assert_eq!(desk.ask("3"), format!("0 {session}"));
    }
    desk.expect(&[
        ("3", "10"),
        ("3", "10"),
        ("7 5", "0"),
        // A refused begin uses no number.
        ("3", "0 9"),
        ("3", "10"),
    ]);
}

#[test]
fn begin_reuses_the_doomed_one_of_lowest_number() {
    let mut desk = Desk::new();
    desk.accept(&["2 0 1 0 0 0 0 0 0 0 0", "3", "3", "3", "3", "3", "3", "3", "3"]);
    // Two readers are doomed by a change of the eighth session.
    desk.accept(&["4 6 0", "4 3 0", "5 8 0 0 1 1"]);
    desk.expect(&[("3", "0 9"), ("15 3", "2"), ("15 6", "3"), ("3", "0 10"), ("3", "10")]);
    // With a slot free the doomed session keeps its own and still answers 3, once.
    desk.accept(&["6 8", "4 1 0", "4 2 0", "5 4 0 0 1 1", "7 5"]);
    desk.expect(&[
        ("3", "0 11"),
        ("3", "0 12"),
        ("15 1", "3"),
        ("15 1", "2"),
        ("3", "0 13"),
        // No slot is free now, and the second session is the only doomed one.
        ("3", "0 14"),
        ("15 2", "2"),
        ("3", "10"),
    ]);
}

#[test]
fn refusal_11_session_numbers_spent() {
    let mut desk = Desk::new();
    desk.plant.next_number = u64::from(u32::MAX);
    desk.expect(&[
        ("3", "0 4294967295"),
        ("3", "11"),
        ("15 4294967295", "0 0 0 0"),
        ("7 4294967295", "0"),
        ("3", "11"),
    ]);
    // 11 stands before 10.
    desk.plant.next_number = u64::from(u32::MAX) - 7;
    for _ in 0..8 {
        desk.accept(&["3"]);
    }
    desk.expect(&[("3", "11")]);
}

#[test]
fn refusal_12_a_session_has_begun() {
    let mut desk = Desk::new();
    desk.accept(&["2 0 1 0 0 0 0 0 0 0 0", "3", "7 1"]);
    // 12 stands before 20, 13 and 14, and stays when no session is left.
    desk.expect(&[
        ("1 0 0 1 1", "12"),
        ("2 0 1 0 0 0 0 0 0 0 0", "12"),
        ("2 1 9 0 0 0 0 0 0 0 0", "12"),
        ("14 0", "0"),
        ("1 0 0 1 1", "12"),
    ]);
}

#[test]
fn refusals_13_and_14_of_map() {
    let mut desk = Desk::new();
    desk.expect(&[
        ("2 0 0 0 0 0 0 0 0 0 0", "14"),
        ("2 0 5 0 0 0 1 0 2 0 3", "14"),
        ("2 0 1 0 0 0 1 0 0 0 0", "14"),
        ("2 0 3 0 0 0 1 0 2 1 0", "14"),
        ("2 0 2 5 1 5 1 0 0 0 0", "14"),
        ("2 0 4 1 1 2 2 3 3 1 1", "14"),
        // 0, 0 is a place as any other: used, unused, and twice if it is used twice.
        ("2 0 2 0 0 0 0 0 0 0 0", "14"),
        ("2 0 4 0 0 0 1 0 2 0 3", "0"),
        ("2 0 1 0 0 0 0 0 0 0 0", "13"),
        // 13 stands before 14.
        ("2 0 9 0 0 0 0 0 0 0 0", "13"),
        ("2 1 1 0 0 0 0 0 0 0 0", "0"),
        // Map does not need the store.
        ("14 0", "0"),
        ("2 2 2 63 3 0 0 0 0 0 0", "0"),
    ]);
}

#[test]
fn refusal_15_buffer_full() {
    let mut desk = Desk::new();
    desk.fill_buffer();
    desk.expect(&[
        ("3", "0 33"),
        ("5 33 0 0 1 1", "0 1"),
        ("6 33", "15"),
        ("6 33", "15"),
        ("9 0", "0 1"),
        ("10 0 0", "0 1"),
        // The row stands, but the session is buffered until it is deleted.
        ("6 33", "15"),
        ("11 0", "0 1"),
        ("6 33", "0 32"),
    ]);
    // 3 stands before 15.
    desk.expect(&[("3", "0 34"), ("5 34 0 0 1 1", "0 1"), ("8 300", "0 300"), ("6 34", "3")]);
}

#[test]
fn refusal_16_queue_lease_live() {
    let mut desk = Desk::new();
    desk.commit_one("0 0 1 1");
    desk.expect(&[
        ("9 0", "0 1"),
        // 17 stands before 16.
        ("9 0", "17"),
        ("9 1", "16"),
        ("8 299", "0 299"),
        ("9 1", "16"),
        ("8 1", "0 300"),
        ("9 1", "0 1"),
        ("9 2", "16"),
        // The first worker's delete ends no lease in the second one's name.
        ("10 0 0", "0 1"),
        ("11 0", "0 1"),
        // 16 stands before 18, though nothing is buffered.
        ("9 2", "16"),
        ("12 1", "0"),
        // In nobody's name it refuses every worker, also the one that was cut.
        ("9 1", "16"),
        ("9 0", "16"),
        ("8 300", "0 600"),
        ("9 1", "18"),
    ]);
}

#[test]
fn refusal_17_wrong_hand() {
    let mut desk = Desk::new();
    desk.commit_one("0 0 1 1");
    desk.expect(&[
        ("10 0 0", "17"),
        ("10 0 2", "17"),
        ("11 0", "17"),
        ("9 0", "0 1"),
        ("9 0", "17"),
        ("11 0", "17"),
        ("10 0 1", "0 0"),
        ("11 0", "17"),
        ("10 0 2", "0 0"),
        ("11 0", "17"),
        ("10 0 0", "0 2"),
        ("10 0 0", "17"),
        // 17 stands before 20.
        ("14 0", "0"),
        ("10 0 1", "17"),
        ("9 0", "17"),
        ("11 0", "0 1"),
        ("11 0", "17"),
    ]);
}

#[test]
fn refusal_18_nothing_buffered() {
    let mut desk = Desk::new();
    desk.expect(&[("9 0", "18"), ("3", "0 1"), ("6 1", "0 0"), ("9 0", "18")]);
}

#[test]
fn refusal_19_rows_full() {
    let mut desk = Desk::new();
    for _ in 0..48 {
        desk.commit_one("0 0 3 1");
        desk.carry_all(0);
    }
    desk.commit_one("0 0 3 1");
    desk.expect(&[
        ("9 0", "0 49"),
        ("10 0 0", "19"),
        // With fate 1 the refusal is lost on the way, with fate 2 nothing reached the store.
        ("10 0 1", "0 0"),
        ("10 0 2", "0 0"),
        ("11 0", "17"),
        ("14 0", "0"),
        ("10 0 0", "20"),
        ("14 1", "0"),
        ("10 0 0", "19"),
    ]);
    assert_eq!(desk.plant.store[0].values[0], 48);
    desk.expect(&[
        ("13", "0 16"),
        ("10 0 0", "0 1"),
        ("11 0", "0 1"),
        ("13", "0 16"),
        ("13", "0 16"),
        ("13", "0 1"),
        ("13", "0 0"),
    ]);
    assert_eq!(desk.plant.store[0].values[0], 49);
}

/// With 48 rows a session that has one of them is done before, not refused 19.
#[test]
fn done_before_with_48_rows() {
    let mut desk = Desk::new();
    for _ in 0..47 {
        desk.commit_one("0 0 3 1");
        desk.carry_all(0);
    }
    desk.commit_one("0 0 3 1");
    desk.expect(&[("9 0", "0 48"), ("10 0 1", "0 0"), ("10 0 0", "0 2"), ("11 0", "0 1")]);
    assert_eq!(desk.plant.store[0].values[0], 48);
}

#[test]
fn refusal_20_store_away() {
    let mut desk = Desk::new();
    desk.expect(&[
        ("2 0 1 0 0 0 0 0 0 0 0", "0"),
        ("14 0", "0"),
        ("1 0 0 1 1", "20"),
        // 20 stands before 6 in load.
        ("14 1", "0"),
        ("1 0 0 1 1", "0"),
        ("14 0", "0"),
        ("1 0 0 4 1", "20"),
        ("3", "0 1"),
        ("4 1 0", "20"),
        ("15 1", "0 0 0 0"),
        ("5 1 0 0 3 1", "20"),
        ("5 1 0 0 4 1", "20"),
        ("5 1 0 0 5 1", "20"),
        ("5 1 0 0 6 1", "20"),
        ("5 1 0 1 1 1", "0 1"),
        ("5 1 0 2 2 0", "0 2"),
        ("6 1", "0 1"),
        ("13", "20"),
        ("9 0", "0 1"),
        ("10 0 0", "20"),
        ("10 0 2", "20"),
        ("14 1", "0"),
        ("10 0 0", "0 1"),
        ("14 0", "0"),
        ("11 0", "0 1"),
        ("12 0", "0"),
    ]);
}

#[test]
fn refusal_21_clock_end() {
    let mut desk = Desk::new();
    desk.plant.clock = CLOCK_END - 1_300;
    desk.expect(&[
        ("3", "0 1"),
        ("5 1 0 0 1 1", "0 1"),
        ("8 1301", "21"),
        // A refused advance lapses nothing.
        ("15 1", "0 0 1 1"),
        ("8 65535", "21"),
        // 1 stands before 21.
        ("8 65536", "1"),
        ("8 1000", "0 99999999699"),
        ("15 1", "3"),
        ("3", "0 2"),
        ("5 2 0 0 1 1", "0 1"),
        ("8 300", "0 99999999999"),
        ("8 0", "0 99999999999"),
        ("8 1", "21"),
        ("15 2", "3"),
        ("3", "0 3"),
        ("5 3 0 0 1 1", "0 1"),
        ("6 3", "0 1"),
        ("9 0", "0 3"),
        ("9 1", "16"),
    ]);
}

#[test]
fn refusal_22_too_few_words_lent() {
    let mut desk = Desk::new();
    desk.accept(&["2 0 2 0 0 1 0 0 0 0 0", "1 0 0 1 5", "3", "3", "5 2 1 0 1 1"]);
    let mut words = [-7; 40];
    assert_eq!(desk.plant.read(1, 0, &mut words[..15]), Err(Refusal::FewWords));
    assert_eq!(desk.plant.read(1, 0, &mut []), Err(Refusal::FewWords));
    // 9 stands before 22, and 22 before 4: the session is not ended.
    assert_eq!(desk.plant.read(1, 1, &mut []), Err(Refusal::KeyUndefined));
    assert_eq!(words, [-7; 40]);
    desk.expect(&[("15 1", "0 0 0 0"), ("7 2", "0")]);
    // A refused read leaves the words as they are; an accepted one those past its own.
    assert_eq!(desk.plant.read(9, 0, &mut words), Err(Refusal::NoSession));
    assert_eq!(words, [-7; 40]);
    assert_eq!(desk.plant.read(1, 0, &mut words), Ok(ReadAnswer { mark: 1, words: 16 }));
    assert_eq!(words[..16], [1, 1, 5, 0, 0, 0, 0, 0, 0, 0, 0, 0, 0, 0, 0, 0]);
    assert_eq!(words[16..], [-7; 24]);
}

#[test]
fn refusal_23_before_everything_but_an_unknown_call() {
    let mut desk = Desk::new();
    desk.accept(&["3", "8 1000"]);
    assert_eq!(desk.raw(b"15          01"), b"23\n");
    assert_eq!(desk.raw(b"15           1 "), b"23\n");
    assert_eq!(desk.raw(b"16"), b" 1\n");
    // A line out of form frees no slot of a doomed session.
    desk.expect(&[("15 1", "3")]);
}
