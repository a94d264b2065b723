//! How many rows a sweep removes and which: the oldest of those it may (request (b) of paper 02).
//!
//! Which rows went shows in no answer, so the tests look at the table of rows.

mod common;

use common::Desk;

/// Commits a session and has worker 0 carry and delete it, so that its row may go. Answers its number.
fn carry(desk: &mut Desk) -> u64 {
    let session = desk.commit_one("0 0 3 1");
    desk.carry_all(0);
    session
}

fn carry_times(desk: &mut Desk, times: u64) {
    for _ in 0..times {
        carry(desk);
    }
}

/// A session that the slow worker applied without a reply and that worker 0 deleted after the lapse of the queue
/// lease. The slow worker still has it in hand. Answers its number.
fn carry_past(desk: &mut Desk, slow: u64) -> u64 {
    let session = desk.commit_one("0 0 3 1");
    desk.expect(&[(&format!("9 {slow}"), &format!("0 {session}")), (&format!("10 {slow} 1"), "0 0")]);
    desk.accept(&["8 300"]);
    desk.expect(&[("9 0", &format!("0 {session}")), ("10 0 0", "0 2"), ("11 0", "0 1")]);
    session
}

/// Holds what sweeps in a row answer.
fn expect_sweeps(desk: &mut Desk, removed: &[u64]) {
    for (at, count) in removed.iter().enumerate() {
        assert_eq!(desk.ask("13"), format!("0 {count}"), "sweep {} of {removed:?}", at + 1);
    }
}

/// Holds the rows and their order.
fn expect_rows(desk: &Desk, sessions: impl IntoIterator<Item = u64>) {
    let rows: Vec<u64> = desk.plant.rows().iter().map(|&row| u64::from(row)).collect();
    assert_eq!(rows, sessions.into_iter().collect::<Vec<u64>>());
}

#[test]
fn sixteen_of_seventeen_go() {
    let mut desk = Desk::new();
    carry_times(&mut desk, 17);
    expect_rows(&desk, 1..=17);
    expect_sweeps(&mut desk, &[16]);
    expect_rows(&desk, [17]);
    expect_sweeps(&mut desk, &[1, 0, 0]);
    expect_rows(&desk, []);
}

/// Every number of rows up to the full table: each sweep takes sixteen, the last one the rest.
#[test]
fn each_number_of_rows_goes_in_sixteens() {
    for rows in 0..=48 {
        let mut desk = Desk::new();
        carry_times(&mut desk, rows);
        for swept in [16, 32, 48] {
            let removed = rows.saturating_sub(swept - 16).min(16);
            expect_sweeps(&mut desk, &[removed]);
            expect_rows(&desk, swept + 1..=rows);
        }
        expect_sweeps(&mut desk, &[0]);
    }
}

#[test]
fn nothing_goes_where_nothing_stands() {
    // In set-up, with a session open, buffered, and in a hand without a row.
    let mut desk = Desk::new();
    desk.expect(&[("13", "0 0"), ("1 0 0 1 5", "0"), ("13", "0 0"), ("3", "0 1"), ("13", "0 0")]);
    desk.expect(&[("5 1 0 0 3 1", "0 1"), ("6 1", "0 1"), ("13", "0 0"), ("9 0", "0 1"), ("13", "0 0")]);
    desk.expect(&[("10 0 2", "0 0"), ("13", "0 0"), ("10 0 1", "0 0"), ("13", "0 0"), ("10 0 0", "0 2")]);
    desk.expect(&[("13", "0 0"), ("11 0", "0 1"), ("13", "0 1"), ("13", "0 0")]);
}

/// Rows in slow workers' hands, first, between and last, are passed over and are none of the sixteen.
#[test]
fn rows_in_hands_are_passed_over() {
    let mut desk = Desk::new();
    assert_eq!(carry_past(&mut desk, 1), 1);
    carry_times(&mut desk, 5);
    assert_eq!(carry_past(&mut desk, 2), 7);
    carry_times(&mut desk, 13);
    assert_eq!(carry_past(&mut desk, 3), 21);
    // Eighteen may go: 2 to 6 and 8 to 20.
    expect_sweeps(&mut desk, &[16]);
    expect_rows(&desk, [1, 7, 19, 20, 21]);
    expect_sweeps(&mut desk, &[2]);
    expect_rows(&desk, [1, 7, 21]);
    expect_sweeps(&mut desk, &[0]);
    // Their applies find the rows: nothing is drawn twice.
    desk.expect(&[("10 1 0", "0 2"), ("10 2 0", "0 2"), ("10 3 1", "0 0"), ("10 3 0", "0 2")]);
    assert_eq!(desk.plant.store[0].values[0], 21);
    // With the reply they are in the hands still; each goes with its delete.
    expect_sweeps(&mut desk, &[0]);
    desk.expect(&[("11 2", "0 0"), ("13", "0 1"), ("11 1", "0 0"), ("11 3", "0 0"), ("13", "0 2"), ("13", "0 0")]);
}

/// The oldest buffered session has a row, whether the reply came or not: it stays.
#[test]
fn a_buffered_row_is_passed_over() {
    for fate in [0, 1] {
        for rows in [0, 1, 15, 16, 17, 32] {
            let mut desk = Desk::new();
            carry_times(&mut desk, rows);
            let session = desk.commit_one("0 0 3 1");
            desk.accept(&["9 1", &format!("10 1 {fate}"), "12 1"]);
            expect_sweeps(&mut desk, &[rows.min(16), rows.saturating_sub(16), 0]);
            expect_rows(&desk, [session]);
            // The hand is empty, the lease runs on: the session is taken again and is done before.
            desk.expect(&[("10 1 0", "17"), ("9 1", "16")]);
            desk.accept(&["8 300"]);
            desk.expect(&[("9 2", &format!("0 {session}")), ("10 2 0", "0 2"), ("13", "0 0")]);
            desk.expect(&[("11 2", "0 1"), ("13", "0 1")]);
            assert_eq!(desk.plant.store[0].values[0], session as i32);
        }
    }
}

/// A session in hands and buffered, and one in three hands, keep one row each.
#[test]
fn a_row_is_needed_until_nobody_needs_it() {
    let mut desk = Desk::new();
    let session = desk.commit_one("0 0 3 1");
    for worker in 1..4 {
        desk.expect(&[(&format!("9 {worker}"), "0 1"), (&format!("10 {worker} 1"), "0 0")]);
        desk.accept(&["8 300"]);
    }
    expect_sweeps(&mut desk, &[0]);
    desk.expect(&[("9 0", "0 1"), ("10 0 0", "0 2"), ("13", "0 0"), ("11 0", "0 1")]);
    carry_times(&mut desk, 16);
    expect_sweeps(&mut desk, &[16, 0]);
    expect_rows(&desk, [session]);
    // One is cut, one deletes, one is cut: only the last empties the last hand.
    desk.expect(&[("12 2", "0"), ("13", "0 0"), ("10 1 0", "0 2"), ("11 1", "0 0"), ("13", "0 0")]);
    desk.expect(&[("12 3", "0"), ("13", "0 1"), ("13", "0 0")]);
}

/// Sessions commit in another order than they began; rows go as they were applied, not by their numbers.
#[test]
fn rows_go_in_the_order_of_applying() {
    let mut desk = Desk::new();
    for document in 1..=8 {
        desk.accept(&["3", &format!("5 {document} {document} 0 1 1")]);
    }
    for session in (2..=8).rev() {
        desk.accept(&[&format!("6 {session}")]);
    }
    desk.carry_all(3);
    carry_times(&mut desk, 10);
    desk.accept(&["6 1"]);
    desk.carry_all(2);
    expect_rows(&desk, (2..=8).rev().chain(9..=18).chain([1]));
    expect_sweeps(&mut desk, &[16]);
    expect_rows(&desk, [18, 1]);
    expect_sweeps(&mut desk, &[2]);
}

/// A row stands from the apply that made it, whatever became of the reply and whoever was told done before.
#[test]
fn a_lost_reply_gives_the_row_its_place() {
    let mut desk = Desk::new();
    let lost = desk.commit_one("0 0 3 1");
    desk.expect(&[("9 1", "0 1"), ("10 1 1", "0 0"), ("10 1 1", "0 0"), ("10 1 0", "0 2"), ("11 1", "0 1")]);
    // The second apply of a session that a slow worker never brought to the store makes the row.
    let late = desk.commit_one("0 0 3 1");
    desk.expect(&[("9 1", "0 2"), ("10 1 2", "0 0"), ("13", "0 1")]);
    expect_rows(&desk, []);
    desk.accept(&["8 300"]);
    desk.expect(&[("9 0", "0 2"), ("10 0 0", "0 1"), ("11 0", "0 1")]);
    carry_times(&mut desk, 16);
    // Done before makes no row and moves none.
    desk.expect(&[("10 1 0", "0 2")]);
    expect_rows(&desk, 2..=18);
    desk.expect(&[("11 1", "0 0"), ("13", "0 16")]);
    expect_rows(&desk, [18]);
    assert_eq!((lost, late), (1, 2));
    assert_eq!(desk.plant.store[0].values[0], 18);
}

/// Rows that a sweep left are older than those applied after it.
#[test]
fn later_rows_stand_behind_those_left() {
    let mut desk = Desk::new();
    carry_times(&mut desk, 20);
    expect_sweeps(&mut desk, &[16]);
    expect_rows(&desk, 17..=20);
    carry_times(&mut desk, 14);
    expect_rows(&desk, 17..=34);
    expect_sweeps(&mut desk, &[16]);
    expect_rows(&desk, 33..=34);
}

/// A row that could not go keeps its place: it is the first to go once it may.
#[test]
fn a_row_passed_over_keeps_its_place() {
    let mut desk = Desk::new();
    carry_past(&mut desk, 1);
    carry_times(&mut desk, 17);
    expect_sweeps(&mut desk, &[16]);
    expect_rows(&desk, [1, 18]);
    carry_times(&mut desk, 16);
    expect_rows(&desk, [1].into_iter().chain(18..=34));
    desk.accept(&["12 1"]);
    expect_sweeps(&mut desk, &[16]);
    expect_rows(&desk, [33, 34]);
}

/// 48 rows, three of them in hands and one of a buffered session: the other 44 go.
#[test]
fn a_full_table_goes_but_for_the_rows_needed() {
    let mut desk = Desk::new();
    carry_past(&mut desk, 1);
    carry_times(&mut desk, 20);
    carry_past(&mut desk, 2);
    carry_times(&mut desk, 10);
    carry_past(&mut desk, 3);
    carry_times(&mut desk, 14);
    desk.commit_one("0 0 3 1");
    desk.commit_one("0 0 3 1");
    desk.expect(&[("9 0", "0 48"), ("10 0 1", "0 0"), ("10 0 0", "0 2")]);
    expect_rows(&desk, 1..=48);
    // The next one has no row: it is refused until a sweep has made room for it, and for 15 more.
    desk.expect(&[("11 0", "0 1"), ("9 0", "0 49"), ("10 0 0", "19"), ("10 0 1", "0 0"), ("10 0 0", "19")]);
    expect_sweeps(&mut desk, &[16]);
    expect_rows(&desk, [1].into_iter().chain(18..=48));
    desk.expect(&[("10 0 1", "0 0"), ("13", "0 16")]);
    expect_rows(&desk, [1, 22, 33].into_iter().chain(36..=49));
    expect_sweeps(&mut desk, &[13, 0]);
    expect_rows(&desk, [1, 22, 33, 49]);
    desk.expect(&[("10 0 0", "0 2"), ("11 0", "0 1"), ("13", "0 1")]);
    expect_rows(&desk, [1, 22, 33]);
    assert_eq!(desk.plant.store[0].values[0], 49);
}

/// A sweep makes room for just as many applies as it answered.
#[test]
fn the_number_removed_is_the_room_made() {
    let mut desk = Desk::new();
    carry_past(&mut desk, 1);
    carry_times(&mut desk, 47);
    expect_sweeps(&mut desk, &[16]);
    carry_times(&mut desk, 16);
    desk.commit_one("0 0 3 1");
    desk.expect(&[("9 0", "0 65"), ("10 0 0", "19"), ("13", "0 16"), ("13", "0 16"), ("10 0 0", "0 1")]);
    expect_rows(&desk, [1].into_iter().chain(50..=65));
}

/// With the store away a sweep is refused and no row moves.
#[test]
fn a_refused_sweep_removes_nothing() {
    let mut desk = Desk::new();
    desk.expect(&[("14 0", "0"), ("13", "20"), ("14 1", "0"), ("13", "0 0")]);
    carry_times(&mut desk, 17);
    desk.accept(&["14 0"]);
    let before = desk.plant.clone();
    desk.expect(&[("13", "20"), ("13", "20")]);
    assert!(desk.plant == before);
    desk.expect(&[("14 1", "0"), ("13", "0 16"), ("14 0", "0"), ("13", "20"), ("14 1", "0"), ("13", "0 1")]);
}

/// A sweep changes the rows and nothing else.
#[test]
fn a_sweep_leaves_all_but_the_rows() {
    let mut desk = Desk::new();
    desk.accept(&["2 0 1 0 0 0 0 0 0 0 0"]);
    carry_past(&mut desk, 2);
    carry_times(&mut desk, 20);
    let reader = desk.plant.next_number;
    desk.accept(&["3", &format!("4 {reader} 0")]);
    desk.commit_one("1 0 3 1");
    desk.accept(&["9 1", "10 1 1"]);
    let mut before = desk.plant.clone();
    expect_sweeps(&mut desk, &[16]);
    before.rows = desk.plant.rows;
    before.row_count = desk.plant.row_count;
    assert!(desk.plant == before);
}

/// A session whose row went is in nobody's hand and not buffered: no worker carries it again.
#[test]
fn a_swept_session_is_not_applied_again() {
    let mut desk = Desk::new();
    carry_times(&mut desk, 16);
    carry_past(&mut desk, 1);
    desk.expect(&[("12 1", "0"), ("13", "0 16"), ("13", "0 1"), ("10 1 0", "17"), ("10 0 0", "17"), ("9 0", "18")]);
    assert_eq!(carry(&mut desk), 18);
    expect_rows(&desk, [18]);
    assert_eq!(desk.plant.store[0].values[0], 18);
}
