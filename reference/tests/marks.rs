//! The marked edges M1 to M12 of paper 01, each worked out from the paper; M6 as request (c) of paper 02 has it.

mod common;

use common::{after, list, Desk};
use reference_plant::field::{Field, ADD, INC, PULL, PUSH};
use reference_plant::refusal::Refusal;

#[test]
fn m1_inc_on_absent() {
    assert_eq!(after(Field::EMPTY, INC, 5), Ok(Field::number(5)));
    let mut desk = Desk::new();
    desk.expect(&[
        ("2 0 1 0 0 0 0 0 0 0 0", "0"),
        ("3", "0 1"),
        ("5 1 0 0 3 5", "0 1"),
        ("4 1 0", "0 2 1 1 5 0 0 0 0 0"),
    ]);
}

#[test]
fn m2_inc_past_the_upper_end() {
    assert_eq!(after(Field::number(2_147_483_647), INC, 1), Err(Refusal::SumOutside));
    let mut desk = Desk::new();
    desk.expect(&[
        ("1 0 0 1 2147483647", "0"),
        ("1 0 0 3 1", "8"),
        ("3", "0 1"),
        ("5 1 0 0 3 1", "8"),
        ("5 1 0 0 3 0", "0 1"),
        ("5 1 0 0 3 -2147483648", "0 2"),
        ("5 1 0 0 3 -2147483647", "0 3"),
        ("5 1 0 0 3 -1", "8"),
    ]);
}

#[test]
fn m3_inc_by_nothing_at_the_lower_end() {
    assert_eq!(after(Field::number(-2_147_483_648), INC, 0), Ok(Field::number(-2_147_483_648)));
    let mut desk = Desk::new();
    desk.expect(&[
        ("2 0 1 0 0 0 0 0 0 0 0", "0"),
        ("1 0 0 1 -2147483648", "0"),
        ("1 0 0 3 0", "0"),
        ("3", "0 1"),
        ("5 1 0 0 3 0", "0 1"),
        ("4 1 0", "0 2 1 1 -2147483648 0 0 0 0 0"),
        ("5 1 0 0 3 -1", "8"),
    ]);
}

#[test]
fn m4_add_a_member_to_six() {
    let six = list(&[1, 2, 3, 4, 5, 6]);
    assert_eq!(after(six, ADD, 6), Ok(six));
    assert_eq!(after(six, ADD, 7), Err(Refusal::ListFull));
}

#[test]
fn m5_push_on_six() {
    assert_eq!(after(list(&[1, 2, 3, 4, 5, 6]), PUSH, 6), Err(Refusal::ListFull));
}

#[test]
fn m6_pull_takes_every_equal_member() {
    assert_eq!(after(list(&[4, 7, 4]), PULL, 4), Ok(list(&[7])));
}

#[test]
fn m7_pull_the_only_member() {
    assert_eq!(after(list(&[7]), PULL, 7), Ok(list(&[])));
    assert_ne!(list(&[]), Field::EMPTY);
}

#[test]
fn m4_to_m7_on_lines() {
    let mut desk = Desk::new();
    desk.expect(&[
        ("2 0 1 0 0 0 0 0 0 0 0", "0"),
        ("2 1 1 0 1 0 0 0 0 0 0", "0"),
        ("3", "0 1"),
        ("5 1 0 0 5 1", "0 1"),
        ("5 1 0 0 5 2", "0 2"),
        ("5 1 0 0 5 3", "0 3"),
        ("5 1 0 0 5 4", "0 4"),
        ("5 1 0 0 5 5", "0 5"),
        ("5 1 0 0 5 6", "0 6"),
        ("5 1 0 0 5 6", "7"),
        ("5 1 0 0 4 7", "7"),
        ("5 1 0 0 4 1", "0 7"),
        ("4 1 0", "0 2 2 6 1 2 3 4 5 6"),
        ("6 1", "0 1"),
        ("3", "0 2"),
        ("5 2 0 1 5 4", "0 1"),
        ("5 2 0 1 5 7", "0 2"),
        ("5 2 0 1 5 4", "0 3"),
        ("5 2 0 1 6 4", "0 4"),
        ("4 2 1", "0 2 2 1 7 0 0 0 0 0"),
        ("5 2 0 1 6 4", "0 5"),
        ("4 2 1", "0 2 2 1 7 0 0 0 0 0"),
        ("5 2 0 1 6 7", "0 6"),
        ("4 2 1", "0 2 2 0 0 0 0 0 0 0"),
    ]);
}

#[test]
fn m8_exclusive_over_another_shared() {
    let mut desk = Desk::new();
    desk.expect(&[
        ("2 0 1 5 0 0 0 0 0 0 0", "0"),
        ("3", "0 1"),
        ("3", "0 2"),
        ("4 1 0", "0 1 0 0 0 0 0 0 0 0"),
        ("5 2 5 3 1 1", "0 1"),
        ("15 1", "3"),
        ("15 1", "2"),
        ("15 2", "0 0 1 1"),
    ]);
}

#[test]
fn m9_shared_over_another_exclusive() {
    let mut desk = Desk::new();
    desk.expect(&[
        ("2 0 1 5 0 0 0 0 0 0 0", "0"),
        ("3", "0 1"),
        ("3", "0 2"),
        ("5 2 5 3 1 1", "0 1"),
        ("4 1 0", "4"),
        ("15 1", "2"),
        ("15 2", "0 0 1 1"),
    ]);
}

#[test]
fn m10_lease_of_tick_0() {
    let mut desk = Desk::new();
    desk.expect(&[
        ("3", "0 1"),
        ("5 1 0 0 1 9", "0 1"),
        ("8 299", "0 299"),
        ("15 1", "0 0 1 1"),
        ("8 1", "0 300"),
        ("15 1", "3"),
    ]);
}

#[test]
fn m11_lost_reply_cut_and_taken_again() {
    let mut desk = Desk::new();
    desk.expect(&[
        ("2 0 1 0 0 0 0 0 0 0 0", "0"),
        ("1 0 0 1 100", "0"),
        ("3", "0 1"),
        ("5 1 0 0 3 -25", "0 1"),
        ("6 1", "0 1"),
        ("9 0", "0 1"),
        ("10 0 1", "0 0"),
        ("12 0", "0"),
        ("9 1", "16"),
        ("8 300", "0 300"),
        ("9 1", "0 1"),
        ("10 1 0", "0 2"),
    ]);
    assert_eq!(desk.plant.store[0], Field::number(75));
    desk.expect(&[("11 1", "0 1"), ("13", "0 1"), ("3", "0 2"), ("4 2 0", "0 1 1 1 75 0 0 0 0 0")]);
}

#[test]
fn m12_with_32_buffered() {
    let mut desk = Desk::new();
    desk.fill_buffer();
    desk.expect(&[
        ("3", "0 33"),
        ("3", "0 34"),
        ("5 33 0 0 1 1", "0 1"),
        ("6 33", "15"),
        ("6 34", "0 32"),
        ("15 33", "0 0 1 1"),
        ("15 34", "2"),
    ]);
}
