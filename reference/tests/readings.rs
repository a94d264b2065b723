//! Sessions, leases, cached keys, known fields, marks and workers, beyond the marked edges.

mod common;

use common::Desk;
use reference_plant::field::Field;

const ABSENT: &str = "0 0 0 0 0 0 0 0";

#[test]
fn each_document_has_its_own_grant() {
    let mut desk = Desk::new();
    desk.accept(&["2 0 1 0 0 0 0 0 0 0 0", "2 1 1 1 0 0 0 0 0 0 0", "3", "8 100", "4 1 0", "8 100", "4 1 1"]);
    // Granted at 100 and 200: the first lapses at 400.
    desk.expect(&[
        ("8 199", "0 399"),
        ("4 1 0", &format!("0 0 {ABSENT}")),
        ("15 1", "0 2 0 0"),
        ("8 1", "0 400"),
        ("15 1", "3"),
    ]);
}

#[test]
fn only_shared_to_exclusive_renews() {
    let mut desk = Desk::new();
    desk.accept(&["2 0 1 0 0 0 0 0 0 0 0", "3", "4 1 0", "8 200", "5 1 0 0 3 1"]);
    // Shared at 0, exclusive at 200: it lapses at 500, however often it is used in between.
    desk.expect(&[
        ("15 1", "0 0 1 1"),
        ("8 299", "0 499"),
        ("5 1 0 1 3 1", "0 2"),
        ("4 1 0", "0 2 1 1 1 0 0 0 0 0"),
        ("15 1", "0 0 1 2"),
        ("8 1", "0 500"),
        ("6 1", "3"),
    ]);
}

#[test]
fn a_session_lapses_after_a_thousand_ticks() {
    let mut desk = Desk::new();
    desk.accept(&["8 5", "3", "8 900", "5 1 0 0 1 1"]);
    desk.expect(&[("8 99", "0 1004"), ("15 1", "0 0 1 1"), ("8 1", "0 1005"), ("15 1", "3")]);
}

/// A lapsed session does not commit, though nobody else wanted the document.
#[test]
fn a_lapsed_session_does_not_commit() {
    let mut desk = Desk::new();
    desk.accept(&["3", "5 1 0 0 1 1", "8 65535"]);
    desk.expect(&[("6 1", "3"), ("6 1", "2"), ("9 0", "18")]);
}

#[test]
fn a_lapse_drops_the_keys_of_all_documents_held() {
    let mut desk = Desk::new();
    desk.accept(&[
        "2 0 1 0 0 0 0 0 0 0 0",
        "2 1 2 1 0 2 0 0 0 0 0",
        "2 2 1 3 0 0 0 0 0 0 0",
        "2 3 1 2 3 0 0 0 0 0 0",
        "3",
        "3",
        "4 2 0",
        "4 2 2",
        "4 1 1",
        "4 1 3",
        "6 2",
        "14 0",
        // Held exclusive at another field of document 0, shared in documents 1 and 2.
        "5 1 0 1 1 5",
    ]);
    desk.expect(&[("8 300", "0 300"), ("3", "0 3"), ("4 3 0", "20"), ("4 3 1", "20"), ("4 3 3", "20")]);
    // Document 3 was held by nobody.
    desk.expect(&[("4 3 2", &format!("0 0 {ABSENT}"))]);
}

/// Doom by another's lease, refusal 4, commit and abandon drop no cached key.
#[test]
fn only_the_clock_drops() {
    let mut desk = Desk::new();
    desk.accept(&["2 0 1 0 0 0 0 0 0 0 0", "3", "3", "3", "3", "4 1 0", "5 2 0 1 1 5", "14 0"]);
    // Session 1 is doomed and holds nothing, so that its lapse would drop nothing either.
    desk.expect(&[("4 3 0", "4"), ("6 2", "0 1"), ("4 4 0", &format!("0 0 {ABSENT}")), ("7 4", "0")]);
    desk.expect(&[("8 1000", "0 1000"), ("15 1", "3"), ("3", "0 5"), ("4 5 0", &format!("0 0 {ABSENT}"))]);
}

#[test]
fn commit_brings_cached_keys_up_to_date() {
    let mut desk = Desk::new();
    desk.accept(&[
        "2 0 2 0 0 1 0 0 0 0 0",
        "1 0 0 1 100",
        "3",
        "4 1 0",
        "7 1",
        "3",
        "5 2 0 0 3 -25",
        "6 2",
        "14 0",
        "3",
    ]);
    desk.expect(&[("4 3 0", "0 0 1 1 75 0 0 0 0 0 0 0 0 0 0 0 0 0")]);
}

/// A key read after a commit shows the buffer, not the store alone.
#[test]
fn a_key_is_filled_from_store_and_buffer() {
    let mut desk = Desk::new();
    desk.accept(&["2 0 1 0 0 0 0 0 0 0 0", "1 0 0 1 100"]);
    desk.commit_one("0 0 3 -25");
    desk.expect(&[("3", "0 2"), ("4 2 0", "0 1 1 1 75 0 0 0 0 0"), ("9 0", "0 1"), ("10 0 0", "0 1")]);
    // With a row the changes are in the store and count once.
    desk.expect(&[("3", "0 3"), ("4 3 0", "0 0 1 1 75 0 0 0 0 0"), ("11 0", "0 1"), ("4 3 0", "0 0 1 1 75 0 0 0 0 0")]);
}

#[test]
fn what_makes_a_field_known() {
    let mut desk = Desk::new();
    desk.accept(&[
        "2 0 1 0 0 0 0 0 0 0 0",
        "2 1 1 0 1 0 0 0 0 0 0",
        "2 2 2 0 0 0 1 0 0 0 0",
        "2 3 2 0 0 5 0 0 0 0 0",
        "1 0 0 1 8",
        "3",
        "4 1 0",
        "4 1 1",
        "14 0",
    ]);
    // Both places are shown by cached keys, so the third key is worked out and cached.
    desk.expect(&[
        ("4 1 2", "0 1 1 1 8 0 0 0 0 0 0 0 0 0 0 0 0 0"),
        ("4 1 2", "0 0 1 1 8 0 0 0 0 0 0 0 0 0 0 0 0 0"),
        ("4 1 3", "20"),
        // An own set makes the field known for the session, and the mark 2.
        ("5 1 5 0 3 1", "20"),
        ("5 1 5 0 1 4", "0 1"),
        ("5 1 5 0 3 1", "0 2"),
        ("4 1 3", "0 2 1 1 8 0 0 0 0 0 1 1 5 0 0 0 0 0"),
        ("3", "0 2"),
        // Not for another one before commit: it meets the lease first.
        ("6 1", "0 1"),
        ("4 2 3", "0 1 1 1 8 0 0 0 0 0 1 1 5 0 0 0 0 0"),
    ]);
}

#[test]
fn a_buffered_set_makes_known_with_a_row_or_without() {
    let mut desk = Desk::new();
    desk.accept(&["2 0 1 0 0 0 0 0 0 0 0", "2 1 1 0 1 0 0 0 0 0 0"]);
    desk.commit_one("0 0 1 4");
    desk.commit_one("0 1 3 4");
    desk.accept(&["9 0", "10 0 0", "14 0", "3"]);
    desk.expect(&[
        ("5 3 0 0 3 1", "0 1"),
        // A buffered inc does not make its field known.
        ("5 3 0 1 3 1", "20"),
        ("4 3 0", "0 2 1 1 5 0 0 0 0 0"),
        ("11 0", "0 1"),
        // Known was lost by the delete; the own inc stays and is committed.
        ("4 3 0", "20"),
        ("5 3 0 0 3 1", "20"),
        ("15 3", "0 0 1 1"),
        ("6 3", "0 2"),
        ("14 1", "0"),
        ("3", "0 4"),
        ("4 4 0", "0 1 1 1 5 0 0 0 0 0"),
    ]);
}

#[test]
fn mark_2_is_by_exact_place_and_caches_nothing() {
    let mut desk = Desk::new();
    desk.accept(&["2 0 1 0 0 0 0 0 0 0 0", "3"]);
    desk.expect(&[
        ("5 1 0 1 1 4", "0 1"),
        // Another field of the same document: no own change to a place of the key.
        ("4 1 0", &format!("0 1 {ABSENT}")),
        ("4 1 0", &format!("0 0 {ABSENT}")),
        ("5 1 0 0 6 4", "0 2"),
        // Pull on absent changes nothing and is an own change all the same.
        ("4 1 0", &format!("0 2 {ABSENT}")),
        ("7 1", "0"),
        ("14 0", "0"),
        ("3", "0 2"),
        ("4 2 0", &format!("0 0 {ABSENT}")),
    ]);
    let mut desk = Desk::new();
    desk.accept(&["2 0 1 0 0 0 0 0 0 0 0", "3", "5 1 0 0 1 4"]);
    desk.expect(&[("4 1 0", "0 2 1 1 4 0 0 0 0 0"), ("6 1", "0 1"), ("3", "0 2"), ("4 2 0", "0 1 1 1 4 0 0 0 0 0")]);
}

/// Mark 2 needs every place of the key known, not only the changed one.
#[test]
fn mark_2_needs_all_places_known() {
    let mut desk = Desk::new();
    desk.accept(&["2 0 2 0 0 1 0 0 0 0 0", "3", "14 0"]);
    desk.expect(&[("5 1 0 0 1 4", "0 1"), ("4 1 0", "20"), ("15 1", "0 0 1 1"), ("5 1 1 0 2 0", "0 2")]);
    desk.expect(&[("4 1 0", &format!("0 2 1 1 4 0 0 0 0 0 {ABSENT}"))]);
}

#[test]
fn shared_over_shared_is_granted() {
    let mut desk = Desk::new();
    desk.accept(&["2 0 3 0 0 0 1 9 0 0 0", "3", "3", "4 1 0", "4 2 0", "4 1 0"]);
    desk.expect(&[("15 1", "0 2 0 0"), ("15 2", "0 2 0 0"), ("6 1", "0 0"), ("6 2", "0 0")]);
}

#[test]
fn reading_under_an_own_exclusive_lease_leaves_it_exclusive() {
    let mut desk = Desk::new();
    desk.accept(&["2 0 2 0 0 1 0 0 0 0 0", "3", "5 1 0 0 1 4", "4 1 0"]);
    desk.expect(&[("15 1", "0 1 1 1")]);
}

/// A doomed session loses its changes and its leases at once.
#[test]
fn a_doomed_session_holds_nothing() {
    let mut desk = Desk::new();
    desk.accept(&["2 0 1 0 0 0 0 0 0 0 0", "3", "3", "3", "4 1 0", "5 1 1 0 1 7", "5 2 0 0 1 1"]);
    desk.expect(&[("5 3 1 0 3 1", "0 1"), ("6 3", "0 1"), ("6 1", "3"), ("6 2", "0 2")]);
    assert_eq!(desk.plant.stock[4], Field::number(1));
}

#[test]
fn a_commit_does_not_touch_the_store() {
    let mut desk = Desk::new();
    desk.accept(&["1 0 0 1 100"]);
    desk.commit_one("0 0 3 -25");
    assert_eq!(desk.plant.store[0], Field::number(100));
    desk.accept(&["9 0"]);
    assert_eq!(desk.plant.store[0], Field::number(100));
    desk.expect(&[("10 0 2", "0 0")]);
    assert_eq!(desk.plant.store[0], Field::number(100));
    desk.expect(&[("10 0 1", "0 0")]);
    assert_eq!(desk.plant.store[0], Field::number(75));
}

/// A slow worker still has the session in hand when the second one has deleted it.
#[test]
fn an_overtaken_worker_draws_once() {
    let mut desk = Desk::new();
    desk.accept(&["1 0 0 1 600"]);
    desk.commit_one("0 0 3 -600");
    desk.expect(&[
        ("9 0", "0 1"),
        ("10 0 1", "0 0"),
        ("8 300", "0 300"),
        ("9 1", "0 1"),
        ("10 1 0", "0 2"),
        ("11 1", "0 1"),
        // Not buffered any more, but in the first worker's hand: the row stays.
        ("13", "0 0"),
        ("10 0 0", "0 2"),
        ("13", "0 0"),
        ("11 0", "0 0"),
        ("13", "0 1"),
    ]);
    assert_eq!(desk.plant.store[0], Field::number(0));
}

#[test]
fn a_row_stays_while_its_session_is_buffered() {
    let mut desk = Desk::new();
    desk.commit_one("0 0 3 1");
    desk.expect(&[
        ("9 0", "0 1"),
        ("10 0 0", "0 1"),
        ("12 0", "0"),
        ("13", "0 0"),
        ("8 300", "0 300"),
        ("9 0", "0 1"),
        ("10 0 0", "0 2"),
        ("11 0", "0 1"),
        ("13", "0 1"),
    ]);
    assert_eq!(desk.plant.store[0], Field::number(1));
}

#[test]
fn delete_ends_the_lease_in_its_name() {
    let mut desk = Desk::new();
    desk.commit_one("0 0 3 1");
    desk.commit_one("0 0 3 1");
    desk.expect(&[("9 0", "0 1"), ("10 0 0", "0 1"), ("9 1", "16"), ("11 0", "0 1"), ("9 1", "0 2")]);
}

/// The lease of a worker that was cut does not come back to it when it takes again.
#[test]
fn a_cut_worker_waits_as_all_do() {
    let mut desk = Desk::new();
    desk.commit_one("0 0 3 1");
    desk.expect(&[
        ("8 7", "0 7"),
        ("9 3", "0 1"),
        ("12 3", "0"),
        ("12 3", "0"),
        ("9 3", "16"),
        ("8 299", "0 306"),
        ("9 3", "16"),
        ("8 1", "0 307"),
        ("9 3", "0 1"),
    ]);
}

#[test]
fn sessions_without_changes_take_no_place() {
    let mut desk = Desk::new();
    desk.accept(&["2 0 1 0 0 0 0 0 0 0 0", "3", "4 1 0"]);
    desk.expect(&[("6 1", "0 0"), ("9 0", "18"), ("3", "0 2"), ("15 2", "0 0 0 0")]);
}

/// Buffered sessions are carried in commit order, not in the order of their numbers.
#[test]
fn commit_order_counts() {
    let mut desk = Desk::new();
    desk.accept(&["3", "3", "3"]);
    desk.accept(&["5 3 0 0 1 3", "6 3", "5 1 0 0 3 1", "6 1", "5 2 0 0 1 2", "6 2"]);
    desk.expect(&[
        ("9 0", "0 3"),
        ("10 0 0", "0 1"),
        ("11 0", "0 1"),
        ("9 0", "0 1"),
        ("10 0 0", "0 1"),
        ("11 0", "0 1"),
    ]);
    assert_eq!(desk.plant.store[0], Field::number(4));
    assert_eq!(desk.plant.stock[0], Field::number(2));
}
