//! The order in which cached keys give way: that of the reads that cached them (request (a) of paper 02).

mod common;

use common::Desk;

/// A desk with keys 0 to 19 mapped, key k at field 0 of document k, of which 0 to 15 are cached in this order.
/// The session that read them has ended.
fn full_desk() -> Desk {
    let mut desk = Desk::new();
    for key in 0..20 {
        desk.accept(&[&format!("2 {key} 1 {key} 0 0 0 0 0 0 0")]);
    }
    let session = begin(&mut desk);
    for key in 0..16 {
        assert_eq!(mark(&mut desk, session, key), "1");
    }
    desk.accept(&[&format!("6 {session}")]);
    desk
}

fn begin(desk: &mut Desk) -> u64 {
    desk.ask("3").strip_prefix("0 ").unwrap().parse().unwrap()
}

/// The mark of a read; of a refused one "refused" and its number.
fn mark(desk: &mut Desk, session: u64, key: u64) -> String {
    let answer = desk.ask(&format!("4 {session} {key}"));
    match answer.strip_prefix("0 ") {
        Some(numbers) => numbers.split(' ').next().unwrap().to_string(),
        None => format!("refused {answer}"),
    }
}

/// Reads the keys in a session of their own and holds each mark to the one expected.
fn expect_marks(desk: &mut Desk, marks: &[(u64, &str)]) {
    let session = begin(desk);
    for (at, &(key, expected)) in marks.iter().enumerate() {
        assert_eq!(mark(desk, session, key), expected, "read {} of key {key}", at + 1);
    }
    desk.accept(&[&format!("6 {session}")]);
}

/// Holds that the keys are cached and none else, by reads that change nothing.
fn expect_cached(desk: &mut Desk, keys: impl Iterator<Item = u64>) {
    let marks: Vec<(u64, &str)> = keys.map(|key| (key, "0")).collect();
    expect_marks(desk, &marks);
    assert_eq!(desk.plant.cached_count, marks.len());
}

#[test]
fn the_first_of_sixteen_gives_way() {
    let mut desk = full_desk();
    expect_marks(&mut desk, &[(16, "1")]);
    expect_cached(&mut desk, 1..17);
    expect_marks(&mut desk, &[(0, "1"), (1, "1"), (2, "1")]);
    expect_cached(&mut desk, (4..17).chain(0..3));
    // Seventeen keys read in turn: each one is gone when its turn comes.
    let mut desk = full_desk();
    for turn in 16..100 {
        expect_marks(&mut desk, &[(turn % 17, "1")]);
    }
}

/// It is the order of the reads, not that of the keys.
#[test]
fn keys_give_way_in_the_order_of_reads() {
    let mut desk = full_desk();
    expect_marks(&mut desk, &[(19, "1"), (16, "1"), (18, "1"), (17, "1")]);
    expect_marks(&mut desk, &[(3, "1"), (0, "1"), (2, "1"), (1, "1")]);
    expect_cached(&mut desk, (8..20).chain(0..4));
    for key in 4..12 {
        expect_marks(&mut desk, &[(key, "1")]);
    }
    expect_cached(&mut desk, (0..12).chain(16..20));
    expect_marks(&mut desk, &[(12, "1"), (19, "1"), (13, "1"), (16, "1"), (14, "1"), (18, "1"), (15, "1"), (17, "1")]);
}

#[test]
fn a_hit_gives_no_new_place() {
    let mut desk = full_desk();
    expect_marks(&mut desk, &[(0, "0"), (1, "0"), (0, "0"), (16, "1"), (0, "1"), (1, "1")]);
    expect_cached(&mut desk, (3..17).chain(0..2));
}

#[test]
fn a_commit_gives_no_new_place() {
    let mut desk = full_desk();
    desk.commit_one("0 0 1 9");
    desk.commit_one("1 0 3 9");
    desk.commit_one("7 0 5 9");
    let session = begin(&mut desk);
    desk.expect(&[
        (&format!("4 {session} 0"), "0 0 1 1 9 0 0 0 0 0"),
        (&format!("4 {session} 16"), "0 1 0 0 0 0 0 0 0 0"),
        (&format!("4 {session} 1"), "0 0 1 1 9 0 0 0 0 0"),
        (&format!("4 {session} 0"), "0 1 1 1 9 0 0 0 0 0"),
        (&format!("4 {session} 1"), "0 1 1 1 9 0 0 0 0 0"),
        (&format!("4 {session} 7"), "0 0 2 1 9 0 0 0 0 0"),
    ]);
    expect_cached(&mut desk, (3..17).chain(0..2));
}

#[test]
fn a_key_dropped_and_cached_again_counts_anew() {
    let mut desk = full_desk();
    let session = begin(&mut desk);
    assert_eq!(mark(&mut desk, session, 0), "0");
    desk.accept(&["8 300"]);
    expect_cached(&mut desk, 1..16);
    expect_marks(&mut desk, &[(0, "1"), (16, "1")]);
    expect_cached(&mut desk, (2..17).chain(0..1));
    // Keys 2 to 15 are before it now, and key 16 is behind it.
    for key in (17..20).chain(1..11) {
        expect_marks(&mut desk, &[(key, "1")]);
    }
    expect_marks(&mut desk, &[(15, "0"), (0, "0"), (12, "1"), (15, "1"), (16, "0"), (0, "1")]);
}

/// The clock has no part in it: keys cached within one tick have an order, and none grows old by waiting.
#[test]
fn the_clock_gives_no_order() {
    let mut desk = full_desk();
    for (key, ticks) in [(16, 0), (17, 65_535), (18, 1), (19, 299), (0, 0), (1, 300), (2, 1_000), (3, 0)] {
        desk.accept(&[&format!("8 {ticks}")]);
        expect_marks(&mut desk, &[(key, "1")]);
    }
    desk.accept(&["8 65535", "8 0"]);
    expect_cached(&mut desk, (8..20).chain(0..4));
    expect_marks(&mut desk, &[(4, "1"), (8, "1"), (9, "1"), (11, "0")]);
}

#[test]
fn with_fewer_than_sixteen_none_gives_way() {
    let mut desk = full_desk();
    let session = begin(&mut desk);
    // Held shared and exclusive: both keys are dropped.
    assert_eq!(mark(&mut desk, session, 9), "0");
    desk.accept(&[&format!("5 {session} 4 3 1 1"), "8 300"]);
    expect_cached(&mut desk, (0..4).chain(5..9).chain(10..16));
    expect_marks(&mut desk, &[(16, "1"), (17, "1")]);
    expect_cached(&mut desk, (0..4).chain(5..9).chain(10..18));
    expect_marks(&mut desk, &[(18, "1"), (1, "0"), (0, "1"), (1, "1")]);
}

#[test]
fn a_refused_read_gives_no_place() {
    let mut desk = full_desk();
    let [holder, doomed, hindered, reader] = [(); 4].map(|()| begin(&mut desk));
    assert_eq!(mark(&mut desk, doomed, 1), "0");
    desk.accept(&[&format!("5 {holder} 16 3 1 1"), &format!("5 {holder} 1 3 1 1")]);
    assert_eq!(mark(&mut desk, hindered, 16), "refused 4");
    assert_eq!(mark(&mut desk, hindered, 17), "refused 2");
    assert_eq!(mark(&mut desk, doomed, 17), "refused 3");
    assert_eq!(mark(&mut desk, reader, 20), "refused 9");
    assert_eq!(mark(&mut desk, reader, 32), "refused 1");
    desk.accept(&["14 0"]);
    assert_eq!(mark(&mut desk, reader, 17), "refused 20");
    desk.accept(&["14 1", &format!("6 {holder}"), &format!("6 {reader}")]);
    expect_cached(&mut desk, 0..16);
    expect_marks(&mut desk, &[(17, "1"), (0, "1"), (1, "1"), (16, "1"), (4, "0")]);
}

#[test]
fn a_read_of_own_changes_gives_no_place() {
    let mut desk = full_desk();
    let session = begin(&mut desk);
    desk.accept(&[&format!("5 {session} 0 0 1 1"), &format!("5 {session} 16 0 1 1")]);
    assert_eq!(mark(&mut desk, session, 16), "2");
    assert_eq!(mark(&mut desk, session, 0), "2");
    desk.accept(&[&format!("6 {session}")]);
    expect_cached(&mut desk, 0..16);
    expect_marks(&mut desk, &[(16, "1"), (0, "1"), (2, "0"), (1, "1")]);
}

/// With the store away a key is worked out from cached ones: it is cached, and the first gives way.
#[test]
fn a_read_without_the_store_gives_a_place() {
    let mut desk = Desk::new();
    for key in 0..16 {
        desk.accept(&[&format!("2 {key} 1 {key} 0 0 0 0 0 0 0")]);
    }
    desk.accept(&["2 16 2 0 0 15 0 0 0 0 0", "2 17 1 0 0 0 0 0 0 0 0", "2 18 1 1 0 0 0 0 0 0 0"]);
    expect_marks(&mut desk, &(0..16).map(|key| (key, "1")).collect::<Vec<_>>());
    desk.accept(&["14 0"]);
    // Key 16 shows the place of key 0 from now on, and key 0 itself is gone.
    expect_marks(&mut desk, &[(16, "1"), (1, "0"), (17, "1"), (1, "refused 20"), (18, "refused 20"), (0, "1")]);
    expect_cached(&mut desk, (3..18).chain(0..1));
}
