//! The judge: it holds right answers, and refuses answers that were tampered with.

mod common;

use common::{line, list};
use reference_plant::generator::{generate, Profile};
use reference_plant::history::{judge, Held};
use reference_plant::lines::parse;
use reference_plant::plant::Plant;
use reference_plant::serve::serve;

/// A dialogue of short calls and short answers as the two files.
fn files<S: AsRef<str>>(dialogue: &[(S, S)]) -> (Vec<u8>, Vec<u8>) {
    let calls: String = dialogue.iter().map(|(call, _)| line(call.as_ref()) + "\n").collect();
    let answers: String = dialogue.iter().map(|(_, answer)| line(answer.as_ref()) + "\n").collect();
    (calls.into_bytes(), answers.into_bytes())
}

fn judged<S: AsRef<str>>(dialogue: &[(S, S)]) -> Result<Held, u64> {
    let (calls, answers) = files(dialogue);
    judge(&calls, &answers).map_err(|contradiction| contradiction.line)
}

/// Two sessions, one read each, carried with a lost reply by two workers.
const DIALOGUE: &[(&str, &str)] = &[
    ("1 0 0 1 100", "0"),
    ("2 0 2 0 0 1 0 0 0 0 0", "0"),
    ("3", "0 1"),
    ("3", "0 2"),
    ("4 1 0", "0 1 1 1 100 0 0 0 0 0 0 0 0 0 0 0 0 0"),
    ("5 1 0 0 3 -25", "0 1"),
    ("5 1 1 0 5 7", "0 2"),
    ("4 1 0", "0 2 1 1 75 0 0 0 0 0 2 1 7 0 0 0 0 0"),
    ("15 1", "0 0 2 2"),
    ("6 1", "0 1"),
    ("4 2 0", "0 0 1 1 75 0 0 0 0 0 2 1 7 0 0 0 0 0"),
    ("15 2", "0 2 0 0"),
    ("6 2", "0 1"),
    ("9 0", "0 1"),
    ("10 0 1", "0 0"),
    ("8 300", "0 300"),
    ("9 1", "0 1"),
    ("10 1 0", "0 2"),
    ("13", "0 0"),
    ("11 1", "0 1"),
    ("13", "0 0"),
    ("10 0 0", "0 2"),
    ("11 0", "0 0"),
    ("13", "0 1"),
    ("9 2", "18"),
];

#[test]
fn a_right_dialogue_is_held() {
    let held = Held {
        lines: 25,
        accepted: 24,
        pages: 2,
        committed: 2,
        buffered: 1,
        reads: 3,
        committed_reads: 3,
        hits: 1,
        misses: 1,
        own: 1,
        gave_way: 0,
        dropped: 0,
        committed_changes: 2,
        unfit: 0,
        known: 0,
        unknown: 0,
        turned_away: 0,
        reports: 2,
        takes: 2,
        applies: 3,
        carried: 1,
        deletes: 2,
        sweeps: 3,
        swept: 1,
        sweeps_refused: 0,
        rows_full: 0,
    };
    assert_eq!(judged(DIALOGUE), Ok(held));
    assert_eq!(judged::<&str>(&[]), Ok(Held::default()));
}

/// The dialogue with the answer of one line replaced must be refused at that line.
#[test]
fn a_tampered_dialogue_is_refused() {
    for (at, answer) in [
        // A wrong session number, a number too many, a number too few.
        (3, "0 2"),
        (4, "0 1"),
        (2, "0 1"),
        (3, "0"),
        // Reads: a wrong value, a wrong kind, a wrong mark, too few words.
        (5, "0 1 1 1 99 0 0 0 0 0 0 0 0 0 0 0 0 0"),
        (8, "0 2 1 1 100 0 0 0 0 0 2 1 7 0 0 0 0 0"),
        (8, "0 1 1 1 75 0 0 0 0 0 2 1 7 0 0 0 0 0"),
        (11, "0 0 1 1 100 0 0 0 0 0 0 0 0 0 0 0 0 0"),
        (11, "0 2 1 1 75 0 0 0 0 0 2 1 7 0 0 0 0 0"),
        (5, "0 0 1 1 100 0 0 0 0 0 0 0 0 0 0 0 0 0"),
        (8, "0 0 1 1 75 0 0 0 0 0 2 1 7 0 0 0 0 0"),
        (11, "0 1 1 1 75 0 0 0 0 0 2 1 7 0 0 0 0 0"),
        (11, "0 0 1 1 75 0 0 0 0 0"),
        // Counts of change, report and commit.
        (6, "0 2"),
        (7, "0 1"),
        (9, "0 1 1 2"),
        (9, "0 0 1 2"),
        (9, "0 0 2 1"),
        (12, "0 1 0 0"),
        (10, "0 0"),
        (13, "0 2"),
        // A commit and changes refused without reason.
        (10, "15"),
        (6, "5"),
        (6, "6"),
        (6, "7"),
        (6, "8"),
        (1, "6"),
        (1, "12"),
        (1, "20"),
        // Workers: another session, a word that cannot come, done twice, gone too soon.
        (14, "0 2"),
        (15, "0 1"),
        (18, "0 1"),
        (18, "0 0"),
        (20, "0 0"),
        (22, "0 1"),
        (23, "0 1"),
        (25, "0 1"),
        // A row swept while the session is buffered or in a hand, or none though there is one.
        (19, "0 1"),
        (21, "0 1"),
        (24, "0 0"),
        (24, "0 2"),
        (24, "0 16"),
        (24, "0 -1"),
        // Sweep and apply refused without reason.
        (24, "20"),
        (24, "17"),
        (22, "19"),
        (15, "19"),
        // The clock.
        (16, "0 299"),
        // No refusals.
        (1, "24"),
        (1, "20 1"),
    ] {
        let mut dialogue = DIALOGUE.to_vec();
        dialogue[at - 1].1 = answer;
        assert_eq!(judged(&dialogue), Err(at as u64), "answer {answer} to line {at}");
    }
}

#[test]
fn answers_missing_or_left_over_are_refused() {
    let (calls, answers) = files(DIALOGUE);
    let last = answers[..answers.len() - 1].iter().rposition(|&byte| byte == b'\n').unwrap();
    assert_eq!(judge(&calls, &answers[..=last]).unwrap_err().line, 25);
    assert_eq!(judge(&calls, &answers[..answers.len() - 1]).unwrap_err().line, 25);
    let more = [&answers[..], b"23\n"].concat();
    assert_eq!(judge(&calls, &more).unwrap_err().line, 26);
    assert_eq!(judge(&calls, b"").unwrap_err().line, 1);
    assert_eq!(judge(b"", b"23\n").unwrap_err().line, 1);
    // A last call without byte 10 is a line as well.
    assert!(judge(&calls[..calls.len() - 1], &answers).is_ok());
}

/// What a program might wrongly accept.
#[test]
fn wrong_acceptances_are_refused() {
    let wrong: &[&[(&str, &str)]] = &[
        &[("16", "0")],
        &[("1 0 0 1", "0")],
        &[("1 64 0 1 1", "0")],
        &[("1 0 0 1 1", "0"), ("1 0 0 4 1", "0")],
        &[("3", "0 1"), ("1 0 0 1 1", "0")],
        &[("3", "0 1"), ("2 0 1 0 0 0 0 0 0 0 0", "0")],
        &[("2 0 0 0 0 0 0 0 0 0 0", "0")],
        &[("2 0 1 0 0 0 0 0 0 0 0", "0"), ("2 0 1 0 0 0 0 0 0 0 0", "0")],
        &[("6 1", "0 0")],
        &[("3", "0 1"), ("6 0", "0 0")],
        &[("3", "0 1"), ("6 1", "0 0"), ("6 1", "0 0")],
        &[("3", "0 1"), ("7 1", "0"), ("15 1", "0 0 0 0")],
        &[("3", "0 1"), ("4 1 0", "0 1 0 0 0 0 0 0 0 0")],
        &[("9 0", "0 1")],
        &[("9 4", "0 1")],
        &[("10 0 0", "0 1")],
        &[("10 0 2", "0 0")],
        &[("11 0", "0 0")],
        &[("13", "0 1")],
    ];
    for dialogue in wrong {
        assert_eq!(judged(dialogue), Err(dialogue.len() as u64), "{dialogue:?}");
    }
}

/// Two sessions that both read 100 and both draw on it: the second is doomed and must be told so.
#[test]
fn a_lost_update_is_refused() {
    let dialogue = [
        ("1 0 0 1 100", "0"),
        ("2 0 1 0 0 0 0 0 0 0 0", "0"),
        ("3", "0 1"),
        ("3", "0 2"),
        ("4 1 0", "0 1 1 1 100 0 0 0 0 0"),
        ("4 2 0", "0 0 1 1 100 0 0 0 0 0"),
        ("5 1 0 0 1 75", "0 1"),
        ("6 1", "0 1"),
        ("5 2 1 0 1 1", "0 1"),
        ("6 2", "0 2"),
    ];
    assert_eq!(judged(&dialogue), Err(9));
    assert!(judged(&dialogue[..8]).is_ok());
    assert_eq!(judged(&[&dialogue[..8], &[("6 2", "0 1")]].concat()), Err(9));
    assert!(judged(&[&dialogue[..8], &[("6 2", "3"), ("6 2", "2")]].concat()).is_ok());
}

/// A change that would meet refusal 8 at its place in commit order meets another's lease before.
#[test]
fn a_change_that_does_not_fit_its_place_is_refused() {
    let dialogue = [
        ("3", "0 1"),
        ("3", "0 2"),
        ("5 1 0 0 3 2147483647", "0 1"),
        ("5 2 0 0 3 1", "0 1"),
        ("6 1", "0 1"),
        ("6 2", "0 2"),
    ];
    assert_eq!(judged(&dialogue), Err(4));
}

/// The row of a session in a slow worker's hand was swept, and its draws were made twice.
#[test]
fn a_second_done_is_refused() {
    let dialogue = [
        ("3", "0 1"),
        ("5 1 0 0 3 -600", "0 1"),
        ("6 1", "0 1"),
        ("9 0", "0 1"),
        ("10 0 1", "0 0"),
        ("8 300", "0 300"),
        ("9 1", "0 1"),
        ("10 1 0", "0 2"),
        ("11 1", "0 1"),
        ("10 0 0", "0 1"),
    ];
    assert_eq!(judged(&dialogue), Err(10));
}

/// Calls and answers after which sixteen keys are cached, 0 to 15 in this order, by session 1. Keys 16 and 17 are not;
/// key k is at field 0 of document k.
fn sixteen_cached() -> Vec<(String, String)> {
    let map = |key: u64| (format!("2 {key} 1 {key} 0 0 0 0 0 0 0"), "0".to_string());
    let mut dialogue: Vec<(String, String)> = (0..18).map(map).collect();
    dialogue.push(("3".to_string(), "0 1".to_string()));
    dialogue.extend((0..16).map(|key| with_words(&format!("4 1 {key}"), "0 1")));
    dialogue
}

/// The call and its answer; after the mark of a read the words of an absent field.
fn with_words(call: &str, answer: &str) -> (String, String) {
    let words = if call.starts_with("4 ") && answer.starts_with("0 ") { " 0 0 0 0 0 0 0 0" } else { "" };
    (call.to_string(), format!("{answer}{words}"))
}

/// With sixteen cached the dialogue is held, and its last line is a read whose other mark is refused there.
fn last_mark_is_held(dialogue: &[(&str, &str)]) {
    let mut whole = sixteen_cached();
    whole.extend(dialogue.iter().map(|(call, answer)| with_words(call, answer)));
    assert!(judged(&whole).is_ok(), "{dialogue:?}: {:?}", judged(&whole));
    let lines = whole.len() as u64;
    let (call, right) = dialogue[dialogue.len() - 1];
    let wrong = if right == "0 0" { "0 1" } else { "0 0" };
    *whole.last_mut().unwrap() = with_words(call, wrong);
    assert_eq!(judged(&whole), Err(lines), "{dialogue:?} with {wrong}");
}

#[test]
fn which_key_gives_way_is_held() {
    // None of sixteen is gone; then the first is, and neither the second nor the newest.
    last_mark_is_held(&[("4 1 0", "0 0")]);
    last_mark_is_held(&[("4 1 16", "0 1")]);
    last_mark_is_held(&[("4 1 16", "0 1"), ("4 1 0", "0 1")]);
    last_mark_is_held(&[("4 1 16", "0 1"), ("4 1 1", "0 0")]);
    last_mark_is_held(&[("4 1 16", "0 1"), ("4 1 15", "0 0")]);
    last_mark_is_held(&[("4 1 16", "0 1"), ("4 1 16", "0 0")]);
    last_mark_is_held(&[("4 1 16", "0 1"), ("8 0", "0 0"), ("4 1 17", "0 1"), ("8 299", "0 299"), ("4 1 1", "0 1")]);
}

#[test]
fn a_hit_counted_as_caching_is_refused() {
    last_mark_is_held(&[("4 1 0", "0 0"), ("4 1 16", "0 1"), ("4 1 0", "0 1")]);
    last_mark_is_held(&[("4 1 0", "0 0"), ("4 1 16", "0 1"), ("4 1 1", "0 0")]);
}

#[test]
fn a_commit_counted_as_caching_is_refused() {
    // Unset leaves the field absent and is a change all the same.
    let commit = [("6 1", "0 0"), ("3", "0 2"), ("5 2 0 0 2 0", "0 1"), ("6 2", "0 1"), ("3", "0 3")];
    last_mark_is_held(&[&commit[..], &[("4 3 0", "0 0")]].concat());
    last_mark_is_held(&[&commit[..], &[("4 3 16", "0 1"), ("4 3 0", "0 1")]].concat());
    last_mark_is_held(&[&commit[..], &[("4 3 16", "0 1"), ("4 3 1", "0 0")]].concat());
}

#[test]
fn a_read_that_cached_nothing_gives_no_place() {
    last_mark_is_held(&[("14 0", "0"), ("4 1 16", "20"), ("4 1 0", "0 0")]);
    last_mark_is_held(&[("5 1 16 0 2 0", "0 1"), ("4 1 16", "0 2"), ("4 1 0", "0 0")]);
    // Neither does the own change to a cached key drop it.
    last_mark_is_held(&[("5 1 0 0 2 0", "0 1"), ("4 1 0", "0 2"), ("7 1", "0"), ("3", "0 2"), ("4 2 0", "0 0")]);
}

#[test]
fn what_a_lapse_drops_is_held() {
    // Session 2 holds document 0 and lapses to the tick; the key counts anew when it comes back.
    let lapse = [("6 1", "0 0"), ("3", "0 2"), ("4 2 0", "0 0"), ("8 300", "0 300"), ("3", "0 3")];
    last_mark_is_held(&[&lapse[..3], &[("8 299", "0 299"), ("3", "0 3"), ("4 3 0", "0 0")]].concat());
    last_mark_is_held(&[&lapse[..], &[("4 3 0", "0 1")]].concat());
    last_mark_is_held(&[&lapse[..], &[("4 3 1", "0 0")]].concat());
    last_mark_is_held(&[&lapse[..], &[("4 3 16", "0 1"), ("4 3 1", "0 0")]].concat());
    last_mark_is_held(&[&lapse[..], &[("4 3 0", "0 1"), ("4 3 16", "0 1"), ("4 3 0", "0 0")]].concat());
    last_mark_is_held(&[&lapse[..], &[("4 3 0", "0 1"), ("4 3 16", "0 1"), ("4 3 1", "0 1")]].concat());
    // A session lapses a thousand ticks after its begin, whatever it holds.
    let begun = [("6 1", "0 0"), ("3", "0 2"), ("8 900", "0 900"), ("4 2 0", "0 0"), ("8 99", "0 999")];
    last_mark_is_held(&[&begun[..], &[("4 2 0", "0 0")]].concat());
    last_mark_is_held(&[&begun[..], &[("8 1", "0 1000"), ("3", "0 3"), ("4 3 0", "0 1")]].concat());
    // From shared to exclusive the grant is fresh; an exclusive one is not renewed.
    let fresh = [("6 1", "0 0"), ("3", "0 2"), ("4 2 0", "0 0"), ("8 200", "0 200"), ("5 2 0 1 2 0", "0 1")];
    let used = [("8 299", "0 499"), ("5 2 0 1 2 0", "0 2"), ("4 2 0", "0 0")];
    last_mark_is_held(&[&fresh[..], &used[..]].concat());
    last_mark_is_held(&[&fresh[..], &used[..], &[("8 1", "0 500"), ("3", "0 3"), ("4 3 0", "0 1")]].concat());
}

/// A session that was doomed by another's change or ended by refusal 4 holds nothing: its lapse drops nothing.
#[test]
fn sessions_that_hold_nothing_drop_nothing() {
    let doomed = [("3", "0 2"), ("5 2 0 1 2 0", "0 1"), ("8 300", "0 300"), ("3", "0 3")];
    last_mark_is_held(&[&doomed[..], &[("4 3 0", "0 1")]].concat());
    last_mark_is_held(&[&doomed[..], &[("4 3 1", "0 0")]].concat());
    let hindered = [("3", "0 2"), ("5 2 17 1 2 0", "0 1"), ("4 1 17", "4"), ("8 1000", "0 1000"), ("3", "0 3")];
    last_mark_is_held(&[&hindered[..], &[("4 3 0", "0 0")]].concat());
    let refused = [("3", "0 2"), ("5 2 17 1 2 0", "0 1"), ("5 1 17 0 2 0", "4"), ("8 300", "0 300"), ("3", "0 3")];
    last_mark_is_held(&[&refused[..], &[("4 3 15", "0 0")]].concat());
}

fn owned(dialogue: &[(&str, &str)]) -> Vec<(String, String)> {
    dialogue.iter().map(|(call, answer)| (call.to_string(), answer.to_string())).collect()
}

/// The session begins, makes a change and commits; nothing else is buffered.
fn committed(session: u64) -> Vec<(String, String)> {
    owned(&[("3", &format!("0 {session}")), (&format!("5 {session} 0 0 3 1"), "0 1"), (&format!("6 {session}"), "0 1")])
}

/// Sessions from the first to the last, each committed, carried and deleted by worker 0: their rows may go.
fn carried(first: u64, last: u64) -> Vec<(String, String)> {
    let carry = |session| owned(&[("9 0", &format!("0 {session}")), ("10 0 0", "0 1"), ("11 0", "0 1")]);
    (first..=last).flat_map(|session| [committed(session), carry(session)].concat()).collect()
}

/// The session is in the hand of worker 1, which heard nothing; worker 0 deleted it after the first 300 ticks.
fn carried_past(session: u64) -> Vec<(String, String)> {
    let taken = format!("0 {session}");
    let slow = [("9 1", &taken[..]), ("10 1 1", "0 0"), ("8 300", "0 300")];
    let quick = [("9 0", &taken[..]), ("10 0 0", "0 2"), ("11 0", "0 1")];
    [committed(session), owned(&slow), owned(&quick)].concat()
}

/// The dialogue and then these lines are held, but refused at the last line with each of the wrong answers there.
fn last_answer_is_held(dialogue: &[(String, String)], lines: &[(&str, &str)], wrong: &[&str]) {
    let mut whole = [dialogue, &owned(lines)[..]].concat();
    assert!(judged(&whole).is_ok(), "{lines:?}: {:?}", judged(&whole));
    let last = whole.len() as u64;
    for answer in wrong {
        whole.last_mut().unwrap().1 = answer.to_string();
        assert_eq!(judged(&whole), Err(last), "{lines:?} with {answer}");
    }
}

#[test]
fn the_number_of_rows_removed_is_held() {
    for (rows, due) in [(0, 0), (1, 1), (2, 2), (15, 15), (16, 16), (17, 16), (18, 16), (32, 16), (48, 16)] {
        for removed in [0, 1, 2, 14, 15, 16, 17, 18, 32, 48] {
            let mut dialogue = carried(1, rows);
            dialogue.push(("13".to_string(), format!("0 {removed}")));
            let expected = if removed == due { None } else { Some(6 * rows + 1) };
            assert_eq!(judged(&dialogue).err(), expected, "{removed} of {rows} rows");
        }
    }
    // What is left counts on: the second sweep takes the rest, a third nothing.
    let seventeen = carried(1, 17);
    last_answer_is_held(&seventeen, &[("13", "0 16"), ("13", "0 1")], &["0 0", "0 2", "0 16"]);
    last_answer_is_held(&seventeen, &[("13", "0 16"), ("13", "0 1"), ("13", "0 0")], &["0 1", "0 16"]);
}

/// A row in a slow worker's hand and one that is still buffered are neither removed nor counted.
#[test]
fn rows_that_may_not_go_are_held() {
    let dialogue = [carried(1, 3), carried_past(4), carried(5, 18), committed(19)].concat();
    let applied = [("9 2", "0 19"), ("10 2 0", "0 1")];
    // 17 of 19 may go: 1 to 3 and 5 to 18.
    last_answer_is_held(&dialogue, &[&applied[..], &[("13", "0 16")]].concat(), &["0 3", "0 15", "0 17"]);
    let swept = [&applied[..], &[("13", "0 16"), ("13", "0 1"), ("13", "0 0")]].concat();
    last_answer_is_held(&dialogue, &swept, &["0 1", "0 2"]);
    // Both rows are there still: done before, and the applied one goes with its delete.
    last_answer_is_held(&dialogue, &[&swept[..], &[("10 1 0", "0 2")]].concat(), &["0 1", "0 0", "19"]);
    let replied = [&swept[..], &[("10 1 0", "0 2"), ("13", "0 0")]].concat();
    last_answer_is_held(&dialogue, &replied, &["0 1"]);
    last_answer_is_held(&dialogue, &[&replied[..], &[("11 1", "0 0"), ("13", "0 1")]].concat(), &["0 0", "0 2"]);
    last_answer_is_held(&dialogue, &[&replied[..], &[("12 1", "0"), ("13", "0 1")]].concat(), &["0 0", "0 2"]);
    last_answer_is_held(&dialogue, &[&replied[..], &[("12 2", "0"), ("13", "0 0")]].concat(), &["0 1"]);
    last_answer_is_held(&dialogue, &[&replied[..], &[("11 2", "0 1"), ("13", "0 1")]].concat(), &["0 0", "0 2"]);
}

/// How many rows stand shows in 19: a sweep makes room for as many as it removed.
#[test]
fn a_full_table_is_held() {
    let full = [carried(1, 48), committed(49)].concat();
    let taken = ("9 0", "0 49");
    last_answer_is_held(&full, &[taken, ("10 0 0", "19")], &["0 0", "0 1", "0 2", "17", "20"]);
    last_answer_is_held(&full, &[taken, ("10 0 1", "0 0"), ("10 0 0", "19")], &["0 1", "0 2"]);
    last_answer_is_held(&full, &[taken, ("10 0 1", "0 0")], &["19", "0 1"]);
    last_answer_is_held(&full, &[taken, ("10 0 2", "0 0")], &["19", "0 1"]);
    last_answer_is_held(&full, &[taken, ("13", "0 16"), ("10 0 0", "0 1")], &["0 2", "19"]);
    last_answer_is_held(&full, &[taken, ("14 0", "0"), ("10 0 0", "20")], &["19", "17", "0 1"]);
    last_answer_is_held(&full, &[taken, ("14 0", "0"), ("10 0 2", "20")], &["19", "0 0"]);
    last_answer_is_held(&full, &[taken, ("10 1 0", "17")], &["19", "1", "20", "0 1"]);
    last_answer_is_held(&full, &[taken, ("10 0 3", "1")], &["19", "17", "0 0"]);
    // The sixteenth session after the sweep has room, the seventeenth has none.
    let swept = owned(&[("13", "0 16"), taken, ("10 0 0", "0 1"), ("11 0", "0 1")]);
    let again = [full, swept, carried(50, 63)].concat();
    let sixteenth = [again.clone(), committed(64)].concat();
    last_answer_is_held(&sixteenth, &[("9 0", "0 64"), ("10 0 0", "0 1")], &["19"]);
    let seventeenth = [again, carried(64, 64), committed(65)].concat();
    last_answer_is_held(&seventeenth, &[("9 0", "0 65"), ("10 0 0", "19")], &["0 1", "0 2"]);
    // With its own row a session is done before, also where no room is left.
    let own = [carried(1, 47), committed(48)].concat();
    last_answer_is_held(&own, &[("9 0", "0 48"), ("10 0 1", "0 0"), ("10 0 0", "0 2")], &["19", "0 1"]);
}

#[test]
fn a_sweep_without_the_store_is_refused() {
    let dialogue = carried(1, 17);
    let away = ("14 0", "0");
    last_answer_is_held(&dialogue, &[away, ("13", "20")], &["0 0", "0 16", "1", "18"]);
    last_answer_is_held(&dialogue, &[away, ("13", "20"), ("14 1", "0"), ("13", "0 16")], &["20", "0 1", "0 0"]);
    last_answer_is_held(&dialogue, &[("14 1", "0"), ("13", "0 16")], &["20", "23"]);
    last_answer_is_held(&dialogue, &[("14 2", "1"), ("13", "0 16")], &["20"]);
    assert_eq!(judged(&[("14 2", "0")]), Err(1));
    // A line that is no sweep is not held as one.
    last_answer_is_held(&dialogue, &[("13 1", "23"), ("13", "0 16")], &["0 17"]);
}

/// The words of a list.
fn list_words(members: &[i32]) -> String {
    list(members).words().map(|word| word.to_string()).join(" ")
}

/// The ways in which a pull of the value from the list shows: calls and answers up to the read that shows it, which is
/// not among them, with the read and its mark. The list is field 0 of document 0, and key 0 shows it.
fn pulls_shown(members: &[i32], value: i32) -> [(Vec<(String, String)>, &'static str, u8); 5] {
    let push = |member: &i32| (format!("1 0 0 5 {member}"), "0".to_string());
    let loaded: Vec<_> = members.iter().map(push).chain(owned(&[("2 0 1 0 0 0 0 0 0 0 0", "0")])).collect();
    let (load, pull) = (format!("1 0 0 6 {value}"), format!("5 1 0 0 6 {value}"));
    let before = format!("0 1 {}", list_words(members));
    let pulled = [("3", "0 1"), (&pull[..], "0 1")];
    let committed = [&pulled[..], &[("6 1", "0 1"), ("3", "0 2")]].concat();
    let cached = [&[("3", "0 1"), ("4 1 0", &before[..])], &committed[1..]].concat();
    let carried = [&committed[..3], &[("9 0", "0 1"), ("10 0 0", "0 1"), ("11 0", "0 1"), ("3", "0 2")]].concat();
    let way = |lines: &[(&str, &str)], read, mark| ([&loaded[..], &owned(lines)].concat(), read, mark);
    [
        way(&[(&load, "0"), ("3", "0 1")], "4 1 0", 1),
        way(&pulled, "4 1 0", 2),
        way(&cached, "4 2 0", 0),
        way(&committed, "4 2 0", 1),
        way(&carried, "4 2 0", 1),
    ]
}

/// By load, in the session's own read, from the cache, from the buffer and from the store: only these words are held.
fn pulled_words_are_held(members: &[i32], value: i32, left: &[i32], wrong: &[&str]) {
    for (dialogue, read, mark) in pulls_shown(members, value) {
        let wrong: Vec<String> = wrong.iter().map(|words| format!("0 {mark} {words}")).collect();
        let wrong: Vec<&str> = wrong.iter().map(String::as_str).collect();
        last_answer_is_held(&dialogue, &[(read, &format!("0 {mark} {}", list_words(left)))], &wrong);
    }
}

#[test]
fn members_that_a_wrong_pull_leaves_are_refused() {
    let six = &[4, 7, 4, 7, 5, 4];
    let wrong: &[&[i32]] = &[
        // Only the first goes, only the last, none; the last stays, the first; those before the last go too.
        &[7, 4, 7, 5, 4],
        &[4, 7, 4, 7, 5],
        six,
        &[7, 7, 5, 4],
        &[4, 7, 7, 5],
        &[],
        // Others go too, or the order is lost.
        &[7, 5],
        &[5, 7, 7],
    ];
    let wrong: Vec<String> = wrong.iter().map(|members| list_words(members)).collect();
    let mut wrong: Vec<&str> = wrong.iter().map(String::as_str).collect();
    // Values behind the count, and a count that is only one less.
    wrong.extend(["2 3 7 7 5 7 5 4", "2 3 7 7 5 0 0 4", "2 5 7 7 5 0 0 0"]);
    pulled_words_are_held(six, 4, &[7, 7, 5], &wrong);
    // Those before the first equal one go too, or only neighbours do.
    pulled_words_are_held(six, 7, &[4, 4, 5, 4], &[&list_words(&[4, 5, 4]), &list_words(&[4, 4, 7, 5, 4])]);
    pulled_words_are_held(six, 5, &[4, 7, 4, 7, 4], &[&list_words(&[4]), &list_words(&[4, 7])]);
    pulled_words_are_held(&[4, 4, 7, 4], 4, &[7], &[&list_words(&[7, 4]), &list_words(&[4, 7, 4])]);
}

#[test]
fn an_emptied_list_that_becomes_absent_is_refused() {
    let absent = "0 0 0 0 0 0 0 0";
    pulled_words_are_held(&[4, 4, 4, 4, 4, 4], 4, &[], &[absent, &list_words(&[4]), &list_words(&[4, 4, 4, 4, 4])]);
    pulled_words_are_held(&[0, 0], 0, &[], &[absent, &list_words(&[0]), &list_words(&[0, 0])]);
    pulled_words_are_held(&[-2_147_483_648], -2_147_483_648, &[], &[absent]);
}

#[test]
fn a_pull_of_what_is_not_there_is_held() {
    pulled_words_are_held(&[4, 7, 4], 5, &[4, 7, 4], &[&list_words(&[4, 7]), &list_words(&[7, 4]), &list_words(&[])]);
    // Unused values are 0 and no members.
    pulled_words_are_held(&[4, 4], 0, &[4, 4], &[&list_words(&[4]), &list_words(&[])]);
}

/// The session's own read has the right meaning, what was carried to the store the former one.
#[test]
fn a_store_with_another_meaning_is_refused() {
    let dialogue = owned(&[
        ("1 0 0 5 4", "0"),
        ("1 0 0 5 7", "0"),
        ("1 0 0 5 4", "0"),
        ("2 0 1 0 0 0 0 0 0 0 0", "0"),
        ("3", "0 1"),
        ("4 1 0", "0 1 2 3 4 7 4 0 0 0"),
        ("5 1 0 0 6 4", "0 1"),
        ("4 1 0", "0 2 2 1 7 0 0 0 0 0"),
        ("6 1", "0 1"),
        ("3", "0 2"),
        ("4 2 0", "0 0 2 1 7 0 0 0 0 0"),
        ("9 0", "0 1"),
        ("10 0 0", "0 1"),
        ("11 0", "0 1"),
    ]);
    let former = "0 1 2 2 7 4 0 0 0 0";
    last_answer_is_held(&dialogue, &[("4 2 0", "0 0 2 1 7 0 0 0 0 0")], &["0 0 2 2 7 4 0 0 0 0"]);
    let dropped = [("8 300", "0 300"), ("3", "0 3"), ("4 3 0", "0 1 2 1 7 0 0 0 0 0")];
    last_answer_is_held(&dialogue, &dropped, &[former, "0 1 2 3 4 7 4 0 0 0"]);
}

/// How many members a pull left shows in 7: a push is refused where the list is full and only there.
#[test]
fn the_room_that_a_pull_makes_is_held() {
    let push = |member| (format!("1 0 0 5 {member}"), "0".to_string());
    let loaded: Vec<_> = [4, 7, 4, 7, 5, 4].map(push).to_vec();
    last_answer_is_held(&loaded, &[("1 0 0 5 4", "7")], &["0", "1", "6", "8", "12", "20"]);
    last_answer_is_held(&loaded, &[("1 0 0 4 4", "0")], &["7"]);
    last_answer_is_held(&loaded, &[("1 0 0 4 9", "7")], &["0", "6"]);
    let load = [("1 0 0 6 4", "0"), ("1 0 0 5 9", "0"), ("1 0 0 5 9", "0"), ("1 0 0 5 9", "0")];
    for lines in 1..=4 {
        last_answer_is_held(&loaded, &load[..lines], &["6", "7", "8"]);
    }
    last_answer_is_held(&loaded, &[&load[..], &[("1 0 0 5 9", "7")]].concat(), &["0", "6"]);
    let session = [("3", "0 1"), ("5 1 0 0 6 4", "0 1"), ("5 1 0 0 5 9", "0 2"), ("5 1 0 0 4 8", "0 3")];
    last_answer_is_held(&loaded, &[("3", "0 1"), ("5 1 0 0 5 4", "7")], &["0 1", "6", "8"]);
    for lines in 2..=4 {
        last_answer_is_held(&loaded, &session[..lines], &["6", "7", "8"]);
    }
    let full = [&session[..], &[("5 1 0 0 5 9", "0 4"), ("5 1 0 0 5 9", "7")]].concat();
    last_answer_is_held(&loaded, &full, &["0 5", "6", "8"]);
}

/// Pull is refused 6 on a number and only there, by load and by a session.
#[test]
fn the_kind_that_a_pull_needs_is_held() {
    let number = owned(&[("1 0 0 1 4", "0")]);
    last_answer_is_held(&number, &[("1 0 0 6 4", "6")], &["0", "7", "8"]);
    last_answer_is_held(&number, &[("3", "0 1"), ("5 1 0 0 6 4", "6")], &["0 1", "7", "8"]);
    last_answer_is_held(&[], &[("1 0 0 6 4", "0")], &["6", "7"]);
    last_answer_is_held(&[], &[("3", "0 1"), ("5 1 0 0 6 4", "0 1")], &["6", "7"]);
    // An emptied list is none the less a list: inc does not go with it.
    let emptied = owned(&[("1 0 0 5 4", "0"), ("1 0 0 5 4", "0"), ("1 0 0 6 4", "0")]);
    last_answer_is_held(&emptied, &[("1 0 0 3 1", "6")], &["0"]);
    last_answer_is_held(&emptied, &[("3", "0 1"), ("5 1 0 0 3 1", "6")], &["0 1", "8"]);
    last_answer_is_held(&emptied, &[("3", "0 1"), ("5 1 0 0 6 4", "0 1")], &["6"]);
    // Other conditions of load stand before.
    last_answer_is_held(&number, &[("14 0", "0"), ("1 0 0 6 4", "20")], &["6", "0", "12"]);
    last_answer_is_held(&number, &[("3", "0 1"), ("1 0 0 6 4", "12")], &["6", "0", "20"]);
    last_answer_is_held(&number, &[("1 0 0 7 4", "1")], &["6", "0", "12"]);
    last_answer_is_held(&number, &[("3", "0 1"), ("5 1 64 0 6 4", "1")], &["6", "7"]);
    last_answer_is_held(&number, &[("5 1 0 0 6 4", "2")], &["6", "7", "0 1"]);
}

const NUMBER: &str = "1 1 100 0 0 0 0 0";
const MEMBER: &str = "2 1 7 0 0 0 0 0";

/// 100 at field 0 of document 0 and a list of 7 at that of document 1. Key 0 shows the first, key 1 both, key 2 the
/// second. Then these lines.
fn stocked(lines: &[(&str, &str)]) -> Vec<(String, String)> {
    let set_up = [
        ("1 0 0 1 100", "0"),
        ("1 1 0 5 7", "0"),
        ("2 0 1 0 0 0 0 0 0 0 0", "0"),
        ("2 1 2 0 0 1 0 0 0 0 0", "0"),
        ("2 2 1 1 0 0 0 0 0 0 0", "0"),
    ];
    owned(&[&set_up[..], lines].concat())
}

const AWAY: (&str, &str) = ("14 0", "0");

/// The number can be told by session 9 without the store: reads of key 0 and changes of it must not be refused 20.
fn number_is_known(before: &[(&str, &str)], mark: u8, number: i64) {
    let dialogue = stocked(before);
    let read = format!("0 {mark} 1 1 {number} 0 0 0 0 0");
    last_answer_is_held(&dialogue, &[("4 9 0", &read)], &["20", "9", "4", "3", "2", "1"]);
    last_answer_is_held(&dialogue, &[("5 9 0 0 4 7", "6")], &["20", "0 1", "7"]);
    last_answer_is_held(&dialogue, &[("5 9 0 0 3 2147483647", "8")], &["20", "0 1", "6"]);
    let count = before.iter().filter(|(call, _)| call.starts_with("5 9 ")).count() + 1;
    last_answer_is_held(&dialogue, &[("5 9 0 0 3 1", &format!("0 {count}"))], &["20", "8", "6", "5", "4", "3"]);
    last_answer_is_held(&dialogue, &[("5 9 0 0 1 1", &format!("0 {count}"))], &["20", "8", "6", "5", "4", "3"]);
}

/// It cannot: each read of it and each change 3 to 6 must be refused 20, and neither set nor unset.
fn number_is_unknown(before: &[(&str, &str)], number: i64) {
    let dialogue = stocked(before);
    let words = format!("1 1 {number} 0 0 0 0 0");
    let shown = [0, 1, 2].map(|mark| format!("0 {mark} {words}"));
    let wrong = [&shown.each_ref().map(|shown| &shown[..])[..], &["9", "4", "3", "2", "1"]].concat();
    last_answer_is_held(&dialogue, &[("4 9 0", "20")], &wrong);
    let shown = [0, 1, 2].map(|mark| format!("0 {mark} {words} {MEMBER}"));
    last_answer_is_held(&dialogue, &[("4 9 1", "20")], &shown.each_ref().map(|shown| &shown[..]));
    let count = before.iter().filter(|(call, _)| call.starts_with("5 9 ")).count() + 1;
    let accepted = format!("0 {count}");
    for change in ["3 1", "3 2147483647", "4 7", "5 7", "6 7"] {
        last_answer_is_held(&dialogue, &[(&format!("5 9 0 0 {change}"), "20")], &[&accepted, "6", "7", "8", "5", "4"]);
    }
    for change in ["1 5", "2 0"] {
        last_answer_is_held(&dialogue, &[(&format!("5 9 0 0 {change}"), &accepted)], &["20", "6", "8"]);
    }
}

/// Eight sessions, each with its change of field 0 of document 0, or none, that commit in their order; then session 9
/// begins and the store goes away.
fn eight_sessions(changes: &[(u64, &str)]) -> Vec<(String, String)> {
    let mut lines: Vec<(String, String)> = Vec::new();
    let mut buffered = 0;
    for session in 1..=8 {
        lines.push(("3".to_string(), format!("0 {session}")));
        for (_, change) in changes.iter().filter(|&&(of, _)| of == session) {
            lines.push((format!("5 {session} 0 0 {change}"), "0 1".to_string()));
            buffered += 1;
        }
        lines.push((format!("6 {session}"), format!("0 {buffered}")));
    }
    lines.extend(owned(&[("3", "0 9"), AWAY]));
    lines
}

/// The lines with references, and these behind them.
fn followed<'a>(lines: &'a [(String, String)], more: &[(&'a str, &'a str)]) -> Vec<(&'a str, &'a str)> {
    lines.iter().map(|(call, answer)| (&call[..], &answer[..])).chain(more.iter().copied()).collect()
}

#[test]
fn with_the_store_near_20_is_refused() {
    let lines = eight_sessions(&[]);
    number_is_known(&followed(&lines, &[("14 1", "0")]), 1, 100);
    number_is_known(&followed(&lines[..lines.len() - 1], &[]), 1, 100);
    let lines = eight_sessions(&[(3, "3 -25")]);
    number_is_known(&followed(&lines, &[("14 1", "0")]), 1, 75);
}

#[test]
fn what_nothing_tells_is_held_to_20() {
    number_is_unknown(&followed(&eight_sessions(&[]), &[]), 100);
    // Neither an inc of it nor sets beside it tell anything.
    number_is_unknown(&followed(&eight_sessions(&[(2, "3 1"), (8, "3 1")]), &[]), 102);
    let beside = [("5 9 0 1 1 100", "0 1"), ("5 9 1 0 2 0", "0 2"), ("5 9 1 0 5 7", "0 3")];
    number_is_unknown(&followed(&eight_sessions(&[]), &beside), 100);
    // Set or unset in the starting stock or by a page that is not committed.
    let abandoned = [("3", "0 10"), ("5 10 0 0 1 100", "0 1"), ("7 10", "0")];
    number_is_unknown(&followed(&eight_sessions(&[]), &abandoned), 100);
}

#[test]
fn what_a_buffered_page_tells_is_held() {
    for session in [1, 4, 8] {
        number_is_known(&followed(&eight_sessions(&[(session, "1 100")]), &[]), 1, 100);
    }
    number_is_known(&followed(&eight_sessions(&[(1, "2 0"), (2, "3 5"), (7, "3 6")]), &[]), 1, 11);
    number_is_known(&followed(&eight_sessions(&[(1, "3 5"), (2, "2 0"), (7, "3 6")]), &[]), 1, 6);
    number_is_known(&followed(&eight_sessions(&[(1, "1 5"), (2, "1 6")]), &[]), 1, 6);
}

/// The oldest page has its row, and tells until it is deleted.
#[test]
fn what_a_deleted_page_told_is_held_to_20() {
    let lines = eight_sessions(&[(1, "1 5"), (2, "3 6"), (5, "3 7")]);
    let applied = [("14 1", "0"), ("9 0", "0 1"), ("10 0 0", "0 1"), AWAY];
    number_is_known(&followed(&lines, &applied), 1, 18);
    let deleted = [&applied[..], &[("11 0", "0 1")]].concat();
    number_is_unknown(&followed(&lines, &deleted), 18);
    // An own inc made before tells nothing.
    let own = [&applied[..], &[("5 9 0 0 3 2", "0 1"), ("11 0", "0 1")]].concat();
    number_is_unknown(&followed(&lines, &own), 20);
    let lost = [("14 1", "0"), ("9 0", "0 1"), ("10 0 1", "0 0"), AWAY, ("12 0", "0")];
    number_is_known(&followed(&lines, &lost), 1, 18);
    // Deleted while the store is near; a set in a later page tells on.
    let near = [&applied[..3], &[("11 0", "0 1"), AWAY]].concat();
    number_is_unknown(&followed(&lines, &near), 18);
    let lines = eight_sessions(&[(1, "1 5"), (2, "1 6"), (5, "3 7")]);
    number_is_known(&followed(&lines, &deleted), 1, 13);
}

#[test]
fn what_own_changes_tell_is_held() {
    let lines = eight_sessions(&[]);
    number_is_known(&followed(&lines, &[("5 9 0 0 1 4", "0 1")]), 2, 4);
    number_is_known(&followed(&lines, &[("5 9 0 0 2 0", "0 1"), ("5 9 0 0 3 4", "0 2")]), 2, 4);
    number_is_known(&followed(&lines, &[("5 9 0 0 1 4", "0 1"), ("5 9 0 1 1 8", "0 2")]), 2, 4);
    // All places of the key are needed, also for mark 2.
    let own = stocked(&followed(&lines, &[("5 9 0 0 1 4", "0 1"), ("4 9 1", "20")]));
    last_answer_is_held(&own, &[("4 9 1", "20")], &[&format!("0 2 1 1 4 0 0 0 0 0 {MEMBER}")]);
    let both = format!("0 2 1 1 4 0 0 0 0 0 {}", list_words(&[9]));
    let told = [("5 9 1 0 2 0", "0 2"), ("5 9 1 0 5 9", "0 3"), ("4 9 1", &both)];
    last_answer_is_held(&own, &told, &["20"]);
}

#[test]
fn what_cached_keys_tell_is_held() {
    let lines = eight_sessions(&[]);
    let (near, number, both) = (("14 1", "0"), format!("0 1 {NUMBER}"), format!("0 1 {NUMBER} {MEMBER}"));
    let cached = [near, ("3", "0 10"), ("4 10 0", &number), ("6 10", "0 0"), AWAY];
    number_is_known(&followed(&lines, &cached), 0, 100);
    // Key 1 has the place as well: key 0 is worked out from it.
    let other = [near, ("3", "0 10"), ("4 10 1", &both), ("6 10", "0 0"), AWAY];
    number_is_known(&followed(&lines, &other), 1, 100);
    // Key 1 has a place that key 0 does not show; key 2 shows it.
    let dialogue = stocked(&followed(&lines, &cached));
    last_answer_is_held(&dialogue, &[("4 9 1", "20")], &[&both, &format!("0 0 {NUMBER} {MEMBER}")]);
    last_answer_is_held(&dialogue, &[("5 9 1 0 6 7", "20")], &["0 1", "6"]);
    let second = [near, ("4 9 2", &format!("0 1 {MEMBER}")), AWAY, ("4 9 1", &both)];
    last_answer_is_held(&dialogue, &second, &["20"]);
    // A key that a lapse dropped tells nothing, and one that was cached by a refused read neither.
    let lapse = [near, ("3", "0 10"), ("4 10 0", &number), ("8 300", "0 300"), AWAY];
    number_is_unknown(&followed(&lines, &lapse), 100);
    let refused = [("4 9 0", "20"), ("4 9 1", "20")];
    number_is_unknown(&followed(&lines, &refused), 100);
}

/// A key that gave way tells nothing: with sixteen others cached it was the first.
#[test]
fn what_a_key_that_gave_way_told_is_held_to_20() {
    let sixteen = [sixteen_cached(), vec![with_words("4 1 16", "0 1"), with_words("14 0", "0")]].concat();
    last_answer_is_held(&sixteen, &[("4 1 0", "20")], &["0 1 0 0 0 0 0 0 0 0", "0 0 0 0 0 0 0 0 0 0"]);
    last_answer_is_held(&sixteen, &[("5 1 0 0 3 1", "20")], &["0 1"]);
    last_answer_is_held(&sixteen, &[("5 1 1 0 3 1", "0 1")], &["20"]);
    last_answer_is_held(&sixteen, &[("4 1 1", "0 0 0 0 0 0 0 0 0 0")], &["20"]);
}

/// Of the refusals whose conditions hold the first in the order is due.
#[test]
fn the_refusals_around_20_are_held() {
    let dialogue = stocked(&followed(&eight_sessions(&[]), &[("3", "0 10"), ("5 10 0 3 1 1", "0 1")]));
    last_answer_is_held(&dialogue, &[("4 9 32", "1")], &["20", "2", "9"]);
    last_answer_is_held(&dialogue, &[("5 9 0 0 7 1", "1")], &["20", "2", "4"]);
    last_answer_is_held(&dialogue, &[("4 8 0", "2")], &["20", "3", "4"]);
    last_answer_is_held(&dialogue, &[("5 11 0 0 3 1", "2")], &["20", "3", "4", "0 1"]);
    last_answer_is_held(&dialogue, &[("4 0 0", "2")], &["20", "3"]);
    last_answer_is_held(&dialogue, &[("4 9 5", "9")], &["20", "4"]);
    last_answer_is_held(&dialogue, &[("4 9 0", "4")], &["20", "3"]);
    last_answer_is_held(&dialogue, &[("4 9 0", "4"), ("4 9 2", "2")], &["20", "3", "4"]);
    last_answer_is_held(&dialogue, &[("5 9 0 0 3 1", "4")], &["20", "3", "0 1"]);
    last_answer_is_held(&dialogue, &[("5 9 1 0 3 1", "20")], &["4", "6"]);
    last_answer_is_held(&dialogue, &[("5 10 0 0 3 1", "20")], &["4", "0 2"]);
    let lapsed = [("8 300", "0 300"), ("4 10 0", "3"), ("4 10 0", "2")];
    last_answer_is_held(&dialogue, &lapsed[..2], &["20", "2"]);
    last_answer_is_held(&dialogue, &lapsed, &["20", "3"]);
    let mut eight: Vec<(String, String)> =
        (2..=8).map(|count| ("5 10 0 3 1 1".to_string(), format!("0 {count}"))).collect();
    eight = [dialogue, eight].concat();
    last_answer_is_held(&eight, &[("5 10 0 0 3 1", "5")], &["20", "0 9"]);
    last_answer_is_held(&eight, &[("5 10 0 3 1 1", "5")], &["20", "0 9"]);
    last_answer_is_held(&eight, &[("4 10 0", "20")], &["5", &format!("0 1 {NUMBER}")]);
}

/// Slots, and what the other calls of terminals are refused for.
#[test]
fn terminals_turned_away_without_reason_are_refused() {
    let begun: Vec<(String, String)> = (1..=8).map(|session| ("3".to_string(), format!("0 {session}"))).collect();
    last_answer_is_held(&begun[..7], &[("3", "0 8")], &["10", "11", "0 9"]);
    last_answer_is_held(&begun, &[("3", "10")], &["0 9", "11"]);
    let doomed = [("5 3 0 0 1 1", "0 1"), ("5 2 1 0 1 1", "0 1"), ("8 300", "0 300"), ("3", "0 9")];
    last_answer_is_held(&begun, &doomed, &["10"]);
    // The doomed one of lowest number has no slot any more.
    last_answer_is_held(&begun, &[&doomed[..], &[("15 2", "2")]].concat(), &["3", "0 0 0 0"]);
    last_answer_is_held(&begun, &[&doomed[..], &[("15 3", "3")]].concat(), &["2", "0 0 1 1"]);
    last_answer_is_held(&begun, &[&doomed[..], &[("15 3", "3"), ("3", "0 10"), ("3", "10")]].concat(), &["0 11"]);
    for (call, answer) in [("6 1", "0 0"), ("7 1", "0"), ("15 1", "0 0 0 0")] {
        last_answer_is_held(&begun, &[(call, answer)], &["2", "3", "15", "20"]);
        last_answer_is_held(&begun, &[("7 1", "0"), (call, "2")], &[answer, "3"]);
    }
    // A full buffer turns away only a page with a change.
    let full: Vec<(String, String)> = (1..=32)
        .flat_map(|at| {
            owned(&[
                ("3", &format!("0 {at}")),
                (&format!("5 {at} 0 0 1 1"), "0 1"),
                (&format!("6 {at}"), &format!("0 {at}")),
            ])
        })
        .collect();
    last_answer_is_held(&full[..93], &[("3", "0 32"), ("5 32 0 0 1 1", "0 1"), ("6 32", "0 32")], &["15"]);
    last_answer_is_held(&full, &[("3", "0 33"), ("5 33 0 0 1 1", "0 1"), ("6 33", "15")], &["0 33", "2", "3"]);
    last_answer_is_held(&full, &[("3", "0 33"), ("6 33", "0 32")], &["15"]);
}

fn generated(seed: u64, lines: u64, profile: Profile) -> (Vec<u8>, Vec<u8>) {
    let (mut calls, mut answers) = (Vec::new(), Vec::new());
    generate(&mut calls, seed, lines, profile).unwrap();
    serve(&mut Plant::new(), &calls[..], &mut answers).unwrap();
    (calls, answers)
}

/// The lines of a file.
fn apart(file: &[u8]) -> Vec<&[u8]> {
    file.strip_suffix(b"\n").unwrap_or(file).split(|&byte| byte == b'\n').collect()
}

/// The file of these answers with one of them replaced.
fn replaced(answers: &[&[u8]], at: usize, answer: &[u8]) -> Vec<u8> {
    let mut lines = answers.to_vec();
    lines[at] = answer;
    [&lines.join(&b'\n')[..], b"\n"].concat()
}

#[test]
fn generated_files_are_held() {
    for profile in Profile::EXACT {
        for seed in 1..6 {
            let (calls, answers) = generated(seed, 5_000, profile);
            let held = judge(&calls, &answers).unwrap_or_else(|contradiction| panic!("{seed}: {contradiction}"));
            assert_eq!(held.lines, 5_000);
        }
    }
}

/// In generated files each number that the history determines is changed by one, one at a time.
#[test]
fn each_tampered_number_is_refused() {
    let files = [
        (1, Profile::Work),
        (2, Profile::Mixed),
        (3, Profile::Mixed),
        (4, Profile::Storm),
        (5, Profile::Hits),
        (6, Profile::Hits),
        (7, Profile::Sweeps),
        (8, Profile::Sweeps),
        (9, Profile::Pulls),
        (10, Profile::Pulls),
        (11, Profile::Away),
        (12, Profile::Away),
    ];
    for (seed, profile) in files {
        let (calls, answers) = generated(seed, 700, profile);
        let answers_apart = apart(&answers);
        let mut tampered_numbers = 0;
        for (at, answer) in answers_apart.iter().enumerate() {
            let numbers = answer.len() / 12;
            for number in 0..numbers {
                let columns = 2 + 12 * number..14 + 12 * number;
                let text = std::str::from_utf8(&answer[columns.clone()]).unwrap();
                let value: i64 = text.trim().parse().unwrap();
                let mut tampered = answer.to_vec();
                tampered[columns].copy_from_slice(format!("{:>12}", value + 1).as_bytes());
                let file = replaced(&answers_apart, at, &tampered);
                let contradiction = judge(&calls, &file).expect_err("a number was changed");
                assert_eq!(contradiction.line, at as u64 + 1);
                tampered_numbers += 1;
                // Of a read, the mark, the words of the first place and one more are enough.
                if number > 9 {
                    break;
                }
            }
        }
        assert!(tampered_numbers > 300, "{tampered_numbers}");
    }
}

/// In generated files each answer to a call of a terminal in form is replaced by each other refusal, one at a time.
#[test]
fn each_tampered_refusal_is_refused() {
    for (seed, profile) in [(1, Profile::Mixed), (2, Profile::Storm), (3, Profile::Away)] {
        let (calls, answers) = generated(seed, 500, profile);
        let answers_apart = apart(&answers);
        for (at, call) in apart(&calls).iter().enumerate() {
            let terminal = parse(call).is_ok_and(|call| matches!(call.call, 3..=7 | 15));
            for refusal in (1..=22).map(|refusal| format!("{refusal:>2}").into_bytes()) {
                if terminal && refusal != answers_apart[at][..2] {
                    let contradiction = judge(&calls, &replaced(&answers_apart, at, &refusal)).unwrap_err();
                    assert_eq!(contradiction.line, at as u64 + 1);
                }
            }
        }
    }
}
