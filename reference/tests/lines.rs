//! The form of lines: the paper's example and each case that the form allows or refuses.

mod common;

use common::{line, Desk};
use reference_plant::lines::{parse, read_number, write_number, COLUMNS};
use reference_plant::plant::Plant;
use reference_plant::random::Random;
use reference_plant::refusal::Refusal;
use reference_plant::serve::serve;
use std::io::{self, Read};

fn served(input: &[u8]) -> String {
    let mut output = Vec::new();
    serve(&mut Plant::new(), input, &mut output).unwrap();
    String::from_utf8(output).unwrap()
}

const EXAMPLE: &str = " 1           0           0           1         100
 3
 5           1           0           0           3         -25
 6           1
 9           0
10           0           1
";
const EXAMPLE_ANSWERS: &str = " 0
 0           1
 0           1
 0           1
 0           1
 0           0
";

#[test]
fn example_of_the_paper() {
    assert_eq!(served(EXAMPLE.as_bytes()), EXAMPLE_ANSWERS);
    assert_eq!(served(EXAMPLE.trim_end_matches('\n').as_bytes()), EXAMPLE_ANSWERS);
}

#[test]
fn ends_of_input() {
    assert_eq!(served(b""), "");
    assert_eq!(served(b"\n"), "23\n");
    assert_eq!(served(b"\n\n"), "23\n23\n");
    assert_eq!(served(b" 3"), " 0           1\n");
    assert_eq!(served(b" 3\n"), " 0           1\n");
    assert_eq!(served(b" 3\n "), " 0           1\n23\n");
    assert_eq!(served(b" 3\n\n 3"), " 0           1\n23\n 0           2\n");
}

#[test]
fn unknown_calls_are_refused_1_whatever_follows() {
    for columns in [" 0", "16", "17", "20", "50", "99"] {
        for rest in ["", " ", "x", "           0", "\t\r", "          -0", &"9".repeat(500)] {
            assert_eq!(served(format!("{columns}{rest}\n").as_bytes()), " 1\n", "{columns}{rest}");
        }
    }
    assert_eq!(served(b"16\xff\x00"), " 1\n");
}

#[test]
fn broken_call_columns_are_refused_23() {
    for columns in ["00", "05", "5 ", "  ", "-1", "+1", "1", " ", "3", "\t3", "3\t", "a1", "1a", " -", "0 ", "01", "0x"]
    {
        assert_eq!(served(columns.as_bytes()), "23\n", "{columns:?}");
        let longer = format!("{columns}           0");
        // A single byte followed by spaces is another broken column.
        assert_eq!(served(longer.as_bytes()), "23\n", "{longer:?}");
    }
    assert_eq!(served(b"\xb23"), "23\n");
    assert_eq!(served(b" 3\r\n"), "23\n");
}

#[test]
fn numbers_out_of_form_are_refused_23() {
    let wrong: [&[u8]; 26] = [
        b"          -0",
        b"         007",
        b"          00",
        b"         - 1",
        b"            ",
        b"           -",
        b"          1 ",
        b"0           ",
        b"          +1",
        b"         --1",
        b"         1-1",
        b"         1 1",
        b"\t          1",
        b"          \t1",
        b"          1\r",
        b"           \xb1",
        b"           \x80",
        b"           \xff",
        b"           /",
        b"           :",
        b"000000000001",
        b"-00000000001",
        b"-           ",
        b" 0         1",
        b"           ",
        b"            1",
    ];
    for columns in wrong {
        let mut line = b" 8".to_vec();
        line.extend_from_slice(columns);
        assert_eq!(parse(&line), Err(Refusal::BadLine), "{columns:?}");
    }
}

#[test]
fn lengths_are_exact() {
    for (call, numbers) in [(1, 4), (2, 10), (3, 0), (4, 2), (5, 5), (6, 1), (7, 1), (8, 1), (9, 1), (10, 2)]
        .into_iter()
        .chain([(11, 1), (12, 1), (13, 0), (14, 1), (15, 1)])
    {
        for given in 0..=12 {
            let short = format!("{call}{}", " 1".repeat(given));
            assert_eq!(parse(line(&short).as_bytes()).is_ok(), given == numbers, "{short}");
            let trailing = line(&short) + " ";
            assert_eq!(parse(trailing.as_bytes()), Err(Refusal::BadLine), "{short} and a space");
        }
    }
}

/// In a known call 23 stands before every 1, and before what the plant would say.
#[test]
fn form_before_range() {
    let mut desk = Desk::new();
    for wrong in [
        " 8          -1\r".as_bytes(),
        " 8       65536 ".as_bytes(),
        " 9           4          -0".as_bytes(),
        "10           4         007".as_bytes(),
        "14           2           2".as_bytes(),
    ] {
        assert_eq!(desk.raw(wrong), b"23\n", "{wrong:?}");
    }
    desk.expect(&[("8 -1", "1"), ("8 65536", "1"), ("9 4", "1"), ("10 4 7", "1"), ("14 2", "1")]);
}

#[test]
fn twelve_digits_are_in_form() {
    let mut desk = Desk::new();
    assert_eq!(desk.raw(b" 8999999999999"), b" 1\n");
    assert_eq!(desk.raw(b" 8-99999999999"), b" 1\n");
    assert_eq!(desk.raw(b" 6999999999999"), b" 2\n");
    assert_eq!(desk.raw(b" 6-99999999999"), b" 2\n");
    assert_eq!(read_number(b"999999999999"), Some(999_999_999_999));
    assert_eq!(read_number(b"-99999999999"), Some(-99_999_999_999));
    assert_eq!(read_number(b"100000000000"), Some(100_000_000_000));
}

/// The number in twelve columns as its definition says it, one column after the other.
fn defined_number(columns: &[u8; COLUMNS]) -> Option<i64> {
    let text = std::str::from_utf8(columns).ok()?.trim_start_matches(' ');
    let digits = text.strip_prefix('-').unwrap_or(text);
    let in_form = !digits.is_empty()
        && digits.bytes().all(|digit| digit.is_ascii_digit())
        && (digits == "0" || !digits.starts_with('0'))
        && text != "-0";
    in_form.then(|| text.parse().unwrap())
}

#[test]
fn numbers_are_read_as_defined() {
    let mut random = Random::new(1);
    for _ in 0..400_000 {
        // Columns that are mostly almost in form.
        let mut columns = [b' '; COLUMNS];
        let digits = random.below(13) as usize;
        for column in &mut columns[COLUMNS - digits..] {
            *column = b'0' + random.below(10) as u8;
        }
        if digits < COLUMNS && random.percent(40) {
            columns[COLUMNS - digits - 1] = b'-';
        }
        if random.percent(40) {
            columns[random.below(12) as usize] = random.pick(b" -0123456789\t\r\n:/\x00\x7f\x80\xff");
        }
        if random.percent(10) {
            columns[random.below(12) as usize] = random.below(256) as u8;
        }
        assert_eq!(read_number(&columns), defined_number(&columns), "{columns:?}");
    }
}

#[test]
fn numbers_are_written_as_defined() {
    let written = |number: i64| {
        let mut columns = [0; COLUMNS];
        write_number(&mut columns, number);
        String::from_utf8(columns.to_vec()).unwrap()
    };
    let mut random = Random::new(2);
    let check = |number: i64| {
        assert_eq!(written(number), format!("{number:>12}"));
        assert_eq!(read_number(written(number).as_bytes().try_into().unwrap()), Some(number));
    };
    (-20_000..20_000).for_each(check);
    // Every quotient and rest of the steps that part a number.
    (0..10_000).for_each(|low| check(low * 10_000 + 9_999 - low));
    for digits in 1..=11 {
        let power = 10_i64.pow(digits);
        [power - 1, power, power + 1, 1 - power, -power, -power - 1]
            .into_iter()
            .filter(|&number| number > -100_000_000_000)
            .for_each(check);
    }
    [i64::from(i32::MIN), i64::from(i32::MAX), 4_294_967_295, 99_999_999_999, -99_999_999_999, 999_999_999_999]
        .into_iter()
        .for_each(check);
    for _ in 0..100_000 {
        let limit = 10_i64.pow(random.between(1, 11) as u32);
        check(random.between(1 - limit, limit - 1));
    }
}

/// Session numbers are in no range of refusal 1, and neither is map's count.
#[test]
fn numbers_without_a_range() {
    let mut desk = Desk::new();
    desk.expect(&[("3", "0 1")]);
    for session in ["0", "-1", "2", "4294967295", "4294967296", "4294967297", "999999999999", "-99999999999"] {
        for call in ["6", "7", "15"] {
            assert_eq!(desk.ask(&format!("{call} {session}")), "2");
        }
        assert_eq!(desk.ask(&format!("4 {session} 0")), "2");
        assert_eq!(desk.ask(&format!("5 {session} 0 0 1 0")), "2");
    }
    let mut desk = Desk::new();
    for count in ["0", "5", "-1", "999999999999"] {
        assert_eq!(desk.ask(&format!("2 0 {count} 0 0 0 0 0 0 0 0")), "14");
    }
}

#[test]
fn read_shows_eight_words_for_each_place() {
    let mut desk = Desk::new();
    desk.expect(&[
        ("2 0 1 0 0 0 0 0 0 0 0", "0"),
        ("2 1 4 3 0 2 0 1 0 0 0", "0"),
        ("1 1 0 5 8", "0"),
        ("1 1 0 5 -9", "0"),
        ("1 2 0 1 -2147483648", "0"),
        ("1 3 0 5 1", "0"),
        ("1 3 0 6 1", "0"),
        ("3", "0 1"),
        ("4 1 0", "0 1 0 0 0 0 0 0 0 0"),
        ("4 1 1", "0 1 2 0 0 0 0 0 0 0 1 1 -2147483648 0 0 0 0 0 2 2 8 -9 0 0 0 0 0 0 0 0 0 0 0 0"),
    ]);
    assert_eq!(desk.raw(line("4 1 1").as_bytes()).len(), 2 + 12 * 33 + 1);
}

/// Gives its bytes in pieces of the given lengths, over and over.
struct Pieces<'a> {
    bytes: &'a [u8],
    lengths: &'a [usize],
    at: usize,
}

impl Read for Pieces<'_> {
    fn read(&mut self, buffer: &mut [u8]) -> io::Result<usize> {
        self.at += 1;
        if self.at.is_multiple_of(3) {
            return Err(io::ErrorKind::Interrupted.into());
        }
        let length = self.lengths[self.at % self.lengths.len()].min(buffer.len()).min(self.bytes.len());
        let (now, later) = self.bytes.split_at(length);
        buffer[..length].copy_from_slice(now);
        self.bytes = later;
        Ok(length)
    }
}

/// However the input comes, the answers are those of its lines.
#[test]
fn pieces_make_no_difference() {
    let mut input = Vec::new();
    for seed in 1..4 {
        reference_plant::generator::generate(&mut input, seed, 3_000, reference_plant::generator::Profile::Mixed)
            .unwrap();
        input.extend_from_slice(if seed == 2 { b"\n".as_slice() } else { b"" });
    }
    for length in [0, 1, 2, 3, 121, 122, 123, 124, 65_535, 65_536, 65_537, 131_072, 200_000] {
        for call in [" 2", "16", " 3", "  ", "15"] {
            input.extend_from_slice(call.as_bytes());
            input.resize(input.len() + length, b' ');
            input.push(b'\n');
        }
    }
    let mut expected = Vec::new();
    let mut desk = Desk::new();
    for line in input.strip_suffix(b"\n").unwrap().split(|&byte| byte == b'\n') {
        expected.extend(desk.raw(line));
    }
    for lengths in [&[1][..], &[7], &[122, 1, 123], &[65_536], &[1_000_000], &[65_535, 1, 2, 3], &[5_000, 17, 33_333]] {
        let mut output = Vec::new();
        serve(&mut Plant::new(), Pieces { bytes: &input, lengths, at: 0 }, &mut output).unwrap();
        assert!(output == expected, "pieces of {lengths:?}");
    }
}

/// A line of any length is answered, and by its call columns alone.
#[test]
fn endless_line() {
    for (first, refusal) in [(" ", "23\n"), ("x", "23\n"), ("9", " 1\n")] {
        let input = first.as_bytes().chain(io::repeat(first.as_bytes()[0]).take(40_000_000));
        let mut output = Vec::new();
        serve(&mut Plant::new(), input, &mut output).unwrap();
        assert_eq!(String::from_utf8(output).unwrap(), refusal);
    }
}

/// Every answer is written before more input is waited for.
#[test]
fn answers_come_before_waiting() {
    use std::cell::RefCell;
    use std::rc::Rc;

    struct Terminal {
        lines: Vec<&'static [u8]>,
        answers: Rc<RefCell<Vec<u8>>>,
        asked: usize,
    }
    impl Read for Terminal {
        fn read(&mut self, buffer: &mut [u8]) -> io::Result<usize> {
            let answered = self.answers.borrow().iter().filter(|&&byte| byte == b'\n').count();
            assert_eq!(answered, self.asked);
            let Some(line) = self.lines.pop() else { return Ok(0) };
            self.asked += line.iter().filter(|&&byte| byte == b'\n').count();
            buffer[..line.len()].copy_from_slice(line);
            Ok(line.len())
        }
    }
    struct Printer(Rc<RefCell<Vec<u8>>>);
    impl io::Write for Printer {
        fn write(&mut self, bytes: &[u8]) -> io::Result<usize> {
            self.0.borrow_mut().extend_from_slice(bytes);
            Ok(bytes.len())
        }
        fn flush(&mut self) -> io::Result<()> {
            Ok(())
        }
    }

    let answers = Rc::new(RefCell::new(Vec::new()));
    let lines: Vec<&[u8]> = vec![b" 3", b"  1\n13\n ", b" 7         ", b" 3\n", b"\n", b" 3\n"];
    let terminal = Terminal { lines, answers: answers.clone(), asked: 0 };
    serve(&mut Plant::new(), terminal, Printer(answers.clone())).unwrap();
    let answers = answers.borrow();
    assert_eq!(String::from_utf8_lossy(&answers), " 0           1\n23\n 0           2\n 0\n 0           0\n23\n");
}
