//! Lines: reading calls from columns and writing answers in columns (paper 01, "Calls and their lines").

use crate::field::WORDS;
use crate::plant::{Plant, KEY_PLACES};
use crate::refusal::Refusal;

/// Columns of the call, or of the refusal in an answer.
pub const CALL_COLUMNS: usize = 2;
/// Columns of each number.
pub const COLUMNS: usize = 12;
/// The calls are 1 to 15.
pub const CALLS: usize = 15;
/// The most numbers a call has: map's key, count and four pairs.
pub const NUMBERS: usize = 10;
/// The longest line of a known call, without its byte 10.
pub const LONGEST_LINE: usize = CALL_COLUMNS + NUMBERS * COLUMNS;
/// The words lent to read: enough for every key, so that 22 never shows on a line.
pub const LENT_WORDS: usize = WORDS * KEY_PLACES;
/// The longest answer with its byte 10: read's, with its mark and all words.
pub const LONGEST_ANSWER: usize = CALL_COLUMNS + COLUMNS * (1 + LENT_WORDS) + 1;

/// How many numbers each call has, by its number.
const COUNTS: [usize; CALLS + 1] = [0, 4, 10, 0, 2, 5, 1, 1, 1, 1, 2, 1, 1, 0, 1, 1];

/// A known call with its numbers, those past its count 0.
#[derive(Clone, Copy, PartialEq, Eq, Debug)]
pub struct Call {
    pub call: u8,
    pub numbers: [i64; NUMBERS],
}

/// How many numbers a known call has.
pub fn number_count(call: u8) -> usize {
    COUNTS[usize::from(call)]
}

/// The number in the call columns, 0 to 99; none if they are broken. Also used for the refusal
/// columns of an answer.
pub fn call_columns(columns: [u8; CALL_COLUMNS]) -> Option<u8> {
    let [tens, ones] = columns;
    match (tens, ones) {
        (b' ', b'0'..=b'9') => Some(ones - b'0'),
        (b'1'..=b'9', b'0'..=b'9') => Some((tens - b'0') * 10 + ones - b'0'),
        _ => None,
    }
}

/// Eight bytes that are all the given one.
const fn all(byte: u8) -> u64 {
    u64::from_le_bytes([byte; 8])
}

/// The number in twelve columns, or none if they are not in form.
pub fn read_number(columns: &[u8; COLUMNS]) -> Option<i64> {
    let (first, last) = columns.split_at(4);
    let last = u64::from_le_bytes(last.try_into().unwrap());
    if first == b"    " {
        read_short_number(last)
    } else {
        read_long_number(columns)
    }
}

/// The number in the last eight columns when the first four are spaces, as almost all are.
///
/// All columns are looked at together, as the bytes of one word with the first column lowest.
#[inline(always)]
fn read_short_number(text: u64) -> Option<i64> {
    let spaces = (text ^ all(b' ')).trailing_zeros() / 8;
    if spaces >= 8 {
        return None;
    }
    let minus = (text >> (8 * spaces)) as u8 == b'-';
    let start = spaces + u32::from(minus);
    if start >= 8 {
        return None;
    }
    // A first digit 0 is right only in the number 0, which has no minus.
    if (text >> (8 * start)) as u8 == b'0' && (start < 7 || minus) {
        return None;
    }
    // With zeros before the digits every column must be a digit.
    let before = (1 << (8 * start)) - 1;
    let digits = ((text & !before) | (all(b'0') & before)) ^ all(b'0');
    // 0x76 carries a byte of 10 or more into its top bit. A byte with the top bit set may carry
    // into the next one, but then the number is refused already.
    if (digits | digits.wrapping_add(all(0x76))) & all(0x80) != 0 {
        return None;
    }
    let size = eight_digits(digits) as i64;
    Some(if minus { -size } else { size })
}

/// The number in twelve columns, one column after the other.
#[cold]
fn read_long_number(columns: &[u8; COLUMNS]) -> Option<i64> {
    let spaces = columns.iter().take_while(|&&byte| byte == b' ').count();
    let (minus, digits) = match &columns[spaces..] {
        [b'-', digits @ ..] => (true, digits),
        digits => (false, digits),
    };
    // No digit at all, a leading zero or -0.
    if digits.is_empty() || (digits[0] == b'0' && (digits.len() > 1 || minus)) {
        return None;
    }
    let mut size = 0;
    for &digit in digits {
        if !digit.is_ascii_digit() {
            return None;
        }
        size = size * 10 + i64::from(digit - b'0');
    }
    Some(if minus { -size } else { size })
}

/// The value of eight decimal digits, one in each byte, the first lowest.
fn eight_digits(digits: u64) -> u64 {
    // Each step joins neighbours: the lower one, which stands before, times a power of ten.
    let pairs = (digits.wrapping_mul((10 << 8) + 1) >> 8) & 0x00ff_00ff_00ff_00ff;
    let fours = (pairs.wrapping_mul((100 << 16) + 1) >> 16) & 0x0000_ffff_0000_ffff;
    fours.wrapping_mul((10_000 << 32) + 1) >> 32
}

/// Writes a number of at most twelve columns: right-justified, spaces before.
pub fn write_number(columns: &mut [u8; COLUMNS], number: i64) {
    *columns = [b' '; COLUMNS];
    if (0..10).contains(&number) {
        columns[COLUMNS - 1] = b'0' + number as u8;
        return;
    }
    let size = number.unsigned_abs();
    let mut start;
    if size < 100_000_000 {
        let digits = digits_of(size as u32);
        // Leading zeros become spaces; the size is not 0, so there is a digit that is not.
        let zeros = digits.trailing_zeros() as usize / 8;
        let ascii = digits | 0x3030_3030_3030_3030 & (!0 << (8 * zeros)) | 0x2020_2020_2020_2020;
        columns[4..].copy_from_slice(&ascii.to_le_bytes());
        start = 4 + zeros;
    } else {
        let mut rest = size;
        start = COLUMNS;
        while rest > 0 && start > 0 {
            start -= 1;
            columns[start] = b'0' + (rest % 10) as u8;
            rest /= 10;
        }
    }
    if number < 0 && start > 0 {
        start -= 1;
        columns[start] = b'-';
    }
}

/// The eight decimal digits of a number below 100,000,000, one in each byte, the first lowest.
fn digits_of(number: u32) -> u64 {
    // Each step parts a number into quotient and rest, all lanes of the word together. The
    // products are exact quotients for the lanes' ranges: 10,000 and 100.
    let number = u64::from(number);
    let fours = (number / 10_000) | (number % 10_000) << 32;
    let hundreds = ((fours * 10_486) >> 20) & 0x0000_007f_0000_007f;
    let pairs = hundreds | (fours - 100 * hundreds) << 16;
    let tens = ((pairs * 103) >> 10) & 0x000f_000f_000f_000f;
    tens | (pairs - 10 * tens) << 8
}

/// The call on a line, its byte 10 not included. An unknown call is refused 1 whatever follows it;
/// else everything out of form is refused 23 before the call looks at its numbers.
pub fn parse(line: &[u8]) -> Result<Call, Refusal> {
    let Some(columns) = line.first_chunk() else {
        return Err(Refusal::BadLine);
    };
    let call = call_columns(*columns).ok_or(Refusal::BadLine)?;
    if !(1..=CALLS as u8).contains(&call) {
        return Err(Refusal::OutOfRange);
    }
    let (numbers, rest) = line[CALL_COLUMNS..].as_chunks();
    if numbers.len() != number_count(call) || !rest.is_empty() {
        return Err(Refusal::BadLine);
    }
    parse_numbers(call, numbers).ok_or(Refusal::BadLine)
}

fn parse_numbers(call: u8, columns: &[[u8; COLUMNS]]) -> Option<Call> {
    let mut numbers = [0; NUMBERS];
    for (number, columns) in numbers.iter_mut().zip(columns) {
        *number = read_number(columns)?;
    }
    Some(Call { call, numbers })
}

/// The call at the head of a piece of input and its length with byte 10, if the piece begins with
/// a whole line of a known call in form. Then no byte 10 need be looked for: the call tells where
/// it is, and columns in form hold none.
pub fn parse_head(piece: &[u8]) -> Option<(Call, usize)> {
    let call = call_columns(*piece.first_chunk()?)?;
    if !(1..=CALLS as u8).contains(&call) {
        return None;
    }
    let length = CALL_COLUMNS + COLUMNS * number_count(call);
    if *piece.get(length)? != b'\n' {
        return None;
    }
    let (columns, _) = piece[CALL_COLUMNS..length].as_chunks();
    Some((parse_numbers(call, columns)?, length + 1))
}

/// An answer line under way.
struct Answer<'a> {
    out: &'a mut [u8; LONGEST_ANSWER],
    at: usize,
}

impl<'a> Answer<'a> {
    fn new(out: &'a mut [u8; LONGEST_ANSWER], refusal: u8) -> Answer<'a> {
        out[0] = if refusal < 10 { b' ' } else { b'0' + refusal / 10 };
        out[1] = b'0' + refusal % 10;
        Answer { out, at: CALL_COLUMNS }
    }

    fn number(mut self, number: i64) -> Answer<'a> {
        if let Some(columns) = self.out[self.at..].first_chunk_mut() {
            write_number(columns, number);
            self.at += COLUMNS;
        }
        self
    }

    fn end(self) -> usize {
        self.out[self.at] = b'\n';
        self.at + 1
    }
}

/// Writes the answer line of a refusal; returns its length.
pub fn write_refusal(out: &mut [u8; LONGEST_ANSWER], refusal: Refusal) -> usize {
    Answer::new(out, refusal.number()).end()
}

/// Runs the call on the plant and writes its answer line; returns its length.
pub fn run(plant: &mut Plant, call: &Call, out: &mut [u8; LONGEST_ANSWER]) -> usize {
    let n = &call.numbers;
    let accepted = match call.call {
        1 => plant.load(n[0], n[1], n[2], n[3]).map(|()| None),
        2 => {
            let pairs = n[2..].first_chunk().expect("map has eight numbers after key and count");
            plant.map(n[0], n[1], pairs).map(|()| None)
        }
        3 => plant.begin().map(|session| Some(i64::from(session))),
        4 => {
            let mut words = [0; LENT_WORDS];
            return match plant.read(n[0], n[1], &mut words) {
                Ok(read) => words[..read.words]
                    .iter()
                    .fold(Answer::new(out, 0).number(i64::from(read.mark)), |answer, &word| {
                        answer.number(i64::from(word))
                    })
                    .end(),
                Err(refusal) => write_refusal(out, refusal),
            };
        }
        5 => plant.change(n[0], n[1], n[2], n[3], n[4]).map(|changes| Some(i64::from(changes))),
        6 => plant.commit(n[0]).map(|buffered| Some(i64::from(buffered))),
        7 => plant.abandon(n[0]).map(|()| None),
        8 => plant.advance(n[0]).map(|clock| Some(clock as i64)),
        9 => plant.take(n[0]).map(|session| Some(i64::from(session))),
        10 => plant.apply(n[0], n[1]).map(|reply| Some(i64::from(reply))),
        11 => plant.delete(n[0]).map(|removed| Some(i64::from(removed))),
        12 => plant.cut(n[0]).map(|()| None),
        13 => plant.sweep().map(|removed| Some(i64::from(removed))),
        14 => plant.store(n[0]).map(|()| None),
        15 => {
            return match plant.report(n[0]) {
                Ok(report) => Answer::new(out, 0)
                    .number(i64::from(report.shared))
                    .number(i64::from(report.exclusive))
                    .number(i64::from(report.changes))
                    .end(),
                Err(refusal) => write_refusal(out, refusal),
            }
        }
        _ => Err(Refusal::OutOfRange),
    };
    match accepted {
        Ok(None) => Answer::new(out, 0).end(),
        Ok(Some(number)) => Answer::new(out, 0).number(number).end(),
        Err(refusal) => write_refusal(out, refusal),
    }
}

/// Answers one line, its byte 10 not included; returns the length of the answer line.
pub fn answer(plant: &mut Plant, line: &[u8], out: &mut [u8; LONGEST_ANSWER]) -> usize {
    match parse(line) {
        Ok(call) => run(plant, &call, out),
        Err(refusal) => write_refusal(out, refusal),
    }
}
