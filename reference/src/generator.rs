//! A generator of line files: pseudo-random calls, biased to the edges of the plant's rules.
//!
//! It runs every line it writes on a plant of its own, so that it knows the open sessions, the
//! leases and the clock, and can choose lines that meet them. A plant's set-up is refused once a
//! session has begun, so each file has one set-up at its start.

use std::io::{self, Write};

use crate::field::{Field, ABSENT, ADD, INC, LIST, MEMBERS, NUMBER, PULL, PUSH, SET, UNSET};
use crate::lines::{answer, call_columns, number_count, write_number, CALLS, COLUMNS, LONGEST_ANSWER};
use crate::plant::*;
use crate::random::Random;

mod away;
mod hits;
mod pulls;
mod sweeps;

/// What kind of file to write.
#[derive(Clone, Copy, PartialEq, Eq, Debug)]
pub enum Profile {
    /// Everything, for comparison: all tables full at times, all edges, a few garbled lines.
    Mixed,
    /// Mostly accepted calls in a realistic order, for measuring speed.
    Work,
    /// The buffer mostly full, the store often away, many refusals.
    Storm,
    /// As mixed, after so many advances that the clock is near its end. These come on top of the
    /// lines asked for.
    Late,
    /// The cache full, and reads that tell in which order keys give way.
    Hits,
    /// Many rows, some of which may not go, and sweeps at and beside sixteen.
    Sweeps,
    /// Lists with repeats, and pulls of what they have several times.
    Pulls,
    /// Long spells without the store, and fields that little or nothing makes known.
    Away,
}

impl Profile {
    /// The profiles whose files have just the lines asked for: all but `late`.
    pub const EXACT: [Profile; 7] =
        [Profile::Mixed, Profile::Work, Profile::Storm, Profile::Hits, Profile::Sweeps, Profile::Pulls, Profile::Away];

    pub fn named(name: &str) -> Option<Profile> {
        match name {
            "mixed" => Some(Profile::Mixed),
            "work" => Some(Profile::Work),
            "storm" => Some(Profile::Storm),
            "late" => Some(Profile::Late),
            "hits" => Some(Profile::Hits),
            "sweeps" => Some(Profile::Sweeps),
            "pulls" => Some(Profile::Pulls),
            "away" => Some(Profile::Away),
            _ => None,
        }
    }
}

/// Writes a file of `count` lines.
pub fn generate<W: Write>(to: W, seed: u64, count: u64, profile: Profile) -> io::Result<()> {
    let mut generator = Generator::new(to, seed, count);
    match profile {
        Profile::Work => generator.work()?,
        Profile::Mixed => generator.mixed(&MIXED_PHASES)?,
        Profile::Storm => generator.mixed(&STORM_PHASES)?,
        Profile::Hits => generator.hits()?,
        Profile::Sweeps => generator.sweeps()?,
        Profile::Pulls => generator.pulls()?,
        Profile::Away => generator.away()?,
        Profile::Late => {
            generator.approach_clock_end()?;
            generator.mixed(&MIXED_PHASES)?;
        }
    }
    generator.to.flush()
}

/// What one step of a phase may do, with its weight in the phase.
#[derive(Clone, Copy, PartialEq, Eq)]
enum Step {
    Begin,
    Read,
    Change,
    Commit,
    Abandon,
    Report,
    Advance,
    Worker,
    Cut,
    Sweep,
    FlipStore,
    SetUp,
    OutOfRange,
    Garbled,
    /// A whole session in one go, and a whole carrying by one worker: they fill tables sooner.
    WholeSession,
    WholeCarry,
    /// A session that reads, waits and then changes what it read, up to the lapse of its leases.
    Renewal,
}

/// A stretch of lines with one inclination.
struct Phase {
    steps: &'static [(Step, u64)],
    /// The fates with their weights.
    fates: [(i64, u64); 3],
    /// Whether the phase begins by sending the store away, in so many of a hundred cases.
    away: u64,
    /// The changes it prefers.
    kinds: &'static [u8],
    /// Whether values are mostly at the ends of the range.
    extreme: bool,
    /// Whether half of the pushes and pulls take a value that the list has, so that repeats come and go.
    repeats: bool,
}

const EVERY_KIND: &[u8] = &[SET, UNSET, INC, INC, ADD, PUSH, PULL];
const LIST_KINDS: &[u8] = &[ADD, PUSH, PUSH, PULL, UNSET];
const NUMBER_KINDS: &[u8] = &[SET, INC, INC, INC];

const ORDINARY: Phase = Phase {
    steps: &[
        (Step::Renewal, 2),
        (Step::Begin, 80),
        (Step::Read, 200),
        (Step::Change, 260),
        (Step::Commit, 90),
        (Step::Abandon, 15),
        (Step::Report, 40),
        (Step::Advance, 40),
        (Step::Worker, 200),
        (Step::Cut, 8),
        (Step::Sweep, 20),
        (Step::FlipStore, 12),
        (Step::SetUp, 5),
        (Step::OutOfRange, 15),
        (Step::Garbled, 15),
    ],
    fates: [(0, 6), (1, 2), (2, 2)],
    away: 5,
    kinds: EVERY_KIND,
    extreme: false,
    repeats: false,
};

const FILL_BUFFER: Phase = Phase {
    steps: &[
        (Step::WholeSession, 60),
        (Step::Begin, 150),
        (Step::Read, 40),
        (Step::Change, 250),
        (Step::Commit, 200),
        (Step::Report, 10),
        (Step::Advance, 8),
        (Step::Worker, 15),
        (Step::FlipStore, 4),
        (Step::OutOfRange, 4),
        (Step::Garbled, 4),
    ],
    fates: [(0, 1), (1, 1), (2, 4)],
    away: 15,
    kinds: EVERY_KIND,
    extreme: false,
    repeats: false,
};

const FILL_ROWS: Phase = Phase {
    steps: &[
        (Step::WholeSession, 200),
        (Step::WholeCarry, 200),
        (Step::Begin, 20),
        (Step::Read, 40),
        (Step::Change, 60),
        (Step::Commit, 30),
        (Step::Advance, 20),
        (Step::Worker, 100),
        (Step::Cut, 6),
        (Step::Sweep, 1),
        (Step::FlipStore, 2),
        (Step::Garbled, 4),
    ],
    fates: [(0, 8), (1, 2), (2, 1)],
    away: 0,
    kinds: EVERY_KIND,
    extreme: false,
    repeats: false,
};

const FILL_SLOTS: Phase = Phase {
    steps: &[
        (Step::Begin, 260),
        (Step::Read, 260),
        (Step::Change, 120),
        (Step::Commit, 10),
        (Step::Abandon, 5),
        (Step::Report, 80),
        (Step::Advance, 60),
        (Step::Worker, 20),
        (Step::FlipStore, 5),
    ],
    fates: [(0, 1), (1, 1), (2, 1)],
    away: 10,
    kinds: EVERY_KIND,
    extreme: false,
    repeats: false,
};

const FILL_CACHE: Phase = Phase {
    steps: &[
        (Step::Begin, 60),
        (Step::Read, 700),
        (Step::Change, 40),
        (Step::Commit, 40),
        (Step::Advance, 20),
        (Step::Worker, 30),
        (Step::FlipStore, 40),
        (Step::Garbled, 4),
    ],
    fates: [(0, 4), (1, 1), (2, 1)],
    away: 20,
    kinds: EVERY_KIND,
    extreme: false,
    repeats: false,
};

const AWAY: Phase = Phase {
    steps: &[
        (Step::Begin, 90),
        (Step::Read, 260),
        (Step::Change, 280),
        (Step::Commit, 90),
        (Step::Abandon, 10),
        (Step::Report, 20),
        (Step::Advance, 30),
        (Step::Worker, 110),
        (Step::Cut, 6),
        (Step::Sweep, 10),
        (Step::FlipStore, 15),
        (Step::SetUp, 3),
    ],
    fates: [(0, 3), (1, 1), (2, 1)],
    away: 100,
    kinds: EVERY_KIND,
    extreme: false,
    repeats: true,
};

const LAPSES: Phase = Phase {
    steps: &[
        (Step::Renewal, 25),
        (Step::Begin, 120),
        (Step::Read, 200),
        (Step::Change, 200),
        (Step::Commit, 60),
        (Step::Report, 60),
        (Step::Advance, 260),
        (Step::Worker, 120),
        (Step::Cut, 10),
        (Step::Sweep, 10),
        (Step::FlipStore, 15),
    ],
    fates: [(0, 4), (1, 2), (2, 1)],
    away: 10,
    kinds: EVERY_KIND,
    extreme: false,
    repeats: false,
};

const WORKERS_OVERTAKEN: Phase = Phase {
    steps: &[
        (Step::Begin, 60),
        (Step::Change, 70),
        (Step::Commit, 60),
        (Step::Read, 20),
        (Step::Advance, 110),
        (Step::Worker, 560),
        (Step::Cut, 60),
        (Step::Sweep, 60),
        (Step::FlipStore, 10),
        (Step::Garbled, 4),
    ],
    fates: [(0, 4), (1, 3), (2, 2)],
    away: 0,
    kinds: EVERY_KIND,
    extreme: false,
    repeats: false,
};

const LISTS: Phase = Phase {
    steps: &[
        (Step::Begin, 80),
        (Step::Read, 150),
        (Step::Change, 500),
        (Step::Commit, 70),
        (Step::Advance, 10),
        (Step::Worker, 120),
        (Step::Sweep, 10),
        (Step::FlipStore, 5),
    ],
    fates: [(0, 5), (1, 1), (2, 1)],
    away: 0,
    kinds: LIST_KINDS,
    extreme: false,
    repeats: true,
};

const EXTREMES: Phase = Phase {
    steps: &[
        (Step::Begin, 80),
        (Step::Read, 120),
        (Step::Change, 450),
        (Step::Commit, 70),
        (Step::Report, 20),
        (Step::Advance, 15),
        (Step::Worker, 120),
        (Step::Sweep, 10),
        (Step::OutOfRange, 60),
        (Step::Garbled, 60),
        (Step::SetUp, 20),
    ],
    fates: [(0, 5), (1, 1), (2, 1)],
    away: 0,
    kinds: NUMBER_KINDS,
    extreme: true,
    repeats: false,
};

const DRAIN: Phase = Phase {
    steps: &[
        (Step::WholeCarry, 200),
        (Step::Worker, 300),
        (Step::Sweep, 60),
        (Step::Advance, 30),
        (Step::Read, 40),
        (Step::Begin, 20),
    ],
    fates: [(0, 12), (1, 1), (2, 1)],
    away: 0,
    kinds: EVERY_KIND,
    extreme: false,
    repeats: false,
};

const STORM_AWAY: Phase = Phase {
    steps: &[
        (Step::Begin, 150),
        (Step::Read, 150),
        (Step::Change, 320),
        (Step::Commit, 180),
        (Step::Abandon, 5),
        (Step::Report, 20),
        (Step::Advance, 30),
        (Step::Worker, 80),
        (Step::Cut, 8),
        (Step::Sweep, 20),
        (Step::FlipStore, 25),
        (Step::SetUp, 10),
        (Step::OutOfRange, 15),
        (Step::Garbled, 20),
    ],
    fates: [(0, 2), (1, 1), (2, 3)],
    away: 100,
    kinds: EVERY_KIND,
    extreme: false,
    repeats: false,
};

const MIXED_PHASES: [&Phase; 13] = [
    &ORDINARY,
    &ORDINARY,
    &ORDINARY,
    &FILL_BUFFER,
    &FILL_ROWS,
    &FILL_SLOTS,
    &FILL_CACHE,
    &AWAY,
    &LAPSES,
    &WORKERS_OVERTAKEN,
    &LISTS,
    &EXTREMES,
    &DRAIN,
];

const STORM_PHASES: [&Phase; 8] =
    [&FILL_BUFFER, &FILL_BUFFER, &STORM_AWAY, &STORM_AWAY, &STORM_AWAY, &FILL_ROWS, &WORKERS_OVERTAKEN, &LAPSES];

/// What an open session of the work profile has still to do.
#[derive(Clone, Copy, Default)]
struct Plan {
    session: u32,
    reads: u64,
    changes: u64,
    /// The keys it works on; the second may be the first again.
    keys: [usize; 2],
}

struct Generator<W: Write> {
    to: W,
    random: Random,
    /// The plant after the lines written so far.
    plant: Plant,
    lines_left: u64,
    /// The keys that were mapped and the documents that calls prefer.
    mapped: Vec<usize>,
    documents: Vec<i64>,
    /// The session and the worker that calls prefer for a while.
    session: i64,
    worker: usize,
    /// The key that left the cache last and the one read last, for the profile `hits`.
    gone: usize,
    read_last: usize,
    /// The places that calls prefer, for the profiles `pulls` and `away`, and the values for `pulls`.
    places: Vec<u8>,
    values: Vec<i64>,
    /// Whether the file's last line is left without its byte 10.
    open_end: bool,
    line: Vec<u8>,
}

impl<W: Write> Generator<W> {
    fn new(to: W, seed: u64, count: u64) -> Generator<W> {
        Generator {
            to,
            random: Random::new(seed),
            plant: Plant::new(),
            lines_left: count,
            mapped: Vec::new(),
            documents: Vec::new(),
            session: 0,
            worker: 0,
            gone: 0,
            read_last: 0,
            places: Vec::new(),
            values: Vec::new(),
            open_end: false,
            line: Vec::new(),
        }
    }

    // Writing lines.

    fn compose(&mut self, call: u8, numbers: &[i64]) {
        self.line.clear();
        self.line.push(if call < 10 { b' ' } else { b'0' + call / 10 });
        self.line.push(b'0' + call % 10);
        for &number in numbers {
            let mut columns = [0; COLUMNS];
            write_number(&mut columns, number);
            self.line.extend_from_slice(&columns);
        }
    }

    /// Writes the composed line and runs it. Returns its refusal, 0 if it was accepted.
    fn send(&mut self) -> io::Result<u8> {
        if self.lines_left == 0 {
            return Ok(0);
        }
        self.lines_left -= 1;
        self.to.write_all(&self.line)?;
        // An empty last line without byte 10 would be no line.
        if self.lines_left > 0 || !self.open_end || self.line.is_empty() {
            self.to.write_all(b"\n")?;
        }
        let mut out = [0; LONGEST_ANSWER];
        answer(&mut self.plant, &self.line, &mut out);
        Ok(call_columns([out[0], out[1]]).expect("an answer begins with its refusal"))
    }

    fn call(&mut self, call: u8, numbers: &[i64]) -> io::Result<u8> {
        self.compose(call, numbers);
        self.send()
    }

    /// A new session; with eight slots taken, the one longest open is abandoned for it.
    fn begin(&mut self) -> io::Result<i64> {
        if self.call(3, &[])? == 10 {
            let oldest = self.plant.sessions.iter().map(|session| session.number).min();
            self.call(7, &[i64::from(oldest.unwrap_or(0))])?;
            self.call(3, &[])?;
        }
        Ok(self.plant.next_number as i64 - 1)
    }

    /// Maps the key to the places.
    fn map_to(&mut self, key: usize, places: &[u8]) -> io::Result<()> {
        let mut numbers = [0; 10];
        numbers[..2].copy_from_slice(&[key as i64, places.len() as i64]);
        for (at, &place) in places.iter().enumerate() {
            numbers[2 + 2 * at..4 + 2 * at].copy_from_slice(&[i64::from(place) / 4, i64::from(place) % 4]);
        }
        self.call(2, &numbers)?;
        Ok(())
    }

    /// The session changes the place; session 0 stands for load.
    fn change_place(&mut self, session: i64, place: u8, kind: u8, value: i64) -> io::Result<u8> {
        let (document, field) = (i64::from(place) / 4, i64::from(place) % 4);
        if session == 0 {
            return self.call(1, &[document, field, i64::from(kind), value]);
        }
        self.call(5, &[session, document, field, i64::from(kind), value])
    }

    // Choosing numbers.

    /// The slots of sessions, doomed ones too.
    fn taken_slots(&self) -> Vec<usize> {
        (0..SLOTS).filter(|&slot| self.plant.sessions[slot].number != 0).collect()
    }

    fn slot_of(&self, session: i64) -> Option<usize> {
        (0..SLOTS).find(|&slot| session > 0 && i64::from(self.plant.sessions[slot].number) == session)
    }

    /// The field as the session sees it; one without a slot, as load, sees no changes of its own.
    fn field(&self, session: i64, place: u8) -> Field {
        match self.slot_of(session) {
            Some(slot) => self.plant.seen(slot, place),
            None => self.plant.stock[usize::from(place)],
        }
    }

    /// A session for the next call: the preferred one, another with a slot, seldom one without.
    fn some_session(&mut self) -> i64 {
        if self.random.one_in(40) {
            let last = self.plant.next_number as i64 - 1;
            let before = last - self.random.between(0, 9);
            let strange =
                [0, -1, 1, last, last + 1, before, 4_294_967_295, 4_294_967_296, 4_294_967_297, -99_999_999_999];
            return self.random.pick(&strange);
        }
        if self.slot_of(self.session).is_none() || self.random.percent(35) {
            let slots = self.taken_slots();
            if !slots.is_empty() {
                let slot = self.random.pick(&slots);
                self.session = i64::from(self.plant.sessions[slot].number);
            }
        }
        self.session
    }

    fn some_key(&mut self) -> i64 {
        if self.mapped.is_empty() || self.random.one_in(60) {
            return self.random.between(0, KEYS as i64 - 1);
        }
        self.random.pick(&self.mapped) as i64
    }

    /// A document for a change: of the session, of another session, or one that the file prefers.
    fn some_document(&mut self, session: i64) -> i64 {
        let slot = self.slot_of(session);
        let held = match self.random.below(10) {
            0..=2 => slot.map(|slot| self.plant.sessions[slot].shared | self.plant.sessions[slot].exclusive),
            3 => {
                let other = self.random.below(SLOTS as u64) as usize;
                Some(self.plant.sessions[other].shared | self.plant.sessions[other].exclusive)
            }
            _ => None,
        };
        match held {
            Some(held) if held != 0 => {
                let from = self.random.below(64) as u32;
                i64::from((held.rotate_right(from).trailing_zeros() + from) % 64)
            }
            _ => self.random.pick(&self.documents),
        }
    }

    fn some_value(&mut self, kind: u8, extreme: bool) -> i64 {
        let (low, high) = (i64::from(i32::MIN), i64::from(i32::MAX));
        if kind == UNSET {
            return if self.random.one_in(50) { self.random.pick(&[1, -1, high]) } else { 0 };
        }
        if self.random.percent(if extreme { 75 } else { 4 }) {
            return self.random.pick(&[low, low + 1, high, high - 1, low, high, -1, 0, 1, low / 2, high / 2 + 1]);
        }
        if kind >= ADD {
            // Few values, so that lists often have the member.
            return self.random.between(-1, 7);
        }
        match self.random.below(4) {
            0 => self.random.between(-9, 9),
            1 => self.random.between(-99_999, 99_999),
            _ => self.random.between(-300, 300),
        }
    }

    fn change_numbers(&mut self, session: i64, phase: &Phase) -> [i64; 4] {
        let document = self.some_document(session);
        let field = if self.random.percent(60) { 0 } else { self.random.between(0, FIELDS as i64 - 1) };
        let mut kind = if self.random.percent(75) {
            self.random.pick(phase.kinds)
        } else {
            self.random.between(i64::from(SET), i64::from(PULL)) as u8
        };
        // Half of the changes are turned into one that goes with the field's kind, else most
        // lists would be refused 6.
        if let (Some(slot), true) = (self.slot_of(session), self.random.percent(50)) {
            let seen = self.plant.seen(slot, (document as usize * FIELDS + field as usize) as u8);
            if seen.kind == NUMBER && kind >= ADD {
                kind = INC;
            } else if seen.kind == LIST && kind <= INC {
                kind = self.random.pick(LIST_KINDS);
            }
        }
        let mut value = self.some_value(kind, phase.extreme);
        if phase.repeats && (kind == PUSH || kind == PULL) && self.random.percent(50) {
            let seen = self.field(session, (document as usize * FIELDS + field as usize) as u8);
            if seen.kind == LIST && seen.count > 0 {
                value = i64::from(self.random.pick(seen.members()));
            }
        }
        [document, field, i64::from(kind), value]
    }

    /// Ticks that bring the clock to just before, at or just after a lapse, or some others.
    fn some_ticks(&mut self) -> i64 {
        if self.random.percent(60) {
            let mut lapses = vec![self.plant.lease_until];
            for session in &self.plant.sessions {
                if session.number != 0 && !session.doomed {
                    lapses.push(session.lapse);
                    lapses.push(session.begun + SESSION_TICKS);
                    for document in (0..DOCUMENTS).filter(|&d| (session.shared | session.exclusive) >> d & 1 == 1) {
                        lapses.push(session.begun + u64::from(session.granted[document]) + LEASE_TICKS);
                    }
                }
            }
            let lapse = self.random.pick(&lapses) as i64;
            let ticks = lapse + self.random.between(-1, 1) - self.plant.clock as i64;
            if (0..=TICKS).contains(&ticks) {
                return ticks;
            }
        }
        match self.random.below(20) {
            0 => 0,
            1 => self.random.pick(&[299, 300, 301]),
            2 => self.random.pick(&[999, 1000, 1001]),
            3 => self.random.pick(&[65_535, 65_534, 65_536, -1, 99_999, 700, 301]),
            4..=6 => self.random.between(100, 400),
            _ => self.random.between(1, 60),
        }
    }

    fn some_worker(&mut self) -> usize {
        if self.random.percent(30) {
            self.worker = self.random.below(WORKERS as u64) as usize;
        }
        self.worker
    }

    // The mixed files.

    /// A set-up of its own for each file, then phases until the lines are used up.
    fn mixed(&mut self, phases: &[&Phase]) -> io::Result<()> {
        self.open_end = self.random.one_in(4);
        let width = self.random.pick(&[1, 2, 3, 4, 6, 8, 12, 16, 24, 40, 64]);
        let first = self.random.between(0, 63);
        let step = self.random.pick(&[1, 3, 7, 21]);
        self.documents = (0..width).map(|at| (first + at * step) % 64).collect();
        let keys = self.random.pick(&[0, 1, 4, 8, 15, 16, 17, 18, 20, 24, 28, 32, 32]);
        self.mixed_set_up(keys)?;
        while self.lines_left > 0 {
            let phase = phases[self.random.below(phases.len() as u64) as usize];
            let near = !self.random.percent(phase.away);
            if near != self.plant.near {
                self.call(14, &[i64::from(near)])?;
            }
            for _ in 0..self.random.between(30, 400) {
                let step = self.random.weighted(phase.steps);
                self.step(step, phase)?;
            }
        }
        Ok(())
    }

    fn mixed_set_up(&mut self, keys: usize) -> io::Result<()> {
        if self.random.one_in(10) {
            self.call(14, &[0])?;
        }
        let loads = self.random.pick(&[0, 3, 20, 60, 150]);
        let phase = self.random.pick(&[&ORDINARY, &ORDINARY, &LISTS, &EXTREMES]);
        for _ in 0..loads {
            self.load(phase)?;
            if !self.plant.near && self.random.one_in(5) {
                self.call(14, &[1])?;
            }
        }
        let mut order: Vec<usize> = (0..KEYS).collect();
        self.random.shuffle(&mut order);
        for &key in &order[..keys] {
            self.map(key as i64)?;
        }
        self.mapped = (0..KEYS).filter(|&key| self.plant.keys[key].count != 0).collect();
        if self.random.one_in(3) {
            for _ in 0..10 {
                self.step(Step::SetUp, &ORDINARY)?;
                self.step(Step::OutOfRange, &ORDINARY)?;
            }
        }
        self.mapped = (0..KEYS).filter(|&key| self.plant.keys[key].count != 0).collect();
        Ok(())
    }

    fn load(&mut self, phase: &Phase) -> io::Result<()> {
        let [document, field, kind, value] = self.change_numbers(0, phase);
        self.call(1, &[document, field, kind, value])?;
        Ok(())
    }

    /// Maps the key, at times first in a form that is refused.
    fn map(&mut self, key: i64) -> io::Result<()> {
        let count = self.random.between(1, KEY_PLACES as i64);
        let mut numbers = [0; 10];
        numbers[0] = key;
        numbers[1] = count;
        for at in 0..count as usize {
            numbers[2 + 2 * at] = self.random.pick(&self.documents);
            numbers[3 + 2 * at] = if self.random.percent(50) { 0 } else { self.random.between(0, 3) };
        }
        if self.random.one_in(8) {
            let mut wrong = numbers;
            let at = self.random.below(10) as usize;
            wrong[at] = self.random.pick(&[0, 1, 4, 5, -1, 64, 63, 3, 32]);
            self.call(2, &wrong)?;
        }
        // A place that is there twice is refused 14; try again with other places.
        if self.call(2, &numbers)? == 14 && self.random.percent(90) && self.lines_left > 0 {
            let places = self.random.between(1, 4);
            let document = self.random.pick(&self.documents);
            let mut distinct = [key, places, 0, 0, 0, 0, 0, 0, 0, 0];
            for at in 0..places as usize {
                distinct[2 + 2 * at] = document;
                distinct[3 + 2 * at] = at as i64;
            }
            self.call(2, &distinct)?;
        }
        Ok(())
    }

    fn step(&mut self, step: Step, phase: &Phase) -> io::Result<()> {
        // Without a session most calls of terminals would be refused 2.
        let terminal = matches!(step, Step::Read | Step::Change | Step::Commit | Step::Abandon | Step::Report);
        if terminal && self.taken_slots().is_empty() && self.random.percent(85) {
            self.call(3, &[])?;
        }
        match step {
            Step::Begin => {
                if self.call(3, &[])? == 0 && self.random.percent(60) {
                    self.session = self.plant.next_number as i64 - 1;
                }
            }
            Step::Read => {
                let session = self.some_session();
                let key = self.some_key();
                self.call(4, &[session, key])?;
            }
            Step::Change => {
                let session = self.some_session();
                let [document, field, kind, value] = self.change_numbers(session, phase);
                // Seldom so many changes in a row that the session has no room for the last.
                let times = if self.random.one_in(30) { 9 } else { 1 };
                for _ in 0..times {
                    self.call(5, &[session, document, field, kind, value])?;
                }
            }
            Step::Commit => {
                let session = self.some_session();
                self.call(6, &[session])?;
            }
            Step::Abandon => {
                let session = self.some_session();
                self.call(7, &[session])?;
            }
            Step::Report => {
                let session = self.some_session();
                self.call(15, &[session])?;
            }
            Step::Advance => {
                let ticks = self.some_ticks();
                self.call(8, &[ticks])?;
            }
            Step::Worker => self.worker_step(phase)?,
            Step::Cut => {
                let worker = self.some_worker();
                self.call(12, &[worker as i64])?;
            }
            Step::Sweep => {
                self.call(13, &[])?;
            }
            Step::FlipStore => {
                let near = if self.random.percent(80) { !self.plant.near } else { self.plant.near };
                self.call(14, &[i64::from(near)])?;
            }
            Step::SetUp => {
                if self.random.percent(50) {
                    self.load(phase)?;
                } else {
                    let key = self.random.between(0, KEYS as i64 - 1);
                    self.map(key)?;
                }
            }
            Step::OutOfRange => self.out_of_range(phase)?,
            Step::Garbled => self.garbled(phase)?,
            Step::WholeSession => self.whole_session(phase)?,
            Step::WholeCarry => self.whole_carry(phase)?,
            Step::Renewal => self.renewal(phase)?,
        }
        Ok(())
    }

    /// A session from begin to commit, with no other call in between.
    fn whole_session(&mut self, phase: &Phase) -> io::Result<()> {
        if self.call(3, &[])? != 0 {
            let slots = self.taken_slots();
            let slot = self.random.pick(&slots);
            let session = i64::from(self.plant.sessions[slot].number);
            self.call(7, &[session])?;
            return Ok(());
        }
        let session = self.plant.next_number as i64 - 1;
        if self.random.percent(30) {
            let key = self.some_key();
            self.call(4, &[session, key])?;
        }
        for _ in 0..self.random.between(1, 3) {
            let [document, field, kind, value] = self.change_numbers(session, phase);
            if self.call(5, &[session, document, field, kind, value])? == 4 {
                return Ok(());
            }
        }
        self.call(6, &[session])?;
        Ok(())
    }

    /// A worker from take to delete, with no other call in between; first it waits for the queue
    /// lease and empties its hand.
    fn whole_carry(&mut self, phase: &Phase) -> io::Result<()> {
        let worker = self.random.below(WORKERS as u64) as usize;
        if self.plant.hands[worker].session != 0 {
            self.call(12, &[worker as i64])?;
        }
        if self.plant.queue_leased() {
            let ticks = (self.plant.lease_until - self.plant.clock) as i64;
            self.call(8, &[ticks])?;
        }
        let worker = worker as i64;
        if self.call(9, &[worker])? != 0 {
            return Ok(());
        }
        let fate = self.random.weighted(&phase.fates);
        self.call(10, &[worker, fate])?;
        if fate != 0 && self.random.percent(80) {
            self.call(10, &[worker, 0])?;
        }
        self.call(11, &[worker])?;
        Ok(())
    }

    /// A session whose shared lease becomes exclusive after a while. Then the clock goes to the
    /// tick at which the first grant or the fresh one lapses, or one beside it.
    fn renewal(&mut self, phase: &Phase) -> io::Result<()> {
        if self.call(3, &[])? != 0 {
            return Ok(());
        }
        let session = self.plant.next_number as i64 - 1;
        let keys = [self.some_key(), self.some_key()];
        for _ in 0..self.random.between(1, 4) {
            let key = self.random.pick(&keys);
            if self.call(4, &[session, key])? != 0 {
                return Ok(());
            }
            let ticks = self.random.pick(&[0, 1, 40, 99, 100, 150]);
            self.call(8, &[ticks])?;
        }
        for _ in 0..self.random.between(1, 2) {
            let Some(slot) = self.slot_of(session) else {
                return Ok(());
            };
            let [mut document, field, kind, value] = self.change_numbers(session, phase);
            let shared = self.plant.sessions[slot].shared;
            if shared != 0 {
                document = i64::from(shared.trailing_zeros());
            }
            self.call(5, &[session, document, field, kind, value])?;
        }
        for _ in 0..self.random.between(1, 3) {
            let Some(slot) = self.slot_of(session) else {
                return Ok(());
            };
            let lapse = self.plant.sessions[slot].lapse as i64;
            let ticks = lapse - self.plant.clock as i64 + self.random.between(-1, 1);
            self.call(8, &[ticks.clamp(0, TICKS)])?;
            self.call(15, &[session])?;
        }
        Ok(())
    }

    /// A worker's call: mostly the one its hand is ready for.
    fn worker_step(&mut self, phase: &Phase) -> io::Result<()> {
        let worker = self.some_worker();
        let hand = self.plant.hands[worker];
        let fate = self.random.weighted(&phase.fates);
        let worker = worker as i64;
        let call = if self.random.percent(20) {
            self.random.pick(&[9, 10, 11])
        } else if hand.session == 0 {
            9
        } else if hand.replied {
            11
        } else {
            10
        };
        match call {
            10 => self.call(10, &[worker, fate])?,
            call => self.call(call, &[worker])?,
        };
        Ok(())
    }

    /// The numbers of some call as a step would choose them, mostly in range.
    fn ordinary_numbers(&mut self, call: u8, phase: &Phase) -> Vec<i64> {
        let session = self.some_session();
        let worker = self.some_worker() as i64;
        let [document, field, kind, value] = self.change_numbers(session, phase);
        match call {
            1 => vec![document, field, kind, value],
            2 => vec![self.random.between(0, 31), 2, document, 0, document, 1, 0, 0, 0, 0],
            4 => vec![session, self.some_key()],
            5 => vec![session, document, field, kind, value],
            6 | 7 | 15 => vec![session],
            8 => vec![self.random.between(0, 50)],
            9 | 11 | 12 => vec![worker],
            10 => vec![worker, self.random.between(0, 2)],
            14 => vec![1],
            _ => vec![],
        }
    }

    /// A call with one number at or past an end of its range.
    fn out_of_range(&mut self, phase: &Phase) -> io::Result<()> {
        let call = self.random.pick(&[1, 2, 4, 5, 5, 6, 7, 8, 9, 10, 11, 12, 14, 15]);
        let mut numbers = self.ordinary_numbers(call, phase);
        let at = self.random.below(numbers.len() as u64) as usize;
        numbers[at] = self.random.pick(&[
            -1,
            0,
            2,
            3,
            4,
            5,
            6,
            7,
            31,
            32,
            63,
            64,
            65_535,
            65_536,
            2_147_483_647,
            2_147_483_648,
            -2_147_483_648,
            -2_147_483_649,
            4_294_967_295,
            4_294_967_296,
            99_999_999_999,
            999_999_999_999,
            -99_999_999_999,
        ]);
        self.call(call, &numbers)?;
        Ok(())
    }

    /// A line that is not in form, or that looks as if it were not.
    fn garbled(&mut self, phase: &Phase) -> io::Result<()> {
        let call = self.random.between(1, CALLS as i64) as u8;
        let numbers = self.ordinary_numbers(call, phase);
        debug_assert_eq!(numbers.len(), number_count(call));
        self.compose(call, &numbers);
        let length = self.line.len();
        let count = numbers.len();
        let column = 2 + COLUMNS * self.random.below(count.max(1) as u64) as usize;
        match self.random.below(24) {
            0 => self.line.clear(),
            1 => self.line.truncate(self.random.below(length as u64) as usize),
            2 => self.line.push(self.random.pick(b" \t\r0-\x00")),
            3 => self.line.extend_from_slice(&[b' '; COLUMNS]),
            4 => self.line.extend_from_slice(b"           0"),
            5 => self.line.truncate(length.saturating_sub(COLUMNS)),
            6..=8 => {
                // Any byte in any place, but no byte 10: that would make it two lines.
                let at = self.random.below(length as u64) as usize;
                let byte = self.random.below(256) as u8;
                self.line[at] = if byte == b'\n' { 13 } else { byte };
            }
            9 => {
                let at = self.random.below(length as u64) as usize;
                self.line[at] = self.random.pick(b"\t\r-+.0 9a\x7f\x80\xff\x00");
            }
            10..=14 if count > 0 => {
                let columns: &[u8; COLUMNS] = self.random.pick(&[
                    b"          -0",
                    b"         007",
                    b"          00",
                    b"          01",
                    b"         -01",
                    b"         - 1",
                    b"          1 ",
                    b"1           ",
                    b"0           ",
                    b"            ",
                    b"           -",
                    b"         --1",
                    b"          +1",
                    b"         1 1",
                    b"         1-1",
                    b"          1-",
                    b"\t          1",
                    b"          \t1",
                    b"          1\r",
                    b"           \xb2",
                    b"         1.0",
                    b"         1e1",
                    b"         0x1",
                    b"000000000001",
                    b"-00000000001",
                    b"999999999999",
                    b"-99999999999",
                    b"100000000000",
                    b" -9999999999",
                    b"  4294967296",
                    b"  2147483648",
                    b" -2147483649",
                ]);
                self.line[column..column + COLUMNS].copy_from_slice(columns);
            }
            15..=16 => {
                let columns: &[u8; 2] = self.random.pick(&[
                    b" 0", b"16", b"99", b"17", b"00", b"05", b"5 ", b"  ", b"-1", b"+1", b"1 ", b"\t1", b"0 ", b" -",
                    b" \x00", b"0x", b" a", b"1a", b"-0", b"01", b"15", b"\xff1", b"30", b"23", b"\r3",
                ]);
                self.line[..2].copy_from_slice(columns);
            }
            17 => {
                self.line.clear();
                let byte = self.random.pick(b" 1239-\t\r\x00\xff");
                self.line.push(byte);
            }
            18 => {
                // An unknown call is refused 1 whatever follows.
                self.line[0] = self.random.pick(b"23456789");
                let byte = self.random.below(256) as u8;
                self.line.push(if byte == b'\n' { b' ' } else { byte });
            }
            19 => {
                // Longer than every line of a call, at times than a large piece of input.
                let length = self.random.pick(&[121, 122, 123, 124, 200, 1_000, 1_000, 5_000, 70_000]);
                let byte = self.random.pick(b" 0x\t");
                self.line.resize(length, byte);
            }
            20 => {
                self.line.insert(0, b' ');
            }
            21 => {
                self.line.remove(0);
            }
            22 => {
                // A number moved by one column.
                if count > 0 {
                    self.line.remove(column);
                    self.line.push(b' ');
                }
            }
            _ => self.line.push(13),
        }
        self.send()?;
        Ok(())
    }

    /// Advances in the largest steps until a few thousand ticks are left. They are not counted.
    fn approach_clock_end(&mut self) -> io::Result<()> {
        let asked = self.lines_left;
        self.lines_left = u64::MAX;
        let left = self.random.between(200, 20_000) as u64;
        while self.plant.clock < CLOCK_END - left {
            let ticks = (CLOCK_END - left - self.plant.clock).min(TICKS as u64);
            self.call(8, &[ticks as i64])?;
        }
        self.lines_left = asked;
        Ok(())
    }

    // The work files.

    /// Set-up, then sessions that begin, read, change and commit, and workers that carry them.
    fn work(&mut self) -> io::Result<()> {
        self.work_set_up()?;
        let mut plans = [Plan::default(); 5];
        // Turns until the store comes back, 0 while it is near.
        let mut away: u64 = 0;
        while self.lines_left > 0 {
            if away > 0 {
                away -= 1;
                if away == 0 {
                    self.call(14, &[1])?;
                }
            } else if self.random.one_in(20_000) {
                self.call(14, &[0])?;
                away = 30;
            }
            let eager = if self.plant.buffer_count > 3 { 20 + 2 * self.plant.buffer_count as u64 } else { 10 };
            if away == 0 && self.random.percent(eager) && self.work_carry()? {
                continue;
            }
            if self.random.percent(5) {
                let ticks =
                    if self.random.one_in(100) { self.random.between(300, 1_200) } else { self.random.between(1, 25) };
                self.call(8, &[ticks])?;
                continue;
            }
            let at = self.random.below(plans.len() as u64) as usize;
            let mut plan = plans[at];
            self.work_on(&mut plan, away > 0)?;
            plans[at] = plan;
        }
        Ok(())
    }

    /// 28 keys of 1 to 4 places in two documents of their own; every fourth key also has a place
    /// in a document that they share.
    fn work_set_up(&mut self) -> io::Result<()> {
        for key in 0..28 {
            let count = self.random.between(1, 4);
            let mut numbers = [0; 10];
            numbers[0] = key;
            numbers[1] = count;
            for at in 0..count {
                let document = if at == 3 && key % 4 == 0 { 60 + key % 3 } else { 2 * key + at % 2 };
                numbers[2 + 2 * at as usize] = document;
                numbers[3 + 2 * at as usize] = at;
            }
            self.call(2, &numbers)?;
            self.mapped.push(key as usize);
            for at in 0..count as usize {
                let (document, field) = (numbers[2 + 2 * at], numbers[3 + 2 * at]);
                match self.random.below(5) {
                    0 => {
                        for _ in 0..self.random.between(1, 4) {
                            let member = self.random.between(1, 999);
                            self.call(1, &[document, field, i64::from(PUSH), member])?;
                        }
                    }
                    1 => {}
                    _ => {
                        let amount = self.random.between(100, 9_999);
                        self.call(1, &[document, field, i64::from(SET), amount])?;
                    }
                }
            }
        }
        Ok(())
    }

    /// One worker carries the oldest buffered session: take, seldom a sweep, apply, delete. Tells
    /// whether there was one to carry.
    fn work_carry(&mut self) -> io::Result<bool> {
        if self.plant.buffer_count == 0 || self.plant.queue_leased() {
            return Ok(false);
        }
        let worker = self.random.between(0, 3);
        if self.call(9, &[worker])? != 0 {
            self.call(12, &[worker])?;
            return Ok(true);
        }
        if self.random.percent(30) || self.plant.row_count > 40 {
            self.call(13, &[])?;
        }
        if self.random.one_in(100) {
            let fate = self.random.between(1, 2);
            self.call(10, &[worker, fate])?;
        }
        self.call(10, &[worker, 0])?;
        self.call(11, &[worker])?;
        Ok(true)
    }

    /// The next call of the session of this plan, or a new session.
    fn work_on(&mut self, plan: &mut Plan, away: bool) -> io::Result<()> {
        if plan.session == 0 {
            if self.call(3, &[])? == 0 {
                let key = self.quiet_key();
                *plan = Plan {
                    session: (self.plant.next_number - 1) as u32,
                    reads: self.random.between(1, 3) as u64,
                    changes: self.random.between(1, 4) as u64,
                    keys: [key, if self.random.percent(40) { self.quiet_key() } else { key }],
                };
            }
            return Ok(());
        }
        let session = i64::from(plan.session);
        if self.random.one_in(80) && self.call(15, &[session])? != 0 {
            plan.session = 0;
            return Ok(());
        }
        if plan.reads > 0 {
            plan.reads -= 1;
            let key = self.random.pick(&plan.keys);
            if matches!(self.call(4, &[session, key as i64])?, 2..=4) {
                plan.session = 0;
            }
            return Ok(());
        }
        if plan.changes > 0 {
            plan.changes -= 1;
            let Some(slot) = self.slot_of(session) else {
                plan.session = 0;
                return Ok(());
            };
            let key = self.plant.keys[self.random.pick(&plan.keys)];
            let place = self.random.pick(key.places());
            let document = place / FIELDS as u8;
            let hindered = (0..SLOTS).any(|other| {
                let session = &self.plant.sessions[other];
                other != slot && (session.shared | session.exclusive) >> document & 1 == 1
            });
            if !hindered || self.random.one_in(50) {
                let (kind, value) = self.fitting_change(slot, place, away);
                let numbers = [session, i64::from(document), i64::from(place) % 4, i64::from(kind), value];
                if matches!(self.call(5, &numbers)?, 2..=4) {
                    plan.session = 0;
                }
                return Ok(());
            }
        }
        if plan.changes == 0 {
            let call = if self.random.one_in(50) { 7 } else { 6 };
            if self.call(call, &[session])? != 15 {
                plan.session = 0;
            }
        }
        Ok(())
    }

    /// A key whose documents no session holds exclusive, and mostly none shared either.
    fn quiet_key(&mut self) -> usize {
        let shared = self.plant.sessions.iter().fold(0, |set, session| set | session.shared);
        let avoided = if self.random.percent(90) { shared | self.plant.exclusive } else { self.plant.exclusive };
        let mut key = self.random.pick(&self.mapped);
        for _ in 0..20 {
            if self.plant.keys[key].documents & avoided == 0 {
                break;
            }
            key = self.random.pick(&self.mapped);
        }
        key
    }

    /// A change that the field's kind and fill allow.
    fn fitting_change(&mut self, slot: usize, place: u8, away: bool) -> (u8, i64) {
        if away && !self.plant.known(slot, place) {
            return (SET, self.random.between(100, 9_999));
        }
        let field = self.plant.seen(slot, place);
        let member = self.random.between(1, 999);
        match field.kind {
            ABSENT => match self.random.below(4) {
                0 => (PUSH, member),
                1 => (ADD, member),
                2 => (INC, self.random.between(1, 500)),
                _ => (SET, self.random.between(100, 9_999)),
            },
            LIST => {
                let count = field.count as usize;
                if self.random.one_in(20) {
                    (UNSET, 0)
                } else if count >= MEMBERS - 1 || (count > 0 && self.random.percent(40)) {
                    (PULL, i64::from(field.values[self.random.below(count as u64) as usize]))
                } else if self.random.percent(50) {
                    (ADD, member)
                } else {
                    (PUSH, member)
                }
            }
            _ => match self.random.below(20) {
                0 => (UNSET, 0),
                1..=3 => (SET, self.random.between(100, 9_999)),
                _ => (INC, self.random.between(-60, 60)),
            },
        }
    }
}
