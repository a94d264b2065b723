//! The profile `hits`: more keys than the cache has room for, and reads that tell in which order they give way.
//!
//! The next key to go, the one after it and the one just gone are read most, so a wrong order shows in few lines.

use super::*;

/// What one turn does, with its weight in a stretch of lines.
#[derive(Clone, Copy)]
enum Turn {
    /// A read of a key chosen by its place in the order.
    Read,
    /// Several keys that are not cached, one after the other.
    Misses,
    /// The first key is read from the cache, then it gives way.
    HitAndMiss,
    /// A commit brings a cached key up to date, then another key is cached.
    UpToDate,
    /// A session reads what it changed, from the cache or not, and ends.
    OwnChange,
    /// A session lapses and keys are dropped; some of them come back.
    Lapse,
    /// A read over another's exclusive lease.
    Hindered,
    Advance,
    FlipStore,
    /// The session that reads ends.
    End,
    Carry,
    /// Any other call.
    Other,
}

type Turns = &'static [(Turn, u64)];

const FULL_TURNS: Turns = &[
    (Turn::Read, 60),
    (Turn::Misses, 10),
    (Turn::HitAndMiss, 10),
    (Turn::UpToDate, 8),
    (Turn::OwnChange, 2),
    (Turn::Advance, 6),
    (Turn::End, 4),
    (Turn::Carry, 4),
];

const COMMIT_TURNS: Turns = &[
    (Turn::Read, 25),
    (Turn::UpToDate, 30),
    (Turn::OwnChange, 12),
    (Turn::Hindered, 6),
    (Turn::HitAndMiss, 5),
    (Turn::Advance, 6),
    (Turn::Carry, 24),
    (Turn::Other, 4),
];

const LAPSE_TURNS: Turns = &[
    (Turn::Read, 40),
    (Turn::Lapse, 10),
    (Turn::Misses, 8),
    (Turn::HitAndMiss, 6),
    (Turn::UpToDate, 4),
    (Turn::Advance, 10),
    (Turn::End, 6),
    (Turn::Carry, 4),
];

const AWAY_TURNS: Turns = &[
    (Turn::Read, 60),
    (Turn::HitAndMiss, 10),
    (Turn::UpToDate, 8),
    (Turn::OwnChange, 6),
    (Turn::Hindered, 3),
    (Turn::Lapse, 1),
    (Turn::FlipStore, 14),
    (Turn::Advance, 5),
    (Turn::Carry, 4),
    (Turn::Other, 3),
];

const STRETCHES: [(Turns, bool); 7] = [
    (FULL_TURNS, true),
    (FULL_TURNS, true),
    (FULL_TURNS, true),
    (COMMIT_TURNS, true),
    (LAPSE_TURNS, true),
    (LAPSE_TURNS, true),
    (AWAY_TURNS, false),
];

const OTHER_STEPS: [Step; 6] = [Step::Begin, Step::Report, Step::Sweep, Step::Cut, Step::SetUp, Step::OutOfRange];

impl<W: Write> Generator<W> {
    /// A set-up with 17 to 32 keys, then stretches of turns until the lines are used up.
    pub(super) fn hits(&mut self) -> io::Result<()> {
        self.open_end = self.random.one_in(4);
        self.hits_set_up()?;
        while self.lines_left > 0 {
            let (turns, near) = self.random.pick(&STRETCHES);
            if near != self.plant.near {
                self.call(14, &[i64::from(near)])?;
            }
            for _ in 0..self.random.between(20, 200) {
                let turn = self.random.weighted(turns);
                self.turn(turn)?;
            }
        }
        Ok(())
    }

    /// Keys of 1 to 4 places. Most places are in two documents of the key's own, the others in few documents that
    /// keys share, or are those of an earlier key.
    fn hits_set_up(&mut self) -> io::Result<()> {
        let keys = self.random.pick(&[17, 17, 18, 19, 20, 22, 24, 28, 32]);
        // How many of a hundred places are shared, in this file.
        let shared = self.random.pick(&[0, 5, 15, 40]);
        let mut order: Vec<usize> = (0..KEYS).collect();
        self.random.shuffle(&mut order);
        let mut used: Vec<u8> = Vec::new();
        for &key in &order[..keys] {
            let count = self.random.pick(&[1, 2, 3, 4, 4]);
            let mut places: Vec<u8> = Vec::new();
            while places.len() < count {
                let field = self.random.below(FIELDS as u64) as u8;
                let place = match self.random.percent(shared) {
                    true if !used.is_empty() && self.random.percent(50) => self.random.pick(&used),
                    true => self.random.between(60, 63) as u8 * FIELDS as u8 + field,
                    false => (2 * key as u8 + self.random.below(2) as u8) * FIELDS as u8 + field,
                };
                if !places.contains(&place) {
                    places.push(place);
                }
            }
            self.map_to(key, &places)?;
            used.extend(places);
        }
        self.mapped = (0..KEYS).filter(|&key| self.plant.keys[key].count != 0).collect();
        self.gone = self.mapped.first().copied().unwrap_or(0);
        self.documents = used.iter().map(|&place| i64::from(place) / 4).collect();
        for _ in 0..self.random.between(0, 60) {
            self.load(&ORDINARY)?;
        }
        Ok(())
    }

    fn turn(&mut self, turn: Turn) -> io::Result<()> {
        match turn {
            Turn::Read => {
                let key = self.key_by_order();
                self.read_key(key)?;
            }
            Turn::Misses => {
                for _ in 0..self.random.between(2, 6) {
                    let key = self.key_not_cached();
                    self.read_key(key)?;
                }
            }
            Turn::HitAndMiss => {
                let (first, missing) = (self.key_at(0), self.key_not_cached());
                for key in [first, missing, first] {
                    self.read_key(key)?;
                }
            }
            Turn::UpToDate => self.up_to_date()?,
            Turn::OwnChange => self.own_change()?,
            Turn::Lapse => self.lapse()?,
            Turn::Hindered => self.hindered()?,
            Turn::Advance => {
                let ticks = self.random.pick(&[0, 0, 1, 1, 7, 20, 60]);
                self.call(8, &[ticks])?;
            }
            Turn::FlipStore => self.step(Step::FlipStore, &ORDINARY)?,
            Turn::End => {
                let call = self.random.pick(&[6, 7]);
                self.call(call, &[self.session])?;
            }
            Turn::Carry => self.carry()?,
            Turn::Other => {
                let step = self.random.pick(&OTHER_STEPS);
                self.step(step, &ORDINARY)?;
            }
        }
        Ok(())
    }

    /// The cached key that so many others are to go before, or any key if there are not so many.
    fn key_at(&mut self, place_in_order: usize) -> usize {
        match self.plant.cached().get(place_in_order) {
            Some(&key) => usize::from(key),
            None => self.random.pick(&self.mapped),
        }
    }

    fn key_not_cached(&mut self) -> usize {
        let missing: Vec<usize> =
            self.mapped.iter().copied().filter(|&key| self.plant.cached_set >> key & 1 == 0).collect();
        if missing.is_empty() {
            return self.random.pick(&self.mapped);
        }
        self.random.pick(&missing)
    }

    /// A key for the next read: the first to go, the second, the last, the one just gone, the next one in turn, one
    /// that is not cached, or any.
    fn key_by_order(&mut self) -> usize {
        match self.random.below(20) {
            0..=3 => self.key_at(0),
            4..=5 => self.key_at(1),
            6 => self.key_at(self.plant.cached_count.saturating_sub(1)),
            7..=10 => self.gone,
            11..=12 => {
                let after = self.mapped.iter().copied().find(|&key| key > self.read_last);
                after.unwrap_or(self.mapped[0])
            }
            13..=17 => self.key_not_cached(),
            _ => self.random.pick(&self.mapped),
        }
    }

    /// Reads the key in the session that reads.
    pub(super) fn read_key(&mut self, key: usize) -> io::Result<()> {
        self.reader()?;
        self.read_last = key;
        self.call_and_note(4, &[self.session, key as i64])
    }

    /// Makes the call, and notes the first key of the order that it dropped or made give way.
    fn call_and_note(&mut self, call: u8, numbers: &[i64]) -> io::Result<()> {
        let before = self.plant.cached().to_vec();
        self.call(call, numbers)?;
        let gone = before.iter().find(|&&key| self.plant.cached_set >> key & 1 == 0);
        self.gone = gone.map_or(self.gone, |&key| usize::from(key));
        Ok(())
    }

    /// Opens a session that reads, if the one before has ended or its leases end soon. That one mostly ends in time,
    /// so that the cache stays full; at times it is left, and lapses.
    fn reader(&mut self) -> io::Result<()> {
        if let Some(slot) = self.slot_of(self.session) {
            let session = &self.plant.sessions[slot];
            let fresh = !session.doomed && session.lapse > self.plant.clock + 60;
            if fresh && !self.random.one_in(30) || self.random.one_in(10) {
                return Ok(());
            }
            if self.random.percent(85) {
                let call = self.random.pick(&[6, 7]);
                self.call(call, &[self.session])?;
            }
        }
        self.session = self.begin()?;
        Ok(())
    }

    /// Carries up to four buffered sessions. Seldom a worker waits for the queue lease, which lets sessions lapse.
    fn carry(&mut self) -> io::Result<()> {
        if self.random.one_in(20) {
            return self.whole_carry(&DRAIN);
        }
        for _ in 0..4 {
            if !self.plant.near || !self.work_carry()? {
                break;
            }
        }
        Ok(())
    }

    /// Changes a place of the key in the session.
    fn change_key(&mut self, session: i64, key: usize) -> io::Result<()> {
        let place = self.random.pick(self.plant.keys[key].places());
        let Some(slot) = self.slot_of(session) else {
            return Ok(());
        };
        let (kind, value) = self.fitting_change(slot, place, !self.plant.near);
        self.change_place(session, place, kind, value)?;
        Ok(())
    }

    /// A commit that changes one or two cached keys, mostly the first to go. Then a key is cached, and the changed one
    /// is read.
    fn up_to_date(&mut self) -> io::Result<()> {
        let place_in_order = self.random.pick(&[0, 0, 0, 1, 1, 2, 8, 15]);
        let changed = self.key_at(place_in_order);
        let session = self.begin()?;
        self.change_key(session, changed)?;
        if self.random.one_in(3) {
            let other = self.key_by_order();
            self.change_key(session, other)?;
        }
        if self.call(6, &[session])? == 15 {
            self.carry()?;
            self.call(6, &[session])?;
        }
        let missing = self.key_not_cached();
        for key in [missing, changed] {
            self.read_key(key)?;
        }
        Ok(())
    }

    /// A session changes a key and reads it, mostly with mark 2; other reads follow.
    fn own_change(&mut self) -> io::Result<()> {
        let session = self.begin()?;
        let key = self.key_by_order();
        self.change_key(session, key)?;
        self.call_and_note(4, &[session, key as i64])?;
        let other = self.key_by_order();
        self.call_and_note(4, &[session, other as i64])?;
        let call = self.random.pick(&[6, 7]);
        self.call(call, &[session])?;
        self.read_key(key)
    }

    /// A session reads or changes some keys and lapses; the other sessions mostly end before. Mostly one of the keys is
    /// read again, then others are.
    fn lapse(&mut self) -> io::Result<()> {
        if self.random.percent(75) {
            for slot in self.taken_slots() {
                self.call(7, &[i64::from(self.plant.sessions[slot].number)])?;
            }
        }
        let session = self.begin()?;
        let mut keys = Vec::new();
        for _ in 0..self.random.between(1, 3) {
            let key = self.key_by_order();
            keys.push(key);
            if self.random.one_in(5) {
                self.change_key(session, key)?;
            } else {
                self.call_and_note(4, &[session, key as i64])?;
            }
            let ticks = self.random.pick(&[0, 0, 1, 30]);
            self.call(8, &[ticks])?;
        }
        // To the tick of the lapse, or one beside it.
        let Some(slot) = self.slot_of(session) else {
            return Ok(());
        };
        let left = self.plant.sessions[slot].lapse.saturating_sub(self.plant.clock) as i64;
        let beside = self.random.pick(&[-1, 0, 0, 0, 0, 1, 800]);
        self.call_and_note(8, &[(left + beside).clamp(0, TICKS)])?;
        if self.random.percent(70) {
            let key = self.random.pick(&keys);
            self.read_key(key)?;
        }
        for _ in 0..self.random.between(0, 6) {
            let key = if self.random.percent(70) { self.key_not_cached() } else { self.key_by_order() };
            self.read_key(key)?;
        }
        Ok(())
    }

    /// A session holds a document exclusive while another reads a key of it: refused, that one ends.
    fn hindered(&mut self) -> io::Result<()> {
        let holder = self.begin()?;
        let key = self.key_by_order();
        self.change_key(holder, key)?;
        self.read_key(key)?;
        let other = self.key_by_order();
        self.read_key(other)?;
        let call = self.random.pick(&[6, 7, 15]);
        self.call(call, &[holder])?;
        self.read_key(key)
    }
}
