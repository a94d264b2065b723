//! The profile `away`: long spells without the store, the buffer from empty to full, and reads and changes of fields that
//! one buffered change, an own one, a cached key or nothing makes known.
//!
//! Before a spell the buffer is filled so that each field has its sets and unsets at one time, some at the very first
//! change or at the very last, and some have none. Places are then chosen by what makes them known.

use super::*;
use crate::refusal::Refusal;

/// What one turn without the store does.
#[derive(Clone, Copy)]
enum Turn {
    /// A session reads and changes fields by what makes them known; then it ends or is left.
    Session,
    /// A session with eight changes reads.
    FullSession,
    /// Another session reads.
    Reads,
    /// The oldest buffered session, which has its row, is deleted: what only it made known is known no longer.
    Delete,
    /// The store is near for as long as a worker takes the oldest buffered session and applies it.
    Apply,
    /// Cached keys are dropped.
    Lapse,
    Advance,
    /// Any other call.
    Other,
}

const TURNS: &[(Turn, u64)] = &[
    (Turn::Session, 44),
    (Turn::FullSession, 4),
    (Turn::Reads, 10),
    (Turn::Delete, 10),
    (Turn::Apply, 8),
    (Turn::Lapse, 10),
    (Turn::Advance, 3),
    (Turn::Other, 3),
];

const OTHER_STEPS: [Step; 8] =
    [Step::Begin, Step::Change, Step::Commit, Step::Report, Step::Worker, Step::Cut, Step::Sweep, Step::OutOfRange];

/// What makes a place known to a session without changes.
#[derive(Clone, Copy, PartialEq, Eq)]
enum Known {
    /// A cached key alone.
    Cached,
    /// A cached key and the buffer.
    Both,
    /// Only the oldest buffered session, the newest one, or any other.
    Oldest,
    Newest,
    Between,
    /// Nothing: no change, another field of its document that is set or unset, or changes of other kinds.
    Untouched,
    Beside,
    Touched,
}

const EVERY_WAY: [(Known, u64); 8] = [
    (Known::Cached, 2),
    (Known::Both, 1),
    (Known::Oldest, 5),
    (Known::Newest, 3),
    (Known::Between, 4),
    (Known::Untouched, 2),
    (Known::Beside, 3),
    (Known::Touched, 4),
];

impl<W: Write> Generator<W> {
    /// A set-up, then spells until the lines are used up; every third is a full one.
    pub(super) fn away(&mut self) -> io::Result<()> {
        self.open_end = self.random.one_in(4);
        self.away_set_up()?;
        for spell in 0.. {
            if self.lines_left == 0 {
                break;
            }
            self.call(14, &[1])?;
            let full = spell % 3 == 0;
            let left = if full { 0 } else { self.random.pick(&[0, 0, 1, 2, 8, 16]) };
            while self.plant.buffer_count > left && self.lines_left > 0 {
                if !self.work_carry()? {
                    self.whole_carry(&DRAIN)?;
                }
            }
            self.spell(full)?;
        }
        Ok(())
    }

    /// Places in few documents, so that many have neighbours, and keys that have each of them.
    fn away_set_up(&mut self) -> io::Result<()> {
        let first = self.random.between(0, 63);
        self.documents = (0..self.random.between(8, 16)).map(|at| (first + 11 * at) % 64).collect();
        let count = self.random.between(16, 30) as usize;
        while self.places.len() < count {
            let place = self.random.pick(&self.documents) as u8 * FIELDS as u8 + self.random.below(FIELDS as u64) as u8;
            if !self.places.contains(&place) {
                self.places.push(place);
            }
        }
        for key in 0..self.random.between(count as i64, KEYS as i64) as usize {
            let places = if self.random.percent(40) { vec![self.places[key % count]] } else { self.key_places(key) };
            self.map_to(key, &places)?;
            self.mapped.push(key);
        }
        for at in 0..count {
            for _ in 0..self.random.between(0, 3) {
                self.newer_change(0, self.places[at])?;
            }
        }
        Ok(())
    }

    /// Mostly cached keys are dropped first, and a few are cached. Then the buffer is filled, before the store goes away
    /// or after; in a full spell by 32 sessions of eight changes. At times the oldest session is applied in between.
    fn spell(&mut self, full: bool) -> io::Result<()> {
        if full || self.random.percent(75) {
            self.drop_keys()?;
        }
        let keys = if full { &[0, 1][..] } else { &[0, 0, 1, 2, 4, 8, 24] };
        let keys = self.random.pick(keys);
        self.read_keys(keys)?;
        let near = full || self.random.percent(75);
        self.call(14, &[i64::from(near)])?;
        if full {
            self.fill_buffer(BUFFERED, CHANGES, CHANGES)?;
        } else {
            let sessions = self.random.pick(&[0, 1, 2, 3, 5, 8, 16, 24, 31, BUFFERED]);
            let longest = self.random.pick(&[1, 3, CHANGES, CHANGES]);
            self.fill_buffer(sessions, 1, longest)?;
        }
        if near && self.random.percent(60) {
            self.apply_oldest()?;
        }
        self.call(14, &[0])?;
        if full {
            self.full_session()?;
        }
        for _ in 0..self.random.between(10, 50) {
            if self.plant.near && self.random.percent(95) {
                self.call(14, &[0])?;
            }
            let turn = self.random.weighted(TURNS);
            self.away_turn(turn)?;
        }
        Ok(())
    }

    fn away_turn(&mut self, turn: Turn) -> io::Result<()> {
        match turn {
            Turn::Session => self.knowing_session(),
            Turn::FullSession => self.full_session(),
            Turn::Reads => {
                for _ in 0..self.random.between(1, 3) {
                    let place = self.place_by_known();
                    let key = self.key_of(self.session, place);
                    self.read_key(key)?;
                }
                Ok(())
            }
            Turn::Delete => self.delete_oldest(),
            Turn::Apply => self.apply_oldest(),
            Turn::Lapse => self.drop_keys(),
            Turn::Advance => {
                let ticks = self.random.pick(&[0, 1, 20, 60, 299, 300]);
                self.call(8, &[ticks])?;
                Ok(())
            }
            Turn::Other => {
                let step = self.random.pick(&OTHER_STEPS);
                self.step(step, &AWAY)
            }
        }
    }

    // What is known.

    /// What makes the place known without the store and without own changes.
    fn known_by(&self, place: u8) -> Known {
        let changes = |at: usize| self.plant.buffered(at).changes().iter();
        let sessions = 0..self.plant.buffer_count;
        let sets = |at: &usize| changes(*at).any(|change| change.place == place && change.settles());
        let newest = sessions.clone().rev().find(sets);
        match (self.plant.shown[usize::from(place)] > 0, newest) {
            (true, None) => Known::Cached,
            (true, Some(_)) => Known::Both,
            (false, Some(0)) => Known::Oldest,
            (false, Some(at)) if at + 1 == sessions.end => Known::Newest,
            (false, Some(_)) => Known::Between,
            (false, None) => {
                if sessions.clone().flat_map(changes).any(|change| change.place == place) {
                    return Known::Touched;
                }
                let document = u32::from(place) / 4;
                let beside = sessions.flat_map(changes).any(|change| change.document() == document && change.settles());
                if beside {
                    Known::Beside
                } else {
                    Known::Untouched
                }
            }
        }
    }

    /// A place, chosen by what makes it known.
    fn place_by_known(&mut self) -> u8 {
        let known: Vec<(u8, Known)> = self.places.iter().map(|&place| (place, self.known_by(place))).collect();
        let mut ways = EVERY_WAY.to_vec();
        ways.retain(|&(way, _)| known.iter().any(|&(_, by)| by == way));
        let way = self.random.weighted(&ways);
        let places: Vec<u8> = known.iter().filter(|&&(_, by)| by == way).map(|&(place, _)| place).collect();
        self.random.pick(&places)
    }

    /// A key that has the place; in half of the cases one with the fewest places unknown to the session.
    fn key_of(&mut self, session: i64, place: u8) -> usize {
        let slot = self.slot_of(session).unwrap_or(0);
        let plant = &self.plant;
        let unknown =
            |key: &usize| plant.keys[*key].places().iter().filter(|&&place| !plant.known(slot, place)).count();
        let mut keys = self.mapped.clone();
        keys.retain(|&key| plant.keys[key].places().contains(&place));
        if self.random.percent(50) {
            let fewest = keys.iter().map(unknown).min();
            keys.retain(|key| Some(unknown(key)) == fewest);
        }
        self.random.pick(&keys)
    }

    /// The session reads a key that has the place.
    fn read_known(&mut self, session: i64, place: u8) -> io::Result<()> {
        let key = self.key_of(session, place);
        self.call(4, &[session, key as i64])?;
        Ok(())
    }

    // Changes.

    /// Sets or unsets the place.
    fn settle(&mut self, session: i64, place: u8) -> io::Result<u8> {
        if self.random.percent(40) {
            return self.change_place(session, place, UNSET, 0);
        }
        let value = self.random.between(-999, 999);
        self.change_place(session, place, SET, value)
    }

    /// A change that needs the field known and mostly goes with its kind; session 0 stands for load.
    fn newer_change(&mut self, session: i64, place: u8) -> io::Result<u8> {
        let field = self.field(session, place);
        let kinds: &[u8] = match field.kind {
            _ if self.random.one_in(15) => &[INC, ADD, PUSH, PULL],
            ABSENT => &[INC, INC, ADD, PUSH, PUSH, PULL],
            NUMBER => &[INC],
            _ if field.count as usize == MEMBERS => &[PULL, PULL, PULL, ADD],
            _ => &[ADD, PUSH, PUSH, PULL],
        };
        let kind = self.random.pick(kinds);
        let value = if kind == INC { self.random.between(-99, 99) } else { self.random.between(1, 4) };
        self.change_place(session, place, kind, value)
    }

    /// Commits sessions until so many are buffered. The oldest sets or unsets one place by its first change and another
    /// by its last, the newest does so too, and most other places get theirs at one time in between.
    fn fill_buffer(&mut self, sessions: usize, shortest: usize, longest: usize) -> io::Result<()> {
        let mut order = self.places.clone();
        self.random.shuffle(&mut order);
        let between = order.len() * 3 / 5 - 4;
        // Sessions that were left would hinder it.
        for slot in self.taken_slots() {
            self.call(7, &[i64::from(self.plant.sessions[slot].number)])?;
        }
        while self.plant.buffer_count < sessions && self.lines_left > 0 {
            let at = self.plant.buffer_count;
            let newest = at + 1 == sessions;
            let changes = self.random.between(shortest as i64, longest as i64) as usize;
            let session = self.begin()?;
            while let Some(slot) = self.slot_of(session).filter(|_| self.lines_left > 0) {
                let change = usize::from(self.plant.sessions[slot].change_count);
                if change == changes {
                    break;
                }
                let settled = match (change == 0, change + 1 == changes) {
                    (true, _) if at == 0 => Some(order[0]),
                    (true, _) if newest => Some(order[1]),
                    (_, true) if at == 0 => Some(order[2]),
                    (_, true) if newest => Some(order[3]),
                    _ if self.random.percent(25) => Some(order[4 + at * between / sessions]),
                    _ => None,
                };
                match settled {
                    Some(place) => self.settle(session, place)?,
                    None => {
                        let place = self.random.pick(&order);
                        self.newer_change(session, place)?
                    }
                };
            }
            self.call(6, &[session])?;
        }
        Ok(())
    }

    // Turns.

    /// The session reads a key, or changes a place, that was chosen by what makes it known.
    fn knowing_step(&mut self, session: i64) -> io::Result<()> {
        let place = self.place_by_known();
        match self.random.below(20) {
            0..=8 => {
                self.newer_change(session, place)?;
            }
            // From now on it is known to this session; another field of the document is not.
            9..=11 => {
                self.settle(session, place)?;
                let beside = self.places.iter().copied().find(|&beside| beside / 4 == place / 4 && beside != place);
                let next = if self.random.one_in(3) { beside.unwrap_or(place) } else { place };
                self.newer_change(session, next)?;
            }
            12..=17 => self.read_known(session, place)?,
            18 => {
                // A place that the session has changed already.
                let own = self.slot_of(session).and_then(|slot| self.plant.sessions[slot].changes().last().copied());
                self.newer_change(session, own.map_or(place, |change| change.place))?;
            }
            _ => {
                self.call(15, &[session])?;
            }
        }
        Ok(())
    }

    fn knowing_session(&mut self) -> io::Result<()> {
        let session = self.begin()?;
        for _ in 0..self.random.between(1, 9) {
            if self.slot_of(session).is_none() {
                return Ok(());
            }
            self.knowing_step(session)?;
        }
        self.end_away(session)
    }

    /// Mostly abandoned, so that what is known stays as it is; also where the buffer is full.
    fn end_away(&mut self, session: i64) -> io::Result<()> {
        let call = self.random.weighted(&[(7, 12), (6, 7), (15, 1)]);
        if self.call(call, &[session])? == Refusal::BufferFull.number() {
            self.call(7, &[session])?;
        }
        Ok(())
    }

    /// Eight own changes are newer than all that is buffered, up to its first. The ninth is refused 5, whatever is known.
    fn full_session(&mut self) -> io::Result<()> {
        let session = self.begin()?;
        let oldest = (self.plant.buffer_count > 0).then(|| self.plant.buffered(0).changes()[0].place);
        let oldest = oldest.filter(|place| self.places.contains(place));
        for _ in 0..3 * CHANGES {
            let Some(slot) = self.slot_of(session) else {
                return Ok(());
            };
            if usize::from(self.plant.sessions[slot].change_count) >= CHANGES {
                break;
            }
            let place = self.place_by_known();
            if Some(place) != oldest && (self.random.percent(30) || !self.plant.known(slot, place)) {
                self.settle(session, place)?;
            } else {
                self.newer_change(session, place)?;
            }
        }
        for _ in 0..self.random.between(2, 6) {
            let place = match oldest {
                Some(place) if self.random.percent(60) => place,
                _ => self.place_by_known(),
            };
            self.read_known(session, place)?;
        }
        let place = self.place_by_known();
        self.newer_change(session, place)?;
        self.end_away(session)
    }

    /// A worker takes the oldest buffered session and applies it; then the store is away. Seldom no reply comes.
    fn apply_oldest(&mut self) -> io::Result<()> {
        self.call(14, &[1])?;
        let worker = self.take_oldest()?;
        let fate = self.random.pick(&[0, 0, 0, 0, 1]);
        self.call(10, &[worker, fate])?;
        self.call(14, &[0])?;
        Ok(())
    }

    /// The worker whose apply of the oldest buffered session was answered.
    fn ready_worker(&self) -> Option<usize> {
        let oldest = (self.plant.buffer_count > 0).then(|| self.plant.buffered(0).number)?;
        (0..WORKERS).find(|&worker| self.plant.hands[worker] == Hand { session: oldest, replied: true })
    }

    /// Places that only the oldest made known are changed and read before the delete and after it. An own change to one
    /// of them does not make it known.
    fn delete_oldest(&mut self) -> io::Result<()> {
        if self.ready_worker().is_none() {
            self.apply_oldest()?;
        }
        let Some(worker) = self.ready_worker() else {
            return Ok(());
        };
        let mut lost = self.places.clone();
        lost.retain(|&place| self.known_by(place) == Known::Oldest);
        self.random.shuffle(&mut lost);
        lost.truncate(3);
        let session = self.begin()?;
        for &place in &lost {
            if self.random.percent(70) {
                self.newer_change(session, place)?;
            }
        }
        self.call(11, &[worker as i64])?;
        for place in lost {
            self.newer_change(session, place)?;
            self.read_known(session, place)?;
            if self.random.one_in(4) {
                self.settle(session, place)?;
                self.newer_change(session, place)?;
            }
        }
        self.end_away(session)
    }

    /// A session reads cached keys until it holds a document of each, and lapses.
    fn drop_keys(&mut self) -> io::Result<()> {
        let session = self.begin()?;
        while let Some(slot) = self.slot_of(session).filter(|_| self.lines_left > 0) {
            let held = self.plant.sessions[slot].shared | self.plant.sessions[slot].exclusive;
            let left = self.plant.cached().iter().find(|&&key| self.plant.keys[usize::from(key)].documents & held == 0);
            let Some(&key) = left else {
                break;
            };
            self.call(4, &[session, i64::from(key)])?;
        }
        let ticks = self.random.pick(&[299, 300, 300, 300, 300, 301]);
        self.call(8, &[ticks])?;
        Ok(())
    }
}
