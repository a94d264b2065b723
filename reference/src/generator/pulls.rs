//! The profile `pulls`: lists of few values, so that most have repeats, and pulls of what they have several times, once
//! or not at all.
//!
//! What a pull left shows at once in the session's own read, after its commit in reads from the cache, and in reads
//! from the store when it was carried there and the cached keys were dropped.

use super::*;

/// What one turn does, with its weight in a stretch of lines.
#[derive(Clone, Copy)]
enum Turn {
    /// A session fills lists, pulls from them and reads; then it ends or is left.
    Session,
    /// Pushes up to refusal 7 and a pull, twice: the second time as many are accepted as members went.
    Limit,
    /// Pulls until nothing is left, and changes of the empty list.
    Empty,
    /// Another session reads. The next change of what it read dooms it.
    Reads,
    Carry,
    /// Cached keys are dropped, so that the next reads show the store.
    Lapse,
    Advance,
    /// Any other call.
    Other,
}

type Turns = &'static [(Turn, u64)];

const NEAR_TURNS: Turns = &[
    (Turn::Session, 30),
    (Turn::Limit, 6),
    (Turn::Empty, 6),
    (Turn::Reads, 20),
    (Turn::Carry, 16),
    (Turn::Lapse, 8),
    (Turn::Advance, 6),
    (Turn::Other, 3),
];

/// With the store away nothing is carried, and a key that was dropped is mostly refused 20.
const AWAY_TURNS: Turns = &[
    (Turn::Session, 30),
    (Turn::Limit, 4),
    (Turn::Empty, 4),
    (Turn::Reads, 20),
    (Turn::Carry, 1),
    (Turn::Lapse, 1),
    (Turn::Advance, 4),
    (Turn::Other, 3),
];

const OTHER_STEPS: [Step; 8] =
    [Step::Begin, Step::Change, Step::Commit, Step::Report, Step::Cut, Step::SetUp, Step::FlipStore, Step::OutOfRange];

/// The changes of a field, by what it is. Some are refused: 6, or 7 with six members.
const ON_ABSENT: &[u8] = &[PUSH, PUSH, PUSH, PUSH, PUSH, ADD, PULL, SET];
const ON_NUMBER: &[u8] = &[UNSET, UNSET, UNSET, PULL, PULL, PUSH, ADD, INC];
const ON_EMPTY: &[u8] = &[PUSH, PUSH, PUSH, PUSH, ADD, ADD, PULL, PULL, UNSET, INC];
const ON_SOME: &[u8] =
    &[PUSH, PUSH, PUSH, PUSH, PUSH, PUSH, PUSH, ADD, PULL, PULL, PULL, PULL, PULL, PULL, INC, SET, UNSET];
const ON_FULL: &[u8] = &[PUSH, PUSH, ADD, PULL, PULL, PULL, PULL, PULL, PULL, PULL];

impl<W: Write> Generator<W> {
    /// A set-up with pulls in it, then stretches of turns until the lines are used up. One in four is without the store.
    pub(super) fn pulls(&mut self) -> io::Result<()> {
        self.open_end = self.random.one_in(4);
        self.pulls_set_up()?;
        while self.lines_left > 0 {
            for key in self.mapped.clone() {
                self.read_key(key)?;
            }
            let near = !self.random.one_in(4);
            let turns = if near { NEAR_TURNS } else { AWAY_TURNS };
            self.call(14, &[i64::from(near)])?;
            for _ in 0..self.random.between(10, 80) {
                let turn = self.random.weighted(turns);
                self.pulls_turn(turn)?;
            }
        }
        Ok(())
    }

    fn pulls_turn(&mut self, turn: Turn) -> io::Result<()> {
        match turn {
            Turn::Session => self.pulling_session(),
            Turn::Limit => self.limit(),
            Turn::Empty => self.empty(),
            Turn::Reads => {
                let keys = self.random.pick(&[1, 1, 2, 3]);
                self.read_keys(keys)
            }
            Turn::Carry => self.carry_pulls(),
            Turn::Lapse => self.lapse_and_read(),
            Turn::Advance => {
                let ticks = self.random.pick(&[0, 1, 20, 60, 299, 300]);
                self.call(8, &[ticks])?;
                Ok(())
            }
            Turn::Other => {
                let step = self.random.pick(&OTHER_STEPS);
                self.step(step, &LISTS)
            }
        }
    }

    // The set-up.

    /// Three to five values, three to eight places, and keys that have each of them; then the lists.
    fn pulls_set_up(&mut self) -> io::Result<()> {
        let (low, high) = (i64::from(i32::MIN), i64::from(i32::MAX));
        // 0 is always among the values, because unused words are 0 too.
        self.values = vec![0];
        let count = self.random.between(3, 5) as usize;
        while self.values.len() < count {
            let value = self.random.pick(&[1, -1, 4, 7, -300, 999_999, low, low + 1, high - 1, high]);
            if !self.values.contains(&value) {
                self.values.push(value);
            }
        }
        let first = self.random.between(0, 63);
        self.documents = (0..self.random.between(2, 6)).map(|at| (first + 11 * at) % 64).collect();
        let count = self.random.between(3, 8) as usize;
        while self.places.len() < count {
            let place = self.random.pick(&self.documents) as u8 * FIELDS as u8 + self.random.below(FIELDS as u64) as u8;
            if !self.places.contains(&place) {
                self.places.push(place);
            }
        }
        let keys = count + self.random.pick(&[0, 0, 4, 12, 24]);
        for key in 0..keys {
            let places = self.key_places(key);
            self.map_to(key, &places)?;
        }
        self.mapped = (0..keys).collect();
        for at in 0..count {
            self.load_list(self.places[at], at % 3 == 1)?;
        }
        Ok(())
    }

    /// 1 to 4 places for the key. The first is the next one in turn, so that each place has a key.
    pub(super) fn key_places(&mut self, key: usize) -> Vec<u8> {
        let mut places = vec![self.places[key % self.places.len()]];
        for _ in 1..self.random.between(1, KEY_PLACES as i64) {
            let place = self.random.pick(&self.places);
            if !places.contains(&place) {
                places.push(place);
            }
        }
        places
    }

    /// Loads of one place: any changes, then a list and pulls of some of its members, or of all. Seldom the store is
    /// away at first.
    fn load_list(&mut self, place: u8, empty: bool) -> io::Result<()> {
        for _ in 0..self.random.between(0, 4) {
            self.change_list(0, place)?;
        }
        if self.field(0, place).kind == NUMBER {
            self.change_place(0, place, UNSET, 0)?;
        }
        self.fill(0, place)?;
        if self.random.one_in(10) {
            self.call(14, &[0])?;
            self.pull(0, place)?;
            self.call(14, &[1])?;
        }
        if empty {
            return self.pull_all(0, place);
        }
        for _ in 0..self.random.pick(&[0, 1, 1, 1, 2]) {
            self.pull(0, place)?;
        }
        Ok(())
    }

    // Changes of a place by a session; session 0 stands for load.

    /// One change that the field calls for, or several pushes.
    fn change_list(&mut self, session: i64, place: u8) -> io::Result<()> {
        let field = self.field(session, place);
        let kinds = match (field.kind, field.count as usize) {
            (ABSENT, _) => ON_ABSENT,
            (NUMBER, _) => ON_NUMBER,
            (_, 0) => ON_EMPTY,
            (_, MEMBERS) => ON_FULL,
            _ => ON_SOME,
        };
        let kind = self.random.pick(kinds);
        let value = match kind {
            PULL => return self.pull(session, place),
            PUSH if field.kind != NUMBER && self.random.percent(60) => return self.fill(session, place),
            UNSET => 0,
            SET | INC => self.random.between(-9, 9),
            _ => self.random.pick(&self.values),
        };
        self.change_place(session, place, kind, value)?;
        Ok(())
    }

    /// Pushes up to 2 to 6 members: equal ones, two values in turn, one after the other or one around the other, or any.
    fn fill(&mut self, session: i64, place: u8) -> io::Result<()> {
        let count = self.field(session, place).count as usize;
        let more = self.random.pick(&[2, 3, 4, 5, 6, 6, 6]).max(count) - count;
        let two = [self.random.pick(&self.values), self.random.pick(&self.values)];
        let pattern = self.random.below(7);
        for at in 0..more {
            let value = match pattern {
                0 => two[0],
                1 => two[at % 2],
                2 => two[usize::from(at < more / 2)],
                3 => two[usize::from(at == 0 || at + 1 == more)],
                4 => self.random.pick(&two),
                _ => self.random.pick(&self.values),
            };
            if self.change_place(session, place, PUSH, value)? != 0 {
                break;
            }
        }
        Ok(())
    }

    /// Pulls a member, one that is there more often sooner, or seldom a value that may not be there.
    fn pull(&mut self, session: i64, place: u8) -> io::Result<()> {
        let field = self.field(session, place);
        let members = field.members();
        let value = match self.random.below(8) {
            0 => self.random.pick(&self.values),
            1 => self.random.pick(&[0, 1, -1, 8]),
            _ if members.is_empty() => self.random.pick(&self.values),
            _ => i64::from(self.random.pick(members)),
        };
        self.change_place(session, place, PULL, value)?;
        Ok(())
    }

    /// Pulls the first member until none is left.
    fn pull_all(&mut self, session: i64, place: u8) -> io::Result<()> {
        for _ in 0..MEMBERS {
            let field = self.field(session, place);
            let Some(&member) = field.members().first() else {
                break;
            };
            if self.change_place(session, place, PULL, i64::from(member))? != 0 {
                break;
            }
        }
        Ok(())
    }

    // Turns.

    /// A place in a document that no session holds exclusive, if one is found soon.
    fn quiet_place(&mut self) -> u8 {
        let mut place = self.random.pick(&self.places);
        for _ in 0..6 {
            if self.plant.exclusive >> (place / FIELDS as u8) & 1 == 0 {
                break;
            }
            place = self.random.pick(&self.places);
        }
        place
    }

    /// The session reads a key that has the place.
    fn read_place(&mut self, session: i64, place: u8) -> io::Result<()> {
        let having: Vec<usize> =
            self.mapped.iter().copied().filter(|&key| self.plant.keys[key].places().contains(&place)).collect();
        if !having.is_empty() {
            let key = self.random.pick(&having);
            self.call(4, &[session, key as i64])?;
        }
        Ok(())
    }

    /// So many keys are read by the session that reads.
    pub(super) fn read_keys(&mut self, count: usize) -> io::Result<()> {
        for _ in 0..count {
            let key = self.random.pick(&self.mapped);
            self.read_key(key)?;
        }
        Ok(())
    }

    /// The session commits; seldom it is abandoned, or left to lapse.
    fn end(&mut self, session: i64) -> io::Result<()> {
        match self.random.below(16) {
            0 => {
                self.call(7, &[session])?;
            }
            1 => {}
            _ => {
                if self.call(6, &[session])? == 15 {
                    self.carry_pulls()?;
                    self.call(6, &[session])?;
                }
            }
        }
        Ok(())
    }

    fn pulling_session(&mut self) -> io::Result<()> {
        let session = self.begin()?;
        let mut place = self.quiet_place();
        if self.random.one_in(4) {
            self.read_place(session, place)?;
        }
        for _ in 0..self.random.between(1, 5) {
            // Seldom a session goes on that has met refusal 4.
            if self.slot_of(session).is_none() && self.random.percent(90) {
                return Ok(());
            }
            if self.random.one_in(5) {
                place = self.quiet_place();
            }
            self.change_list(session, place)?;
            if self.random.percent(60) {
                self.read_place(session, place)?;
            }
        }
        self.end(session)
    }

    /// A session that makes the place a list with members, and commits.
    fn filling_session(&mut self, place: u8) -> io::Result<()> {
        let session = self.begin()?;
        if self.field(session, place).kind == NUMBER {
            self.change_place(session, place, UNSET, 0)?;
        }
        self.fill(session, place)?;
        self.call(6, &[session])?;
        Ok(())
    }

    fn limit(&mut self) -> io::Result<()> {
        let place = self.quiet_place();
        self.filling_session(place)?;
        let session = self.begin()?;
        for _ in 0..2 {
            for _ in 0..=MEMBERS {
                let value = self.random.pick(&self.values);
                if self.change_place(session, place, PUSH, value)? != 0 {
                    break;
                }
            }
            self.pull(session, place)?;
        }
        self.read_place(session, place)?;
        self.end(session)
    }

    fn empty(&mut self) -> io::Result<()> {
        let place = self.quiet_place();
        self.filling_session(place)?;
        let session = self.begin()?;
        self.pull_all(session, place)?;
        self.read_place(session, place)?;
        if self.random.percent(60) {
            self.change_list(session, place)?;
            self.read_place(session, place)?;
        }
        self.end(session)
    }

    /// Workers carry some buffered sessions. Replies are lost at times, and another worker comes after the lapse of the
    /// queue lease, which lets sessions lapse too.
    fn carry_pulls(&mut self) -> io::Result<()> {
        match self.random.below(6) {
            0 => self.whole_carry(&WORKERS_OVERTAKEN)?,
            1 => {
                for _ in 0..self.random.between(3, 12) {
                    self.worker_step(&WORKERS_OVERTAKEN)?;
                }
            }
            _ => {
                for _ in 0..self.random.between(1, 8) {
                    if !self.work_carry()? {
                        break;
                    }
                }
            }
        }
        Ok(())
    }

    /// Mostly what is buffered is carried first. Then a session reads keys and lapses, and they are read again.
    fn lapse_and_read(&mut self) -> io::Result<()> {
        while self.random.percent(90) && self.work_carry()? {}
        let session = self.begin()?;
        let mut keys = Vec::new();
        for _ in 0..self.random.between(1, 4) {
            let key = self.random.pick(&self.mapped);
            self.call(4, &[session, key as i64])?;
            keys.push(key);
        }
        let ticks = self.random.pick(&[299, 300, 300, 300, 300, 301]);
        self.call(8, &[ticks])?;
        for key in keys {
            self.read_key(key)?;
        }
        Ok(())
    }
}
