//! The profile `sweeps`: many rows, and sweeps where none, one, fifteen to eighteen or more of them may go.
//!
//! Rows that may not go stand among them: slow workers keep sessions in hand that others deleted, and the oldest
//! buffered session may have a row. What a sweep left shows in the next sweeps, in the applies of the slow workers and
//! in applies with a full table.

use super::*;

/// What one round of lines does.
#[derive(Clone, Copy)]
enum Round {
    /// Rows until a chosen number of them may go, then sweeps.
    Sweeps,
    /// Rows until the table is full, applies that find no room, then sweeps; once or twice.
    FullTable,
    /// Demand 3's last sentence: one worker alone, by four calls for each buffered session.
    Recovery,
    /// Any calls of workers.
    Overtaken,
}

const ROUNDS: [(Round, u64); 4] =
    [(Round::Sweeps, 16), (Round::FullTable, 2), (Round::Recovery, 1), (Round::Overtaken, 1)];

/// How many rows may go when the sweeps of a round begin.
const MAY_GO: [usize; 24] =
    [0, 1, 2, 8, 14, 15, 15, 15, 16, 16, 16, 17, 17, 17, 18, 18, 18, 19, 31, 32, 33, 34, 40, 48];

impl<W: Write> Generator<W> {
    /// A small set-up with sweeps in it, then rounds until the lines are used up.
    pub(super) fn sweeps(&mut self) -> io::Result<()> {
        self.open_end = self.random.one_in(4);
        self.sweeps_set_up()?;
        while self.lines_left > 0 {
            match self.random.weighted(&ROUNDS) {
                Round::Sweeps => self.sweeps_round()?,
                Round::FullTable => self.full_table()?,
                Round::Recovery => self.recovery()?,
                Round::Overtaken => self.overtaken()?,
            }
            if !self.plant.near {
                self.call(14, &[1])?;
            }
        }
        Ok(())
    }

    fn sweeps_set_up(&mut self) -> io::Result<()> {
        self.documents = (0..self.random.between(8, 24)).collect();
        for key in 0..self.random.between(1, 8) {
            self.map(key)?;
        }
        self.mapped = (0..KEYS).filter(|&key| self.plant.keys[key].count != 0).collect();
        for _ in 0..self.random.between(0, 20) {
            self.load(&ORDINARY)?;
        }
        for near in [1, 0, 1] {
            if self.random.percent(60) {
                self.call(14, &[near])?;
            }
            self.call(13, &[])?;
        }
        self.call(14, &[1])?;
        Ok(())
    }

    fn sweeps_round(&mut self) -> io::Result<()> {
        let due = self.random.pick(&MAY_GO);
        while self.may_go() > due && self.lines_left > 0 {
            self.call(13, &[])?;
        }
        let slow = self.random.pick(&[0, 2, 5, 15, 40]);
        while self.may_go() < due && self.plant.row_count < ROWS && self.lines_left > 0 {
            self.carry_one(slow)?;
        }
        if self.random.one_in(3) {
            self.leave_applied()?;
        }
        if self.random.one_in(6) {
            self.sweep_away()?;
        }
        for _ in 0..self.random.pick(&[1, 1, 1, 2, 2, 3, 4]) {
            self.call(13, &[])?;
            if self.random.one_in(4) {
                self.slow_applies()?;
            }
        }
        if self.random.percent(70) {
            self.read_one()?;
        }
        // Rows may go that could not before.
        for worker in 0..WORKERS {
            if self.plant.hands[worker].session != 0 && self.random.percent(35) {
                self.free_hand(worker)?;
                if self.random.percent(60) {
                    self.call(13, &[])?;
                }
            }
        }
        Ok(())
    }

    fn full_table(&mut self) -> io::Result<()> {
        let slow = self.random.pick(&[0, 2, 10]);
        for _ in 0..self.random.between(1, 2) {
            while self.plant.row_count < ROWS && self.lines_left > 0 {
                self.carry_one(slow)?;
            }
            // The worker has no room for its row, unless the oldest buffered session has one.
            let worker = self.take_oldest()?;
            for _ in 0..self.random.between(1, 4) {
                let fate = self.random.pick(&[0, 0, 1, 2]);
                self.call(10, &[worker, fate])?;
            }
            if self.random.one_in(4) {
                self.sweep_away()?;
            }
            for _ in 0..self.random.pick(&[1, 1, 2, 3, 4]) {
                self.call(13, &[])?;
            }
            let fate = self.random.pick(&[0, 0, 1]);
            self.call(10, &[worker, fate])?;
            if self.random.one_in(3) {
                self.call(13, &[])?;
            }
            self.call(11, &[worker])?;
        }
        Ok(())
    }

    fn recovery(&mut self) -> io::Result<()> {
        for _ in 0..self.random.between(1, 2) {
            self.commit_some()?;
        }
        let worker = self.random.between(0, WORKERS as i64 - 1);
        self.call(12, &[worker])?;
        self.call(8, &[LEASE_TICKS as i64])?;
        for _ in 0..self.plant.buffer_count {
            self.call(9, &[worker])?;
            self.call(13, &[])?;
            self.call(10, &[worker, 0])?;
            self.call(11, &[worker])?;
        }
        Ok(())
    }

    fn overtaken(&mut self) -> io::Result<()> {
        for _ in 0..self.random.between(10, 80) {
            let step = self.random.weighted(WORKERS_OVERTAKEN.steps);
            self.step(step, &WORKERS_OVERTAKEN)?;
        }
        Ok(())
    }

    /// How many rows a sweep may remove.
    fn may_go(&self) -> usize {
        self.plant.rows().iter().filter(|&&row| !self.plant.needs_row(row)).count()
    }

    /// Sessions that each change a document of their own and mostly commit in another order than they began. At times
    /// one of them is left open and commits behind those of the next time.
    fn commit_some(&mut self) -> io::Result<()> {
        let count = self.random.between(1, 7);
        let mut sessions = Vec::new();
        for at in 0..count as usize {
            let session = self.begin()?;
            let place = self.documents[at] as u8 * FIELDS as u8 + self.random.below(FIELDS as u64) as u8;
            if let Some(slot) = self.slot_of(session) {
                let (kind, value) = self.fitting_change(slot, place, !self.plant.near);
                self.change_place(session, place, kind, value)?;
            }
            sessions.push(session);
        }
        if self.random.percent(75) {
            self.random.shuffle(&mut sessions);
        }
        let left_open = if self.random.one_in(4) { sessions.pop() } else { None };
        for session in sessions {
            self.call(6, &[session])?;
        }
        if self.slot_of(self.session).is_some() {
            self.call(6, &[self.session])?;
        }
        self.session = left_open.unwrap_or(self.session);
        Ok(())
    }

    /// The oldest buffered session comes into the hand of a worker that had none. Answers the worker.
    pub(super) fn take_oldest(&mut self) -> io::Result<i64> {
        while self.plant.buffer_count == 0 && self.lines_left > 0 {
            self.commit_some()?;
        }
        if self.empty_hands().is_empty() {
            let worker = self.random.below(WORKERS as u64) as usize;
            self.call(12, &[worker as i64])?;
        }
        let worker = self.empty_handed();
        self.wait_for_queue(worker)?;
        self.call(9, &[worker])?;
        Ok(worker)
    }

    fn empty_hands(&self) -> Vec<usize> {
        (0..WORKERS).filter(|&worker| self.plant.hands[worker].session == 0).collect()
    }

    fn empty_handed(&mut self) -> i64 {
        let empty = self.empty_hands();
        if empty.is_empty() {
            return 0;
        }
        self.random.pick(&empty) as i64
    }

    /// Waits for the lapse of the queue lease; at times the worker tries one tick before it.
    fn wait_for_queue(&mut self, worker: i64) -> io::Result<()> {
        if !self.plant.queue_leased() {
            return Ok(());
        }
        if self.random.one_in(6) {
            self.call(8, &[(self.plant.lease_until - self.plant.clock) as i64 - 1])?;
            self.call(9, &[worker])?;
        }
        self.call(8, &[self.plant.lease_until.saturating_sub(self.plant.clock) as i64])?;
        Ok(())
    }

    /// One session is carried and deleted, in so many of a hundred cases past a slow worker that keeps it in hand.
    fn carry_one(&mut self, slow: u64) -> io::Result<()> {
        if self.random.percent(slow) {
            if self.empty_hands().len() < 2 {
                let worker = self.random.below(WORKERS as u64) as usize;
                self.free_hand(worker)?;
            }
            // Seldom two are slow.
            while self.empty_hands().len() > 1 && self.lines_left > 0 {
                self.slow_take()?;
                if self.random.percent(80) {
                    break;
                }
            }
        }
        let worker = self.take_oldest()?;
        if self.random.one_in(12) {
            let fate = self.random.pick(&[1, 2]);
            self.call(10, &[worker, fate])?;
        }
        self.call(10, &[worker, 0])?;
        self.call(11, &[worker])?;
        Ok(())
    }

    /// A worker takes the oldest buffered session and does not delete it: its apply was lost on the way or the reply
    /// was, or it came and the worker waits. Seldom the worker is cut.
    fn slow_take(&mut self) -> io::Result<()> {
        let worker = self.take_oldest()?;
        let fate = self.random.pick(&[0, 1, 1, 1, 2, 3]);
        if fate < 3 {
            self.call(10, &[worker, fate])?;
        }
        if self.random.one_in(8) {
            self.call(12, &[worker])?;
        }
        Ok(())
    }

    /// The oldest buffered session gets a row and stays buffered.
    fn leave_applied(&mut self) -> io::Result<()> {
        if self.empty_hands().is_empty() {
            self.free_hand(0)?;
        }
        let worker = self.take_oldest()?;
        let fate = self.random.pick(&[0, 1]);
        self.call(10, &[worker, fate])?;
        if self.random.one_in(3) {
            self.call(12, &[worker])?;
        }
        Ok(())
    }

    /// A sweep that is refused because the store is away.
    fn sweep_away(&mut self) -> io::Result<()> {
        self.call(14, &[0])?;
        self.call(13, &[])?;
        if self.random.one_in(3) {
            self.slow_applies()?;
        }
        self.call(14, &[1])?;
        Ok(())
    }

    /// Workers that wait for a reply apply once more: done before, if the row is there.
    fn slow_applies(&mut self) -> io::Result<()> {
        for worker in 0..WORKERS {
            let hand = self.plant.hands[worker];
            if hand.session != 0 && !hand.replied && self.random.percent(50) {
                let fate = self.random.pick(&[0, 1, 1]);
                self.call(10, &[worker as i64, fate])?;
            }
        }
        Ok(())
    }

    /// The worker's hand becomes empty, by a delete or by a cut.
    fn free_hand(&mut self, worker: usize) -> io::Result<()> {
        let hand = self.plant.hands[worker];
        let worker = worker as i64;
        if self.random.one_in(3) {
            self.call(12, &[worker])?;
            return Ok(());
        }
        if !hand.replied {
            self.call(10, &[worker, 0])?;
        }
        self.call(11, &[worker])?;
        Ok(())
    }

    /// A session reads a key and ends: double draws would show.
    fn read_one(&mut self) -> io::Result<()> {
        let session = self.begin()?;
        let key = self.some_key();
        self.call(4, &[session, key])?;
        self.call(7, &[session])?;
        Ok(())
    }
}
