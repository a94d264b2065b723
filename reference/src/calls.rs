//! The fifteen calls on the plant (paper 01, "Calls and their lines" and "Who is turned away").
//!
//! Arguments are the numbers of a line, so each call checks its own ranges. The checks stand in
//! the order in which the paper lists the refusals of the call. A refused call changes nothing,
//! except that 3 and 4 end the session that met them.

use crate::field::{Change, PULL, SET, UNSET, WORDS};
use crate::plant::*;
use crate::refusal::Refusal;

/// What read answers: its mark, and how many words it filled.
#[derive(Clone, Copy, PartialEq, Eq, Debug)]
pub struct ReadAnswer {
    pub mark: u8,
    pub words: usize,
}

/// What report answers.
#[derive(Clone, Copy, PartialEq, Eq, Debug)]
pub struct Report {
    pub shared: u32,
    pub exclusive: u32,
    pub changes: u32,
}

/// What apply answers.
pub const NO_WORD: u8 = 0;
pub const DONE: u8 = 1;
pub const DONE_BEFORE: u8 = 2;

/// The number as an index below the limit, or refusal 1.
pub(crate) fn index(number: i64, limit: usize) -> Result<usize, Refusal> {
    if (0..limit as i64).contains(&number) {
        Ok(number as usize)
    } else {
        Err(Refusal::OutOfRange)
    }
}

/// The place of a document and a field, or refusal 1.
pub(crate) fn place(document: i64, field: i64) -> Result<u8, Refusal> {
    Ok((index(document, DOCUMENTS)? * FIELDS + index(field, FIELDS)?) as u8)
}

/// A change with all its parts in range, or refusal 1. The value of unset must be 0.
pub(crate) fn change_of(document: i64, field: i64, kind: i64, value: i64) -> Result<Change, Refusal> {
    let place = place(document, field)?;
    if !(i64::from(SET)..=i64::from(PULL)).contains(&kind) {
        return Err(Refusal::OutOfRange);
    }
    let kind = kind as u8;
    let value = i32::try_from(value).map_err(|_| Refusal::OutOfRange)?;
    if kind == UNSET && value != 0 {
        return Err(Refusal::OutOfRange);
    }
    Ok(Change { place, kind, value })
}

/// The documents of a set, in rising order.
fn documents(mut set: u64) -> impl Iterator<Item = usize> {
    std::iter::from_fn(move || {
        if set == 0 {
            return None;
        }
        let document = set.trailing_zeros() as usize;
        set &= set - 1;
        Some(document)
    })
}

impl Plant {
    /// 1 load: makes a change on the store while no session has begun. Refusals 1, 12, 20, 6, 7, 8.
    pub fn load(&mut self, document: i64, field: i64, kind: i64, value: i64) -> Result<(), Refusal> {
        let change = change_of(document, field, kind, value)?;
        if self.begun() {
            return Err(Refusal::SessionBegun);
        }
        if !self.near {
            return Err(Refusal::StoreAway);
        }
        let place = usize::from(change.place);
        self.store[place].make(change.kind, change.value)?;
        // Nothing is buffered before the first session, so store and stock are the same.
        self.stock[place] = self.store[place];
        Ok(())
    }

    /// 2 map: defines a key by its count and four pairs of document and field.
    /// Refusals 1 (the key, then all four pairs), 12, 13, 14.
    pub fn map(&mut self, key: i64, count: i64, pairs: &[i64; 2 * KEY_PLACES]) -> Result<(), Refusal> {
        let key = index(key, KEYS)?;
        let mut places = [0; KEY_PLACES];
        for (at, pair) in pairs.chunks_exact(2).enumerate() {
            places[at] = place(pair[0], pair[1])?;
        }
        if self.begun() {
            return Err(Refusal::SessionBegun);
        }
        if self.keys[key].count != 0 {
            return Err(Refusal::KeyDefined);
        }
        if !(1..=KEY_PLACES as i64).contains(&count) {
            return Err(Refusal::BadMapping);
        }
        let (used, unused) = places.split_at(count as usize);
        let twice = (1..used.len()).any(|at| used[..at].contains(&used[at]));
        if twice || unused.iter().any(|&place| place != 0) {
            return Err(Refusal::BadMapping);
        }
        let documents = used.iter().fold(0, |set, &place| set | 1 << (place / FIELDS as u8));
        self.keys[key] = Key { count: count as u8, places, documents };
        Ok(())
    }

    /// 3 begin: opens a session under the next number. Refusals 11, 10.
    pub fn begin(&mut self) -> Result<u32, Refusal> {
        let number = u32::try_from(self.next_number).map_err(|_| Refusal::NumbersSpent)?;
        let free = self.sessions.iter().position(|session| session.number == 0);
        let slot = match free {
            Some(slot) => slot,
            None => (0..SLOTS)
                .filter(|&slot| self.sessions[slot].doomed)
                .min_by_key(|&slot| self.sessions[slot].number)
                .ok_or(Refusal::SlotsFull)?,
        };
        // A free slot and a doomed session hold no leases and no changes.
        let session = &mut self.sessions[slot];
        session.number = number;
        session.doomed = false;
        session.begun = self.clock;
        session.lapse = self.clock + SESSION_TICKS;
        self.next_number += 1;
        Ok(number)
    }

    /// 4 read: shows the fields of a key, under shared leases on all its documents.
    /// Refusals 1, 2, 3, 9, 22, 4, 20.
    pub fn read(&mut self, session: i64, key: i64, words: &mut [i32]) -> Result<ReadAnswer, Refusal> {
        let key_number = index(key, KEYS)?;
        let slot = self.live_slot(session)?;
        let key = self.keys[key_number];
        if key.count == 0 {
            return Err(Refusal::KeyUndefined);
        }
        let length = WORDS * key.places().len();
        let Some(words) = words.get_mut(..length) else {
            return Err(Refusal::FewWords);
        };
        if self.leased_by_others(slot) & key.documents != 0 {
            self.free(slot);
            return Err(Refusal::LeasedExclusive);
        }
        let cached = self.cached_set >> key_number & 1 == 1;
        // A cached key shows all its places, so they are known then.
        if !self.near && !cached && !key.places().iter().all(|&place| self.known(slot, place)) {
            return Err(Refusal::StoreAway);
        }

        self.grant_shared(slot, key.documents);
        // A change to a place holds its document exclusive, so most reads need not look further.
        let own = self.sessions[slot].exclusive & key.documents != 0
            && self.sessions[slot].changes().iter().any(|change| key.places().contains(&change.place));
        for (&place, words) in key.places().iter().zip(words.chunks_exact_mut(WORDS)) {
            let field = if own { self.seen(slot, place) } else { self.stock[usize::from(place)] };
            words.copy_from_slice(&field.words());
        }
        let mark = if own {
            2
        } else if cached {
            0
        } else {
            self.cache(key_number);
            1
        };
        Ok(ReadAnswer { mark, words: length })
    }

    /// 5 change: adds a change to the session, under an exclusive lease on its document. Answers
    /// how many changes the session has now. Refusals 1, 2, 3, 5, 4, 20, 6, 7, 8.
    pub fn change(&mut self, session: i64, document: i64, field: i64, kind: i64, value: i64) -> Result<u32, Refusal> {
        let change = change_of(document, field, kind, value)?;
        let slot = self.live_slot(session)?;
        let count = usize::from(self.sessions[slot].change_count);
        if count >= CHANGES {
            return Err(Refusal::ChangesFull);
        }
        if self.leased_by_others(slot) >> change.document() & 1 == 1 {
            self.free(slot);
            return Err(Refusal::LeasedExclusive);
        }
        // Set and unset fit every field and need not know it.
        if !change.settles() {
            if !self.known(slot, change.place) {
                return Err(Refusal::StoreAway);
            }
            self.seen(slot, change.place).make(change.kind, change.value)?;
        }
        self.grant_exclusive(slot, change.document());
        let session = &mut self.sessions[slot];
        session.changes[count] = change;
        session.change_count += 1;
        Ok(u32::from(session.change_count))
    }

    /// 6 commit: puts the session's changes last in the buffer, if it has any, and ends it.
    /// Answers how many sessions are buffered now. Refusals 2, 3, 15.
    pub fn commit(&mut self, session: i64) -> Result<u32, Refusal> {
        let slot = self.live_slot(session)?;
        let session = &self.sessions[slot];
        if session.change_count > 0 {
            if self.buffer_count >= BUFFERED {
                return Err(Refusal::BufferFull);
            }
            let last = (self.buffer_first + self.buffer_count) % BUFFERED;
            self.buffer[last] =
                Buffered { number: session.number, change_count: session.change_count, changes: session.changes };
            self.buffer_count += 1;
            for change in session.changes() {
                let place = usize::from(change.place);
                // The session's exclusive leases have kept the fields as they were when its
                // changes were accepted, so none is refused now.
                let made = self.stock[place].make(change.kind, change.value);
                debug_assert!(made.is_ok());
            }
        }
        self.free(slot);
        Ok(self.buffer_count as u32)
    }

    /// 7 abandon: ends the session. Refusals 2, 3.
    pub fn abandon(&mut self, session: i64) -> Result<(), Refusal> {
        let slot = self.live_slot(session)?;
        self.free(slot);
        Ok(())
    }

    /// 8 advance: moves the clock, dooms the sessions that lapse and drops every cached key with a
    /// place in a document they held. Answers the clock. Refusals 1, 21.
    pub fn advance(&mut self, ticks: i64) -> Result<u64, Refusal> {
        if !(0..=TICKS).contains(&ticks) {
            return Err(Refusal::OutOfRange);
        }
        let clock = self.clock + ticks as u64;
        if clock > CLOCK_END {
            return Err(Refusal::ClockEnd);
        }
        self.clock = clock;
        let mut held = 0;
        for slot in 0..SLOTS {
            let session = &self.sessions[slot];
            if session.number != 0 && !session.doomed && session.lapse <= clock {
                held |= session.shared | session.exclusive;
                self.doom(slot);
            }
        }
        if held != 0 {
            self.drop_cached(held);
        }
        Ok(clock)
    }

    /// 9 take: puts the oldest buffered session in the worker's hand and the queue lease in its
    /// name. Answers the session. Refusals 1, 17, 16, 18.
    pub fn take(&mut self, worker: i64) -> Result<u32, Refusal> {
        let worker = index(worker, WORKERS)?;
        if self.hands[worker].session != 0 {
            return Err(Refusal::WrongHand);
        }
        if self.queue_leased() {
            return Err(Refusal::QueueLeased);
        }
        if self.buffer_count == 0 {
            return Err(Refusal::NothingBuffered);
        }
        let session = self.buffered(0).number;
        self.hands[worker] = Hand { session, replied: false };
        self.lease_holder = worker as u8;
        self.lease_until = self.clock + LEASE_TICKS;
        Ok(session)
    }

    /// 10 apply: carries the hand to the store in one transaction. Refusals 1, 17, 20, and 19 after
    /// fate 2 has answered no word; with fate 1 the reply is lost, also one of 19.
    pub fn apply(&mut self, worker: i64, fate: i64) -> Result<u8, Refusal> {
        let worker = index(worker, WORKERS)?;
        let fate = index(fate, 3)?;
        let hand = self.hands[worker];
        if hand.session == 0 || hand.replied {
            return Err(Refusal::WrongHand);
        }
        if !self.near {
            return Err(Refusal::StoreAway);
        }
        if fate == 2 {
            return Ok(NO_WORD);
        }
        let reply = if self.rows().contains(&hand.session) {
            DONE_BEFORE
        } else if self.row_count >= ROWS {
            return if fate == 1 { Ok(NO_WORD) } else { Err(Refusal::RowsFull) };
        } else {
            self.carry(hand.session);
            DONE
        };
        if fate == 1 {
            return Ok(NO_WORD);
        }
        self.hands[worker].replied = true;
        Ok(reply)
    }

    /// 11 delete: removes the session in the worker's hand from the buffer, empties the hand and
    /// ends a queue lease in the worker's name. Answers 1, or 0 if it was gone. Refusals 1, 17.
    pub fn delete(&mut self, worker: i64) -> Result<u8, Refusal> {
        let worker = index(worker, WORKERS)?;
        let hand = self.hands[worker];
        if hand.session == 0 || !hand.replied {
            return Err(Refusal::WrongHand);
        }
        self.hands[worker] = Hand::EMPTY;
        if self.lease_holder == worker as u8 {
            self.lease_holder = NOBODY;
            self.lease_until = 0;
        }
        // Take gives the oldest, and only a delete of it makes another the oldest: a session in a
        // hand is the oldest buffered one or no longer buffered.
        if self.buffer_count == 0 || self.buffered(0).number != hand.session {
            return Ok(0);
        }
        self.buffer_first = (self.buffer_first + 1) % BUFFERED;
        self.buffer_count -= 1;
        Ok(1)
    }

    /// 12 cut: empties the worker's hand; a queue lease in its name runs on in nobody's. Refusal 1.
    pub fn cut(&mut self, worker: i64) -> Result<(), Refusal> {
        let worker = index(worker, WORKERS)?;
        self.hands[worker] = Hand::EMPTY;
        if self.lease_holder == worker as u8 {
            self.lease_holder = NOBODY;
        }
        Ok(())
    }

    /// 13 sweep: removes rows whose session is neither buffered nor in a hand, exactly the smaller of
    /// 16 and their number, in the order in which they were applied. Rows that may not go are passed
    /// over, and all rows left keep their order. Answers how many it removed. Refusal 20.
    pub fn sweep(&mut self) -> Result<u32, Refusal> {
        if !self.near {
            return Err(Refusal::StoreAway);
        }
        let mut kept = 0;
        let mut removed = 0;
        for at in 0..self.row_count {
            let row = self.rows[at];
            if removed < SWEPT && !self.needs_row(row) {
                removed += 1;
            } else {
                self.rows[kept] = row;
                kept += 1;
            }
        }
        self.row_count = kept;
        Ok(removed as u32)
    }

    /// 14 store: says whether the store is near. Refusal 1.
    pub fn store(&mut self, near: i64) -> Result<(), Refusal> {
        self.near = index(near, 2)? == 1;
        Ok(())
    }

    /// 15 report: how many documents the session holds shared and exclusive, and how many changes
    /// it has. Refusals 2, 3.
    pub fn report(&mut self, session: i64) -> Result<Report, Refusal> {
        let slot = self.live_slot(session)?;
        let session = &self.sessions[slot];
        Ok(Report {
            shared: session.shared.count_ones(),
            exclusive: session.exclusive.count_ones(),
            changes: u32::from(session.change_count),
        })
    }

    /// The slot of the session; refusal 2 if it has none, 3 if it was doomed, which frees the slot.
    fn live_slot(&mut self, session: i64) -> Result<usize, Refusal> {
        // 0 stands for a free slot, so it must not be looked for.
        let number = u32::try_from(session).unwrap_or(0);
        if number == 0 {
            return Err(Refusal::NoSession);
        }
        let found = self.sessions.iter().position(|session| session.number == number);
        let slot = found.ok_or(Refusal::NoSession)?;
        if self.sessions[slot].doomed {
            self.free(slot);
            return Err(Refusal::Doomed);
        }
        Ok(slot)
    }

    /// The documents that sessions other than this one hold exclusive.
    fn leased_by_others(&self, slot: usize) -> u64 {
        // No document is held exclusive by two sessions.
        self.exclusive & !self.sessions[slot].exclusive
    }

    /// Takes the session's leases and changes away.
    fn release(&mut self, slot: usize) {
        let session = &mut self.sessions[slot];
        self.exclusive &= !session.exclusive;
        session.shared = 0;
        session.exclusive = 0;
        session.change_count = 0;
    }

    fn doom(&mut self, slot: usize) {
        self.release(slot);
        self.sessions[slot].doomed = true;
    }

    fn free(&mut self, slot: usize) {
        self.release(slot);
        self.sessions[slot].number = 0;
        self.sessions[slot].doomed = false;
    }

    /// Grants shared leases on those of the documents that the session does not hold yet.
    fn grant_shared(&mut self, slot: usize, set: u64) {
        let session = &mut self.sessions[slot];
        let fresh = set & !(session.shared | session.exclusive);
        if fresh == 0 {
            return;
        }
        session.shared |= fresh;
        session.lapse = session.lapse.min(self.clock + LEASE_TICKS);
        for document in documents(fresh) {
            session.granted[document] = (self.clock - session.begun) as u16;
        }
    }

    /// Grants an exclusive lease, unless the session has it, and dooms the sessions that hold the
    /// document shared. The session's own shared lease becomes exclusive with a fresh grant.
    fn grant_exclusive(&mut self, slot: usize, document: u32) {
        let lease = 1 << document;
        let session = &mut self.sessions[slot];
        if session.exclusive & lease != 0 {
            return;
        }
        session.exclusive |= lease;
        session.granted[document as usize] = (self.clock - session.begun) as u16;
        if session.shared & lease != 0 {
            session.shared &= !lease;
            // The grant that is gone may have been the first to lapse.
            session.lapse = documents(session.shared | session.exclusive)
                .map(|held| session.begun + u64::from(session.granted[held]) + LEASE_TICKS)
                .fold(session.begun + SESSION_TICKS, u64::min);
        } else {
            session.lapse = session.lapse.min(self.clock + LEASE_TICKS);
        }
        self.exclusive |= lease;
        for other in 0..SLOTS {
            if self.sessions[other].shared & lease != 0 {
                self.doom(other);
            }
        }
    }

    /// Caches the key, last in the order. With sixteen cached, the one cached longest ago gives way.
    /// Only this gives a place in the order: a read from the cache and a commit that brings a key up
    /// to date leave the order as it is, and so does the clock unless it drops a key.
    fn cache(&mut self, key: usize) {
        if self.cached_count >= CACHED {
            self.uncache(usize::from(self.cached[0]));
            self.cached.copy_within(1.., 0);
            self.cached_count = CACHED - 1;
        }
        self.cached[self.cached_count] = key as u8;
        self.cached_count += 1;
        self.cached_set |= 1 << key;
        for &place in self.keys[key].places() {
            self.shown[usize::from(place)] += 1;
        }
    }

    /// Takes the key out of what the cache shows; its place in the order is the caller's.
    fn uncache(&mut self, key: usize) {
        self.cached_set &= !(1 << key);
        for &place in self.keys[key].places() {
            self.shown[usize::from(place)] -= 1;
        }
    }

    /// Drops every cached key with a place in one of the documents; the others keep their order. A
    /// key that is cached again later is the last then.
    fn drop_cached(&mut self, set: u64) {
        let mut kept = 0;
        for at in 0..self.cached_count {
            let key = self.cached[at];
            if self.keys[usize::from(key)].documents & set != 0 {
                self.uncache(usize::from(key));
            } else {
                self.cached[kept] = key;
                kept += 1;
            }
        }
        self.cached_count = kept;
    }

    /// Makes the changes of a session in a hand on the store and adds its row; there is room.
    fn carry(&mut self, session: u32) {
        // Without a row it is still buffered, and a session in a hand is then the oldest.
        debug_assert!(self.buffer_count > 0 && self.buffered(0).number == session);
        for change in self.buffer[self.buffer_first].changes() {
            let made = self.store[usize::from(change.place)].make(change.kind, change.value);
            debug_assert!(made.is_ok());
        }
        self.rows[self.row_count] = session;
        self.row_count += 1;
    }

    /// Whether the session is buffered or in a hand, so that its row must stay.
    pub(crate) fn needs_row(&self, session: u32) -> bool {
        self.hands.iter().any(|hand| hand.session == session)
            || (0..self.buffer_count).any(|at| self.buffered(at).number == session)
    }
}
