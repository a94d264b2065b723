//! The history of demand 3, kept from calls and their answers alone (paper 01, "The history of demand 3").
//!
//! No plant is asked here. An accepted call is noted and its answer held to what the history says;
//! a refused one notes nothing, except that 3 and 4 end the session. Of refusals those of apply and
//! sweep are held, because what a sweep left shows in them, those of load for what a pull left, and
//! those of all calls that terminals make: what is known without the store shows in 20, and whether
//! that is due depends on the refusals before it.

use std::collections::VecDeque;
use std::fmt;

use crate::cached::Cached;
use crate::calls::{change_of, index, place, DONE, DONE_BEFORE, NO_WORD};
use crate::field::{Change, SET, UNSET, WORDS};
use crate::lines::{call_columns, parse, read_number, Call, CALL_COLUMNS};
use crate::plant::{BUFFERED, CHANGES, KEYS, KEY_PLACES, PLACES, ROWS, SWEPT, WORKERS};
use crate::refusal::Refusal;
use crate::value::Value;

/// The refusals that a field gives to a change.
const UNFIT: [Refusal; 3] = [Refusal::WrongKind, Refusal::ListFull, Refusal::SumOutside];

/// What answers were held to the history, in numbers.
#[derive(Clone, Copy, Default, PartialEq, Eq, Debug)]
pub struct Held {
    pub lines: u64,
    pub accepted: u64,
    /// Pages opened, those committed, and the committed ones that change something.
    pub pages: u64,
    pub committed: u64,
    pub buffered: u64,
    /// Reads that showed the stock of their time, and those held again at their page's place.
    pub reads: u64,
    pub committed_reads: u64,
    /// Marks: reads from the cache, reads that cached their key, and reads of own changes.
    pub hits: u64,
    pub misses: u64,
    pub own: u64,
    /// Cached keys that gave way, and those that a lapse dropped.
    pub gave_way: u64,
    pub dropped: u64,
    /// Changes of committed pages, and loads and changes refused 6, 7 or 8.
    pub committed_changes: u64,
    pub unfit: u64,
    /// Without the store: reads and changes 3 to 6 that were accepted, and those refused 20.
    pub known: u64,
    pub unknown: u64,
    /// Other refusals of the calls that terminals make.
    pub turned_away: u64,
    pub reports: u64,
    pub takes: u64,
    /// Applies that were accepted, and sessions that they carried to the store.
    pub applies: u64,
    pub carried: u64,
    pub deletes: u64,
    /// Sweeps that were accepted and rows that they removed, sweeps refused, and applies refused 19.
    pub sweeps: u64,
    pub swept: u64,
    pub sweeps_refused: u64,
    pub rows_full: u64,
}

impl fmt::Display for Held {
    fn fmt(&self, to: &mut fmt::Formatter) -> fmt::Result {
        write!(
            to,
            "no contradiction: {} lines, {} accepted; {} pages, {} committed, {} of them buffered; \
             {} reads held as answered, {} of them again at their commit; \
             marks held: {} hits, {} misses, {} own; {} keys gave way, {} dropped; {} committed changes, \
             {} refused for their field; without the store {} known and {} refused; \
             {} terminals turned away otherwise; {} reports; \
             {} takes, {} applies, {} sessions carried, {} deletes; {} sweeps of {} rows, {} refused; \
             {} applies to full rows refused",
            self.lines,
            self.accepted,
            self.pages,
            self.committed,
            self.buffered,
            self.reads,
            self.committed_reads,
            self.hits,
            self.misses,
            self.own,
            self.gave_way,
            self.dropped,
            self.committed_changes,
            self.unfit,
            self.known,
            self.unknown,
            self.turned_away,
            self.reports,
            self.takes,
            self.applies,
            self.carried,
            self.deletes,
            self.sweeps,
            self.swept,
            self.sweeps_refused,
            self.rows_full
        )
    }
}

/// The first line whose answer contradicts the history, counted from 1.
#[derive(Clone, PartialEq, Eq, Debug)]
pub struct Contradiction {
    pub line: u64,
    pub what: String,
}

impl fmt::Display for Contradiction {
    fn fmt(&self, to: &mut fmt::Formatter) -> fmt::Result {
        write!(to, "line {}: {}", self.line, self.what)
    }
}

/// What stands on a page, in the order of the calls.
enum Entry {
    Read { places: Vec<u8>, words: Vec<i64> },
    Change(Change),
}

/// A session's page.
#[derive(Default)]
struct Page {
    /// Dropped when the session ends, but for the changes while they are buffered.
    entries: Vec<Entry>,
    /// Its place among the committed pages that change something.
    order: Option<usize>,
}

impl Page {
    fn changes(&self) -> impl Iterator<Item = &Change> {
        self.entries.iter().filter_map(|entry| match entry {
            Entry::Change(change) => Some(change),
            Entry::Read { .. } => None,
        })
    }

    /// Whether a change on the page sets or unsets the place.
    fn settles(&self, place: u8) -> bool {
        self.changes().any(|change| change.place == place && !needs_known(change))
    }
}

/// Changes 3 to 6 need a known field; set and unset leave one.
fn needs_known(change: &Change) -> bool {
    change.kind != SET && change.kind != UNSET
}

/// The session noted for a worker.
#[derive(Clone, Copy)]
struct Note {
    session: usize,
    /// Whether a reply of done or done before was answered.
    replied: bool,
}

struct History {
    /// The starting stock followed by all pages committed so far.
    stock: [Value; PLACES],
    /// The places of each key that was mapped.
    keys: [Option<Vec<u8>>; KEYS],
    /// The page of session n is the one with index n - 1, as session numbers rise from 1.
    pages: Vec<Page>,
    /// The sessions of the buffered pages, oldest first.
    buffered: VecDeque<usize>,
    notes: [Option<Note>; WORKERS],
    /// How many committed pages change something, and how many of them, the first ones, were
    /// carried to the store.
    changing: usize,
    carried: usize,
    /// The sessions of the rows that stand in the store, in the order in which they were carried.
    rows: Vec<usize>,
    /// Whether the store is near.
    near: bool,
    clock: i64,
    cached: Cached,
    held: Held,
}

/// Holds the answers to the calls: what was held, or the first contradiction.
pub fn judge(calls: &[u8], answers: &[u8]) -> Result<Held, Contradiction> {
    let mut history = History::new();
    let ended = answers.is_empty() || answers.ends_with(b"\n");
    let mut answers = lines(answers);
    let mut line = 0;
    for call in lines(calls) {
        line += 1;
        let noted = match answers.next() {
            Some(answer) => history.note(call, answer),
            None => Err("has no answer".to_string()),
        };
        noted.map_err(|what| Contradiction { line, what })?;
    }
    if answers.next().is_some() {
        return Err(Contradiction { line: line + 1, what: "there is an answer without a call".to_string() });
    }
    if !ended {
        return Err(Contradiction { line, what: "the last answer does not end in byte 10".to_string() });
    }
    Ok(history.held)
}

/// The lines of a text: byte 10 ends each, or the end of the text.
fn lines(text: &[u8]) -> impl Iterator<Item = &[u8]> {
    let whole = text.strip_suffix(b"\n").unwrap_or(text);
    let count = if text.is_empty() { 0 } else { usize::MAX };
    whole.split(|&byte| byte == b'\n').take(count)
}

/// The refusal of an answer line, or 0, and its numbers.
fn answer_parts(answer: &[u8]) -> Result<(u8, Vec<i64>), String> {
    let broken = || "the answer is not in the form of an answer line".to_string();
    let columns = answer.first_chunk().ok_or_else(broken)?;
    let refusal = call_columns(*columns).ok_or_else(broken)?;
    let (columns, rest) = answer[CALL_COLUMNS..].as_chunks();
    if !rest.is_empty() {
        return Err(broken());
    }
    let numbers: Option<Vec<i64>> = columns.iter().map(read_number).collect();
    let numbers = numbers.ok_or_else(broken)?;
    if refusal != 0 && (refusal > Refusal::BadLine.number() || !numbers.is_empty()) {
        return Err(format!("{refusal} with {} numbers is no refusal", numbers.len()));
    }
    Ok((refusal, numbers))
}

/// Holds a number answered to the one that the history has.
fn equal(what: &str, answered: i64, history: usize) -> Result<(), String> {
    if answered == history as i64 {
        Ok(())
    } else {
        Err(format!("{what} answered {answered}, the history has {history}"))
    }
}

/// An argument of an accepted call was out of range.
fn out_of_range(_: Refusal) -> String {
    "was accepted with a number outside its range".to_string()
}

/// Holds that an accepted call meets no refusal.
fn accepted<T>(what: &str, due: Result<T, Refusal>) -> Result<T, String> {
    due.map_err(|refusal| format!("{what} was accepted, but meets refusal {}", refusal.number()))
}

impl History {
    fn new() -> History {
        History {
            stock: [const { Value::Absent }; PLACES],
            keys: [const { None }; KEYS],
            pages: Vec::new(),
            buffered: VecDeque::new(),
            notes: [None; WORKERS],
            changing: 0,
            carried: 0,
            rows: Vec::new(),
            near: true,
            clock: 0,
            cached: Cached::default(),
            held: Held::default(),
        }
    }

    fn note(&mut self, call: &[u8], answer: &[u8]) -> Result<(), String> {
        self.held.lines += 1;
        let (refusal, answered) = answer_parts(answer)?;
        if refusal != 0 {
            return self.refused(call, refusal);
        }
        self.held.accepted += 1;
        let Call { call, numbers } =
            parse(call).map_err(|_| "was accepted though it is no call in form".to_string())?;
        let expected = match call {
            3 | 5 | 6 | 8..=11 | 13 => 1,
            4 => 1 + WORDS * self.key(numbers[1])?.len(),
            15 => 3,
            _ => 0,
        };
        if answered.len() != expected {
            return Err(format!("the answer has {} numbers, not {expected}", answered.len()));
        }
        match call {
            1 => self.load(&numbers),
            2 => self.map(&numbers),
            3 => self.begin(answered[0]),
            4 => self.read(numbers[0], numbers[1], answered[0], &answered[1..]),
            5 => self.change(&numbers, answered[0]),
            6 => self.commit(numbers[0], answered[0]),
            7 => self.abandon(numbers[0]),
            8 => self.advance(numbers[0], answered[0]),
            9 => self.take(numbers[0], answered[0]),
            10 => self.apply(numbers[0], numbers[1], answered[0]),
            11 => self.delete(numbers[0], answered[0]),
            12 => self.cut(numbers[0]),
            13 => self.sweep(answered[0]),
            14 => self.store(numbers[0]),
            15 => self.report(numbers[0], &answered),
            _ => Ok(()),
        }
    }

    /// Holds the refusal to the one that is due, of the calls that terminals make and of load, apply and sweep. Refusals
    /// 3 and 4 end the session that met them.
    fn refused(&mut self, call: &[u8], refusal: u8) -> Result<(), String> {
        let Ok(Call { call, numbers }) = parse(call) else {
            return Ok(());
        };
        let due = match call {
            1 => self.load_due(&numbers).err(),
            3 => self.begin_due().err(),
            4 => self.read_due(numbers[0], numbers[1]).err(),
            5 => self.change_due(&numbers).err(),
            6 => self.commit_due(numbers[0]).err(),
            7 | 15 => self.live(numbers[0]).err(),
            10 => self.apply_due(numbers[0], numbers[1]).err(),
            13 => self.sweep_due().err(),
            _ => return Ok(()),
        };
        let Some(due) = due.filter(|due| due.number() == refusal) else {
            let due = due.map_or("none".to_string(), |due| due.number().to_string());
            return Err(format!("was refused {refusal}, the history has {due}"));
        };
        if matches!(due, Refusal::Doomed | Refusal::LeasedExclusive) {
            self.cached.end(numbers[0] as usize - 1);
        }
        let terminal = matches!(call, 3..=7 | 15);
        match due {
            _ if UNFIT.contains(&due) => self.held.unfit += 1,
            Refusal::StoreAway if terminal => self.held.unknown += 1,
            Refusal::RowsFull => self.held.rows_full += 1,
            _ if terminal => self.held.turned_away += 1,
            _ => self.held.sweeps_refused += u64::from(call == 13),
        }
        Ok(())
    }

    /// The places of a mapped key.
    fn key(&self, key: i64) -> Result<&Vec<u8>, String> {
        let key = index(key, KEYS).map_err(out_of_range)?;
        self.keys[key].as_ref().ok_or_else(|| format!("was accepted for key {key}, which was not mapped"))
    }

    /// The index of the page of a session that has a slot and was not doomed; else refusal 2 or 3.
    fn live(&self, session: i64) -> Result<usize, Refusal> {
        let page = usize::try_from(session - 1).map_err(|_| Refusal::NoSession)?;
        self.cached.live(page)?;
        Ok(page)
    }

    /// Whether the session of the page can tell the field: the store is near, a cached key shows it, or a buffered
    /// change or one on the page sets or unsets it.
    fn known(&self, page: usize, place: u8) -> bool {
        self.near
            || self.cached.shows(place)
            || self.pages[page].settles(place)
            || self.buffered.iter().any(|&buffered| self.pages[buffered].settles(place))
    }

    /// Makes the change on the stock, or tells the refusal that it meets there.
    fn make(&mut self, change: &Change) -> Result<(), Refusal> {
        let place = usize::from(change.place);
        self.stock[place] = self.stock[place].after(change)?;
        Ok(())
    }

    /// A field as the session of the page sees it: the stock followed by the changes on the page.
    fn seen(&self, page: usize, place: u8) -> Result<Value, Refusal> {
        let changes = self.pages[page].changes().filter(|change| change.place == place);
        changes.fold(Ok(self.stock[usize::from(place)].clone()), |value, change| value?.after(change))
    }

    /// The change of a load, or the refusal that it meets. After set-up it would change the place of pages that were
    /// held already.
    fn load_due(&self, numbers: &[i64]) -> Result<Change, Refusal> {
        let change = change_of(numbers[0], numbers[1], numbers[2], numbers[3])?;
        if !self.pages.is_empty() {
            return Err(Refusal::SessionBegun);
        }
        if !self.near {
            return Err(Refusal::StoreAway);
        }
        self.stock[usize::from(change.place)].after(&change)?;
        Ok(change)
    }

    fn load(&mut self, numbers: &[i64]) -> Result<(), String> {
        let change = accepted("load", self.load_due(numbers))?;
        accepted("load", self.make(&change))
    }

    fn map(&mut self, numbers: &[i64]) -> Result<(), String> {
        let key = index(numbers[0], KEYS).map_err(out_of_range)?;
        let count = index(numbers[1], KEY_PLACES + 1).map_err(|_| "map was accepted with a count not 1 to 4")?;
        let mut places = Vec::new();
        for pair in numbers[2..].chunks_exact(2).take(count) {
            places.push(place(pair[0], pair[1]).map_err(out_of_range)?);
        }
        if !self.pages.is_empty() {
            return Err("map was accepted after a session had begun".to_string());
        }
        if self.keys[key].is_some() || places.is_empty() {
            return Err("map was accepted for a key mapped before or without places".to_string());
        }
        self.keys[key] = Some(places);
        Ok(())
    }

    fn begin_due(&self) -> Result<(), Refusal> {
        if self.pages.len() >= u32::MAX as usize {
            return Err(Refusal::NumbersSpent);
        }
        self.cached.has_room()
    }

    fn begin(&mut self, session: i64) -> Result<(), String> {
        accepted("begin", self.begin_due())?;
        equal("begin", session, self.pages.len() + 1)?;
        self.cached.begin(self.pages.len(), self.clock);
        self.pages.push(Page::default());
        self.held.pages += 1;
        Ok(())
    }

    /// The page and the places of a read, or the refusal that it meets. A line's words are never too few for it.
    fn read_due(&self, session: i64, key: i64) -> Result<(usize, &[u8]), Refusal> {
        let key = index(key, KEYS)?;
        let page = self.live(session)?;
        let places = self.keys[key].as_ref().ok_or(Refusal::KeyUndefined)?;
        self.cached.unhindered(page, places)?;
        if !places.iter().all(|&place| self.known(page, place)) {
            return Err(Refusal::StoreAway);
        }
        Ok((page, places))
    }

    fn read(&mut self, session: i64, key: i64, mark: i64, shown: &[i64]) -> Result<(), String> {
        let (page, places) = accepted("read", self.read_due(session, key))?;
        let places = places.to_vec();
        // Demand 2: a read shows all committed sessions and then the reader's own changes.
        let values: Result<Vec<Value>, Refusal> = places.iter().map(|&place| self.seen(page, place)).collect();
        let expected: Vec<i64> = accepted("read", values)?.iter().flat_map(Value::words).collect();
        if shown != expected {
            return Err(format!("read showed {shown:?}, the history has {expected:?}"));
        }
        self.mark(page, key as usize, &places, mark)?;
        self.cached.read(page, &places, self.clock);
        self.pages[page].entries.push(Entry::Read { places, words: shown.to_vec() });
        self.held.reads += 1;
        self.held.known += u64::from(!self.near);
        Ok(())
    }

    /// Request (a): the mark follows from the reads before, as the key cached longest ago gives way.
    fn mark(&mut self, page: usize, key: usize, places: &[u8], mark: i64) -> Result<(), String> {
        let own = self.pages[page].changes().any(|change| places.contains(&change.place));
        let (due, why) = match (own, self.cached.has(key)) {
            (true, _) => (2, "the session has a change to a place of the key"),
            (false, true) => (0, "the key is cached"),
            (false, false) => (1, "the key is not cached"),
        };
        if mark != due {
            return Err(format!("read marked its answer {mark}, but {why}"));
        }
        match due {
            0 => self.held.hits += 1,
            1 => {
                self.held.misses += 1;
                self.held.gave_way += u64::from(self.cached.cache(key, places));
            }
            _ => self.held.own += 1,
        }
        Ok(())
    }

    /// The page and the change, or the refusal that it meets. Set and unset fit a field that is not known.
    fn change_due(&self, numbers: &[i64]) -> Result<(usize, Change), Refusal> {
        let change = change_of(numbers[1], numbers[2], numbers[3], numbers[4])?;
        let page = self.live(numbers[0])?;
        if self.pages[page].changes().count() >= CHANGES {
            return Err(Refusal::ChangesFull);
        }
        self.cached.unhindered(page, &[change.place])?;
        if needs_known(&change) && !self.known(page, change.place) {
            return Err(Refusal::StoreAway);
        }
        self.seen(page, change.place)?.after(&change)?;
        Ok((page, change))
    }

    fn change(&mut self, numbers: &[i64], count: i64) -> Result<(), String> {
        let (page, change) = accepted("change", self.change_due(numbers))?;
        self.cached.change(page, change.place, self.clock);
        self.pages[page].entries.push(Entry::Change(change));
        self.held.known += u64::from(!self.near && needs_known(&change));
        equal("change", count, self.pages[page].changes().count())
    }

    /// The page of a commit, or the refusal that it meets: 15 only with a change on the page.
    fn commit_due(&self, session: i64) -> Result<usize, Refusal> {
        let page = self.live(session)?;
        if self.buffered.len() >= BUFFERED && self.pages[page].changes().next().is_some() {
            return Err(Refusal::BufferFull);
        }
        Ok(page)
    }

    /// Demand 3 about one page: at its place none of its changes is refused, and each of its reads
    /// showed what it would show there.
    fn commit(&mut self, session: i64, count: i64) -> Result<(), String> {
        let page = accepted("commit", self.commit_due(session))?;
        let mut entries = std::mem::take(&mut self.pages[page].entries);
        let mut changes = 0;
        for entry in &entries {
            match entry {
                Entry::Change(change) => {
                    changes += 1;
                    self.make(change).map_err(|refusal| {
                        format!("change {changes} of the committed session meets refusal {} there", refusal.number())
                    })?;
                }
                Entry::Read { places, words: shown } => {
                    let expected: Vec<i64> =
                        places.iter().flat_map(|&place| self.stock[usize::from(place)].words()).collect();
                    if *shown != expected {
                        return Err(format!(
                            "a read of the committed session showed {shown:?}, there it would show {expected:?}"
                        ));
                    }
                    self.held.committed_reads += 1;
                }
            }
        }
        self.cached.end(page);
        self.held.committed += 1;
        self.held.committed_changes += changes;
        if changes > 0 {
            entries.retain(|entry| matches!(entry, Entry::Change(_)));
            self.pages[page].entries = entries;
            self.pages[page].order = Some(self.changing);
            self.changing += 1;
            self.buffered.push_back(page);
            self.held.buffered += 1;
        }
        equal("commit", count, self.buffered.len())
    }

    fn abandon(&mut self, session: i64) -> Result<(), String> {
        let page = accepted("abandon", self.live(session))?;
        self.pages[page].entries.clear();
        self.cached.end(page);
        Ok(())
    }

    fn advance(&mut self, ticks: i64, clock: i64) -> Result<(), String> {
        self.clock += ticks;
        if clock != self.clock {
            return Err(format!("advance answered {clock}, the ticks add up to {}", self.clock));
        }
        self.held.dropped += self.cached.advance(self.clock) as u64;
        Ok(())
    }

    fn take(&mut self, worker: i64, session: i64) -> Result<(), String> {
        let worker = index(worker, WORKERS).map_err(out_of_range)?;
        if self.notes[worker].is_some() {
            return Err("take was accepted with a session in the worker's hand".to_string());
        }
        let Some(&oldest) = self.buffered.front() else {
            return Err(format!("take answered {session}, but the history has nothing buffered"));
        };
        equal("take", session, oldest + 1)?;
        self.notes[worker] = Some(Note { session: oldest, replied: false });
        self.held.takes += 1;
        Ok(())
    }

    /// Notes that the session of the page is carried: each one once, in commit order.
    fn carry(&mut self, page: usize) -> Result<(), String> {
        if self.pages[page].order != Some(self.carried) {
            return Err(format!("session {} was carried before an older one", page + 1));
        }
        self.carried += 1;
        self.rows.push(page);
        self.held.carried += 1;
        Ok(())
    }

    /// The worker of an apply and the session in its hand, or the refusal that it meets: 19 where no room is left for its
    /// row, unless the reply is lost or it never reached the store.
    fn apply_due(&self, worker: i64, fate: i64) -> Result<(usize, usize), Refusal> {
        let worker = index(worker, WORKERS)?;
        let fate = index(fate, 3)?;
        let Some(Note { session, replied: false }) = self.notes[worker] else {
            return Err(Refusal::WrongHand);
        };
        if !self.near {
            return Err(Refusal::StoreAway);
        }
        if fate == 0 && self.rows.len() >= ROWS && !self.rows.contains(&session) {
            return Err(Refusal::RowsFull);
        }
        Ok((worker, session))
    }

    /// The reply is done before if the session's row is there, else done. The row stays while the session is buffered
    /// or in a hand, so each session is carried once.
    fn apply(&mut self, worker: i64, fate: i64, reply: i64) -> Result<(), String> {
        let (worker, session) = accepted("apply", self.apply_due(worker, fate))?;
        self.held.applies += 1;
        let before = self.rows.contains(&session);
        if fate == 0 {
            let due = if before { DONE_BEFORE } else { DONE };
            equal("apply", reply, usize::from(due))?;
            self.notes[worker] = Some(Note { session, replied: true });
        } else {
            equal("apply without a reply", reply, usize::from(NO_WORD))?;
        }
        if fate != 2 && !before && self.rows.len() < ROWS {
            self.carry(session)?;
        }
        Ok(())
    }

    fn delete(&mut self, worker: i64, removed: i64) -> Result<(), String> {
        let worker = index(worker, WORKERS).map_err(out_of_range)?;
        let Some(Note { session, replied: true }) = self.notes[worker] else {
            return Err("delete was accepted without a reply of done or done before".to_string());
        };
        let place = self.buffered.iter().position(|&buffered| buffered == session);
        equal("delete", removed, usize::from(place.is_some()))?;
        if let Some(place) = place {
            self.buffered.remove(place);
            self.pages[session].entries.clear();
        }
        self.notes[worker] = None;
        self.held.deletes += 1;
        Ok(())
    }

    fn cut(&mut self, worker: i64) -> Result<(), String> {
        let worker = index(worker, WORKERS).map_err(out_of_range)?;
        self.notes[worker] = None;
        Ok(())
    }

    fn sweep_due(&self) -> Result<(), Refusal> {
        if self.near {
            Ok(())
        } else {
            Err(Refusal::StoreAway)
        }
    }

    /// Request (b): of the rows whose session is neither buffered nor in a hand exactly the first sixteen go, or all.
    fn sweep(&mut self, removed: i64) -> Result<(), String> {
        accepted("sweep", self.sweep_due())?;
        let noted = self.notes.iter().flatten().map(|note| note.session);
        let needed: Vec<usize> = self.buffered.iter().copied().chain(noted).collect();
        let may_go: Vec<usize> = self.rows.iter().copied().filter(|page| !needed.contains(page)).collect();
        let gone = &may_go[..may_go.len().min(SWEPT)];
        if removed != gone.len() as i64 {
            return Err(format!("sweep removed {removed} rows, but {} of {} may go", may_go.len(), self.rows.len()));
        }
        self.rows.retain(|page| !gone.contains(page));
        self.held.sweeps += 1;
        self.held.swept += gone.len() as u64;
        Ok(())
    }

    fn store(&mut self, near: i64) -> Result<(), String> {
        self.near = index(near, 2).map_err(out_of_range)? == 1;
        Ok(())
    }

    /// A session holds exclusive what its page changes, and shared what the page reads besides.
    fn report(&mut self, session: i64, answered: &[i64]) -> Result<(), String> {
        let page = &self.pages[accepted("report", self.live(session))?];
        let mut exclusive = 0_u64;
        let mut shared = 0_u64;
        for entry in &page.entries {
            match entry {
                Entry::Change(change) => exclusive |= 1 << change.document(),
                Entry::Read { places, .. } => places.iter().for_each(|place| shared |= 1 << (place / 4)),
            }
        }
        shared &= !exclusive;
        equal("report of shared leases", answered[0], shared.count_ones() as usize)?;
        equal("report of exclusive leases", answered[1], exclusive.count_ones() as usize)?;
        equal("report of changes", answered[2], page.changes().count())?;
        self.held.reports += 1;
        Ok(())
    }
}
