//! The plant: its fixed tables in one struct, in place, without heap (paper 01, "The plant").

use crate::field::{Change, Field};

pub const DOCUMENTS: usize = 64;
pub const FIELDS: usize = 4;
pub const PLACES: usize = DOCUMENTS * FIELDS;
pub const KEYS: usize = 32;
pub const KEY_PLACES: usize = 4;
pub const CACHED: usize = 16;
pub const SLOTS: usize = 8;
pub const CHANGES: usize = 8;
pub const BUFFERED: usize = 32;
pub const ROWS: usize = 48;
pub const WORKERS: usize = 4;
/// The most rows one sweep removes.
pub const SWEPT: usize = 16;

/// The last tick of the clock.
pub const CLOCK_END: u64 = 99_999_999_999;
/// The most ticks of one advance.
pub const TICKS: i64 = 65_535;
/// Ticks from a grant to the lapse of the lease, also of the queue lease.
pub const LEASE_TICKS: u64 = 300;
/// Ticks from begin to the lapse of the session.
pub const SESSION_TICKS: u64 = 1_000;

/// The queue lease's holder after a cut: no worker has this number.
pub const NOBODY: u8 = WORKERS as u8;

/// A key: `count` places, or undefined with count 0.
#[derive(Clone, Copy, PartialEq, Eq, Debug)]
pub struct Key {
    pub count: u8,
    pub places: [u8; KEY_PLACES],
    /// The documents of its places, one bit each.
    pub documents: u64,
}

/// A slot for a session; free with number 0.
#[derive(Clone, Copy, PartialEq, Eq, Debug)]
pub struct Session {
    pub number: u32,
    /// A doomed session has neither leases nor changes.
    pub doomed: bool,
    pub change_count: u8,
    pub begun: u64,
    /// The first tick at which the session or one of its leases lapses.
    pub lapse: u64,
    /// Documents held shared and held exclusive; no document is in both.
    pub shared: u64,
    pub exclusive: u64,
    pub changes: [Change; CHANGES],
    /// For each held document the tick of its grant, counted from `begun`: below 1,000, because
    /// the session lapses there.
    pub granted: [u16; DOCUMENTS],
}

/// A committed session that is to be carried to the store.
#[derive(Clone, Copy, PartialEq, Eq, Debug)]
pub struct Buffered {
    pub number: u32,
    pub change_count: u8,
    pub changes: [Change; CHANGES],
}

/// A worker's hand: empty with session 0.
#[derive(Clone, Copy, PartialEq, Eq, Debug)]
pub struct Hand {
    pub session: u32,
    /// Whether a reply of done or done before has come.
    pub replied: bool,
}

/// The whole plant.
///
/// Beside the tables of the paper it keeps two that follow from them, so that calls look values up
/// instead of working them out: `stock` and `shown`.
#[derive(Clone, PartialEq, Eq, Debug)]
pub struct Plant {
    pub clock: u64,
    pub near: bool,
    /// The number that the next begin gives; `u32::MAX + 1` when all are spent.
    pub next_number: u64,

    pub sessions: [Session; SLOTS],
    /// The documents that any session holds exclusive.
    pub exclusive: u64,

    pub keys: [Key; KEYS],

    /// The cached keys, in the order of the reads that cached them. A cached key needs no
    /// values of its own: commit brings cached keys up to date, so they are those of `stock`.
    pub cached: [u8; CACHED],
    pub cached_count: usize,
    /// The cached keys, one bit each.
    pub cached_set: u32,
    /// For each place, how many cached keys have it.
    pub shown: [u8; PLACES],

    /// Each field as all committed sessions left it: the store's value followed by the changes
    /// of the buffered sessions without a row. A call that is refused 20 does not use it.
    pub stock: [Field; PLACES],

    /// The buffered sessions as a ring: `buffer_count` of them from `buffer_first` on, oldest first.
    pub buffer: [Buffered; BUFFERED],
    pub buffer_first: usize,
    pub buffer_count: usize,

    pub hands: [Hand; WORKERS],
    /// The queue lease: live while the clock is below `lease_until`.
    pub lease_holder: u8,
    pub lease_until: u64,

    /// The store: its fields and the numbers of the applied sessions, in the order of applying.
    pub store: [Field; PLACES],
    pub rows: [u32; ROWS],
    pub row_count: usize,
}

impl Key {
    pub const EMPTY: Key = Key { count: 0, places: [0; KEY_PLACES], documents: 0 };

    pub fn places(&self) -> &[u8] {
        &self.places[..usize::from(self.count).min(KEY_PLACES)]
    }
}

impl Session {
    pub const EMPTY: Session = Session {
        number: 0,
        doomed: false,
        change_count: 0,
        begun: 0,
        lapse: 0,
        shared: 0,
        exclusive: 0,
        changes: [Change::NONE; CHANGES],
        granted: [0; DOCUMENTS],
    };

    pub fn changes(&self) -> &[Change] {
        &self.changes[..usize::from(self.change_count).min(CHANGES)]
    }
}

impl Buffered {
    pub const EMPTY: Buffered = Buffered { number: 0, change_count: 0, changes: [Change::NONE; CHANGES] };

    pub fn changes(&self) -> &[Change] {
        &self.changes[..usize::from(self.change_count).min(CHANGES)]
    }
}

impl Hand {
    pub const EMPTY: Hand = Hand { session: 0, replied: false };
}

impl Plant {
    /// The plant of set-up: all empty, the store near.
    pub fn new() -> Plant {
        Plant {
            clock: 0,
            near: true,
            next_number: 1,
            sessions: [Session::EMPTY; SLOTS],
            exclusive: 0,
            keys: [Key::EMPTY; KEYS],
            cached: [0; CACHED],
            cached_count: 0,
            cached_set: 0,
            shown: [0; PLACES],
            stock: [Field::EMPTY; PLACES],
            buffer: [Buffered::EMPTY; BUFFERED],
            buffer_first: 0,
            buffer_count: 0,
            hands: [Hand::EMPTY; WORKERS],
            lease_holder: NOBODY,
            lease_until: 0,
            store: [Field::EMPTY; PLACES],
            rows: [0; ROWS],
            row_count: 0,
        }
    }

    /// The buffered session that `place_in_order` others are older than.
    pub fn buffered(&self, place_in_order: usize) -> &Buffered {
        &self.buffer[(self.buffer_first + place_in_order) % BUFFERED]
    }

    pub fn rows(&self) -> &[u32] {
        &self.rows[..self.row_count.min(ROWS)]
    }

    pub fn cached(&self) -> &[u8] {
        &self.cached[..self.cached_count.min(CACHED)]
    }

    /// Whether the queue lease is live, in whosever name.
    pub fn queue_leased(&self) -> bool {
        self.clock < self.lease_until
    }

    /// Whether set-up is over: a session has begun at some time.
    pub fn begun(&self) -> bool {
        self.next_number > 1
    }

    /// The field as the session in the slot sees it: the stock followed by its own changes.
    pub fn seen(&self, slot: usize, place: u8) -> Field {
        let mut field = self.stock[usize::from(place)];
        for change in self.sessions[slot].changes() {
            if change.place == place {
                // Its exclusive lease has kept the field as it was when the change was accepted.
                let made = field.make(change.kind, change.value);
                debug_assert!(made.is_ok());
            }
        }
        field
    }

    /// Whether the field's value can be told: the store is near, a cached key shows the field, or
    /// a buffered change or one of the session's own sets or unsets it.
    pub fn known(&self, slot: usize, place: u8) -> bool {
        self.near || self.shown[usize::from(place)] > 0 || self.walk(slot, place).settled
    }
}

impl Default for Plant {
    fn default() -> Plant {
        Plant::new()
    }
}
