//! The refusals of paper 01, "Who is turned away", by their numbers.

/// Why a call is turned away. The number of each case is the one an answer line shows.
#[derive(Clone, Copy, PartialEq, Eq, Debug)]
#[repr(u8)]
pub enum Refusal {
    /// A call, document, field, key, change, its value, worker, fate, tick count or store mark outside its range.
    OutOfRange = 1,
    /// No session of this number has a slot.
    NoSession = 2,
    /// The session was doomed; its slot is freed by this refusal.
    Doomed = 3,
    /// Another session holds an exclusive lease; the session that asked ends.
    LeasedExclusive = 4,
    /// The session has eight changes.
    ChangesFull = 5,
    /// The change does not go with the kind of the field.
    WrongKind = 6,
    /// The list would get a seventh member.
    ListFull = 7,
    /// The sum lies outside 32 bits.
    SumOutside = 8,
    /// The key is undefined.
    KeyUndefined = 9,
    /// Eight sessions have slots and none is doomed.
    SlotsFull = 10,
    /// All session numbers have been used.
    NumbersSpent = 11,
    /// Set-up is over: a session has begun.
    SessionBegun = 12,
    /// The key is defined already.
    KeyDefined = 13,
    /// A mapping with a count not 1..4, an unused pair not 0 or a place twice.
    BadMapping = 14,
    /// A session with changes meets 32 buffered ones.
    BufferFull = 15,
    /// The queue lease is live.
    QueueLeased = 16,
    /// The worker's hand is not as the call needs it.
    WrongHand = 17,
    /// Nothing is buffered.
    NothingBuffered = 18,
    /// 48 rows stand and the session has none of them.
    RowsFull = 19,
    /// The store is away and needed.
    StoreAway = 20,
    /// The clock would pass its end.
    ClockEnd = 21,
    /// Too few words were lent for the answer.
    FewWords = 22,
    /// The line is not in the form of a call.
    BadLine = 23,
}

impl Refusal {
    /// The number of paper 01.
    pub fn number(self) -> u8 {
        self as u8
    }
}
