//! Slots, leases and cached keys, told from calls and answers alone (paper 01, "Leases"; request (a) of paper 02).
//!
//! Reads with mark 1 cache keys, and only a lapse drops one. Leases come from accepted reads and changes, and they end by
//! the session's commit, abandon or refusal 4, by another's accepted change or by an accepted advance. The latter two
//! doom the session, which keeps its slot until refusal 3 or until a begin needs it. Each of these shows in the answers,
//! so slots, leases and the cached keys with their order are known at all times.

use std::collections::{BTreeMap, BTreeSet, VecDeque};

use crate::plant::{CACHED, LEASE_TICKS, SESSION_TICKS, SLOTS};
use crate::refusal::Refusal;

struct Lease {
    granted: i64,
    exclusive: bool,
}

/// A session that has neither ended nor been doomed.
struct Holder {
    begun: i64,
    /// Its leases by their documents.
    leases: BTreeMap<u32, Lease>,
}

impl Holder {
    fn lapsed(&self, clock: i64) -> bool {
        self.begun + SESSION_TICKS as i64 <= clock
            || self.leases.values().any(|lease| lease.granted + LEASE_TICKS as i64 <= clock)
    }
}

#[derive(Default)]
pub struct Cached {
    /// By the index of their pages.
    holders: BTreeMap<usize, Holder>,
    /// The pages of doomed sessions that have their slot still.
    doomed: BTreeSet<usize>,
    /// The cached keys with their places, in the order of the reads that cached them.
    order: VecDeque<(usize, Vec<u8>)>,
}

fn document(place: u8) -> u32 {
    u32::from(place) / 4
}

impl Cached {
    pub fn has(&self, key: usize) -> bool {
        self.order.iter().any(|&(cached, _)| cached == key)
    }

    /// Whether a cached key has the place.
    pub fn shows(&self, place: u8) -> bool {
        self.order.iter().any(|(_, places)| places.contains(&place))
    }

    /// Refusals 2 and 3: the session has no slot, or it was doomed.
    pub fn live(&self, page: usize) -> Result<(), Refusal> {
        match (self.holders.contains_key(&page), self.doomed.contains(&page)) {
            (true, _) => Ok(()),
            (false, true) => Err(Refusal::Doomed),
            (false, false) => Err(Refusal::NoSession),
        }
    }

    /// Refusal 4: another session holds a document of the places exclusive.
    pub fn unhindered(&self, page: usize, places: &[u8]) -> Result<(), Refusal> {
        let exclusive =
            |holder: &Holder, place: &u8| holder.leases.get(&document(*place)).is_some_and(|lease| lease.exclusive);
        let hinders =
            |(&other, holder): (&usize, &Holder)| other != page && places.iter().any(|place| exclusive(holder, place));
        if self.holders.iter().any(hinders) {
            return Err(Refusal::LeasedExclusive);
        }
        Ok(())
    }

    /// Refusal 10: eight sessions have slots and none is doomed.
    pub fn has_room(&self) -> Result<(), Refusal> {
        if self.holders.len() < SLOTS {
            Ok(())
        } else {
            Err(Refusal::SlotsFull)
        }
    }

    /// Puts the key last. With sixteen cached the first gives way; tells whether it did.
    pub fn cache(&mut self, key: usize, places: &[u8]) -> bool {
        let full = self.order.len() >= CACHED;
        if full {
            self.order.pop_front();
        }
        self.order.push_back((key, places.to_vec()));
        full
    }

    /// With eight slots taken the doomed session of lowest number gives its slot away.
    pub fn begin(&mut self, page: usize, clock: i64) {
        if self.holders.len() + self.doomed.len() >= SLOTS {
            self.doomed.pop_first();
        }
        self.holders.insert(page, Holder { begun: clock, leases: BTreeMap::new() });
    }

    /// A read takes shared leases on the documents that the session does not hold yet.
    pub fn read(&mut self, page: usize, places: &[u8], clock: i64) {
        if let Some(holder) = self.holders.get_mut(&page) {
            for &place in places {
                holder.leases.entry(document(place)).or_insert(Lease { granted: clock, exclusive: false });
            }
        }
    }

    /// A change takes an exclusive lease, with a fresh grant unless it was exclusive, and dooms all others that hold
    /// the document.
    pub fn change(&mut self, page: usize, place: u8, clock: i64) {
        let document = document(place);
        if let Some(holder) = self.holders.get_mut(&page) {
            if !holder.leases.get(&document).is_some_and(|lease| lease.exclusive) {
                holder.leases.insert(document, Lease { granted: clock, exclusive: true });
            }
        }
        self.doom(|other, holder| other != page && holder.leases.contains_key(&document));
    }

    /// Dooms the sessions of which this is said. Answers what they held.
    fn doom(&mut self, doomed: impl Fn(usize, &Holder) -> bool) -> Vec<Holder> {
        let pages: Vec<usize> =
            self.holders.iter().filter(|(&page, holder)| doomed(page, holder)).map(|(&page, _)| page).collect();
        self.doomed.extend(&pages);
        pages.iter().filter_map(|page| self.holders.remove(page)).collect()
    }

    /// The session ends: its slot and its leases go, the cached keys stay.
    pub fn end(&mut self, page: usize) {
        self.holders.remove(&page);
        self.doomed.remove(&page);
    }

    /// Dooms the sessions that lapse and drops every key with a place in a document they held. Tells how many.
    pub fn advance(&mut self, clock: i64) -> usize {
        let before = self.order.len();
        for holder in self.doom(|_, holder| holder.lapsed(clock)) {
            self.order.retain(|(_, places)| !places.iter().any(|&place| holder.leases.contains_key(&document(place))));
        }
        before - self.order.len()
    }
}
