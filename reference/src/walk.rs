//! The walk from the newest change back to the first set or unset of a place (request (d) of paper 02).

use crate::plant::Plant;

/// What a walk found.
#[derive(Clone, Copy, PartialEq, Eq, Debug)]
pub struct Finding {
    /// Whether one of the changes sets or unsets the place.
    pub settled: bool,
    /// How many changes it looked at, to whatever place: that one and all newer ones, or every one.
    pub looked_at: usize,
}

impl Plant {
    /// Walks over the changes of the session in the slot, which are the newest, and then over those of the buffered
    /// sessions, with a row or without.
    pub fn walk(&self, slot: usize, place: u8) -> Finding {
        let own = self.sessions[slot].changes();
        let buffered = (0..self.buffer_count).rev().map(|at| self.buffered(at).changes());
        let mut looked_at = 0;
        for changes in std::iter::once(own).chain(buffered) {
            for change in changes.iter().rev() {
                looked_at += 1;
                if change.place == place && change.settles() {
                    return Finding { settled: true, looked_at };
                }
            }
        }
        Finding { settled: false, looked_at }
    }
}
