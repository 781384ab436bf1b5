//! A table in which the tags stand without gaps in ascending order of their numbers, and are found by halves.
//! It is what the benchmark takes; the feature `scattered` shows what the order costs.

use super::{Registered, Store, NO_TAG};

pub const PLACES: usize = 32;

impl Store {
    /// The place of a tag, or the place where it should stand.
    #[inline(always)]
    pub fn search(&self, tag: u64) -> Result<usize, usize> {
        self.tags[..self.count.min(PLACES)].binary_search(&tag)
    }

    /// Moves this tag and all behind it up by one place, the last of which is empty.
    #[inline]
    pub(super) fn make_empty(&mut self, place: usize) {
        let count = self.count.min(PLACES - 1);
        self.tags.copy_within(place..count, place + 1);
        self.registered.copy_within(place..count, place + 1);
        self.offsets.copy_within(place..count, place + 1);
    }

    /// Takes a tag out and moves all behind it down by one place.
    #[inline]
    pub(super) fn take_out(&mut self, place: usize) {
        let last = self.count - 1;
        self.tags.copy_within(place + 1..=last, place);
        self.registered.copy_within(place + 1..=last, place);
        self.offsets.copy_within(place + 1..=last, place);
        self.tags[last] = NO_TAG;
        self.registered[last] = Registered::BLANK;
        self.offsets[last] = 0;
    }
}

/// Every tag may have another before it.
#[cfg(test)]
pub fn crowds(_: u64) -> bool {
    true
}
