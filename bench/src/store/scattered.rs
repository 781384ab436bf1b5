//! A table with twice as many places as tags, so that a tag is found at once as a rule.
//! A tag stands at its home, which a product tells, or at the next place that was empty when it came.

use super::{Registered, Store, NO_TAG};

pub const PLACES: usize = 64;

impl Store {
    /// The place of a tag, or the empty place where it would stand.
    #[inline(always)]
    pub fn search(&self, tag: u64) -> Result<usize, usize> {
        let mut place = home(tag);
        loop {
            let known = self.tags[place];
            if known == tag {
                return Ok(place);
            }
            if known == NO_TAG {
                return Err(place);
            }
            place = (place + 1) % PLACES;
        }
    }

    /// A tag comes to an empty place only.
    #[inline]
    pub(super) fn make_empty(&mut self, _: usize) {}

    /// Empties a place and moves tags behind it towards their homes, so that a search still meets them.
    #[inline]
    pub(super) fn take_out(&mut self, place: usize) {
        let mut empty = place;
        let mut next = place;
        loop {
            next = (next + 1) % PLACES;
            let tag = self.tags[next];
            if tag == NO_TAG {
                break;
            }
            let way = next.wrapping_sub(home(tag)) % PLACES;
            if way >= next.wrapping_sub(empty) % PLACES {
                self.tags[empty] = tag;
                self.registered[empty] = self.registered[next];
                self.offsets[empty] = self.offsets[next];
                empty = next;
            }
        }
        self.tags[empty] = NO_TAG;
        self.registered[empty] = Registered::BLANK;
        self.offsets[empty] = 0;
    }
}

/// Where a tag stands if no other stood there before it.
#[inline(always)]
fn home(tag: u64) -> usize {
    (tag.wrapping_mul(0x9E37_79B9_7F4A_7C15) >> 58) as usize
}

/// Whether a tag has one of the last homes or one of the first two.
#[cfg(test)]
pub fn crowds(tag: u64) -> bool {
    matches!(home(tag), 0 | 1 | 60..)
}
