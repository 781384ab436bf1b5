//! What stands in messages: entries, and lists of them.
//! Rules: document 01, "Messages"; layouts: RC-004 tables 3.2-7, 3.2-9, 3.2-15, 3.2-25, 3.2-28 and 3.2-33.
//! An entry is split off the octets in which it stands, and written into a place of its width; a list is shown where
//! it stands.

use crate::octets::{
    copy_data, data_width, is_mode_code, length_width, split_data, split_length, two_octets,
};

pub type Tag = [u8; 8];
pub type Password = [u8; 8];

#[derive(Clone, Copy, Debug, PartialEq, Eq)]
pub struct MemoryData<'a> {
    pub tag: Tag,
    pub data: &'a [u8],
}

#[derive(Clone, Copy, Debug, PartialEq, Eq)]
pub struct Allocation<'a> {
    pub tag: Tag,
    pub mode: u8,
    pub size: u32,
    pub initial_value: &'a [u8],
}

#[derive(Clone, Copy, Debug, PartialEq, Eq)]
pub struct TagResource {
    pub tag: Tag,
    pub mode: u8,
    pub data_size: u32,
    pub area_size: u32,
}

/// What can be the whole body of a message, or stand in a list.
pub trait Entry<'a>: Copy {
    /// The entry at the start of the octets, and what stands behind it.
    fn split(octets: &'a [u8]) -> Option<(Self, &'a [u8])>;

    fn width(&self) -> usize;

    /// Whether it can be written; only a mode code that the tables lack cannot.
    #[inline(always)]
    fn is_legal(&self) -> bool {
        true
    }

    /// Writes it into a place of its width.
    fn put(&self, place: &mut [u8]);

    /// Writes entries into a place of their width.
    #[inline(always)]
    fn put_all(items: &[Self], place: &mut [u8]) {
        let mut rest = place;
        for item in items {
            let (place, behind) = rest.split_at_mut(item.width());
            item.put(place);
            rest = behind;
        }
    }

    /// What stands behind this many entries.
    #[inline(always)]
    fn pass(octets: &'a [u8], count: usize) -> Option<&'a [u8]> {
        let mut rest = octets;
        for _ in 0..count {
            (_, rest) = Self::split(rest)?;
        }
        Some(rest)
    }
}

impl<'a> Entry<'a> for Tag {
    #[inline(always)]
    fn split(octets: &'a [u8]) -> Option<(Tag, &'a [u8])> {
        let (tag, rest) = octets.split_first_chunk()?;
        Some((*tag, rest))
    }

    #[inline(always)]
    fn width(&self) -> usize {
        8
    }

    #[inline(always)]
    fn put(&self, place: &mut [u8]) {
        place[..8].copy_from_slice(self);
    }

    #[inline(always)]
    fn put_all(items: &[Tag], place: &mut [u8]) {
        place.copy_from_slice(items.as_flattened());
    }

    #[inline(always)]
    fn pass(octets: &'a [u8], count: usize) -> Option<&'a [u8]> {
        octets.get(8 * count..)
    }
}

impl<'a> Entry<'a> for (Tag, Password) {
    #[inline(always)]
    fn split(octets: &'a [u8]) -> Option<((Tag, Password), &'a [u8])> {
        let (tag, rest) = Tag::split(octets)?;
        let (password, rest) = Password::split(rest)?;
        Some(((tag, password), rest))
    }

    #[inline(always)]
    fn width(&self) -> usize {
        16
    }

    #[inline(always)]
    fn put(&self, place: &mut [u8]) {
        place[8..16].copy_from_slice(&self.1);
        place[..8].copy_from_slice(&self.0);
    }

    #[inline(always)]
    fn pass(octets: &'a [u8], count: usize) -> Option<&'a [u8]> {
        octets.get(16 * count..)
    }
}

impl<'a> Entry<'a> for MemoryData<'a> {
    #[inline(always)]
    fn split(octets: &'a [u8]) -> Option<(MemoryData<'a>, &'a [u8])> {
        let (tag, rest) = Tag::split(octets)?;
        let (data, rest) = split_data(rest)?;
        Some((MemoryData { tag, data }, rest))
    }

    #[inline(always)]
    fn width(&self) -> usize {
        8 + data_width(self.data.len())
    }

    #[inline(always)]
    fn put(&self, place: &mut [u8]) {
        self.tag.put(place);
        put_data(&mut place[8..], self.data);
    }
}

impl<'a> Entry<'a> for (MemoryData<'a>, Password) {
    #[inline(always)]
    fn split(octets: &'a [u8]) -> Option<((MemoryData<'a>, Password), &'a [u8])> {
        let ((tag, password), rest) = <(Tag, Password)>::split(octets)?;
        let (data, rest) = split_data(rest)?;
        Some(((MemoryData { tag, data }, password), rest))
    }

    #[inline(always)]
    fn width(&self) -> usize {
        16 + data_width(self.0.data.len())
    }

    #[inline(always)]
    fn put(&self, place: &mut [u8]) {
        (self.0.tag, self.1).put(place);
        put_data(&mut place[16..], self.0.data);
    }
}

impl<'a> Entry<'a> for TagResource {
    #[inline(always)]
    fn split(octets: &'a [u8]) -> Option<(TagResource, &'a [u8])> {
        let (tag, rest) = Tag::split(octets)?;
        let ([mode], rest) = rest.split_first_chunk()?;
        let (data_size, rest) = rest.split_first_chunk()?;
        let (area_size, rest) = rest.split_first_chunk()?;
        let entry = TagResource {
            tag,
            mode: *mode,
            data_size: u32::from_be_bytes(*data_size),
            area_size: u32::from_be_bytes(*area_size),
        };
        entry.is_legal().then_some((entry, rest))
    }

    #[inline(always)]
    fn width(&self) -> usize {
        17
    }

    #[inline(always)]
    fn is_legal(&self) -> bool {
        is_mode_code(self.mode)
    }

    #[inline(always)]
    fn put(&self, place: &mut [u8]) {
        place[13..17].copy_from_slice(&self.area_size.to_be_bytes());
        place[9..13].copy_from_slice(&self.data_size.to_be_bytes());
        place[8] = self.mode;
        self.tag.put(place);
    }
}

impl<'a> Entry<'a> for Allocation<'a> {
    #[inline(always)]
    fn split(octets: &'a [u8]) -> Option<(Allocation<'a>, &'a [u8])> {
        let (allocation, rest) = split_grant(octets)?;
        let (initial_value, rest) = split_data(rest)?;
        let allocation = Allocation {
            initial_value,
            ..allocation
        };
        Some((allocation, rest))
    }

    #[inline(always)]
    fn width(&self) -> usize {
        13 + data_width(self.initial_value.len())
    }

    #[inline(always)]
    fn is_legal(&self) -> bool {
        is_mode_code(self.mode)
    }

    #[inline(always)]
    fn put(&self, place: &mut [u8]) {
        put_grant(self, place);
        put_data(&mut place[13..], self.initial_value);
    }
}

/// Table 3.2-25: the password stands between the size and the initial value.
impl<'a> Entry<'a> for (Allocation<'a>, Password) {
    #[inline(always)]
    fn split(octets: &'a [u8]) -> Option<((Allocation<'a>, Password), &'a [u8])> {
        let (allocation, rest) = split_grant(octets)?;
        let (password, rest) = Password::split(rest)?;
        let (initial_value, rest) = split_data(rest)?;
        let allocation = Allocation {
            initial_value,
            ..allocation
        };
        Some(((allocation, password), rest))
    }

    #[inline(always)]
    fn width(&self) -> usize {
        8 + self.0.width()
    }

    #[inline(always)]
    fn is_legal(&self) -> bool {
        self.0.is_legal()
    }

    #[inline(always)]
    fn put(&self, place: &mut [u8]) {
        put_grant(&self.0, place);
        place[13..21].copy_from_slice(&self.1);
        put_data(&mut place[21..], self.0.initial_value);
    }
}

/// Tag, mode and size of an allocation, and what stands behind them.
#[inline(always)]
fn split_grant(octets: &[u8]) -> Option<(Allocation<'_>, &[u8])> {
    let (tag, rest) = Tag::split(octets)?;
    let ([mode, size @ ..], rest) = rest.split_first_chunk::<5>()?;
    let allocation = Allocation {
        tag,
        mode: *mode,
        size: u32::from_be_bytes(*size),
        initial_value: &[],
    };
    allocation.is_legal().then_some((allocation, rest))
}

#[inline(always)]
fn put_grant(allocation: &Allocation, place: &mut [u8]) {
    place[9..13].copy_from_slice(&allocation.size.to_be_bytes());
    place[8] = allocation.mode;
    allocation.tag.put(place);
}

/// Writes data with its length before it.
#[inline(always)]
fn put_data(place: &mut [u8], data: &[u8]) {
    let place = put_length(place, data.len());
    copy_data(place, data);
}

/// Writes a length or count, and gives what stands behind it.
#[inline(always)]
pub fn put_length(place: &mut [u8], length: usize) -> &mut [u8] {
    if length < 128 {
        place[0] = length as u8;
        &mut place[1..]
    } else {
        place[..2].copy_from_slice(&two_octets(length));
        &mut place[2..]
    }
}

/// A list that the caller gives, or one that stands in a message and has been read to its end.
#[derive(Clone, Copy, Debug)]
pub struct List<'a, Item>(Place<'a, Item>);

#[derive(Clone, Copy, Debug)]
enum Place<'a, Item> {
    Given(&'a [Item]),
    InMessage { count: usize, octets: &'a [u8] },
}

impl<'a, Item: Entry<'a>> List<'a, Item> {
    pub fn of(items: &'a [Item]) -> List<'a, Item> {
        List(Place::Given(items))
    }

    #[inline]
    pub fn count(&self) -> usize {
        match self.0 {
            Place::Given(items) => items.len(),
            Place::InMessage { count, .. } => count,
        }
    }

    /// The entries in the order given.
    #[inline]
    pub fn iter(&self) -> Entries<'a, Item> {
        Entries(self.0)
    }

    /// Count and entries, which end with the body.
    #[inline(always)]
    pub(super) fn whole(body: &'a [u8]) -> Option<List<'a, Item>> {
        let (count, octets) = split_length(body)?;
        match Item::pass(octets, count)? {
            [] => Some(List(Place::InMessage { count, octets })),
            _ => None,
        }
    }

    /// The width of count and entries, if all of them can be written.
    #[inline(always)]
    pub(super) fn width(&self) -> Option<usize> {
        let entries = match self.0 {
            Place::Given(items) if !items.iter().all(Item::is_legal) => return None,
            Place::Given(items) => items.iter().map(Item::width).sum(),
            Place::InMessage { octets, .. } => octets.len(),
        };
        Some(length_width(self.count()) + entries)
    }

    /// Writes count and entries into a place of their width.
    #[inline(always)]
    pub(super) fn put(&self, place: &mut [u8]) {
        let place = put_length(place, self.count());
        match self.0 {
            Place::Given(items) => Item::put_all(items, place),
            Place::InMessage { octets, .. } => place.copy_from_slice(octets),
        }
    }
}

/// The entries of a list, one after the other.
#[derive(Clone, Copy, Debug)]
pub struct Entries<'a, Item>(Place<'a, Item>);

impl<'a, Item: Entry<'a>> Iterator for Entries<'a, Item> {
    type Item = Item;

    #[inline]
    fn next(&mut self) -> Option<Item> {
        match &mut self.0 {
            Place::Given(items) => {
                let (first, rest) = items.split_first()?;
                *items = rest;
                Some(*first)
            }
            Place::InMessage { octets, .. } => {
                let (first, rest) = Item::split(octets)?;
                *octets = rest;
                Some(first)
            }
        }
    }
}
