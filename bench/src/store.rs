//! The tags of a hand-written unit and their memory.
//! Rules: document 01, "Tags" and the lines of "Denials and their order" that look at a tag. How tags stand in the
//! table is told by `sorted`, or by `scattered`, which measures faster. Areas lie in the pool without gaps, and
//! behind a held length and behind the last area every octet is zero.

#[cfg_attr(not(feature = "scattered"), path = "store/sorted.rs")]
#[cfg_attr(feature = "scattered", path = "store/scattered.rs")]
mod table;

use crate::octets::copy_data;
use table::PLACES;

const TAGS: usize = 32;
const MEMORY: usize = 8192;
const AREA: usize = 1024;

const NO_ROOM: u8 = 5;
pub const NO_SUCH_TAG: u8 = 6;
const AGAINST_MODE: u8 = 8;
pub const BAD_SIZE: u8 = 9;
const BAD_PASSWORD: u8 = 10;
const SPF_REQUIRED: u8 = 11;

pub const READ_PROHIBITED: u8 = 1;
pub const WRITE_PROHIBITED: u8 = 2;
pub const SPF: u8 = 4;

/// Stands in the empty places; its ignored bits are set, so it is no tag.
const NO_TAG: u64 = u64::MAX;

/// What the table tells of a registered tag; without a password the number is 0.
#[derive(Clone, Copy)]
pub struct Registered {
    pub password: u64,
    pub size: u16,
    pub held_length: u16,
    pub mode: u8,
    pub protected: bool,
}

impl Registered {
    const BLANK: Registered = Registered {
        password: 0,
        size: 0,
        held_length: 0,
        mode: 0,
        protected: false,
    };

    /// Whether port, password and mode allow a command. The bits of the mode that prohibit it are given, SPF among
    /// them for the normal port; a plain command has the password 0.
    #[inline]
    pub fn admits<const FORM: bool>(&self, prohibiting: u8, password: u64) -> bool {
        let refused = u8::from(self.protected != FORM) | (self.mode & prohibiting);
        u64::from(refused) | (self.password ^ password) == 0
    }

    /// Why a command is not allowed: 11, 10, 8 in this order.
    #[inline]
    fn refusal<const FORM: bool>(&self, prohibiting: u8, password: u64) -> u8 {
        if self.mode & prohibiting & SPF != 0 {
            SPF_REQUIRED
        } else if self.protected != FORM || self.password != password {
            BAD_PASSWORD
        } else {
            AGAINST_MODE
        }
    }
}

pub struct Store {
    tags: [u64; PLACES],
    registered: [Registered; PLACES],
    offsets: [u16; PLACES],
    count: usize,
    in_use: usize,
    pool: [u8; MEMORY],
}

impl Store {
    pub const EMPTY: Store = Store {
        tags: [NO_TAG; PLACES],
        registered: [Registered::BLANK; PLACES],
        offsets: [0; PLACES],
        count: 0,
        in_use: 0,
        pool: [0; MEMORY],
    };

    pub fn remaining_tags(&self) -> usize {
        TAGS - self.count
    }

    pub fn remaining_octets(&self) -> usize {
        MEMORY - self.in_use
    }

    #[inline(always)]
    pub fn find(&self, tag: u64) -> Option<usize> {
        self.search(tag).ok()
    }

    /// The place of a tag that a command may reach; else 6, 11, 10 or 8.
    #[inline(always)]
    pub fn admit<const FORM: bool>(
        &self,
        tag: u64,
        prohibiting: u8,
        password: u64,
    ) -> Result<usize, u8> {
        let place = self.find(tag).ok_or(NO_SUCH_TAG)?;
        let registered = &self.registered[place];
        if registered.admits::<FORM>(prohibiting, password) {
            Ok(place)
        } else {
            Err(registered.refusal::<FORM>(prohibiting, password))
        }
    }

    /// The size of a new area; 9 if it is not 1 to 1,024, 5 if the table or the memory has no room for it.
    #[inline]
    pub fn granted(&self, size: u32) -> Result<u16, u8> {
        if size.wrapping_sub(1) >= AREA as u32 {
            return Err(BAD_SIZE);
        }
        if self.count >= TAGS || self.in_use + size as usize > MEMORY {
            return Err(NO_ROOM);
        }
        Ok(size as u16)
    }

    /// Puts a tag at the place where it should stand; its area is the next of the pool.
    #[inline]
    pub fn register(&mut self, place: usize, tag: u64, registered: Registered) {
        let place = place % PLACES;
        self.make_empty(place);
        self.tags[place] = tag;
        self.registered[place] = registered;
        self.offsets[place] = self.in_use as u16;
        self.count += 1;
        self.in_use += usize::from(registered.size);
    }

    /// Takes a tag out of the table and closes up the pool; the octets that become free are zeroed.
    #[inline]
    pub fn remove(&mut self, place: usize) {
        let place = place % PLACES;
        let freed = self.registered[place].size;
        let offset = self.offsets[place];
        self.take_out(place);
        for other in &mut self.offsets {
            *other -= if *other > offset { freed } else { 0 };
        }
        let start = usize::from(offset);
        let size = usize::from(freed);
        let end = self.in_use;
        self.pool.copy_within(start + size..end, start);
        self.pool[end - size..end].fill(0);
        self.in_use = end - size;
        self.count -= 1;
    }

    #[inline]
    pub fn tag(&self, place: usize) -> u64 {
        self.tags[place % PLACES]
    }

    #[inline]
    pub fn registered(&self, place: usize) -> &Registered {
        &self.registered[place % PLACES]
    }

    /// What the tag at this place holds.
    #[inline]
    pub fn held(&self, place: usize) -> &[u8] {
        let start = usize::from(self.offsets[place % PLACES]);
        &self.pool[start..start + usize::from(self.registered(place).held_length)]
    }

    /// Replaces the contents by data no longer than the area; what was held behind it becomes zero.
    #[inline(always)]
    pub fn write(&mut self, place: usize, data: &[u8]) {
        let registered = &mut self.registered[place % PLACES];
        let start = usize::from(self.offsets[place % PLACES]);
        let end = start + data.len();
        let held_end = start + usize::from(registered.held_length);
        registered.held_length = data.len() as u16;
        if held_end > end {
            self.pool[end..held_end].fill(0);
        }
        copy_data(&mut self.pool[start..end], data);
    }
}

#[cfg(test)]
mod tests {
    use super::table::crowds;
    use super::*;
    use second::random::Random;

    /// What a store should hold: tag, size and data, in the order of the pool.
    type Model = Vec<(u64, usize, Vec<u8>)>;

    fn check(store: &Store, model: &Model) {
        let mut start = 0;
        for (tag, size, data) in model {
            let place = store.find(*tag).expect("a registered tag");
            assert_eq!(store.tag(place), *tag);
            assert_eq!(usize::from(store.registered(place).size), *size);
            assert_eq!(store.held(place), data);
            let area = &store.pool[start..start + size];
            assert!(area[data.len()..].iter().all(|octet| *octet == 0));
            start += size;
        }
        assert_eq!(store.in_use, start);
        assert!(store.pool[start..].iter().all(|octet| *octet == 0));
        let used = store.tags.iter().filter(|tag| **tag != NO_TAG);
        assert_eq!(used.count(), model.len());
        assert_eq!(store.remaining_tags(), TAGS - model.len());
    }

    fn crowded_tags() -> Vec<u64> {
        let tags = (0..1000).map(|number| number << 6);
        tags.filter(|tag| crowds(*tag)).take(60).collect()
    }

    fn register(store: &mut Store, model: &mut Model, random: &mut Random) {
        let tag = random.pick(&crowded_tags());
        let size = random.pick(&[1, 3, 16, 200, 256, 1024]);
        let known = model.iter().any(|(known, ..)| *known == tag);
        let Err(place) = store.search(tag) else {
            assert!(known);
            return;
        };
        assert!(!known);
        let Ok(granted) = store.granted(size as u32) else {
            assert!(model.len() == TAGS || store.remaining_octets() < size);
            return;
        };
        let registered = Registered {
            size: granted,
            ..Registered::BLANK
        };
        store.register(place, tag, registered);
        model.push((tag, size, Vec::new()));
    }

    fn write(store: &mut Store, model: &mut Model, random: &mut Random) {
        let number = random.below(model.len());
        let (tag, size, data) = &mut model[number];
        let length = random.between(0, *size);
        *data = random.octets(length);
        store.write(store.find(*tag).expect("a registered tag"), data);
    }

    fn remove(store: &mut Store, model: &mut Model, random: &mut Random) {
        let (tag, ..) = model.remove(random.below(model.len()));
        store.remove(store.find(tag).expect("a registered tag"));
        assert_eq!(store.find(tag), None);
    }

    /// Tags that crowd are found, and every octet of the pool is accounted for.
    #[test]
    fn drawn_changes() {
        for seed in 0..40 {
            let mut random = Random::new(seed, 0);
            let mut store = Store::EMPTY;
            let mut model = Model::new();
            for _ in 0..1000 {
                match random.below(10) {
                    0..=3 => register(&mut store, &mut model, &mut random),
                    4..=6 if !model.is_empty() => write(&mut store, &mut model, &mut random),
                    7..=8 if !model.is_empty() => remove(&mut store, &mut model, &mut random),
                    _ => {}
                }
                check(&store, &model);
            }
        }
    }
}
