//! Draws requests that decode, of every operation, for a unit whose state is known.
//! The unit of this program is the model: its tags, sizes and passwords make the drawn requests telling ones, and
//! a share of carelessness makes passwords, ports, tags and sizes wrong.

use crate::message::{
    length_width, request_octets, Allocation, List, MemoryData, Operation, Password, Request, Tag,
};
use crate::random::Random;
use crate::unit::{is_unit_managed, may_read, may_write, needs_spf, Port, Unit, FIRST_KIND};

/// A request for a port, as it stands in a record.
pub type Command = (Port, Vec<u8>);

const BODY_LIMIT: usize = 2042;
const ADDRESSES: usize = 30;

/// Sizes at the limits, and sizes that look good if they are cut to fewer bits.
const TELLING_SIZES: [usize; 14] = [
    0,
    0,
    1,
    1023,
    1024,
    1025,
    1025,
    2048,
    65_535,
    65_536,
    65_537,
    0x0101_0001,
    0x8000_0001,
    4_294_967_295,
];

/// What a log's areas are like: small ones fill the table, large ones the memory, even ones both at once.
#[derive(Clone, Copy, Debug, PartialEq, Eq)]
enum Areas {
    Small,
    Large,
    Mixed,
    Even,
}

/// A tag as the drawing knows it; one that is not registered has drawn attributes.
#[derive(Clone, Copy, Debug)]
struct Known {
    tag: Tag,
    mode: u8,
    password: Option<Password>,
    size: usize,
    held_length: usize,
}

impl Known {
    fn width(&self) -> usize {
        entry_width(self.held_length)
    }
}

pub struct Commands {
    pub random: Random,
    pub unit: Unit,
    /// In percent: how often a choice is made without regard to what the unit wants.
    pub carelessness: usize,
    addresses: Vec<[u8; 7]>,
    passwords: Vec<Password>,
    areas: Areas,
}

impl Commands {
    pub fn new(mut random: Random) -> Commands {
        let addresses = draw_addresses(&mut random);
        let passwords = draw_passwords(&mut random);
        let areas = [Areas::Small, Areas::Large, Areas::Mixed, Areas::Even];
        let areas = areas[random.weighted(&[35, 35, 20, 10])];
        Commands {
            random,
            unit: Unit::start(1, true, true).expect("version 1 starts"),
            carelessness: 10,
            addresses,
            passwords,
            areas,
        }
    }

    pub fn remaining_octets(&self) -> usize {
        (FIRST_KIND.memory - self.unit.octets_in_use()) as usize
    }

    pub fn is_full(&self) -> bool {
        self.unit.tags().len() == FIRST_KIND.tags || self.remaining_octets() == 0
    }

    fn careless(&mut self) -> bool {
        let percent = self.carelessness;
        self.random.chance(percent)
    }

    fn known(&self) -> Vec<Known> {
        self.unit
            .tags()
            .iter()
            .map(|registered| Known {
                tag: registered.tag,
                mode: registered.mode,
                password: registered.password,
                size: registered.size(),
                held_length: registered.held_length,
            })
            .collect()
    }

    /// The tag with its ignored bits set at times.
    fn dressed(&mut self, tag: Tag) -> Tag {
        let mut tag = tag;
        if self.random.chance(35) {
            let drawn = self.random.octet() & 0x3F;
            tag[0] = tag[0] & 0xC0 | self.random.pick(&[0x3F, 0x01, 0x20, drawn]);
        }
        tag
    }

    /// Any tag of this log's addresses, of all four kinds.
    fn any_tag(&mut self) -> Tag {
        let kind = [0x00, 0x80, 0x40, 0xC0][self.random.weighted(&[40, 35, 12, 13])];
        let address = self.random.pick(&self.addresses);
        let mut tag = [kind; 8];
        tag[1..].copy_from_slice(&address);
        tag
    }

    fn is_registered(&self, tag: &Tag) -> bool {
        self.unit.tags().iter().any(|known| known.tag == *tag)
    }

    /// A tag that can be allocated, if a few tries find one.
    fn fresh_tag(&mut self) -> Tag {
        let mut tag = self.any_tag();
        for _ in 0..20 {
            if !is_unit_managed(&tag) && !self.is_registered(&tag) {
                break;
            }
            tag = self.any_tag();
        }
        tag
    }

    /// A tag that differs in one bit that counts.
    fn neighbour(&mut self, tag: Tag) -> Tag {
        let mut tag = tag;
        let drawn = self.random.between(1, 7);
        let place = self.random.pick(&[0, 0, 1, 7, drawn]);
        tag[place] ^= match place {
            0 => self.random.pick(&[0x80, 0x40]),
            _ => 1 << self.random.below(8),
        };
        tag
    }

    fn stranger(&mut self, tag: Tag) -> Known {
        Known {
            tag,
            mode: self.mode(),
            password: self.new_password(),
            size: self.random.between(1, 64),
            held_length: 0,
        }
    }

    /// A registered tag as a rule; at times its neighbour, or any tag.
    fn target(&mut self) -> Known {
        let known = self.known();
        if known.is_empty() || self.random.chance(4) {
            let tag = self.any_tag();
            return self.stranger(tag);
        }
        let mut chosen = self.random.pick(&known);
        if self.careless() && self.random.chance(15) {
            chosen.tag = self.neighbour(chosen.tag);
        }
        chosen
    }

    fn mode(&mut self) -> u8 {
        [0, 1, 2, 4, 5, 6][self.random.weighted(&[48, 13, 8, 16, 8, 7])]
    }

    fn any_port(&mut self) -> Port {
        if self.random.chance(55) {
            Port::Normal
        } else {
            Port::Secure
        }
    }

    fn port_for(&mut self, mode: u8) -> Port {
        if needs_spf(mode) && !self.careless() {
            return Port::Secure;
        }
        self.any_port()
    }

    fn new_password(&mut self) -> Option<Password> {
        match self.random.weighted(&[50, 10, 30, 10]) {
            0 => None,
            1 => Some([0; 8]),
            2 => Some(self.random.pick(&self.passwords)),
            _ => Some(self.random.eight()),
        }
    }

    /// The right password or none as a rule; if careless, a missing or another one.
    fn password_for(&mut self, own: Option<Password>) -> Option<Password> {
        if !self.careless() {
            return own;
        }
        match own {
            Some(own) if self.random.chance(70) => Some(self.other_password(own)),
            Some(_) => None,
            None => Some(self.any_password()),
        }
    }

    fn any_password(&mut self) -> Password {
        match self.random.below(3) {
            0 => [0; 8],
            1 => self.random.pick(&self.passwords),
            _ => self.random.eight(),
        }
    }

    fn other_password(&mut self, own: Password) -> Password {
        let mut other = own;
        match self.random.below(4) {
            0 | 1 => other[self.random.below(8)] ^= 1 << self.random.below(8),
            2 => other.reverse(),
            _ => other = self.any_password(),
        }
        other
    }

    fn size(&mut self) -> usize {
        let remaining = self.remaining_octets();
        if remaining <= 1024 && self.random.chance(45) {
            let more = remaining + 1;
            let less = remaining.max(1) - 1;
            return self.random.pick(&[remaining, remaining, more, more, less]);
        }
        if self.random.chance(10) {
            return self.random.pick(&TELLING_SIZES);
        }
        let areas = match self.areas {
            Areas::Mixed => self.random.pick(&[Areas::Small, Areas::Large]),
            areas => areas,
        };
        let small = self.random.between(1, 250);
        let large = self.random.between(250, 1024);
        match areas {
            Areas::Small => self.random.pick(&[1, 2, 8, 128, small]),
            Areas::Even => self.random.pick(&[256, 256, 256, 256, 256, 256, 255, 257]),
            _ => self.random.pick(&[1024, 1023, large, large, small]),
        }
    }

    fn initial_value(&mut self, size: usize) -> Vec<u8> {
        let size = size.min(1024);
        let length = match self.random.weighted(&[60, 15, 10, 8, 5, 2]) {
            0 => 0,
            1 => self.random.between(1, 8),
            2 => self.random.pick(&[size, size + 1]),
            3 => self.random.pick(&[127, 128]),
            4 => self.random.between(1, 200),
            _ => self.random.between(1, 2000),
        };
        self.data(length)
    }

    pub fn allocate(&mut self) -> Command {
        let tag = match self.random.weighted(&[84, 8, 8]) {
            0 => self.fresh_tag(),
            1 => self.target().tag,
            _ => self.any_tag(),
        };
        let tag = self.dressed(tag);
        let size = self.size();
        let allocation = Allocation {
            tag,
            mode: self.mode(),
            size: size as u64,
            initial_value: self.initial_value(size),
        };
        let password = self.new_password();
        let port = self.any_port();
        self.command(port, Operation::Allocate(allocation, password))
    }

    pub fn free(&mut self) -> Command {
        let target = self.target();
        let tag = self.dressed(target.tag);
        let password = self.password_for(target.password);
        let port = self.port_for(target.mode);
        self.command(port, Operation::Free(tag, password))
    }

    pub fn read(&mut self) -> Command {
        let mut target = self.target();
        if !may_read(target.mode) && !self.careless() {
            target = self.target();
        }
        let tag = self.dressed(target.tag);
        let password = self.password_for(target.password);
        let port = self.port_for(target.mode);
        self.command(port, Operation::Read(tag, password))
    }

    pub fn write(&mut self) -> Command {
        let mut target = self.target();
        if !may_write(target.mode) && !self.careless() {
            target = self.target();
        }
        let length = self.data_length(target.size);
        self.write_of(target, length)
    }

    fn write_of(&mut self, target: Known, length: usize) -> Command {
        let tag = self.dressed(target.tag);
        let data = self.data(length);
        let password = self.password_for(target.password);
        let port = self.port_for(target.mode);
        self.command(port, Operation::Write(MemoryData { tag, data }, password))
    }

    fn data_length(&mut self, size: usize) -> usize {
        match self.random.weighted(&[6, 6, 8, 6, 18, 8, 45, 3]) {
            0 => 0,
            1 => 1,
            2 => self.random.pick(&[118, 119, 126, 127, 128, 129]),
            3 => size - 1,
            4 => size,
            5 => size + 1,
            6 => self.random.between(0, size),
            _ => self.random.between(0, 2024),
        }
    }

    fn data(&mut self, length: usize) -> Vec<u8> {
        match self.random.weighted(&[90, 4, 6]) {
            0 => self.random.octets(length),
            1 => vec![0; length],
            _ => vec![self.random.octet(); length],
        }
    }

    fn list_count(&mut self) -> usize {
        match self.random.weighted(&[4, 10, 50, 8, 14, 9, 3, 2]) {
            0 => 0,
            1 => 1,
            2 => self.random.between(2, 14),
            3 => 15,
            4 => 16,
            5 => 17,
            6 => self.random.between(18, 70),
            _ => self.random.between(71, 255),
        }
    }

    /// Entries for a list: mostly tags that suit its form, some repeated, some strange, each with a password.
    fn entries(&mut self, with_password: bool, count: usize) -> Vec<(Known, Password)> {
        let known = self.known();
        let suiting: Vec<Known> = known
            .iter()
            .filter(|known| known.password.is_some() == with_password)
            .copied()
            .collect();
        let weights = if self.random.chance(4) {
            [15, 0, 0, 85]
        } else {
            [15, 63, 12, 10]
        };
        let mut entries: Vec<(Known, Password)> = Vec::new();
        for _ in 0..count {
            let mut chosen = match self.random.weighted(&weights) {
                0 if !entries.is_empty() => self.random.pick(&entries).0,
                1 if !suiting.is_empty() => self.random.pick(&suiting),
                1 | 2 if !known.is_empty() => self.random.pick(&known),
                _ => {
                    let tag = self.any_tag();
                    self.stranger(tag)
                }
            };
            chosen.tag = self.dressed(chosen.tag);
            let password = match self.password_for(chosen.password) {
                Some(password) => password,
                None => self.any_password(),
            };
            entries.push((chosen, password));
        }
        entries
    }

    pub fn resource_information(&mut self) -> Command {
        let count = self.list_count();
        let tags = self.entries(false, count);
        let tags = tags.iter().map(|(known, _)| known.tag).collect();
        let port = self.any_port();
        self.command(port, Operation::ResourceInformation(tags))
    }

    pub fn bulk_read(&mut self) -> Command {
        let with_password = self.random.chance(50);
        let count = self.list_count();
        let count = if with_password { count.min(127) } else { count };
        let entries = self.entries(with_password, count);
        let port = self.any_port();
        self.bulk_read_of(port, with_password, &entries)
    }

    fn bulk_read_of(
        &mut self,
        port: Port,
        with_password: bool,
        entries: &[(Known, Password)],
    ) -> Command {
        let list = if with_password {
            List::WithPassword(
                entries
                    .iter()
                    .map(|(known, password)| (known.tag, *password))
                    .collect(),
            )
        } else {
            List::Plain(entries.iter().map(|(known, _)| known.tag).collect())
        };
        self.command(port, Operation::BulkRead(list))
    }

    pub fn bulk_write(&mut self) -> Command {
        let with_password = self.random.chance(50);
        let most = if with_password { 113 } else { 204 };
        let count = self.list_count().min(most);
        let brimful = count > 0 && self.random.chance(3);
        self.bulk_write_of(with_password, count, brimful)
    }

    /// A bulk write; a brimful one has exactly 2,048 octets, its last data taking what is left.
    fn bulk_write_of(&mut self, with_password: bool, count: usize, brimful: bool) -> Command {
        let entries = self.entries(with_password, count);
        let overhead = if with_password { 18 } else { 10 };
        let mut room = BODY_LIMIT - length_width(count) - overhead * count;
        let mut list = Vec::new();
        for (place, (known, password)) in entries.into_iter().enumerate() {
            let last = brimful && place + 1 == count;
            let drawn = self.data_length(known.size).min(room);
            let length = if last { room } else { drawn };
            room -= length;
            if brimful && !last && length < 128 {
                room += 1;
            }
            let data = self.data(length);
            let tag = known.tag;
            list.push((MemoryData { tag, data }, password));
        }
        let list = if with_password {
            List::WithPassword(list)
        } else {
            List::Plain(list.into_iter().map(|(memory, _)| memory).collect())
        };
        let port = self.any_port();
        self.command(port, Operation::BulkWrite(list))
    }

    /// A request of exactly 2,047 or 2,048 octets that decodes, or a list as long as a request can hold.
    pub fn brimful(&mut self) -> Command {
        let short = self.random.below(2);
        match self.random.below(5) {
            0 => self.brimful_write(short),
            1 => self.brimful_allocation(short),
            2 => {
                let count = self.random.between(1, 17);
                let with_password = self.random.chance(50);
                self.bulk_write_of(with_password, count, true)
            }
            3 => self.longest_list(short),
            _ => {
                let entries = self.entries(true, 127 - short);
                self.bulk_read_of(Port::Secure, true, &entries)
            }
        }
    }

    fn brimful_write(&mut self, short: usize) -> Command {
        let target = self.target();
        let password = self.password_for(target.password);
        let width = if password.is_some() { 2024 } else { 2032 };
        let data = self.data(width - short);
        let tag = target.tag;
        let port = self.port_for(target.mode);
        self.command(port, Operation::Write(MemoryData { tag, data }, password))
    }

    fn longest_list(&mut self, short: usize) -> Command {
        let entries = self.entries(false, 255 - short);
        let tags: Vec<Tag> = entries.iter().map(|(known, _)| known.tag).collect();
        let operation = if self.random.chance(50) {
            Operation::BulkRead(List::Plain(tags))
        } else {
            Operation::ResourceInformation(tags)
        };
        self.command(Port::Normal, operation)
    }

    fn brimful_allocation(&mut self, short: usize) -> Command {
        let password = self.new_password();
        let width = if password.is_some() { 2019 } else { 2027 };
        let allocation = Allocation {
            tag: self.fresh_tag(),
            mode: self.mode(),
            size: self.random.between(1, 200) as u64,
            initial_value: self.data(width - short),
        };
        self.command(Port::Normal, Operation::Allocate(allocation, password))
    }

    /// A write that makes a following bulk read's body come out at the limit or one octet beside it, or where the
    /// form of its length changes.
    pub fn measured_bulk_read(&mut self) -> Vec<Command> {
        let with_password = self.random.chance(50);
        let readable: Vec<Known> = self
            .known()
            .into_iter()
            .filter(|known| known.password.is_some() == with_password && may_read(known.mode))
            .collect();
        let writable = readable.iter().filter(|known| may_write(known.mode));
        let Some(last) = writable.max_by_key(|known| known.size).copied() else {
            return vec![self.allocate()];
        };
        let wanted = self
            .random
            .pick(&[127, 128, 2041, 2042, 2042, 2042, 2043, 2043, 2043]);
        let mut list = self.entries_below(&readable, &last, wanted);
        let body: usize = 1 + list.iter().map(Known::width).sum::<usize>();
        let length = data_for_width(wanted - body).filter(|length| *length <= last.size);
        let Some(length) = length else {
            let filled = self.random.pick(&readable);
            return vec![self.faithful_write(filled, filled.size)];
        };
        list.push(last);
        self.add_behind(&mut list, &readable, &last);
        let entries: Vec<(Known, Password)> = list
            .into_iter()
            .map(|known| (known, known.password.unwrap_or([0; 8])))
            .collect();
        let write = self.faithful_write(last, length);
        vec![
            write,
            self.bulk_read_of(Port::Secure, with_password, &entries),
        ]
    }

    /// Readable tags whose entries leave room for the last one's in a body of the wanted length.
    fn entries_below(&mut self, readable: &[Known], last: &Known, wanted: usize) -> Vec<Known> {
        let mut list = Vec::new();
        let mut body = 1;
        for _ in 0..60 {
            let known = self.random.pick(readable);
            let fits = body + known.width() + 9 <= wanted && list.len() < 13;
            if known.tag != last.tag && fits {
                body += known.width();
                list.push(known);
            }
            if body + entry_width(last.size) >= wanted && self.random.chance(50) {
                break;
            }
        }
        list
    }

    /// Further entries behind the measured ones: passed over if too long, still taken if they fit.
    fn add_behind(&mut self, list: &mut Vec<Known>, readable: &[Known], last: &Known) {
        for _ in 0..self.random.below(3) {
            let known = self.random.pick(readable);
            if known.tag != last.tag {
                list.push(known);
            }
        }
    }

    /// A write with the right password by the secure port.
    fn faithful_write(&mut self, target: Known, length: usize) -> Command {
        let tag = target.tag;
        let data = self.random.octets(length);
        self.command(
            Port::Secure,
            Operation::Write(MemoryData { tag, data }, target.password),
        )
    }

    /// Any request that decodes.
    pub fn any(&mut self) -> Command {
        match self.random.below(8) {
            0 => self.allocate(),
            1 => self.free(),
            2 => self.read(),
            3 => self.write(),
            4 => self.bulk_read(),
            5 => self.bulk_write(),
            6 => self.resource_information(),
            _ if self.random.chance(20) => self.brimful(),
            _ => self.bulk_write(),
        }
    }

    fn command(&mut self, port: Port, operation: Operation) -> Command {
        let request = Request {
            version: 1,
            operation,
        };
        let octets = request_octets(&request).expect("drawn requests can be written");
        (port, octets)
    }
}

/// The width of a memory data entry with this held length.
fn entry_width(held_length: usize) -> usize {
    8 + length_width(held_length) + held_length
}

/// The data length whose entry has this width, if there is one.
fn data_for_width(width: usize) -> Option<usize> {
    let short = width.checked_sub(9)?;
    if short <= 127 {
        return Some(short);
    }
    Some(short - 1).filter(|length| *length >= 128)
}

/// Addresses that differ from each other in few places.
fn draw_addresses(random: &mut Random) -> Vec<[u8; 7]> {
    let mut base = [0; 7];
    base.copy_from_slice(&random.octets(7));
    let mut addresses = vec![base];
    while addresses.len() < ADDRESSES {
        let mut address = random.pick(&addresses);
        let place = random.below(7);
        address[place] = match random.below(2) {
            0 => address[place] ^ (1 << random.below(8)),
            _ => random.octet(),
        };
        if !addresses.contains(&address) {
            addresses.push(address);
        }
    }
    addresses
}

/// A few passwords of which some differ in one bit only.
fn draw_passwords(random: &mut Random) -> Vec<Password> {
    let first = random.eight();
    let mut passwords = vec![first, random.eight(), [0xFF; 8], [1, 2, 3, 4, 5, 6, 7, 8]];
    for _ in 0..2 {
        let mut near = first;
        near[random.below(8)] ^= 1 << random.below(8);
        passwords.push(near);
    }
    passwords
}
