//! The hand-written responder that the proved one is measured against: safe Rust, no heap, made for speed.
//! Rules: document 01; layouts: RC-004 tables 3.2-2 to 3.2-41. Every answer is written straight into the answer area
//! and every stored octet is copied once. Tags and passwords are numbers as their octets lie in memory, so that none
//! is turned round. It relies on `store` for tags and memory, and on `octets` for lengths.

use crate::octets::{
    body, copy_data, data_width, is_mode_code, split_data, split_length, two_octets,
};
use crate::store::{
    Registered, Store, BAD_SIZE, NO_SUCH_TAG, READ_PROHIBITED, SPF, WRITE_PROHIBITED,
};

const MESSAGE: usize = 2048;
const LIST: usize = 16;
const BODY: usize = 2042;

pub const AREA_TOO_SHORT: u16 = 300;
pub const BAD_START: u16 = 301;

const WRONG_VERSION: u8 = 4;
const LIST_TOO_LONG: u8 = 7;
const NOT_FITTED: u8 = 12;
const ILLEGAL: u8 = 16;

/// The low six bits of a tag's first octet, and its bit for a unit-managed tag.
const IGNORED_BITS: u64 = 0x3F;
const UNIT_MANAGED: u64 = 0x40;

/// The two forms of an operation.
const PLAIN: bool = false;
const PASSWORD: bool = true;

type AnswerArea = [u8; MESSAGE];

#[derive(Clone, Copy, Debug, PartialEq, Eq)]
pub enum Port {
    Normal,
    Secure,
}

#[derive(Clone, Copy, Debug, PartialEq, Eq)]
pub enum Mode {
    Both,
    WriteOnly,
    ReadOnly,
}

/// What the vehicle gives to fit a unit-managed tag.
#[derive(Clone, Copy, Debug)]
pub struct Fitting<'a> {
    pub tag: [u8; 8],
    pub size: u32,
    pub mode: Mode,
    pub spf_required: bool,
    pub password: Option<[u8; 8]>,
    pub first_data: &'a [u8],
}

/// What a unit does for an operation type; not served are those that the table lacks or whose option is not fitted.
#[derive(Clone, Copy, PartialEq, Eq)]
enum Service {
    NotServed,
    ResourceInformation,
    Allocate,
    Free,
    Read,
    Write,
    BulkRead,
    BulkWrite,
    AllocateWithPassword,
    FreeWithPassword,
    ReadWithPassword,
    WriteWithPassword,
    BulkReadWithPassword,
    BulkWriteWithPassword,
}

impl Service {
    fn of(operation: usize, allocation: bool, passwords: bool) -> Service {
        match operation {
            0 => Service::ResourceInformation,
            1 if allocation => Service::Allocate,
            2 if allocation => Service::Free,
            3 => Service::Read,
            4 => Service::Write,
            5 => Service::BulkRead,
            6 => Service::BulkWrite,
            65 if allocation && passwords => Service::AllocateWithPassword,
            66 if allocation && passwords => Service::FreeWithPassword,
            67 if passwords => Service::ReadWithPassword,
            68 if passwords => Service::WriteWithPassword,
            69 if passwords => Service::BulkReadWithPassword,
            70 if passwords => Service::BulkWriteWithPassword,
            _ => Service::NotServed,
        }
    }
}

pub struct Unit {
    /// Version octet, command type 1, an operation type to come, security profile 0.
    first_octets: u32,
    services: [Service; 256],
    allocation_fitted: bool,
    passwords_fitted: bool,
    store: Store,
}

impl Unit {
    /// A unit without tags; 301 for a version above 15.
    pub fn start(version: u8, allocation: bool, passwords: bool) -> Result<Unit, u16> {
        if version > 15 {
            return Err(BAD_START);
        }
        let mut services = [Service::NotServed; 256];
        for (operation, service) in services.iter_mut().enumerate() {
            *service = Service::of(operation, allocation, passwords);
        }
        Ok(Unit {
            first_octets: u32::from_le_bytes([version << 4, 1, 0, 0]),
            services,
            allocation_fitted: allocation,
            passwords_fitted: passwords,
            store: Store::EMPTY,
        })
    }

    /// The vehicle's call: 6, 12, 9, 5 to the caller, and then all is as it was.
    pub fn fit(&mut self, fitting: &Fitting) -> Result<(), u16> {
        let tag = normal(fitting.tag);
        let place = match self.store.search(tag) {
            Err(place) if tag & UNIT_MANAGED != 0 => place,
            _ => return Err(NO_SUCH_TAG.into()),
        };
        if fitting.password.is_some() && !self.passwords_fitted {
            return Err(NOT_FITTED.into());
        }
        if fitting.first_data.len() > fitting.size as usize {
            return Err(BAD_SIZE.into());
        }
        let mode = match fitting.mode {
            Mode::Both => 0,
            Mode::WriteOnly => READ_PROHIBITED,
            Mode::ReadOnly => WRITE_PROHIBITED,
        };
        let registered = Registered {
            password: u64::from_le_bytes(fitting.password.unwrap_or_default()),
            size: self.store.granted(fitting.size)?,
            held_length: 0,
            mode: mode | if fitting.spf_required { SPF } else { 0 },
            protected: fitting.password.is_some(),
        };
        self.store.register(place, tag, registered);
        self.store.write(place, fitting.first_data);
        Ok(())
    }

    /// Writes the answer at the start of the area and gives its length; 300 if the area is under 2,048 octets.
    #[inline]
    pub fn respond(&mut self, port: Port, request: &[u8], answer: &mut [u8]) -> Result<usize, u16> {
        match answer.first_chunk_mut() {
            Some(area) => Ok(self.answer(port, request, area)),
            None => Err(AREA_TOO_SHORT),
        }
    }

    /// One comparison takes the first four octets of a sound request; those of another are looked at one by one.
    #[inline(never)]
    fn answer(&mut self, port: Port, request: &[u8], area: &mut AnswerArea) -> usize {
        let Some(first) = request.first_chunk() else {
            return self.deny_first(request, area);
        };
        let first = u32::from_le_bytes(*first);
        if first & 0xFF00_FFFF != self.first_octets || request.len() > MESSAGE {
            return self.deny_first(request, area);
        }
        use Service::*;
        match self.services[first as usize >> 16 & 0xFF] {
            NotServed => self.deny(NOT_FITTED, area),
            ResourceInformation => self.perform(port, request, area, Unit::resource_information),
            Allocate => self.perform(port, request, area, Unit::allocate::<PLAIN>),
            Free => self.perform(port, request, area, Unit::free::<PLAIN>),
            Read => self.perform(port, request, area, Unit::read::<PLAIN>),
            Write => self.perform(port, request, area, Unit::write::<PLAIN>),
            BulkRead => self.perform(port, request, area, Unit::bulk_read::<PLAIN>),
            BulkWrite => self.perform(port, request, area, Unit::bulk_write::<PLAIN>),
            AllocateWithPassword => self.perform(port, request, area, Unit::allocate::<PASSWORD>),
            FreeWithPassword => self.perform(port, request, area, Unit::free::<PASSWORD>),
            ReadWithPassword => self.perform(port, request, area, Unit::read::<PASSWORD>),
            WriteWithPassword => self.perform(port, request, area, Unit::write::<PASSWORD>),
            BulkReadWithPassword => self.perform(port, request, area, Unit::bulk_read::<PASSWORD>),
            BulkWriteWithPassword => {
                self.perform(port, request, area, Unit::bulk_write::<PASSWORD>)
            }
        }
    }

    /// One operation with the denial that it may end in, as a function of its own that `answer` jumps to.
    #[inline(never)]
    fn perform<Operation>(
        &mut self,
        port: Port,
        request: &[u8],
        area: &mut AnswerArea,
        operation: Operation,
    ) -> usize
    where
        Operation: Fn(&mut Unit, Port, &[u8], &mut AnswerArea) -> Result<usize, u8>,
    {
        match operation(self, port, request, area) {
            Ok(length) => length,
            Err(status) => self.deny(status, area),
        }
    }

    /// Denies a request whose first four octets are not sound; the first line that applies decides.
    #[inline(never)]
    fn deny_first(&self, request: &[u8], area: &mut AnswerArea) -> usize {
        let [version, command, ..] = self.first_octets.to_le_bytes();
        let status = match request {
            [] => ILLEGAL,
            _ if request.len() > MESSAGE => ILLEGAL,
            [first, ..] if first & 0xF0 != version => WRONG_VERSION,
            [first, second, operation, ..] if [*first, *second] == [version, command] => {
                match self.services[usize::from(*operation)] {
                    Service::NotServed => NOT_FITTED,
                    _ => ILLEGAL,
                }
            }
            _ => ILLEGAL,
        };
        self.deny(status, area)
    }

    /// A denial has four octets, and a fifth for status 4: the unit's own version octet.
    #[inline]
    fn deny(&self, status: u8, area: &mut AnswerArea) -> usize {
        let version = self.first_octets & 0xFF;
        let denial = version | 0xFF00 | u32::from(status) << 16;
        if status == WRONG_VERSION {
            area[..4].copy_from_slice(&(denial | 1 << 24).to_le_bytes());
            area[4] = version as u8;
            return 5;
        }
        area[..4].copy_from_slice(&denial.to_le_bytes());
        4
    }

    /// The first four octets of an answer.
    #[inline]
    fn put_start(&self, area: &mut AnswerArea, operation: u8) {
        let first = self.first_octets | u32::from(operation + 128) << 16;
        area[..4].copy_from_slice(&first.to_le_bytes());
    }

    /// Everything before an answer's body; gives the place where the body starts.
    #[inline]
    fn put_envelope(&self, area: &mut AnswerArea, operation: u8, body: usize) -> usize {
        self.put_start(area, operation);
        if body < 128 {
            area[4] = body as u8;
            return 5;
        }
        area[4..6].copy_from_slice(&two_octets(body));
        6
    }

    /// The answer of one tag: allocate, free and write.
    #[inline]
    fn put_tag_answer(&self, area: &mut AnswerArea, operation: u8, tag: u64) -> usize {
        self.put_start(area, operation);
        area[4] = 8;
        area[5..13].copy_from_slice(&tag.to_le_bytes());
        13
    }

    #[inline]
    fn allocate<const FORM: bool>(
        &mut self,
        _: Port,
        request: &[u8],
        area: &mut AnswerArea,
    ) -> Result<usize, u8> {
        let (tag, mode, size, password) = allocation::<FORM>(request).ok_or(ILLEGAL)?;
        let place = match self.store.search(tag) {
            Err(place) if tag & UNIT_MANAGED == 0 => place,
            _ => return Err(NO_SUCH_TAG),
        };
        let registered = Registered {
            password,
            size: self.store.granted(size)?,
            held_length: 0,
            mode,
            protected: FORM == PASSWORD,
        };
        self.store.register(place, tag, registered);
        Ok(self.put_tag_answer(area, type_of(1, FORM), tag))
    }

    #[inline]
    fn free<const FORM: bool>(
        &mut self,
        port: Port,
        request: &[u8],
        area: &mut AnswerArea,
    ) -> Result<usize, u8> {
        let (tag, password) = single::<FORM>(request).ok_or(ILLEGAL)?;
        if tag & UNIT_MANAGED != 0 {
            return Err(NO_SUCH_TAG);
        }
        let prohibiting = prohibiting(port, 0);
        let place = self.store.admit::<FORM>(tag, prohibiting, password)?;
        self.store.remove(place);
        Ok(self.put_tag_answer(area, type_of(2, FORM), tag))
    }

    #[inline]
    fn read<const FORM: bool>(
        &mut self,
        port: Port,
        request: &[u8],
        area: &mut AnswerArea,
    ) -> Result<usize, u8> {
        let (tag, password) = single::<FORM>(request).ok_or(ILLEGAL)?;
        let prohibiting = prohibiting(port, READ_PROHIBITED);
        let place = self.store.admit::<FORM>(tag, prohibiting, password)?;
        let held = self.store.held(place);
        let width = 8 + data_width(held.len());
        let start = self.put_envelope(area, type_of(3, FORM), width);
        Ok(put_memory(area, start, tag, held))
    }

    #[inline]
    fn write<const FORM: bool>(
        &mut self,
        port: Port,
        request: &[u8],
        area: &mut AnswerArea,
    ) -> Result<usize, u8> {
        let entry = body(request).and_then(split_write::<FORM>);
        let Some((tag, password, data, [])) = entry else {
            return Err(ILLEGAL);
        };
        let prohibiting = prohibiting(port, WRITE_PROHIBITED);
        let place = self.store.admit::<FORM>(tag, prohibiting, password)?;
        if data.len() > usize::from(self.store.registered(place).size) {
            return Err(BAD_SIZE);
        }
        let length = self.put_tag_answer(area, type_of(4, FORM), tag);
        self.store.write(place, data);
        Ok(length)
    }

    /// The first loop finds what the answer gives and how long it is, the second writes it.
    #[inline]
    fn bulk_read<const FORM: bool>(
        &mut self,
        port: Port,
        request: &[u8],
        area: &mut AnswerArea,
    ) -> Result<usize, u8> {
        let prohibiting = prohibiting(port, READ_PROHIBITED);
        let mut places = [0; LIST];
        let mut given = 0;
        let mut body = 1;
        for (tag, password) in tags::<FORM>(request)? {
            let Some(place) = self.store.find(tag) else {
                continue;
            };
            let registered = self.store.registered(place);
            let width = 8 + data_width(usize::from(registered.held_length));
            if registered.admits::<FORM>(prohibiting, password) && body + width <= BODY {
                places[given % LIST] = place as u8;
                given += 1;
                body += width;
            }
        }
        let start = self.put_envelope(area, type_of(5, FORM), body);
        area[start] = given as u8;
        Ok(self.put_memories(area, start + 1, &places[..given.min(LIST)]))
    }

    /// Writes what the tags at these places hold, and gives the place behind it.
    #[inline(always)]
    fn put_memories(&self, area: &mut AnswerArea, start: usize, places: &[u8]) -> usize {
        let mut position = start;
        for place in places {
            let place = usize::from(*place);
            position = put_memory(
                area,
                position,
                self.store.tag(place),
                self.store.held(place),
            );
        }
        position
    }

    /// The whole list is read before the first entry is written. Only an answer of 16 tags has a length of two
    /// octets, and then the tags move up by one.
    #[inline]
    fn bulk_write<const FORM: bool>(
        &mut self,
        port: Port,
        request: &[u8],
        area: &mut AnswerArea,
    ) -> Result<usize, u8> {
        let mut list = [(0, &[][..]); LIST];
        let written = self.admit_writes::<FORM>(port, request, &mut list)?;
        for (number, (place, data)) in list[..written.min(LIST)].iter().enumerate() {
            let tag = self.store.tag(*place);
            area[6 + 8 * number..][..8].copy_from_slice(&tag.to_le_bytes());
            self.store.write(*place, data);
        }
        if written == LIST {
            area.copy_within(6..6 + 8 * LIST, 7);
        }
        let body = 1 + 8 * written;
        let start = self.put_envelope(area, type_of(6, FORM), body);
        area[start] = written as u8;
        Ok(start + body)
    }

    /// Lists the places and data of a bulk write's entries that are not passed over, and counts them.
    #[inline(always)]
    fn admit_writes<'a, const FORM: bool>(
        &self,
        port: Port,
        request: &'a [u8],
        list: &mut [(usize, &'a [u8]); LIST],
    ) -> Result<usize, u8> {
        let prohibiting = prohibiting(port, WRITE_PROHIBITED);
        let (count, mut rest) = body(request).and_then(split_length).ok_or(ILLEGAL)?;
        if count > LIST {
            return Err(long_list_status::<FORM>(count, rest));
        }
        let mut admitted = 0;
        for _ in 0..count {
            let (tag, password, data, behind) = split_write::<FORM>(rest).ok_or(ILLEGAL)?;
            rest = behind;
            let Some(place) = self.store.find(tag) else {
                continue;
            };
            let registered = self.store.registered(place);
            let fits = data.len() <= usize::from(registered.size);
            if fits && registered.admits::<FORM>(prohibiting, password) {
                list[admitted % LIST] = (place, data);
                admitted += 1;
            }
        }
        match rest {
            [] => Ok(admitted),
            _ => Err(ILLEGAL),
        }
    }

    /// The first loop finds the registered tags, on whose number the width of the length depends.
    #[inline]
    fn resource_information(
        &mut self,
        _: Port,
        request: &[u8],
        area: &mut AnswerArea,
    ) -> Result<usize, u8> {
        let mut places = [0; LIST];
        let mut told = 0;
        for (tag, _) in tags::<PLAIN>(request)? {
            if let Some(place) = self.store.find(tag) {
                places[told % LIST] = place as u8;
                told += 1;
            }
        }
        let body = 19 + 17 * told;
        let start = self.put_envelope(area, 0, body);
        area[start..start + 18].copy_from_slice(&self.room());
        area[start + 18] = told as u8;
        let (entries, _) = area[start + 19..].as_chunks_mut();
        for (entry, place) in entries.iter_mut().zip(&places[..told.min(LIST)]) {
            *entry = self.resource(usize::from(*place));
        }
        Ok(start + body)
    }

    /// Largest receivable size, what remains of tags and octets (twice), bulk limit.
    #[inline]
    fn room(&self) -> [u8; 18] {
        let mut tags = [0; 2];
        let mut octets = [0; 4];
        if self.allocation_fitted {
            tags = (self.store.remaining_tags() as u16).to_be_bytes();
            octets = (self.store.remaining_octets() as u32).to_be_bytes();
        }
        let mut room = [0; 18];
        room[..4].copy_from_slice(&(MESSAGE as u32).to_be_bytes());
        room[4..6].copy_from_slice(&tags);
        room[6..10].copy_from_slice(&octets);
        room[10..12].copy_from_slice(&tags);
        room[12..16].copy_from_slice(&octets);
        room[16..].copy_from_slice(&(LIST as u16).to_be_bytes());
        room
    }

    /// Tag, mode, held length (0 where reading is prohibited) and area size.
    #[inline]
    fn resource(&self, place: usize) -> [u8; 17] {
        let registered = self.store.registered(place);
        let told = match registered.mode & READ_PROHIBITED {
            0 => registered.held_length,
            _ => 0,
        };
        let mut entry = [0; 17];
        entry[..8].copy_from_slice(&self.store.tag(place).to_le_bytes());
        entry[8] = registered.mode;
        entry[9..13].copy_from_slice(&u32::from(told).to_be_bytes());
        entry[13..].copy_from_slice(&u32::from(registered.size).to_be_bytes());
        entry
    }
}

/// The tag as it is compared, stored and answered.
#[inline]
fn normal(tag: [u8; 8]) -> u64 {
    u64::from_le_bytes(tag) & !IGNORED_BITS
}

/// The number of an operation in document 01's table.
#[inline]
const fn type_of(plain: u8, form: bool) -> u8 {
    match form {
        PLAIN => plain,
        PASSWORD => plain + 64,
    }
}

/// The bits of a mode that prohibit a command which comes by this port.
#[inline]
fn prohibiting(port: Port, bit: u8) -> u8 {
    match port {
        Port::Normal => bit | SPF,
        Port::Secure => bit,
    }
}

/// A tag, normalised, and what stands behind it.
#[inline]
fn split_tag(octets: &[u8]) -> Option<(u64, &[u8])> {
    let (tag, rest) = octets.split_first_chunk()?;
    Some((normal(*tag), rest))
}

/// A password, or the number 0 in a plain command, and what stands behind it.
#[inline]
fn split_password<const FORM: bool>(octets: &[u8]) -> Option<(u64, &[u8])> {
    if FORM == PLAIN {
        return Some((0, octets));
    }
    let (password, rest) = octets.split_first_chunk()?;
    Some((u64::from_le_bytes(*password), rest))
}

/// Tag, password and data of an entry to be written, and what stands behind it.
#[inline(always)]
fn split_write<const FORM: bool>(octets: &[u8]) -> Option<(u64, u64, &[u8], &[u8])> {
    let (tag, rest) = split_tag(octets)?;
    let (password, rest) = split_password::<FORM>(rest)?;
    let (data, rest) = split_data(rest)?;
    Some((tag, password, data, rest))
}

/// The tag and password of a request that holds nothing else.
#[inline]
fn single<const FORM: bool>(request: &[u8]) -> Option<(u64, u64)> {
    let width = tag_width::<FORM>();
    if request.len() != 5 + width || usize::from(request[4]) != width {
        return None;
    }
    let (tag, rest) = split_tag(&request[5..])?;
    let (password, _) = split_password::<FORM>(rest)?;
    Some((tag, password))
}

/// The width of a tag with its password, if the form has one.
#[inline]
const fn tag_width<const FORM: bool>() -> usize {
    match FORM {
        PLAIN => 8,
        PASSWORD => 16,
    }
}

/// Tag, mode, size and password of an allocation; its initial value is read and dropped.
#[inline]
fn allocation<const FORM: bool>(request: &[u8]) -> Option<(u64, u8, u32, u64)> {
    let (tag, rest) = split_tag(body(request)?)?;
    let ([mode, size @ ..], rest) = rest.split_first_chunk::<5>()?;
    let (password, rest) = split_password::<FORM>(rest)?;
    let (_, rest) = split_data(rest)?;
    let is_whole = rest.is_empty() && is_mode_code(*mode);
    is_whole.then_some((tag, *mode, u32::from_be_bytes(*size), password))
}

/// The tags of a list and their passwords; 16 if it does not decode, 7 if there are more than 16.
#[inline(always)]
fn tags<const FORM: bool>(request: &[u8]) -> Result<impl Iterator<Item = (u64, u64)> + '_, u8> {
    let (count, entries) = body(request).and_then(split_length).ok_or(ILLEGAL)?;
    let width = tag_width::<FORM>();
    if entries.len() != width * count {
        return Err(ILLEGAL);
    }
    if count > LIST {
        return Err(LIST_TOO_LONG);
    }
    Ok(entries.chunks_exact(width).filter_map(|entry| {
        let (tag, rest) = split_tag(entry)?;
        let (password, _) = split_password::<FORM>(rest)?;
        Some((tag, password))
    }))
}

/// The status for more than 16 entries to be written: 16 if they do not decode to the last octet, else 7.
#[inline(never)]
fn long_list_status<const FORM: bool>(count: usize, entries: &[u8]) -> u8 {
    let mut rest = entries;
    for _ in 0..count {
        match split_write::<FORM>(rest) {
            Some((_, _, _, behind)) => rest = behind,
            None => return ILLEGAL,
        }
    }
    match rest {
        [] => LIST_TOO_LONG,
        _ => ILLEGAL,
    }
}

/// Writes memory data and gives the place behind it.
#[inline(always)]
fn put_memory(area: &mut AnswerArea, start: usize, tag: u64, data: &[u8]) -> usize {
    if data.len() < 128 {
        let end = start + 9 + data.len();
        let entry = &mut area[start..end];
        entry[..8].copy_from_slice(&tag.to_le_bytes());
        entry[8] = data.len() as u8;
        copy_data(&mut entry[9..], data);
        return end;
    }
    let end = start + 10 + data.len();
    let entry = &mut area[start..end];
    entry[..8].copy_from_slice(&tag.to_le_bytes());
    entry[8..10].copy_from_slice(&two_octets(data.len()));
    entry[10..].copy_from_slice(data);
    end
}
