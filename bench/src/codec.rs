//! The hand-written message codec that the proved one is measured against: writes and reads every request, answer
//! and denial in lent areas, without a heap; lists and data are shown where they stand.
//! Rules: document 01, "Messages", and its two rules for 16, with 300 after them; layouts: RC-004 tables 3.2-2 to
//! 3.2-42. Every number has the type of its field, so none is too great for it.

mod entries;

use crate::octets::{body, copy_data, data_width};
use entries::put_length;
pub use entries::{Allocation, Entries, Entry, List, MemoryData, Password, Tag, TagResource};

/// Refusal of a message that cannot be written, or of octets that are no message.
pub const ILLEGAL: u16 = 16;
/// Refusal of an area too short for the message.
pub const AREA_TOO_SHORT: u16 = 300;

const MESSAGE_LIMIT: usize = 2048;
const BODY_LIMIT: usize = 2042;
const SUPPLEMENT_LIMIT: usize = 127;

const OPERATION_COMMAND: u8 = 1;
const DENIAL_COMMAND: u8 = 255;
const PLAIN_TEXT: u8 = 0;
const ANSWER_STEP: u8 = 128;
const WITH_PASSWORD_STEP: u8 = 64;

#[derive(Clone, Copy, Debug, PartialEq, Eq)]
pub enum Form {
    Plain,
    WithPassword,
}

#[derive(Clone, Copy, Debug)]
pub struct ResourceInformation<'a> {
    pub receivable_size: u32,
    pub remaining_tags: u16,
    pub remaining_octets: u32,
    pub remaining_volatile_tags: u16,
    pub remaining_volatile_octets: u32,
    pub bulk_limit: u16,
    pub tags: List<'a, TagResource>,
}

/// The seven operations, six of them plain or with a password.
#[derive(Clone, Copy, Debug)]
pub enum Operation<'a> {
    ResourceInformation(List<'a, Tag>),
    Allocate(Allocation<'a>, Option<Password>),
    Free(Tag, Option<Password>),
    Read(Tag, Option<Password>),
    Write(MemoryData<'a>, Option<Password>),
    BulkRead(List<'a, Tag>),
    BulkReadWithPassword(List<'a, (Tag, Password)>),
    BulkWrite(List<'a, MemoryData<'a>>),
    BulkWriteWithPassword(List<'a, (MemoryData<'a>, Password)>),
}

#[derive(Clone, Copy, Debug)]
pub struct Request<'a> {
    pub version: u8,
    pub operation: Operation<'a>,
}

#[derive(Clone, Copy, Debug)]
pub enum Reply<'a> {
    ResourceInformation(ResourceInformation<'a>),
    Allocate(Form, Tag),
    Free(Form, Tag),
    Read(Form, MemoryData<'a>),
    Write(Form, Tag),
    BulkRead(Form, List<'a, MemoryData<'a>>),
    BulkWrite(Form, List<'a, Tag>),
    Denial { status: u8, supplement: &'a [u8] },
}

#[derive(Clone, Copy, Debug)]
pub struct Answer<'a> {
    pub version: u8,
    pub reply: Reply<'a>,
}

impl<'a> ResourceInformation<'a> {
    #[inline]
    fn split(body: &'a [u8]) -> Option<ResourceInformation<'a>> {
        let (receivable_size, rest) = body.split_first_chunk()?;
        let (remaining_tags, rest) = rest.split_first_chunk()?;
        let (remaining_octets, rest) = rest.split_first_chunk()?;
        let (remaining_volatile_tags, rest) = rest.split_first_chunk()?;
        let (remaining_volatile_octets, rest) = rest.split_first_chunk()?;
        let (bulk_limit, rest) = rest.split_first_chunk()?;
        Some(ResourceInformation {
            receivable_size: u32::from_be_bytes(*receivable_size),
            remaining_tags: u16::from_be_bytes(*remaining_tags),
            remaining_octets: u32::from_be_bytes(*remaining_octets),
            remaining_volatile_tags: u16::from_be_bytes(*remaining_volatile_tags),
            remaining_volatile_octets: u32::from_be_bytes(*remaining_volatile_octets),
            bulk_limit: u16::from_be_bytes(*bulk_limit),
            tags: List::whole(rest)?,
        })
    }

    #[inline]
    fn put(&self, place: &mut [u8]) {
        let (room, list) = place.split_at_mut(18);
        room[..4].copy_from_slice(&self.receivable_size.to_be_bytes());
        room[4..6].copy_from_slice(&self.remaining_tags.to_be_bytes());
        room[6..10].copy_from_slice(&self.remaining_octets.to_be_bytes());
        room[10..12].copy_from_slice(&self.remaining_volatile_tags.to_be_bytes());
        room[12..16].copy_from_slice(&self.remaining_volatile_octets.to_be_bytes());
        room[16..].copy_from_slice(&self.bulk_limit.to_be_bytes());
        self.tags.put(list);
    }
}

/// Writes the request at the start of the area and gives its length.
#[inline(never)]
pub fn write_request(request: &Request, area: &mut [u8]) -> Result<usize, u16> {
    let version = request.version;
    match &request.operation {
        Operation::ResourceInformation(list) => write_list(version, 0, list, area),
        Operation::Allocate(entry, password) => write_entry(version, 1, entry, password, area),
        Operation::Free(entry, password) => write_entry(version, 2, entry, password, area),
        Operation::Read(entry, password) => write_entry(version, 3, entry, password, area),
        Operation::Write(entry, password) => write_entry(version, 4, entry, password, area),
        Operation::BulkRead(list) => write_list(version, 5, list, area),
        Operation::BulkReadWithPassword(list) => write_list(version, 69, list, area),
        Operation::BulkWrite(list) => write_list(version, 6, list, area),
        Operation::BulkWriteWithPassword(list) => write_list(version, 70, list, area),
    }
}

/// Writes the answer or denial at the start of the area and gives its length.
#[inline(never)]
pub fn write_answer(answer: &Answer, area: &mut [u8]) -> Result<usize, u16> {
    let version = answer.version;
    match &answer.reply {
        Reply::ResourceInformation(information) => {
            let width = 18 + information.tags.width().ok_or(ILLEGAL)?;
            let (length, place) = begin(version, ANSWER_STEP, width, area)?;
            information.put(place);
            Ok(length)
        }
        Reply::Allocate(form, tag) => write_one(version, answer_type(1, *form), tag, area),
        Reply::Free(form, tag) => write_one(version, answer_type(2, *form), tag, area),
        Reply::Read(form, memory) => write_one(version, answer_type(3, *form), memory, area),
        Reply::Write(form, tag) => write_one(version, answer_type(4, *form), tag, area),
        Reply::BulkRead(form, list) => write_list(version, answer_type(5, *form), list, area),
        Reply::BulkWrite(form, list) => write_list(version, answer_type(6, *form), list, area),
        Reply::Denial { status, supplement } => write_denial(version, *status, supplement, area),
    }
}

#[inline]
fn answer_type(plain: u8, form: Form) -> u8 {
    match form {
        Form::Plain => plain + ANSWER_STEP,
        Form::WithPassword => plain + WITH_PASSWORD_STEP + ANSWER_STEP,
    }
}

/// Tests for 16 and then for 300, and writes everything before the body; gives the length and the body's place.
#[inline(always)]
fn begin(
    version: u8,
    message_type: u8,
    body: usize,
    area: &mut [u8],
) -> Result<(usize, &mut [u8]), u16> {
    if version > 15 || body > BODY_LIMIT {
        return Err(ILLEGAL);
    }
    let length = 4 + data_width(body);
    let place = area.get_mut(..length).ok_or(AREA_TOO_SHORT)?;
    place[..4].copy_from_slice(&[version << 4, OPERATION_COMMAND, message_type, PLAIN_TEXT]);
    Ok((length, put_length(&mut place[4..], body)))
}

/// A message whose body is one entry.
#[inline(always)]
fn write_one<'a, Item: Entry<'a>>(
    version: u8,
    message_type: u8,
    entry: &Item,
    area: &mut [u8],
) -> Result<usize, u16> {
    if !entry.is_legal() {
        return Err(ILLEGAL);
    }
    let (length, place) = begin(version, message_type, entry.width(), area)?;
    entry.put(place);
    Ok(length)
}

/// A request whose body is one entry, plain or with a password.
#[inline]
fn write_entry<'a, Item>(
    version: u8,
    plain: u8,
    entry: &Item,
    password: &Option<Password>,
    area: &mut [u8],
) -> Result<usize, u16>
where
    Item: Entry<'a>,
    (Item, Password): Entry<'a>,
{
    match password {
        None => write_one(version, plain, entry, area),
        Some(password) => {
            let entry = (*entry, *password);
            write_one(version, plain + WITH_PASSWORD_STEP, &entry, area)
        }
    }
}

#[inline]
fn write_list<'a, Item: Entry<'a>>(
    version: u8,
    message_type: u8,
    list: &List<'a, Item>,
    area: &mut [u8],
) -> Result<usize, u16> {
    let width = list.width().ok_or(ILLEGAL)?;
    let (length, place) = begin(version, message_type, width, area)?;
    list.put(place);
    Ok(length)
}

#[inline]
fn write_denial(version: u8, status: u8, supplement: &[u8], area: &mut [u8]) -> Result<usize, u16> {
    if version > 15 || supplement.len() > SUPPLEMENT_LIMIT {
        return Err(ILLEGAL);
    }
    let length = 4 + supplement.len();
    let place = area.get_mut(..length).ok_or(AREA_TOO_SHORT)?;
    let width = supplement.len() as u8;
    place[..4].copy_from_slice(&[version << 4, DENIAL_COMMAND, status, width]);
    copy_data(&mut place[4..], supplement);
    Ok(length)
}

/// Reads a request of any version; 16 if the octets are none of the 13 requests. Each case makes its whole result at
/// once, so that no case is moved afterwards.
#[inline(never)]
pub fn read_request(octets: &[u8]) -> Result<Request<'_>, u16> {
    let [first, OPERATION_COMMAND, request_type, PLAIN_TEXT, ..] = octets else {
        return Err(ILLEGAL);
    };
    let version = version_of(*first, octets)?;
    let body = body(octets).ok_or(ILLEGAL)?;
    let request = |operation| Ok(Request { version, operation });
    match request_type {
        0 => request(Operation::ResourceInformation(list(body)?)),
        1 => request(Operation::Allocate(one(body)?, None)),
        2 => request(Operation::Free(one(body)?, None)),
        3 => request(Operation::Read(one(body)?, None)),
        4 => request(Operation::Write(one(body)?, None)),
        5 => request(Operation::BulkRead(list(body)?)),
        6 => request(Operation::BulkWrite(list(body)?)),
        65 => one(body).and_then(|(it, password)| request(Operation::Allocate(it, Some(password)))),
        66 => one(body).and_then(|(it, password)| request(Operation::Free(it, Some(password)))),
        67 => one(body).and_then(|(it, password)| request(Operation::Read(it, Some(password)))),
        68 => one(body).and_then(|(it, password)| request(Operation::Write(it, Some(password)))),
        69 => request(Operation::BulkReadWithPassword(list(body)?)),
        70 => request(Operation::BulkWriteWithPassword(list(body)?)),
        _ => Err(ILLEGAL),
    }
}

/// Reads an answer or denial of any version; 16 if the octets are neither.
#[inline(never)]
pub fn read_answer(octets: &[u8]) -> Result<Answer<'_>, u16> {
    let [first, command, third, fourth, rest @ ..] = octets else {
        return Err(ILLEGAL);
    };
    let version = version_of(*first, octets)?;
    match (*command, *fourth) {
        (OPERATION_COMMAND, PLAIN_TEXT) => {
            read_reply(version, *third, body(octets).ok_or(ILLEGAL)?)
        }
        (DENIAL_COMMAND, 0..=127) if usize::from(*fourth) == rest.len() => Ok(Answer {
            version,
            reply: Reply::Denial {
                status: *third,
                supplement: rest,
            },
        }),
        _ => Err(ILLEGAL),
    }
}

#[inline]
fn read_reply(version: u8, answer_type: u8, body: &[u8]) -> Result<Answer<'_>, u16> {
    let (plain, form) = match answer_type {
        128..=134 => (answer_type - ANSWER_STEP, Form::Plain),
        193..=198 => {
            let plain = answer_type - ANSWER_STEP - WITH_PASSWORD_STEP;
            (plain, Form::WithPassword)
        }
        _ => return Err(ILLEGAL),
    };
    let answer = |reply| Ok(Answer { version, reply });
    match plain {
        0 => {
            let information = ResourceInformation::split(body).ok_or(ILLEGAL)?;
            answer(Reply::ResourceInformation(information))
        }
        1 => answer(Reply::Allocate(form, one(body)?)),
        2 => answer(Reply::Free(form, one(body)?)),
        3 => answer(Reply::Read(form, one(body)?)),
        4 => answer(Reply::Write(form, one(body)?)),
        5 => answer(Reply::BulkRead(form, list(body)?)),
        _ => answer(Reply::BulkWrite(form, list(body)?)),
    }
}

/// The version of a message that is not too long, if the fill bits are zero.
#[inline]
fn version_of(octet: u8, message: &[u8]) -> Result<u8, u16> {
    if octet & 0x0F != 0 || message.len() > MESSAGE_LIMIT {
        return Err(ILLEGAL);
    }
    Ok(octet >> 4)
}

/// The one entry that is a message's whole body.
#[inline(always)]
fn one<'a, Item: Entry<'a>>(body: &'a [u8]) -> Result<Item, u16> {
    match Item::split(body) {
        Some((entry, [])) => Ok(entry),
        _ => Err(ILLEGAL),
    }
}

/// The list that is a message's whole body.
#[inline(always)]
fn list<'a, Item: Entry<'a>>(body: &'a [u8]) -> Result<List<'a, Item>, u16> {
    List::whole(body).ok_or(ILLEGAL)
}
