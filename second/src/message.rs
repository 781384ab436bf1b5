//! The gate's library: writes and reads every request and answer of the 13 operation types, and the denial.
//! Rules: document 01, "Messages", and its refusals for writing and reading (16, then 300 for a short area).
//! Layouts: RC-004 version 1.3, tables 3.2-2 to 3.2-42, in unaligned packed encoding.

use crate::wrong::Wrong;

pub type Tag = [u8; 8];
pub type Password = [u8; 8];

pub const MESSAGE_LIMIT: usize = 2048;
pub const SUPPLEMENT_LIMIT: usize = 127;
pub const LARGEST_LENGTH: usize = 16_383;

/// Refusal of a message that cannot be written, or of octets that are no message.
pub const ILLEGAL: u16 = 16;
/// Refusal of an area too short for the message.
pub const AREA_TOO_SHORT: u16 = 300;

const OPERATION_COMMAND: u8 = 1;
const DENIAL_COMMAND: u8 = 255;
const PLAIN_TEXT: u8 = 0;
const ANSWER_STEP: u8 = 128;
const WITH_PASSWORD_STEP: u8 = 64;

#[derive(Clone, Debug, PartialEq, Eq)]
pub struct MemoryData {
    pub tag: Tag,
    pub data: Vec<u8>,
}

#[derive(Clone, Debug, PartialEq, Eq)]
pub struct Allocation {
    pub tag: Tag,
    pub mode: u8,
    pub size: u64,
    pub initial_value: Vec<u8>,
}

/// The list of a bulk request: plain, or each entry with its own password.
#[derive(Clone, Debug, PartialEq, Eq)]
pub enum List<Entry> {
    Plain(Vec<Entry>),
    WithPassword(Vec<(Entry, Password)>),
}

impl<Entry> List<Entry> {
    pub fn len(&self) -> usize {
        match self {
            List::Plain(entries) => entries.len(),
            List::WithPassword(entries) => entries.len(),
        }
    }

    pub fn is_empty(&self) -> bool {
        self.len() == 0
    }

    pub fn form(&self) -> Form {
        match self {
            List::Plain(_) => Form::Plain,
            List::WithPassword(_) => Form::WithPassword,
        }
    }

    /// The entries in the order given, each with its password or none.
    pub fn into_entries(self) -> Vec<(Entry, Option<Password>)> {
        match self {
            List::Plain(entries) => entries.into_iter().map(|entry| (entry, None)).collect(),
            List::WithPassword(entries) => entries
                .into_iter()
                .map(|(entry, password)| (entry, Some(password)))
                .collect(),
        }
    }
}

/// The seven operations, six of them plain or with a password.
#[derive(Clone, Debug, PartialEq, Eq)]
pub enum Operation {
    ResourceInformation(Vec<Tag>),
    Allocate(Allocation, Option<Password>),
    Free(Tag, Option<Password>),
    Read(Tag, Option<Password>),
    Write(MemoryData, Option<Password>),
    BulkRead(List<Tag>),
    BulkWrite(List<MemoryData>),
}

#[derive(Clone, Debug, PartialEq, Eq)]
pub struct Request {
    pub version: u64,
    pub operation: Operation,
}

#[derive(Clone, Copy, Debug, PartialEq, Eq)]
pub enum Form {
    Plain,
    WithPassword,
}

impl Form {
    pub fn of(password: &Option<Password>) -> Form {
        match password {
            None => Form::Plain,
            Some(_) => Form::WithPassword,
        }
    }
}

#[derive(Clone, Debug, PartialEq, Eq)]
pub struct TagResource {
    pub tag: Tag,
    pub mode: u8,
    pub data_size: u64,
    pub area_size: u64,
}

/// The body of table 3.2-5; every number stands in a field of two or four octets.
#[derive(Clone, Debug, PartialEq, Eq)]
pub struct ResourceInformation {
    pub receivable_size: u64,
    pub remaining_tags: u64,
    pub remaining_octets: u64,
    pub remaining_volatile_tags: u64,
    pub remaining_volatile_octets: u64,
    pub bulk_limit: u64,
    pub tags: Vec<TagResource>,
}

#[derive(Clone, Debug, PartialEq, Eq)]
pub enum Reply {
    ResourceInformation(ResourceInformation),
    Allocate(Form, Tag),
    Free(Form, Tag),
    Read(Form, MemoryData),
    Write(Form, Tag),
    BulkRead(Form, Vec<MemoryData>),
    BulkWrite(Form, Vec<Tag>),
    Denial { status: u64, supplement: Vec<u8> },
}

#[derive(Clone, Debug, PartialEq, Eq)]
pub struct Answer {
    pub version: u64,
    pub reply: Reply,
}

/// Writes the request at the start of the area and gives its length.
pub fn write_request(request: &Request, area: &mut [u8]) -> Result<usize, u16> {
    place(&request_octets(request)?, area)
}

/// Writes the answer or denial at the start of the area and gives its length.
pub fn write_answer(answer: &Answer, area: &mut [u8]) -> Result<usize, u16> {
    place(&answer_octets(answer)?, area)
}

/// The second test of every writing: the area must hold the whole message.
fn place(octets: &[u8], area: &mut [u8]) -> Result<usize, u16> {
    if area.len() < octets.len() {
        return Err(AREA_TOO_SHORT);
    }
    area[..octets.len()].copy_from_slice(octets);
    Ok(octets.len())
}

/// The request's octets, or 16.
pub fn request_octets(request: &Request) -> Result<Vec<u8>, u16> {
    let version = version_octet(request.version)?;
    let body = request_body(&request.operation)?;
    envelope(version, operation_type(&request.operation), &body)
}

/// The answer's octets, or 16.
pub fn answer_octets(answer: &Answer) -> Result<Vec<u8>, u16> {
    let version = version_octet(answer.version)?;
    if let Reply::Denial { status, supplement } = &answer.reply {
        return denial_octets(version, *status, supplement);
    }
    let body = answer_body(&answer.reply)?;
    envelope(version, answer_type(&answer.reply), &body)
}

fn version_octet(version: u64) -> Result<u8, u16> {
    if version > 15 {
        return Err(ILLEGAL);
    }
    Ok((version as u8) << 4)
}

fn envelope(version: u8, message_type: u8, body: &[u8]) -> Result<Vec<u8>, u16> {
    let mut octets = vec![version, OPERATION_COMMAND, message_type, PLAIN_TEXT];
    push_length(&mut octets, body.len())?;
    octets.extend_from_slice(body);
    if octets.len() > MESSAGE_LIMIT {
        return Err(ILLEGAL);
    }
    Ok(octets)
}

fn denial_octets(version: u8, status: u64, supplement: &[u8]) -> Result<Vec<u8>, u16> {
    if supplement.len() > SUPPLEMENT_LIMIT {
        return Err(ILLEGAL);
    }
    let mut octets = vec![version, DENIAL_COMMAND];
    push_number(&mut octets, status, 1)?;
    octets.push(supplement.len() as u8);
    octets.extend_from_slice(supplement);
    Ok(octets)
}

/// The number of the operation in document 01's table.
pub fn operation_type(operation: &Operation) -> u8 {
    let (plain, form) = match operation {
        Operation::ResourceInformation(_) => (0, Form::Plain),
        Operation::Allocate(_, password) => (1, Form::of(password)),
        Operation::Free(_, password) => (2, Form::of(password)),
        Operation::Read(_, password) => (3, Form::of(password)),
        Operation::Write(_, password) => (4, Form::of(password)),
        Operation::BulkRead(list) => (5, list.form()),
        Operation::BulkWrite(list) => (6, list.form()),
    };
    type_of(plain, form)
}

fn answer_type(reply: &Reply) -> u8 {
    let (plain, form) = match reply {
        Reply::ResourceInformation(_) => (0, Form::Plain),
        Reply::Allocate(form, _) => (1, *form),
        Reply::Free(form, _) => (2, *form),
        Reply::Read(form, _) => (3, *form),
        Reply::Write(form, _) => (4, *form),
        Reply::BulkRead(form, _) => (5, *form),
        Reply::BulkWrite(form, _) => (6, *form),
        Reply::Denial { .. } => unreachable!("a denial has no operation type"),
    };
    type_of(plain, form) + ANSWER_STEP
}

fn type_of(plain: u8, form: Form) -> u8 {
    match form {
        Form::Plain => plain,
        Form::WithPassword => plain + WITH_PASSWORD_STEP,
    }
}

fn request_body(operation: &Operation) -> Result<Vec<u8>, u16> {
    let mut body = Vec::new();
    match operation {
        Operation::ResourceInformation(tags) => push_list(&mut body, tags, push_tag)?,
        Operation::Allocate(allocation, password) => {
            push_allocation(&mut body, allocation, password)?
        }
        Operation::Free(tag, password) | Operation::Read(tag, password) => {
            push_tag(&mut body, tag)?;
            push_password(&mut body, password);
        }
        Operation::Write(memory, password) => push_memory(&mut body, memory, password)?,
        Operation::BulkRead(List::Plain(tags)) => push_list(&mut body, tags, push_tag)?,
        Operation::BulkRead(List::WithPassword(entries)) => {
            push_list(&mut body, entries, |body, (tag, password)| {
                push_tag(body, tag)?;
                push_password(body, &Some(*password));
                Ok(())
            })?
        }
        Operation::BulkWrite(List::Plain(entries)) => {
            push_list(&mut body, entries, |body, memory| {
                push_memory(body, memory, &None)
            })?
        }
        Operation::BulkWrite(List::WithPassword(entries)) => {
            push_list(&mut body, entries, |body, (memory, password)| {
                push_memory(body, memory, &Some(*password))
            })?
        }
    }
    Ok(body)
}

fn answer_body(reply: &Reply) -> Result<Vec<u8>, u16> {
    let mut body = Vec::new();
    match reply {
        Reply::ResourceInformation(information) => push_resource(&mut body, information)?,
        Reply::Allocate(_, tag) | Reply::Free(_, tag) | Reply::Write(_, tag) => {
            push_tag(&mut body, tag)?
        }
        Reply::Read(_, memory) => push_memory(&mut body, memory, &None)?,
        Reply::BulkRead(_, entries) => push_list(&mut body, entries, |body, memory| {
            push_memory(body, memory, &None)
        })?,
        Reply::BulkWrite(_, tags) => push_list(&mut body, tags, push_tag)?,
        Reply::Denial { .. } => unreachable!("a denial has no body"),
    }
    Ok(body)
}

/// Lengths and counts: 0 to 127 in one octet, 128 to 16,383 in two with top bits 10.
pub fn push_length(octets: &mut Vec<u8>, length: usize) -> Result<(), u16> {
    match length {
        0..=127 => octets.push(length as u8),
        128..=LARGEST_LENGTH => {
            octets.push(0x80 | (length >> 8) as u8);
            octets.push(length as u8);
        }
        _ => return Err(ILLEGAL),
    }
    Ok(())
}

/// How many octets the form of this length has.
pub fn length_width(length: usize) -> usize {
    if length <= 127 {
        1
    } else {
        2
    }
}

fn push_number(octets: &mut Vec<u8>, number: u64, width: usize) -> Result<(), u16> {
    if number >> (8 * width) != 0 {
        return Err(ILLEGAL);
    }
    octets.extend_from_slice(&number.to_be_bytes()[8 - width..]);
    Ok(())
}

fn push_tag(octets: &mut Vec<u8>, tag: &Tag) -> Result<(), u16> {
    octets.extend_from_slice(tag);
    Ok(())
}

fn push_password(octets: &mut Vec<u8>, password: &Option<Password>) {
    if let Some(password) = password {
        octets.extend_from_slice(password);
    }
}

/// A mode code of the tables: read only, write only or both, with SPF or without.
pub fn is_mode_code(code: u8) -> bool {
    matches!(code, 0 | 1 | 2 | 4 | 5 | 6)
}

fn push_mode(octets: &mut Vec<u8>, code: u8) -> Result<(), u16> {
    if !is_mode_code(code) {
        return Err(ILLEGAL);
    }
    octets.push(code);
    Ok(())
}

fn push_data(octets: &mut Vec<u8>, data: &[u8]) -> Result<(), u16> {
    push_length(octets, data.len())?;
    octets.extend_from_slice(data);
    Ok(())
}

fn push_memory(
    octets: &mut Vec<u8>,
    memory: &MemoryData,
    password: &Option<Password>,
) -> Result<(), u16> {
    push_tag(octets, &memory.tag)?;
    push_password(octets, password);
    push_data(octets, &memory.data)
}

/// Tables 3.2-9 and 3.2-25: the password stands between the size and the initial value.
fn push_allocation(
    octets: &mut Vec<u8>,
    allocation: &Allocation,
    password: &Option<Password>,
) -> Result<(), u16> {
    push_tag(octets, &allocation.tag)?;
    push_mode(octets, allocation.mode)?;
    push_number(octets, allocation.size, 4)?;
    push_password(octets, password);
    push_data(octets, &allocation.initial_value)
}

fn push_resource(octets: &mut Vec<u8>, information: &ResourceInformation) -> Result<(), u16> {
    push_number(octets, information.receivable_size, 4)?;
    push_number(octets, information.remaining_tags, 2)?;
    push_number(octets, information.remaining_octets, 4)?;
    push_number(octets, information.remaining_volatile_tags, 2)?;
    push_number(octets, information.remaining_volatile_octets, 4)?;
    push_number(octets, information.bulk_limit, 2)?;
    push_list(octets, &information.tags, |octets, entry| {
        push_tag(octets, &entry.tag)?;
        push_mode(octets, entry.mode)?;
        push_number(octets, entry.data_size, 4)?;
        push_number(octets, entry.area_size, 4)
    })
}

fn push_list<Entry>(
    octets: &mut Vec<u8>,
    entries: &[Entry],
    push_entry: impl Fn(&mut Vec<u8>, &Entry) -> Result<(), u16>,
) -> Result<(), u16> {
    push_length(octets, entries.len())?;
    for entry in entries {
        push_entry(octets, entry)?;
    }
    Ok(())
}

/// Reads a request of any version; 16 if the octets are none of the 13 requests.
pub fn read_request(octets: &[u8]) -> Result<Request, u16> {
    read_request_as(octets, None)
}

/// The same for a program that may be wrong in one way.
pub fn read_request_as(octets: &[u8], wrong: Option<Wrong>) -> Result<Request, u16> {
    let mut reader = Reader::new(octets, wrong)?;
    let version = reader.version()?;
    if reader.octet()? != OPERATION_COMMAND {
        return Err(ILLEGAL);
    }
    let operation_type = reader.octet()?;
    reader.body_start()?;
    let operation = reader.operation(operation_type)?;
    reader.end()?;
    Ok(Request { version, operation })
}

/// Reads an answer or denial of any version; 16 if the octets are neither.
pub fn read_answer(octets: &[u8]) -> Result<Answer, u16> {
    let mut reader = Reader::new(octets, None)?;
    let version = reader.version()?;
    let reply = match reader.octet()? {
        OPERATION_COMMAND => {
            let answer_type = reader.octet()?;
            reader.body_start()?;
            reader.reply(answer_type)?
        }
        DENIAL_COMMAND => reader.denial()?,
        _ => return Err(ILLEGAL),
    };
    reader.end()?;
    Ok(Answer { version, reply })
}

/// The count at the start of a list's body, where the envelope is sound; for one wrong program only.
pub fn list_count(octets: &[u8]) -> Result<usize, u16> {
    let mut reader = Reader::new(octets, None)?;
    reader.take(3)?;
    reader.body_start()?;
    reader.length()
}

/// Reads the octets in place and knows its position.
struct Reader<'a> {
    octets: &'a [u8],
    position: usize,
    wrong: Option<Wrong>,
}

impl<'a> Reader<'a> {
    fn new(octets: &'a [u8], wrong: Option<Wrong>) -> Result<Reader<'a>, u16> {
        if octets.len() > MESSAGE_LIMIT {
            return Err(ILLEGAL);
        }
        Ok(Reader {
            octets,
            position: 0,
            wrong,
        })
    }

    fn take(&mut self, length: usize) -> Result<&'a [u8], u16> {
        let rest = &self.octets[self.position..];
        if length > rest.len() {
            return Err(ILLEGAL);
        }
        self.position += length;
        Ok(&rest[..length])
    }

    fn octet(&mut self) -> Result<u8, u16> {
        Ok(self.take(1)?[0])
    }

    fn number(&mut self, width: usize) -> Result<u64, u16> {
        let octets = self.take(width)?;
        Ok(octets
            .iter()
            .fold(0, |number, octet| number << 8 | u64::from(*octet)))
    }

    fn eight(&mut self) -> Result<[u8; 8], u16> {
        let mut octets = [0; 8];
        octets.copy_from_slice(self.take(8)?);
        Ok(octets)
    }

    fn version(&mut self) -> Result<u64, u16> {
        let octet = self.octet()?;
        if octet & 0x0F != 0 {
            return Err(ILLEGAL);
        }
        Ok(u64::from(octet >> 4))
    }

    /// Security profile and length of the body, which must be exactly the rest.
    fn body_start(&mut self) -> Result<(), u16> {
        if self.octet()? != PLAIN_TEXT {
            return Err(ILLEGAL);
        }
        let length = self.length()?;
        let rest = self.octets.len() - self.position;
        let stray_allowed = self.wrong == Some(Wrong::StrayOctetLetThrough);
        if length != rest && !(stray_allowed && length < rest) {
            return Err(ILLEGAL);
        }
        Ok(())
    }

    fn length(&mut self) -> Result<usize, u16> {
        let first = usize::from(self.octet()?);
        if first <= 0x7F {
            return Ok(first);
        }
        if first >= 0xC0 && self.wrong != Some(Wrong::LengthFormC0Accepted) {
            return Err(ILLEGAL);
        }
        let length = (first & 0x3F) << 8 | usize::from(self.octet()?);
        if length <= 127 && self.wrong != Some(Wrong::LongerLengthFormAccepted) {
            return Err(ILLEGAL);
        }
        Ok(length)
    }

    fn mode(&mut self) -> Result<u8, u16> {
        let code = self.octet()?;
        match self.wrong {
            Some(Wrong::Mode3Accepted) if code == 3 || code == 7 => Ok(code),
            Some(Wrong::ReservedModeBitsIgnored) if is_mode_code(code & 7) => Ok(code & 7),
            _ if is_mode_code(code) => Ok(code),
            _ => Err(ILLEGAL),
        }
    }

    fn data(&mut self) -> Result<Vec<u8>, u16> {
        let length = self.length()?;
        Ok(self.take(length)?.to_vec())
    }

    fn memory(&mut self) -> Result<MemoryData, u16> {
        let tag = self.eight()?;
        let data = self.data()?;
        Ok(MemoryData { tag, data })
    }

    fn memory_with_password(&mut self) -> Result<(MemoryData, Password), u16> {
        let tag = self.eight()?;
        let password = self.eight()?;
        let data = self.data()?;
        Ok((MemoryData { tag, data }, password))
    }

    fn password(&mut self, form: Form) -> Result<Option<Password>, u16> {
        match form {
            Form::Plain => Ok(None),
            Form::WithPassword => Ok(Some(self.eight()?)),
        }
    }

    /// The count decides how many entries are read, whatever the limit of a unit.
    fn list<Entry>(
        &mut self,
        entry: impl Fn(&mut Reader<'a>) -> Result<Entry, u16>,
    ) -> Result<Vec<Entry>, u16> {
        let count = self.length()?;
        let mut entries = Vec::new();
        for _ in 0..count {
            entries.push(entry(self)?);
        }
        Ok(entries)
    }

    fn operation(&mut self, operation_type: u8) -> Result<Operation, u16> {
        let (plain, form) = split_type(operation_type)?;
        Ok(match plain {
            0 => Operation::ResourceInformation(self.list(Reader::eight)?),
            1 => self.allocation(form)?,
            2 => Operation::Free(self.eight()?, self.password(form)?),
            3 => Operation::Read(self.eight()?, self.password(form)?),
            4 => self.write(form)?,
            5 => Operation::BulkRead(self.tag_list(form)?),
            _ => Operation::BulkWrite(self.memory_list(form)?),
        })
    }

    fn allocation(&mut self, form: Form) -> Result<Operation, u16> {
        let tag = self.eight()?;
        let mode = self.mode()?;
        let size = self.number(4)?;
        let password = self.password(form)?;
        let initial_value = self.data()?;
        let allocation = Allocation {
            tag,
            mode,
            size,
            initial_value,
        };
        Ok(Operation::Allocate(allocation, password))
    }

    fn write(&mut self, form: Form) -> Result<Operation, u16> {
        match form {
            Form::Plain => Ok(Operation::Write(self.memory()?, None)),
            Form::WithPassword => {
                let (memory, password) = self.memory_with_password()?;
                Ok(Operation::Write(memory, Some(password)))
            }
        }
    }

    fn tag_list(&mut self, form: Form) -> Result<List<Tag>, u16> {
        match form {
            Form::Plain => Ok(List::Plain(self.list(Reader::eight)?)),
            Form::WithPassword => Ok(List::WithPassword(
                self.list(|reader| Ok((reader.eight()?, reader.eight()?)))?,
            )),
        }
    }

    fn memory_list(&mut self, form: Form) -> Result<List<MemoryData>, u16> {
        match form {
            Form::Plain => Ok(List::Plain(self.list(Reader::memory)?)),
            Form::WithPassword => Ok(List::WithPassword(self.list(Reader::memory_with_password)?)),
        }
    }

    fn reply(&mut self, answer_type: u8) -> Result<Reply, u16> {
        let request_type = answer_type.checked_sub(ANSWER_STEP).ok_or(ILLEGAL)?;
        let (plain, form) = split_type(request_type)?;
        Ok(match plain {
            0 => Reply::ResourceInformation(self.resource()?),
            1 => Reply::Allocate(form, self.eight()?),
            2 => Reply::Free(form, self.eight()?),
            3 => Reply::Read(form, self.memory()?),
            4 => Reply::Write(form, self.eight()?),
            5 => Reply::BulkRead(form, self.list(Reader::memory)?),
            _ => Reply::BulkWrite(form, self.list(Reader::eight)?),
        })
    }

    fn resource(&mut self) -> Result<ResourceInformation, u16> {
        Ok(ResourceInformation {
            receivable_size: self.number(4)?,
            remaining_tags: self.number(2)?,
            remaining_octets: self.number(4)?,
            remaining_volatile_tags: self.number(2)?,
            remaining_volatile_octets: self.number(4)?,
            bulk_limit: self.number(2)?,
            tags: self.list(Reader::tag_resource)?,
        })
    }

    fn tag_resource(&mut self) -> Result<TagResource, u16> {
        Ok(TagResource {
            tag: self.eight()?,
            mode: self.mode()?,
            data_size: self.number(4)?,
            area_size: self.number(4)?,
        })
    }

    fn denial(&mut self) -> Result<Reply, u16> {
        let status = self.number(1)?;
        let length = usize::from(self.octet()?);
        if length > SUPPLEMENT_LIMIT {
            return Err(ILLEGAL);
        }
        let supplement = self.take(length)?.to_vec();
        Ok(Reply::Denial { status, supplement })
    }

    fn end(&self) -> Result<(), u16> {
        let stray_allowed = self.wrong == Some(Wrong::StrayOctetLetThrough);
        if self.position != self.octets.len() && !stray_allowed {
            return Err(ILLEGAL);
        }
        Ok(())
    }
}

/// Which of the seven operations a request's type is, and in which form; 16 if it is none.
fn split_type(operation_type: u8) -> Result<(u8, Form), u16> {
    match operation_type {
        0..=6 => Ok((operation_type, Form::Plain)),
        65..=70 => Ok((operation_type - WITH_PASSWORD_STEP, Form::WithPassword)),
        _ => Err(ILLEGAL),
    }
}
