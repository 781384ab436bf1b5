//! The proved responder and the proved message library, linked from the archive of the crate `capi`.
//! The declarations are those of include/taxeedhuul.h. A unit lives in memory that the caller lends: 5 words of head,
//! 256 of table and 8,192 octets.

use crate::gate::{Gate, Library, Reader, Told, Value, ANSWER_WORDS};
use crate::measure::Side;
use crate::responder::Responder;
use crate::rows::{data, LARGE};
use crate::words::{value, COUNT, MEMORY_DATA_WORDS, RESOURCE_WORDS, START, TAG_WORDS};
use bench::codec::{MemoryData, Operation, Password, Request, Tag};

const HEAD: usize = 5;
const TABLE: usize = 256;
const MEMORY: usize = 8192;

#[rustfmt::skip]
mod library {
    extern "C" {
        pub fn taxeedhuul_start(
            head: *mut u64, head_length: usize, table: *mut u64, table_length: usize, memory: *mut u8, memory_length: usize,
            version: u8, allocation: bool, passwords: bool,
        ) -> i32;
        pub fn taxeedhuul_respond(
            head: *mut u64, head_length: usize, table: *mut u64, table_length: usize, memory: *mut u8, memory_length: usize,
            port: u8, request: *const u8, request_length: usize, answer: *mut u8, answer_length: usize,
        ) -> i32;
        pub fn taxeedhuul_write_resource_information(
            area: *mut u8, area_length: usize, version: u8, tags: *const u64, tags_length: usize,
        ) -> i32;
        pub fn taxeedhuul_write_allocate(
            area: *mut u8, area_length: usize, version: u8, tag: u64, mode: u8, size: u32, locked: bool, password: u64,
            initial: *const u8, initial_length: usize,
        ) -> i32;
        pub fn taxeedhuul_write_free(
            area: *mut u8, area_length: usize, version: u8, tag: u64, locked: bool, password: u64,
        ) -> i32;
        pub fn taxeedhuul_write_read(
            area: *mut u8, area_length: usize, version: u8, tag: u64, locked: bool, password: u64,
        ) -> i32;
        pub fn taxeedhuul_write_write(
            area: *mut u8, area_length: usize, version: u8, tag: u64, locked: bool, password: u64, bytes: *const u8,
            bytes_length: usize,
        ) -> i32;
        pub fn taxeedhuul_write_bulk_read(
            area: *mut u8, area_length: usize, version: u8, locked: bool, tags: *const u64, tags_length: usize,
            passwords: *const u64, passwords_length: usize,
        ) -> i32;
        pub fn taxeedhuul_write_bulk_write(
            area: *mut u8, area_length: usize, version: u8, locked: bool, tags: *const u64, tags_length: usize,
            passwords: *const u64, passwords_length: usize, starts: *const usize, starts_length: usize,
            lengths: *const usize, lengths_length: usize, bytes: *const u8, bytes_length: usize,
        ) -> i32;
        pub fn taxeedhuul_read_answer(octets: *const u8, octets_length: usize, fields: *mut u64, fields_length: usize) -> i32;
        pub fn taxeedhuul_read_tag(
            octets: *const u8, octets_length: usize, at: usize, fields: *mut u64, fields_length: usize,
        ) -> i32;
        pub fn taxeedhuul_read_memory_data(
            octets: *const u8, octets_length: usize, at: usize, fields: *mut u64, fields_length: usize,
        ) -> i32;
        pub fn taxeedhuul_read_resource(
            octets: *const u8, octets_length: usize, at: usize, fields: *mut u64, fields_length: usize,
        ) -> i32;
    }
}

#[repr(C, align(4096))]
pub struct Proved {
    memory: [u8; MEMORY],
    table: [u64; TABLE],
    head: [u64; HEAD],
}

impl Responder for Proved {
    fn start() -> Box<Proved> {
        let mut unit = Box::new(Proved {
            memory: [0; MEMORY],
            table: [0; TABLE],
            head: [0; HEAD],
        });
        // SAFETY: the three areas are as long as the lengths beside them and lent for this call only.
        let result = unsafe {
            library::taxeedhuul_start(
                unit.head.as_mut_ptr(),
                HEAD,
                unit.table.as_mut_ptr(),
                TABLE,
                unit.memory.as_mut_ptr(),
                MEMORY,
                1,
                true,
                true,
            )
        };
        assert_eq!(result, 0, "version 1 starts");
        unit
    }
}

impl Side for Proved {
    #[inline(always)]
    fn run(&mut self, port: u8, request: &[u8], area: &mut [u8]) -> i32 {
        // SAFETY: the unit's memory is what the calls before left, and every length is that of its slice.
        unsafe {
            library::taxeedhuul_respond(
                self.head.as_mut_ptr(),
                HEAD,
                self.table.as_mut_ptr(),
                TABLE,
                self.memory.as_mut_ptr(),
                MEMORY,
                port,
                request.as_ptr(),
                request.len(),
                area.as_mut_ptr(),
                area.len(),
            )
        }
    }
}

pub struct ProvedLibrary;

impl Library for ProvedLibrary {
    type Reader = ProvedReader;

    fn writer(request: &Request<'static>) -> Box<dyn Side> {
        Box::new(ProvedWriter::of(request))
    }
}

/// What the write functions are handed.
struct ProvedWriter {
    version: u8,
    plain_type: u8,
    locked: bool,
    tag: u64,
    password: u64,
    mode: u8,
    size: u32,
    bytes: &'static [u8],
    tags: Vec<u64>,
    passwords: Vec<u64>,
    starts: Vec<usize>,
    lengths: Vec<usize>,
}

/// A tag of a request, with its password and data.
type Part = (Tag, Option<Password>, &'static [u8]);

impl ProvedWriter {
    fn of(request: &Request<'static>) -> ProvedWriter {
        let (plain_type, parts) = parts(&request.operation);
        let (mode, size) = match request.operation {
            Operation::Allocate(allocation, _) => (allocation.mode, allocation.size),
            _ => (0, 0),
        };
        let is_list = matches!(plain_type, 0 | 5 | 6);
        // The data of all entries stands in this.
        let all = data(LARGE);
        let start = |part: &Part| (part.2.as_ptr() as usize).saturating_sub(all.as_ptr() as usize);
        let tags: Vec<u64> = parts
            .iter()
            .map(|part| u64::from_be_bytes(part.0))
            .collect();
        let passwords = parts.iter().filter_map(|part| part.1);
        let passwords: Vec<u64> = passwords.map(u64::from_be_bytes).collect();
        ProvedWriter {
            version: request.version,
            plain_type,
            locked: !passwords.is_empty(),
            tag: tags[0],
            password: passwords.first().copied().unwrap_or(0),
            mode,
            size,
            bytes: if is_list { all } else { parts[0].2 },
            starts: parts.iter().map(start).collect(),
            lengths: parts.iter().map(|part| part.2.len()).collect(),
            tags,
            passwords,
        }
    }
}

/// The plain operation's type, and the request's tags.
fn parts(operation: &Operation<'static>) -> (u8, Vec<Part>) {
    let none: &'static [u8] = &[];
    match operation {
        Operation::ResourceInformation(list) => {
            (0, list.iter().map(|tag| (tag, None, none)).collect())
        }
        Operation::Allocate(it, password) => (1, vec![(it.tag, *password, it.initial_value)]),
        Operation::Free(tag, password) => (2, vec![(*tag, *password, none)]),
        Operation::Read(tag, password) => (3, vec![(*tag, *password, none)]),
        Operation::Write(it, password) => (4, vec![(it.tag, *password, it.data)]),
        Operation::BulkRead(list) => (5, list.iter().map(|tag| (tag, None, none)).collect()),
        Operation::BulkReadWithPassword(list) => {
            let part = |(tag, password)| (tag, Some(password), none);
            (5, list.iter().map(part).collect())
        }
        Operation::BulkWrite(list) => (6, list.iter().map(|it| (it.tag, None, it.data)).collect()),
        Operation::BulkWriteWithPassword(list) => {
            let part =
                |(it, password): (MemoryData<'static>, Password)| (it.tag, Some(password), it.data);
            (6, list.iter().map(part).collect())
        }
    }
}

#[rustfmt::skip]
impl Side for ProvedWriter {
    #[inline(always)]
    fn run(&mut self, _: u8, _: &[u8], area: &mut [u8]) -> i32 {
        let ProvedWriter { version, plain_type, locked, tag, password, mode, size, .. } = *self;
        let ProvedWriter { bytes, tags, passwords, starts, lengths, .. } = self;
        let (at, length) = (area.as_mut_ptr(), area.len());
        // SAFETY: every length is that of its slice, and the slices are lent for this call only.
        unsafe {
            match plain_type {
                0 => library::taxeedhuul_write_resource_information(at, length, version, tags.as_ptr(), tags.len()),
                1 => library::taxeedhuul_write_allocate(
                    at, length, version, tag, mode, size, locked, password, bytes.as_ptr(), bytes.len(),
                ),
                2 => library::taxeedhuul_write_free(at, length, version, tag, locked, password),
                3 => library::taxeedhuul_write_read(at, length, version, tag, locked, password),
                4 => library::taxeedhuul_write_write(
                    at, length, version, tag, locked, password, bytes.as_ptr(), bytes.len(),
                ),
                5 => library::taxeedhuul_write_bulk_read(
                    at, length, version, locked, tags.as_ptr(), tags.len(), passwords.as_ptr(), passwords.len(),
                ),
                _ => library::taxeedhuul_write_bulk_write(
                    at, length, version, locked, tags.as_ptr(), tags.len(), passwords.as_ptr(), passwords.len(),
                    starts.as_ptr(), starts.len(), lengths.as_ptr(), lengths.len(), bytes.as_ptr(), bytes.len(),
                ),
            }
        }
    }
}

#[derive(Default)]
pub struct ProvedReader([u64; ANSWER_WORDS]);

impl Reader for ProvedReader {
    #[inline(always)]
    fn read(&mut self, octets: &[u8], gate: &mut impl Gate) -> Option<()> {
        let ProvedReader(answer) = self;
        let (at, length) = (octets.as_ptr(), octets.len());
        // SAFETY: every length is that of its slice, and the slices are lent for this call only.
        let kind = unsafe {
            library::taxeedhuul_read_answer(at, length, answer.as_mut_ptr(), ANSWER_WORDS)
        };
        if kind < 0 {
            return None;
        }
        gate.is_told(answer);
        let place = answer[START] as usize;
        let count = answer[COUNT];
        match kind {
            128 => {
                let read = library::taxeedhuul_read_resource;
                tell_list::<RESOURCE_WORDS>(octets, place, count, read, gate)
            }
            133 | 197 => {
                let read = library::taxeedhuul_read_memory_data;
                tell_list::<MEMORY_DATA_WORDS>(octets, place, count, read, gate)
            }
            134 | 198 => {
                let read = library::taxeedhuul_read_tag;
                tell_list::<TAG_WORDS>(octets, place, count, read, gate)
            }
            _ => Some(()),
        }
    }
}

type ReadEntry = unsafe extern "C" fn(*const u8, usize, usize, *mut u64, usize) -> i32;

/// Goes over the entries of a list, from its first place.
#[inline(always)]
fn tell_list<const WORDS: usize>(
    octets: &[u8],
    mut place: usize,
    count: u64,
    read: ReadEntry,
    gate: &mut impl Gate,
) -> Option<()> {
    let mut entry = [0; WORDS];
    for _ in 0..count {
        // SAFETY: every length is that of its slice, and the slices are lent for this call only.
        let next = unsafe {
            read(
                octets.as_ptr(),
                octets.len(),
                place,
                entry.as_mut_ptr(),
                WORDS,
            )
        };
        place = usize::try_from(next).ok()?;
        gate.is_told(&entry);
    }
    Some(())
}

impl<const WORDS: usize> Told for [u64; WORDS] {
    fn value(&self, octets: &[u8]) -> Value {
        value(self, |start, length| {
            octets[start as usize..][..length].to_vec()
        })
    }
}
