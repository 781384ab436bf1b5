//! The arguments of the compared functions, as the header names them, what is seen of a call afterwards, and both in
//! hexadecimal for the report of a difference.

use second::message::{
    Allocation, List, MemoryData, Operation, Password, Request, Tag, AREA_TOO_SHORT, ILLEGAL,
};
use std::fmt::{self, Display, Formatter, UpperHex};

/// A refusal as a function gives it.
pub fn refused(number: u16) -> i32 {
    -i32::from(number)
}

pub const MALFORMED: i32 = -(ILLEGAL as i32);
pub const TOO_SHORT: i32 = -(AREA_TOO_SHORT as i32);

/// How many elements are seen before and behind a lent area: no call may touch them.
pub const BESIDE: usize = 8;

/// The part of the elements that is lent.
pub fn lent<Element>(all: &mut [Element]) -> &mut [Element] {
    let end = all.len() - BESIDE;
    &mut all[BESIDE..end]
}

/// The three slices that an owner lends for a unit.
#[derive(Clone, Debug, PartialEq, Eq)]
pub struct Slices {
    pub head: Vec<u64>,
    pub table: Vec<u64>,
    pub memory: Vec<u8>,
}

impl Slices {
    pub const HEAD: usize = 5;
    pub const TABLE: usize = 256;
    pub const MEMORY: usize = 8192;

    pub fn are_a_units(&self) -> bool {
        let lengths = (self.head.len(), self.table.len(), self.memory.len());
        lengths == (Slices::HEAD, Slices::TABLE, Slices::MEMORY)
    }
}

/// The vehicle's call.
#[derive(Clone, Debug)]
pub struct Fit {
    pub tag: u64,
    pub size: u32,
    pub mode: u8,
    pub spf: bool,
    pub locked: bool,
    pub password: u64,
    pub first: Vec<u8>,
}

/// A call of one of the seven write functions; each takes the fields that the header gives it.
#[derive(Clone, Debug, Default)]
pub struct Writing {
    /// The plain operation type, 0 to 6: it names the function.
    pub operation: u8,
    pub version: u8,
    pub locked: bool,
    pub tag: u64,
    pub password: u64,
    pub mode: u8,
    pub size: u32,
    pub tags: Vec<u64>,
    pub passwords: Vec<u64>,
    pub starts: Vec<usize>,
    pub lengths: Vec<usize>,
    /// The data of a write or a bulk write, the initial value of an allocation.
    pub bytes: Vec<u8>,
}

impl Writing {
    /// The type that the request has.
    pub fn kind(&self) -> u8 {
        self.operation + if self.locked { 64 } else { 0 }
    }

    pub fn is_list(&self) -> bool {
        matches!(self.operation, 0 | 5 | 6)
    }

    /// The second program's request for this call. The second program's lists hold their entries whole and know no
    /// slices that do not belong together: these are refused with 16 by the header's rule.
    pub fn request(&self) -> Result<Request, u16> {
        if !self.belong_together() {
            return Err(ILLEGAL);
        }
        let tag = self.tag.to_be_bytes();
        let password = self.locked.then(|| self.password.to_be_bytes());
        let operation = match self.operation {
            0 => Operation::ResourceInformation(eights(&self.tags)),
            1 => Operation::Allocate(self.allocation(), password),
            2 => Operation::Free(tag, password),
            3 => Operation::Read(tag, password),
            4 => Operation::Write(self.memory_data(), password),
            5 => Operation::BulkRead(self.list(eights(&self.tags))),
            _ => Operation::BulkWrite(self.list(self.parts())),
        };
        let version = u64::from(self.version);
        Ok(Request { version, operation })
    }

    /// The header's rule: a password for each tag if locked and none if not, a start and a length for each tag, and
    /// every part within the bytes.
    pub fn belong_together(&self) -> bool {
        let count = self.tags.len();
        let passwords = self.passwords.len() == if self.locked { count } else { 0 };
        match self.operation {
            5 => passwords,
            6 => {
                passwords
                    && self.starts.len() == count
                    && self.lengths.len() == count
                    && self.all_parts_inside()
            }
            _ => true,
        }
    }

    fn all_parts_inside(&self) -> bool {
        self.starts
            .iter()
            .zip(&self.lengths)
            .all(|(start, length)| {
                start
                    .checked_add(*length)
                    .is_some_and(|end| end <= self.bytes.len())
            })
    }

    fn allocation(&self) -> Allocation {
        Allocation {
            tag: self.tag.to_be_bytes(),
            mode: self.mode,
            size: u64::from(self.size),
            initial_value: self.bytes.clone(),
        }
    }

    fn memory_data(&self) -> MemoryData {
        MemoryData {
            tag: self.tag.to_be_bytes(),
            data: self.bytes.clone(),
        }
    }

    fn parts(&self) -> Vec<MemoryData> {
        let places = self.starts.iter().zip(&self.lengths);
        eights(&self.tags)
            .into_iter()
            .zip(places)
            .map(|(tag, (start, length))| MemoryData {
                tag,
                data: self.bytes[*start..start + length].to_vec(),
            })
            .collect()
    }

    fn list<Entry>(&self, entries: Vec<Entry>) -> List<Entry> {
        if !self.locked {
            return List::Plain(entries);
        }
        let passwords: Vec<Password> = eights(&self.passwords);
        List::WithPassword(entries.into_iter().zip(passwords).collect())
    }
}

fn eights(numbers: &[u64]) -> Vec<Tag> {
    numbers.iter().map(|number| number.to_be_bytes()).collect()
}

/// What is seen of a call: its result, and the lent slices afterwards with what stands beside them.
#[derive(Clone, Debug, PartialEq, Eq)]
pub struct Seen {
    pub result: i32,
    pub octets: Vec<u8>,
    pub words: Vec<u64>,
}

impl Display for Seen {
    fn fmt(&self, out: &mut Formatter) -> fmt::Result {
        write!(out, "{}", self.result)?;
        write!(out, " octets {}", octets(&self.octets))?;
        write!(out, " words {}", numbers(&self.words))
    }
}

impl Display for Fit {
    fn fmt(&self, out: &mut Formatter) -> fmt::Result {
        write!(
            out,
            "tag {:X} size {:X} mode {:X}",
            self.tag, self.size, self.mode
        )?;
        write!(out, " spf {} locked {}", self.spf, self.locked)?;
        write!(
            out,
            " password {:X} first {}",
            self.password,
            octets(&self.first)
        )
    }
}

impl Display for Writing {
    fn fmt(&self, out: &mut Formatter) -> fmt::Result {
        write!(out, "version {:X} locked {}", self.version, self.locked)?;
        write!(out, " tag {:X} password {:X}", self.tag, self.password)?;
        write!(out, " mode {:X} size {:X}", self.mode, self.size)?;
        write!(
            out,
            " tags {} passwords {}",
            numbers(&self.tags),
            numbers(&self.passwords)
        )?;
        write!(
            out,
            " starts {} lengths {}",
            numbers(&self.starts),
            numbers(&self.lengths)
        )?;
        write!(out, " bytes {}", octets(&self.bytes))
    }
}

pub fn octets(octets: &[u8]) -> String {
    let text: String = octets.iter().map(|octet| format!("{octet:02X}")).collect();
    format!("[{text}]")
}

pub fn numbers<Number: UpperHex>(numbers: &[Number]) -> String {
    let words: Vec<String> = numbers.iter().map(|number| format!("{number:X}")).collect();
    format!("[{}]", words.join(" "))
}
