//! What the benchmark asks of a gate's message library, and the hand-written one as such.
//! A library tells what an answer holds in its own form. A gate that is measured takes it and does no more; one that
//! compares libraries notes it in the form of include/taxeedhuul.h.

use crate::measure::Side;
use bench::codec::{
    self, Answer, Form, MemoryData, Reply, Request, ResourceInformation, Tag, TagResource,
};
use std::hint::black_box;

/// How many words of the header tell of an answer, and which of them is a length or count.
pub const ANSWER_WORDS: usize = 12;
const LENGTH: usize = 5;

pub trait Library {
    type Reader: Reader + 'static;

    /// A side that writes this request.
    fn writer(request: &Request<'static>) -> Box<dyn Side>;
}

pub trait Reader: Default {
    /// Tells a gate what the octets answer, and then each entry of a list in it; none if they are no answer.
    fn read(&mut self, octets: &[u8], gate: &mut impl Gate) -> Option<()>;

    /// All that is told, in the order told.
    fn values(&mut self, octets: &[u8]) -> Option<Vec<Value>> {
        let mut noting = Noting {
            octets,
            values: Vec::new(),
        };
        self.read(octets, &mut noting)?;
        Some(noting.values)
    }
}

pub trait Gate {
    fn is_told(&mut self, told: &impl Told);
}

/// An answer without the entries of its list, or an entry.
pub trait Told {
    fn value(&self, octets: &[u8]) -> Value;
}

/// The words of the header, 0 where one is a start, and the data that starts there.
#[derive(Debug, PartialEq, Eq)]
pub struct Value {
    pub words: Vec<u64>,
    pub data: Vec<u8>,
}

struct Taking;

impl Gate for Taking {
    #[inline(always)]
    fn is_told(&mut self, told: &impl Told) {
        black_box(told);
    }
}

struct Noting<'a> {
    octets: &'a [u8],
    values: Vec<Value>,
}

impl Gate for Noting<'_> {
    fn is_told(&mut self, told: &impl Told) {
        self.values.push(told.value(self.octets));
    }
}

/// A reader as a side: it writes nothing.
impl<One: Reader> Side for One {
    #[inline(always)]
    fn run(&mut self, _: u8, octets: &[u8], _: &mut [u8]) -> i32 {
        match self.read(octets, &mut Taking) {
            Some(()) => 0,
            None => -i32::from(codec::ILLEGAL),
        }
    }
}

pub struct HandWritten;

impl Library for HandWritten {
    type Reader = HandWrittenReader;

    fn writer(request: &Request<'static>) -> Box<dyn Side> {
        Box::new(HandWrittenWriter(*request))
    }
}

struct HandWrittenWriter(Request<'static>);

impl Side for HandWrittenWriter {
    #[inline(always)]
    fn run(&mut self, _: u8, _: &[u8], area: &mut [u8]) -> i32 {
        match codec::write_request(&self.0, area) {
            Ok(length) => length as i32,
            Err(number) => -i32::from(number),
        }
    }
}

#[derive(Default)]
pub struct HandWrittenReader;

impl Reader for HandWrittenReader {
    #[inline(always)]
    fn read(&mut self, octets: &[u8], gate: &mut impl Gate) -> Option<()> {
        let Ok(answer) = &codec::read_answer(octets) else {
            return None;
        };
        gate.is_told(answer);
        match &answer.reply {
            Reply::ResourceInformation(information) => {
                information.tags.iter().for_each(|it| gate.is_told(&it));
            }
            Reply::BulkRead(_, list) => list.iter().for_each(|it| gate.is_told(&it)),
            Reply::BulkWrite(_, list) => list.iter().for_each(|it| gate.is_told(&it)),
            _ => {}
        }
        Some(())
    }
}

fn value(words: &[u64], data: &[u8]) -> Value {
    Value {
        words: words.to_vec(),
        data: data.to_vec(),
    }
}

impl Told for Tag {
    fn value(&self, _: &[u8]) -> Value {
        value(&[u64::from_be_bytes(*self)], &[])
    }
}

impl Told for MemoryData<'_> {
    fn value(&self, _: &[u8]) -> Value {
        let tag = u64::from_be_bytes(self.tag);
        value(&[tag, 0, self.data.len() as u64], self.data)
    }
}

impl Told for TagResource {
    fn value(&self, _: &[u8]) -> Value {
        let tag = u64::from_be_bytes(self.tag);
        let [mode, data, area] = [
            self.mode.into(),
            self.data_size.into(),
            self.area_size.into(),
        ];
        value(&[tag, mode, data, area], &[])
    }
}

impl Told for Answer<'_> {
    fn value(&self, _: &[u8]) -> Value {
        let mut words = [0; ANSWER_WORDS];
        let mut data: &[u8] = &[];
        let (kind, tag, length) = match &self.reply {
            Reply::ResourceInformation(information) => {
                words[LENGTH + 1..].copy_from_slice(&room(information));
                (128, Tag::default(), information.tags.count())
            }
            Reply::Allocate(form, tag) => (kind(129, *form), *tag, 0),
            Reply::Free(form, tag) => (kind(130, *form), *tag, 0),
            Reply::Read(form, memory) => {
                data = memory.data;
                (kind(131, *form), memory.tag, data.len())
            }
            Reply::Write(form, tag) => (kind(132, *form), *tag, 0),
            Reply::BulkRead(form, list) => (kind(133, *form), Tag::default(), list.count()),
            Reply::BulkWrite(form, list) => (kind(134, *form), Tag::default(), list.count()),
            Reply::Denial { status, supplement } => {
                words[2] = (*status).into();
                data = supplement;
                (255, Tag::default(), data.len())
            }
        };
        words[0] = kind;
        words[1] = self.version.into();
        words[3] = u64::from_be_bytes(tag);
        words[LENGTH] = length as u64;
        value(&words, data)
    }
}

/// What the unit can take.
fn room(information: &ResourceInformation) -> [u64; 6] {
    [
        information.receivable_size.into(),
        information.remaining_tags.into(),
        information.remaining_octets.into(),
        information.remaining_volatile_tags.into(),
        information.remaining_volatile_octets.into(),
        information.bulk_limit.into(),
    ]
}

fn kind(plain: u64, form: Form) -> u64 {
    match form {
        Form::Plain => plain,
        Form::WithPassword => plain + 64,
    }
}
