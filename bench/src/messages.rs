//! The rows of messages: requests that a gate writes and answers that it reads, every kind of them, and how two
//! libraries are measured over a row. Data has 1, 16 and 1,024 octets, a list 1 and 16 entries of 16 octets each. What
//! a request is written from is handed over ready, in each library's own form.

use crate::gate::{Library, Reader};
use crate::measure::{best_times, written_alike, Sides, Times};
use crate::rows::{data, form, memory, tag, BOTH, LARGE, LIST, OCTETS, PASSWORD, SMALL};
use crate::table::{self, Label};
use bench::codec::{
    self, Allocation, Answer, Entry, Form, List, MemoryData, Operation, Password, Reply, Request,
    ResourceInformation, TagResource,
};

const VERSION: u8 = 1;
const COUNTS: [usize; 2] = [1, LIST];
/// The mode codes of the tables.
const MODES: [u8; 6] = [6, 5, 4, 2, 1, BOTH];

enum Message {
    Request(Request<'static>),
    Answer(Vec<u8>),
}

pub struct Row {
    label: Label,
    message: Message,
}

impl table::Row for Row {
    fn label(&self) -> &Label {
        &self.label
    }
}

/// The times of two libraries in one visit to a row, or why they cannot be compared.
pub fn measure<First: Library, Second: Library>(row: &Row) -> Result<Times, String> {
    let (mut sides, octets) = sides::<First, Second>(row)?;
    Ok(best_times(&mut sides, &[(0, octets)]))
}

/// The sides of a row, which write the same or tell the same, and the octets that they read.
fn sides<First: Library, Second: Library>(row: &Row) -> Result<(Sides, &[u8]), String> {
    match &row.message {
        Message::Request(request) => {
            let mut sides = vec![First::writer(request), Second::writer(request)];
            written_alike(&mut sides, (0, &[]))?;
            Ok((sides, &[]))
        }
        Message::Answer(octets) => {
            let mut sides: Sides = Vec::new();
            add_reader::<First::Reader, Second::Reader>(&mut sides, octets)?;
            add_reader::<Second::Reader, Second::Reader>(&mut sides, octets)?;
            #[cfg(feature = "asn1c")]
            add_reader::<crate::asn1c::Asn1c, Second::Reader>(&mut sides, octets)?;
            Ok((sides, octets))
        }
    }
}

/// Adds a reader that tells the same as another.
fn add_reader<One: Reader + 'static, Other: Reader>(
    sides: &mut Sides,
    octets: &[u8],
) -> Result<(), String> {
    let mut reader = One::default();
    match (reader.values(octets), Other::default().values(octets)) {
        (Some(one), Some(other)) if one == other => {
            sides.push(Box::new(reader));
            Ok(())
        }
        (one, other) => Err(format!(
            "the readers differ\nof {octets:02X?}\n{one:02X?}\n{other:02X?}"
        )),
    }
}

/// Every row, in the order of the table that is printed.
pub fn rows() -> Vec<Row> {
    let mut rows = Vec::new();
    for count in COUNTS {
        let list = Operation::ResourceInformation(list(count, tag));
        rows.push(request("resource information", count, 0, list));
    }
    for password in [None, Some(PASSWORD)] {
        rows.extend(requests(password));
    }
    for count in COUNTS {
        let information = Reply::ResourceInformation(information(count));
        rows.push(answer("resource information", count, 0, information));
    }
    for form in [Form::Plain, Form::WithPassword] {
        rows.extend(answers(form));
    }
    for (status, supplement) in [(6, &[][..]), (4, &[0x10])] {
        let denial = Reply::Denial { status, supplement };
        rows.push(answer("denial", 0, supplement.len(), denial));
    }
    rows
}

fn requests(password: Option<Password>) -> Vec<Row> {
    let name = |name| format!("{name}{}", form(password.is_some()));
    let allocation = Allocation {
        tag: tag(0),
        mode: BOTH,
        size: SMALL as u32,
        initial_value: &[],
    };
    let allocate = Operation::Allocate(allocation, password);
    let mut rows = vec![
        request(&name("allocate"), 1, 0, allocate),
        request(&name("free"), 1, 0, Operation::Free(tag(0), password)),
        request(&name("read"), 1, 0, Operation::Read(tag(0), password)),
    ];
    for octets in OCTETS {
        let write = Operation::Write(memory(tag(0), data(octets)), password);
        rows.push(request(&name("write"), 1, octets, write));
    }
    for count in COUNTS {
        let bulk_read = match password {
            None => Operation::BulkRead(list(count, tag)),
            Some(password) => {
                Operation::BulkReadWithPassword(list(count, |number| (tag(number), password)))
            }
        };
        rows.push(request(&name("bulk read"), count, 0, bulk_read));
    }
    for count in COUNTS {
        let bulk_write = match password {
            None => Operation::BulkWrite(list(count, entry)),
            Some(password) => {
                Operation::BulkWriteWithPassword(list(count, |number| (entry(number), password)))
            }
        };
        rows.push(request(&name("bulk write"), count, SMALL, bulk_write));
    }
    rows
}

fn answers(form: Form) -> Vec<Row> {
    let name = |name| format!("{name}{}", crate::rows::form(form == Form::WithPassword));
    let mut rows = vec![
        answer(&name("allocate"), 1, 0, Reply::Allocate(form, tag(0))),
        answer(&name("free"), 1, 0, Reply::Free(form, tag(0))),
    ];
    for octets in OCTETS {
        let read = Reply::Read(form, memory(tag(0), data(octets)));
        rows.push(answer(&name("read"), 1, octets, read));
    }
    rows.push(answer(&name("write"), 1, 0, Reply::Write(form, tag(0))));
    for count in COUNTS {
        let bulk_read = Reply::BulkRead(form, list(count, entry));
        rows.push(answer(&name("bulk read"), count, SMALL, bulk_read));
    }
    for count in COUNTS {
        let bulk_write = Reply::BulkWrite(form, list(count, tag));
        rows.push(answer(&name("bulk write"), count, 0, bulk_write));
    }
    rows
}

/// A room of which each number is another, so that none can stand for another unseen.
fn information(count: usize) -> ResourceInformation<'static> {
    let resource = |number| TagResource {
        tag: tag(number),
        mode: MODES[number % MODES.len()],
        data_size: SMALL as u32,
        area_size: LARGE as u32,
    };
    ResourceInformation {
        receivable_size: 2048,
        remaining_tags: 31,
        remaining_octets: 7168,
        remaining_volatile_tags: 30,
        remaining_volatile_octets: 6144,
        bulk_limit: 16,
        tags: list(count, resource),
    }
}

/// An entry of a list with its own 16 octets.
fn entry(number: usize) -> MemoryData<'static> {
    memory(tag(number), &data(LARGE)[SMALL * number..][..SMALL])
}

/// A list that lasts as long as the program.
fn list<Item: Entry<'static>>(count: usize, item: impl Fn(usize) -> Item) -> List<'static, Item> {
    let items: Vec<Item> = (0..count).map(item).collect();
    List::of(items.leak())
}

fn request(name: &str, tags: usize, octets: usize, operation: Operation<'static>) -> Row {
    let message = Message::Request(Request {
        version: VERSION,
        operation,
    });
    let name = format!("request: {name}");
    let label = Label { name, tags, octets };
    Row { label, message }
}

fn answer(name: &str, tags: usize, octets: usize, reply: Reply) -> Row {
    let answer = Answer {
        version: VERSION,
        reply,
    };
    let mut area = [0; 2048];
    let length = codec::write_answer(&answer, &mut area).expect("a row's answer fits");
    let message = Message::Answer(area[..length].to_vec());
    let name = format!("answer: {name}");
    let label = Label { name, tags, octets };
    Row { label, message }
}

#[cfg(test)]
mod tests {
    use super::*;
    use crate::gate::HandWritten;

    /// Every row's request can be written and every row's answer read.
    #[test]
    fn rows_hold_messages() {
        for row in rows() {
            let sides = sides::<HandWritten, HandWritten>(&row);
            sides.unwrap_or_else(|why| panic!("{}: {why}", row.label.name));
        }
    }
}
