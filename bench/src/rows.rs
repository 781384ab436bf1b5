//! The responder's rows: what the unit holds before, the requests that are measured, and their outcome. A row's
//! requests leave the unit as they found it. Its tags are registered in ascending order, with areas as long as the
//! row's data and full of it; in a row with 1,024 octets only the last tag has them and the others have 16. A single
//! command names the last tag, which a search from the start finds latest. A list names the last 16 tags, or all of
//! them in turn if there are fewer.

use crate::measure::Input;
use crate::table::{self, Label};
use bench::codec::{self, Allocation, List, MemoryData, Operation, Password, Reply, Request, Tag};

const NORMAL: u8 = 0;
const SECURE: u8 = 1;
pub const BOTH: u8 = 0;
const READ_ONLY: u8 = 2;
const SPF: u8 = 4;

pub const PASSWORD: Password = [1, 2, 3, 4, 5, 6, 7, 8];
const OTHER_PASSWORD: Password = [1, 2, 3, 4, 5, 6, 7, 9];

pub const LIST: usize = 16;
const MEMORY: usize = 8192;
pub const SMALL: usize = 16;
pub const LARGE: usize = 1024;
const TAGS: [usize; 3] = [1, 8, 32];
pub const OCTETS: [usize; 3] = [1, SMALL, LARGE];

pub struct Command {
    pub port: u8,
    pub request: Vec<u8>,
}

impl Command {
    pub fn input(&self) -> Input<'_> {
        (self.port, &self.request)
    }
}

/// A denial with its status, an answer with so many entries in its list, or another answer.
#[derive(Clone, Copy, Debug, PartialEq, Eq)]
pub enum Outcome {
    Denial(u8),
    List(usize),
    Answer,
}

impl Outcome {
    pub fn of(answer: &[u8]) -> Option<Outcome> {
        Some(match codec::read_answer(answer).ok()?.reply {
            Reply::Denial { status, .. } => Outcome::Denial(status),
            Reply::ResourceInformation(information) => Outcome::List(information.tags.count()),
            Reply::BulkRead(_, list) => Outcome::List(list.count()),
            Reply::BulkWrite(_, list) => Outcome::List(list.count()),
            _ => Outcome::Answer,
        })
    }
}

pub struct Row {
    pub label: Label,
    pub before: Vec<Command>,
    pub requests: Vec<Command>,
    pub outcome: Outcome,
}

impl table::Row for Row {
    fn label(&self) -> &Label {
        &self.label
    }
}

/// Every row, in the order of the table that is printed.
pub fn rows() -> Vec<Row> {
    let rows = [
        single_rows(),
        bulk_rows(),
        resource_rows(),
        allocation_rows(),
        malformed_rows(),
        denied_rows(),
        passed_over_rows(),
    ];
    rows.into_iter().flatten().collect()
}

/// What is registered before a row's requests: so many octets for the last tag, and for each of the others.
#[derive(Clone, Copy)]
struct Table {
    tags: usize,
    octets: usize,
    others: usize,
    mode: u8,
    password: Option<Password>,
}

impl Table {
    fn plain(tags: usize, octets: usize) -> Table {
        Table {
            tags,
            octets,
            others: if octets == LARGE { SMALL } else { octets },
            mode: BOTH,
            password: None,
        }
    }

    /// A table that leaves no octet of the memory.
    fn full(tags: usize) -> Table {
        let octets = MEMORY / tags;
        Table {
            others: octets,
            ..Table::plain(tags, octets)
        }
    }

    fn with_password(tags: usize, octets: usize) -> Table {
        let password = Some(PASSWORD);
        Table {
            password,
            ..Table::plain(tags, octets)
        }
    }

    /// All numbers of tags, their sizes of area and data in a form, at which a row is measured.
    fn all(password: Option<Password>) -> Vec<Table> {
        let tables = TAGS.iter().flat_map(|tags| {
            OCTETS.map(|octets| Table {
                password,
                ..Table::plain(*tags, octets)
            })
        });
        tables.collect()
    }

    fn last(&self) -> Tag {
        tag(self.tags - 1)
    }

    fn size(&self, number: usize) -> usize {
        if number + 1 < self.tags {
            self.others
        } else {
            self.octets
        }
    }

    /// Allocates the tags and fills their areas.
    fn commands(&self) -> Vec<Command> {
        self.commands_without(self.tags)
    }

    /// The same without one of the tags.
    fn commands_without(&self, left_out: usize) -> Vec<Command> {
        let mut commands = Vec::new();
        for number in (0..self.tags).filter(|number| *number != left_out) {
            let size = self.size(number);
            commands.push(command(SECURE, self.allocation(number, size)));
            if self.mode & READ_ONLY == 0 {
                let memory = memory(tag(number), data(size));
                commands.push(command(SECURE, Operation::Write(memory, self.password)));
            }
        }
        commands
    }

    fn allocation(&self, number: usize, size: usize) -> Operation<'static> {
        let allocation = Allocation {
            tag: tag(number),
            mode: self.mode,
            size: size as u32,
            initial_value: &[],
        };
        Operation::Allocate(allocation, self.password)
    }

    /// The numbers of the tags that a list names; a tag of 1,024 octets once.
    fn listed(&self, count: usize) -> Vec<usize> {
        let mut numbers = Vec::new();
        let mut others = self.tags;
        if self.octets != self.others {
            others -= 1;
            numbers.push(others);
        }
        let first = others.saturating_sub(LIST);
        let behind = (first..others).cycle();
        numbers.extend(behind.take(count - numbers.len()));
        numbers
    }

    fn bulk_read(&self, count: usize, password: Option<Password>) -> Command {
        let tags: Vec<Tag> = self.listed(count).into_iter().map(tag).collect();
        let Some(password) = password else {
            return command(NORMAL, Operation::BulkRead(List::of(&tags)));
        };
        let list: Vec<(Tag, Password)> = tags.into_iter().map(|tag| (tag, password)).collect();
        command(NORMAL, Operation::BulkReadWithPassword(List::of(&list)))
    }

    fn bulk_write(&self, count: usize, password: Option<Password>) -> Command {
        let memory = |number| memory(tag(number), data(self.size(number)));
        let list: Vec<MemoryData> = self.listed(count).into_iter().map(memory).collect();
        let Some(password) = password else {
            return command(NORMAL, Operation::BulkWrite(List::of(&list)));
        };
        let list: Vec<(MemoryData, Password)> =
            list.into_iter().map(|memory| (memory, password)).collect();
        command(NORMAL, Operation::BulkWriteWithPassword(List::of(&list)))
    }

    fn row(&self, name: &str, outcome: Outcome, requests: Vec<Command>) -> Row {
        let name = format!("{name}{}", form(self.password.is_some()));
        Row {
            label: Label {
                name,
                tags: self.tags,
                octets: self.octets,
            },
            before: self.commands(),
            requests,
            outcome,
        }
    }
}

/// How the name of a row ends.
pub fn form(with_password: bool) -> &'static str {
    match with_password {
        false => "",
        true => " with password",
    }
}

/// Ascending in their number, whichever end of the octets counts most, and without order between the ends.
pub fn tag(number: usize) -> Tag {
    tag_between(2 * number as u8 + 1)
}

/// A tag that is not registered, between two in the middle of a table.
fn unknown_tag(tags: usize) -> Tag {
    tag_between(2 * (tags / 2) as u8)
}

fn tag_between(end: u8) -> Tag {
    let mixed = (u64::from(end) + 1).wrapping_mul(0xD129_0B7A_56F3_4E8D);
    let mut tag = (mixed ^ mixed >> 29).to_be_bytes();
    [tag[0], tag[1], tag[7]] = [0, end, end];
    tag
}

static DATA: [u8; LARGE] = {
    let mut data = [0; LARGE];
    let mut place = 0;
    while place < LARGE {
        data[place] = place as u8 ^ 0xA5;
        place += 1;
    }
    data
};

pub fn data(length: usize) -> &'static [u8] {
    &DATA[..length]
}

pub fn memory(tag: Tag, data: &[u8]) -> MemoryData<'_> {
    MemoryData { tag, data }
}

fn command(port: u8, operation: Operation) -> Command {
    let request = Request {
        version: 1,
        operation,
    };
    let mut area = [0; 2048];
    let length = codec::write_request(&request, &mut area).expect("a row's request fits");
    Command {
        port,
        request: area[..length].to_vec(),
    }
}

fn single_rows() -> Vec<Row> {
    let mut rows = Vec::new();
    for password in [None, Some(PASSWORD)] {
        for table in Table::all(password) {
            let read = command(NORMAL, Operation::Read(table.last(), password));
            rows.push(table.row("read", Outcome::Answer, vec![read]));
        }
        for table in Table::all(password) {
            let write = write(&table, table.octets, password);
            rows.push(table.row("write", Outcome::Answer, vec![write]));
        }
    }
    let table = Table::plain(32, LARGE);
    let turns = vec![write(&table, LARGE, None), write(&table, 1, None)];
    rows.push(table.row("write, long and short in turn", Outcome::Answer, turns));
    rows
}

fn write(table: &Table, length: usize, password: Option<Password>) -> Command {
    let memory = memory(table.last(), data(length));
    command(NORMAL, Operation::Write(memory, password))
}

/// One tag alone cannot have 1,024 octets in a list of 16, as neither a request nor an answer holds them twice.
fn bulk_rows() -> Vec<Row> {
    let mut rows = Vec::new();
    for password in [None, Some(PASSWORD)] {
        let mut tables = Table::all(password);
        tables.retain(|table| table.tags > 1 || table.octets < LARGE);
        for table in &tables {
            let read = table.bulk_read(LIST, password);
            rows.push(table.row("bulk read of 16", Outcome::List(LIST), vec![read]));
        }
        for table in &tables {
            let write = table.bulk_write(LIST, password);
            rows.push(table.row("bulk write of 16", Outcome::List(LIST), vec![write]));
        }
    }
    rows
}

fn resource_rows() -> Vec<Row> {
    let mut rows = Vec::new();
    for tags in TAGS {
        let table = Table::plain(tags, SMALL);
        let asked: Vec<Tag> = table.listed(LIST).into_iter().map(tag).collect();
        let request = command(NORMAL, Operation::ResourceInformation(List::of(&asked)));
        let outcome = Outcome::List(LIST);
        rows.push(table.row("resource information of 16", outcome, vec![request]));
    }
    rows
}

/// A tag in the middle of the table comes last into the pool and goes again; or the memory is full, and each tag in
/// turn is freed when it stands first in the pool, and allocated again at its end.
fn allocation_rows() -> Vec<Row> {
    let mut rows = Vec::new();
    let with_password = TAGS.map(|tags| Table::with_password(tags, SMALL));
    for table in Table::all(None).into_iter().chain(with_password) {
        let middle = table.tags / 2;
        let allocate = command(NORMAL, table.allocation(middle, table.octets));
        let free = command(NORMAL, Operation::Free(tag(middle), table.password));
        rows.push(Row {
            before: table.commands_without(middle),
            ..table.row("allocate and free", Outcome::Answer, vec![allocate, free])
        });
    }
    for tags in [8, 32] {
        let table = Table::full(tags);
        let mut requests = Vec::new();
        for number in 0..tags {
            requests.push(command(NORMAL, Operation::Free(tag(number), None)));
            requests.push(command(NORMAL, table.allocation(number, table.octets)));
        }
        rows.push(table.row(
            "free first of full memory, allocate",
            Outcome::Answer,
            requests,
        ));
    }
    rows
}

/// What no unit takes, whatever it holds.
fn malformed_rows() -> Vec<Row> {
    let table = Table::plain(32, SMALL);
    let read = command(NORMAL, Operation::Read(table.last(), None)).request;
    let mut other_version = read.clone();
    other_version[0] = 0x20;
    let mut unknown_type = read.clone();
    unknown_type[2] = 7;
    let mut longer_form = read.clone();
    longer_form.splice(4..5, [0x80, 8]);
    let mut stray_octet = read.clone();
    stray_octet[4] += 1;
    stray_octet.push(0);
    let mut cut_list = table.bulk_write(LIST, None).request;
    cut_list[5] -= 1;
    cut_list.pop();
    let cases = [
        ("empty", 16, Vec::new()),
        ("other version", 4, other_version),
        ("unknown operation type", 12, unknown_type),
        ("longer form of length", 16, longer_form),
        ("stray octet behind a read", 16, stray_octet),
        ("bulk write of 16, last octet cut", 16, cut_list),
    ];
    let row = |(name, status, request)| {
        let port = NORMAL;
        let name = format!("malformed: {name}");
        table.row(
            &name,
            Outcome::Denial(status),
            vec![Command { port, request }],
        )
    };
    cases.into_iter().map(row).collect()
}

fn denied_rows() -> Vec<Row> {
    let mut rows = Vec::new();
    for tags in TAGS {
        let table = Table::plain(tags, SMALL);
        let read = command(NORMAL, Operation::Read(unknown_tag(tags), None));
        rows.push(table.row("denied: unknown tag, read", Outcome::Denial(6), vec![read]));
    }
    let other = Some(OTHER_PASSWORD);
    for tags in TAGS {
        let table = Table::with_password(tags, SMALL);
        let read = command(NORMAL, Operation::Read(table.last(), other));
        rows.push(table.row(
            "denied: other password, read",
            Outcome::Denial(10),
            vec![read],
        ));
    }
    let table = Table::with_password(32, LARGE);
    let long = write(&table, LARGE, other);
    rows.push(table.row(
        "denied: other password, write",
        Outcome::Denial(10),
        vec![long],
    ));
    rows.extend(denied_otherwise());
    rows
}

/// The other lines of denials, each once.
fn denied_otherwise() -> Vec<Row> {
    let plain = Table::plain(32, SMALL);
    let spf = Table { mode: SPF, ..plain };
    let read_only = Table {
        mode: READ_ONLY,
        ..plain
    };
    let read = |table: &Table| command(NORMAL, Operation::Read(table.last(), None));
    let room = command(NORMAL, plain.allocation(plain.tags, SMALL));
    let cases = [
        ("SPF, read by normal port", 11, spf, read(&spf)),
        (
            "read only, write",
            8,
            read_only,
            write(&read_only, SMALL, None),
        ),
        (
            "data too long, write",
            9,
            plain,
            write(&plain, SMALL + 1, None),
        ),
        ("no room, allocate", 5, plain, room),
        ("bulk read of 17", 7, plain, plain.bulk_read(LIST + 1, None)),
        (
            "bulk write of 17",
            7,
            plain,
            plain.bulk_write(LIST + 1, None),
        ),
    ];
    let row = |(name, status, table, command): (&str, u8, Table, Command)| {
        let name = format!("denied: {name}");
        table.row(&name, Outcome::Denial(status), vec![command])
    };
    cases.into_iter().map(row).collect()
}

/// Every entry of a list is denied, and the answer is an empty list.
fn passed_over_rows() -> Vec<Row> {
    let table = Table::with_password(32, SMALL);
    let other = Some(OTHER_PASSWORD);
    let read = table.bulk_read(LIST, other);
    let write = table.bulk_write(LIST, other);
    let none = Outcome::List(0);
    vec![
        table.row("passed over: bulk read of 16", none, vec![read]),
        table.row("passed over: bulk write of 16", none, vec![write]),
    ]
}
