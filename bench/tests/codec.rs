//! The hand-written codec against the second program's message library on drawn values: every request, answer and
//! denial written into areas of several lengths, read back, and read after damage.
//! Rules: document 01, "Messages", with its refusals 16 and then 300.

use bench::codec;
use second::damage::damaged;
use second::message::{self, Answer, Form, List, Operation, Password, Reply, Request};
use second::random::Random;

const SEEDS: [u64; 4] = [1, 2, 3, 4];
const DRAWN: usize = 30_000;
const BEHIND: u8 = 0x5A;

fn version(random: &mut Random) -> u64 {
    let drawn = random.below(16) as u64;
    random.pick(&[0, 1, 15, drawn, drawn, drawn, drawn, drawn, 16, 255])
}

fn mode(random: &mut Random) -> u8 {
    let drawn = random.octet();
    random.pick(&[0, 1, 2, 4, 5, 6, 0, 1, 2, 4, 5, 6, 0, 1, 2, 4, 3, 7, drawn])
}

fn data(random: &mut Random) -> Vec<u8> {
    let drawn = random.between(0, 2100);
    let brimful = random.between(2010, 2044);
    let few = random.between(0, 40);
    let length = random.pick(&[0, 1, 118, 119, 127, 128, few, few, few, drawn, brimful]);
    random.octets(length)
}

fn few_data(random: &mut Random) -> Vec<u8> {
    let length = random.pick(&[0, 0, 1, 2, 7, 8, 9, 16, 40, 127, 128, 300]);
    random.octets(length)
}

fn count(random: &mut Random) -> usize {
    let drawn = random.between(0, 20);
    let many = random.between(100, 270);
    random.pick(&[
        0, 1, 2, 15, 16, 17, drawn, drawn, drawn, 127, 128, 255, many,
    ])
}

fn list<Item>(random: &mut Random, draw: impl Fn(&mut Random) -> Item) -> Vec<Item> {
    (0..count(random)).map(|_| draw(random)).collect()
}

fn password(random: &mut Random) -> Option<Password> {
    let drawn = random.eight();
    random.pick(&[None, Some(drawn), Some([0; 8])])
}

fn memory(random: &mut Random) -> message::MemoryData {
    message::MemoryData {
        tag: random.eight(),
        data: data(random),
    }
}

fn few_memory(random: &mut Random) -> message::MemoryData {
    message::MemoryData {
        tag: random.eight(),
        data: few_data(random),
    }
}

fn number(random: &mut Random, largest: u64) -> u64 {
    let drawn = random.number() & largest;
    random.pick(&[0, 1, largest, drawn])
}

fn draw_request(random: &mut Random) -> Request {
    let operation = match random.below(9) {
        0 => Operation::ResourceInformation(list(random, Random::eight)),
        1 => Operation::Allocate(
            message::Allocation {
                tag: random.eight(),
                mode: mode(random),
                size: number(random, 0xFFFF_FFFF),
                initial_value: data(random),
            },
            password(random),
        ),
        2 => Operation::Free(random.eight(), password(random)),
        3 => Operation::Read(random.eight(), password(random)),
        4 => Operation::Write(memory(random), password(random)),
        5 => Operation::BulkRead(List::Plain(list(random, Random::eight))),
        6 => Operation::BulkRead(List::WithPassword(list(random, |random| {
            (random.eight(), random.eight())
        }))),
        7 => Operation::BulkWrite(List::Plain(list(random, few_memory))),
        _ => Operation::BulkWrite(List::WithPassword(list(random, |random| {
            (few_memory(random), random.eight())
        }))),
    };
    Request {
        version: version(random),
        operation,
    }
}

fn draw_resource(random: &mut Random) -> message::ResourceInformation {
    let always = random.chance(80);
    message::ResourceInformation {
        receivable_size: number(random, 0xFFFF_FFFF),
        remaining_tags: number(random, 0xFFFF),
        remaining_octets: number(random, 0xFFFF_FFFF),
        remaining_volatile_tags: number(random, 0xFFFF),
        remaining_volatile_octets: number(random, 0xFFFF_FFFF),
        bulk_limit: number(random, 0xFFFF),
        tags: list(random, |random| message::TagResource {
            tag: random.eight(),
            mode: if always { 5 } else { mode(random) },
            data_size: number(random, 0xFFFF_FFFF),
            area_size: number(random, 0xFFFF_FFFF),
        }),
    }
}

fn supplement(random: &mut Random) -> Vec<u8> {
    let length = random.pick(&[0, 1, 1, 126, 127, 128, 300]);
    random.octets(length)
}

fn draw_answer(random: &mut Random) -> Answer {
    let form = random.pick(&[Form::Plain, Form::WithPassword]);
    let reply = match random.below(8) {
        0 => Reply::ResourceInformation(draw_resource(random)),
        1 => Reply::Allocate(form, random.eight()),
        2 => Reply::Free(form, random.eight()),
        3 => Reply::Read(form, memory(random)),
        4 => Reply::Write(form, random.eight()),
        5 => Reply::BulkRead(form, list(random, few_memory)),
        6 => Reply::BulkWrite(form, list(random, Random::eight)),
        _ => Reply::Denial {
            status: random.octet().into(),
            supplement: supplement(random),
        },
    };
    Answer {
        version: version(random),
        reply,
    }
}

fn memory_of(memory: &message::MemoryData) -> codec::MemoryData<'_> {
    codec::MemoryData {
        tag: memory.tag,
        data: &memory.data,
    }
}

fn memory_to(memory: codec::MemoryData) -> message::MemoryData {
    message::MemoryData {
        tag: memory.tag,
        data: memory.data.to_vec(),
    }
}

fn memories_of(memories: &[message::MemoryData]) -> Vec<codec::MemoryData<'_>> {
    memories.iter().map(memory_of).collect()
}

fn memories_with_password_of(
    list: &[(message::MemoryData, Password)],
) -> Vec<(codec::MemoryData<'_>, Password)> {
    let entries = list.iter();
    entries
        .map(|(memory, password)| (memory_of(memory), *password))
        .collect()
}

fn form_of(form: Form) -> codec::Form {
    match form {
        Form::Plain => codec::Form::Plain,
        Form::WithPassword => codec::Form::WithPassword,
    }
}

fn form_to(form: codec::Form) -> Form {
    match form {
        codec::Form::Plain => Form::Plain,
        codec::Form::WithPassword => Form::WithPassword,
    }
}

/// Writes by the hand-written codec what is given in the second program's words.
fn write_request(request: &Request, area: &mut [u8]) -> Result<usize, u16> {
    let mut write = |operation| {
        let version = request.version as u8;
        codec::write_request(&codec::Request { version, operation }, area)
    };
    match &request.operation {
        Operation::ResourceInformation(tags) => {
            write(codec::Operation::ResourceInformation(codec::List::of(tags)))
        }
        Operation::Allocate(allocation, password) => write(codec::Operation::Allocate(
            codec::Allocation {
                tag: allocation.tag,
                mode: allocation.mode,
                size: allocation.size as u32,
                initial_value: &allocation.initial_value,
            },
            *password,
        )),
        Operation::Free(tag, password) => write(codec::Operation::Free(*tag, *password)),
        Operation::Read(tag, password) => write(codec::Operation::Read(*tag, *password)),
        Operation::Write(memory, password) => {
            write(codec::Operation::Write(memory_of(memory), *password))
        }
        Operation::BulkRead(List::Plain(tags)) => {
            write(codec::Operation::BulkRead(codec::List::of(tags)))
        }
        Operation::BulkRead(List::WithPassword(list)) => write(
            codec::Operation::BulkReadWithPassword(codec::List::of(list)),
        ),
        Operation::BulkWrite(List::Plain(list)) => write(codec::Operation::BulkWrite(
            codec::List::of(&memories_of(list)),
        )),
        Operation::BulkWrite(List::WithPassword(list)) => {
            let list = memories_with_password_of(list);
            let list = codec::List::of(&list);
            write(codec::Operation::BulkWriteWithPassword(list))
        }
    }
}

fn write_resource(
    version: u8,
    information: &message::ResourceInformation,
    area: &mut [u8],
) -> Result<usize, u16> {
    let tags: Vec<codec::TagResource> = information
        .tags
        .iter()
        .map(|entry| codec::TagResource {
            tag: entry.tag,
            mode: entry.mode,
            data_size: entry.data_size as u32,
            area_size: entry.area_size as u32,
        })
        .collect();
    let information = codec::ResourceInformation {
        receivable_size: information.receivable_size as u32,
        remaining_tags: information.remaining_tags as u16,
        remaining_octets: information.remaining_octets as u32,
        remaining_volatile_tags: information.remaining_volatile_tags as u16,
        remaining_volatile_octets: information.remaining_volatile_octets as u32,
        bulk_limit: information.bulk_limit as u16,
        tags: codec::List::of(&tags),
    };
    let reply = codec::Reply::ResourceInformation(information);
    codec::write_answer(&codec::Answer { version, reply }, area)
}

fn write_answer(answer: &Answer, area: &mut [u8]) -> Result<usize, u16> {
    let version = answer.version as u8;
    if let Reply::ResourceInformation(information) = &answer.reply {
        return write_resource(version, information, area);
    }
    let mut write = |reply| codec::write_answer(&codec::Answer { version, reply }, area);
    match &answer.reply {
        Reply::ResourceInformation(_) => unreachable!("written above"),
        Reply::Allocate(form, tag) => write(codec::Reply::Allocate(form_of(*form), *tag)),
        Reply::Free(form, tag) => write(codec::Reply::Free(form_of(*form), *tag)),
        Reply::Read(form, memory) => write(codec::Reply::Read(form_of(*form), memory_of(memory))),
        Reply::Write(form, tag) => write(codec::Reply::Write(form_of(*form), *tag)),
        Reply::BulkRead(form, list) => write(codec::Reply::BulkRead(
            form_of(*form),
            codec::List::of(&memories_of(list)),
        )),
        Reply::BulkWrite(form, tags) => write(codec::Reply::BulkWrite(
            form_of(*form),
            codec::List::of(tags),
        )),
        Reply::Denial { status, supplement } => write(codec::Reply::Denial {
            status: *status as u8,
            supplement,
        }),
    }
}

fn list_to<'a, Item: codec::Entry<'a>>(list: codec::List<'a, Item>) -> Vec<Item> {
    let items: Vec<Item> = list.iter().collect();
    assert_eq!(items.len(), list.count());
    items
}

fn memories_to<'a>(list: codec::List<'a, codec::MemoryData<'a>>) -> Vec<message::MemoryData> {
    list_to(list).into_iter().map(memory_to).collect()
}

fn request_to(request: codec::Request) -> Request {
    let operation = match request.operation {
        codec::Operation::ResourceInformation(tags) => {
            Operation::ResourceInformation(list_to(tags))
        }
        codec::Operation::Allocate(allocation, password) => Operation::Allocate(
            message::Allocation {
                tag: allocation.tag,
                mode: allocation.mode,
                size: allocation.size.into(),
                initial_value: allocation.initial_value.to_vec(),
            },
            password,
        ),
        codec::Operation::Free(tag, password) => Operation::Free(tag, password),
        codec::Operation::Read(tag, password) => Operation::Read(tag, password),
        codec::Operation::Write(memory, password) => Operation::Write(memory_to(memory), password),
        codec::Operation::BulkRead(tags) => Operation::BulkRead(List::Plain(list_to(tags))),
        codec::Operation::BulkReadWithPassword(list) => {
            Operation::BulkRead(List::WithPassword(list_to(list)))
        }
        codec::Operation::BulkWrite(list) => Operation::BulkWrite(List::Plain(memories_to(list))),
        codec::Operation::BulkWriteWithPassword(list) => {
            let list = list_to(list).into_iter();
            let list = list.map(|(memory, password)| (memory_to(memory), password));
            Operation::BulkWrite(List::WithPassword(list.collect()))
        }
    };
    Request {
        version: request.version.into(),
        operation,
    }
}

fn resource_to(information: codec::ResourceInformation) -> message::ResourceInformation {
    message::ResourceInformation {
        receivable_size: information.receivable_size.into(),
        remaining_tags: information.remaining_tags.into(),
        remaining_octets: information.remaining_octets.into(),
        remaining_volatile_tags: information.remaining_volatile_tags.into(),
        remaining_volatile_octets: information.remaining_volatile_octets.into(),
        bulk_limit: information.bulk_limit.into(),
        tags: list_to(information.tags)
            .into_iter()
            .map(|entry| message::TagResource {
                tag: entry.tag,
                mode: entry.mode,
                data_size: entry.data_size.into(),
                area_size: entry.area_size.into(),
            })
            .collect(),
    }
}

fn answer_to(answer: codec::Answer) -> Answer {
    let reply = match answer.reply {
        codec::Reply::ResourceInformation(information) => {
            Reply::ResourceInformation(resource_to(information))
        }
        codec::Reply::Allocate(form, tag) => Reply::Allocate(form_to(form), tag),
        codec::Reply::Free(form, tag) => Reply::Free(form_to(form), tag),
        codec::Reply::Read(form, memory) => Reply::Read(form_to(form), memory_to(memory)),
        codec::Reply::Write(form, tag) => Reply::Write(form_to(form), tag),
        codec::Reply::BulkRead(form, list) => Reply::BulkRead(form_to(form), memories_to(list)),
        codec::Reply::BulkWrite(form, tags) => Reply::BulkWrite(form_to(form), list_to(tags)),
        codec::Reply::Denial { status, supplement } => Reply::Denial {
            status: status.into(),
            supplement: supplement.to_vec(),
        },
    };
    Answer {
        version: answer.version.into(),
        reply,
    }
}

/// Both write the same into areas of this length, or refuse with the same number and write nothing.
fn check_written<Message>(
    message: &Message,
    lengths: &[usize],
    ours: impl Fn(&Message, &mut [u8]) -> Result<usize, u16>,
    theirs: impl Fn(&Message, &mut [u8]) -> Result<usize, u16>,
) {
    for length in lengths {
        let mut our_area = vec![BEHIND; *length];
        let mut their_area = vec![BEHIND; *length];
        let our_result = ours(message, &mut our_area);
        assert_eq!(our_result, theirs(message, &mut their_area));
        assert!(our_area == their_area);
    }
}

fn lengths(result: &Result<Vec<u8>, u16>, random: &mut Random) -> Vec<usize> {
    let exact = result.as_ref().map_or(100, Vec::len);
    vec![2100, 2048, exact, exact - 1, random.below(exact), 0]
}

/// What was read is read alike, and written again it is the same octets.
fn check_request_read(octets: &[u8]) -> bool {
    let expected = message::read_request(octets);
    let read = codec::read_request(octets);
    assert_eq!(read.map(request_to), expected, "{octets:02X?}");
    if let Ok(request) = read {
        let mut area = [BEHIND; 2048];
        let length = codec::write_request(&request, &mut area).expect("what was read");
        assert_eq!(&area[..length], octets);
    }
    expected.is_ok()
}

fn check_answer_read(octets: &[u8]) -> bool {
    let expected = message::read_answer(octets);
    let read = codec::read_answer(octets);
    assert_eq!(read.map(answer_to), expected, "{octets:02X?}");
    if let Ok(answer) = read {
        let mut area = [BEHIND; 2048];
        let length = codec::write_answer(&answer, &mut area).expect("what was read");
        assert_eq!(&area[..length], octets);
    }
    expected.is_ok()
}

/// One change that suits any message: an octet, a cut, a stray octet, the type of another message.
fn changed(random: &mut Random, octets: &[u8]) -> Vec<u8> {
    let mut octets = octets.to_vec();
    let place = random.below(octets.len().min(40));
    match random.below(6) {
        0 => octets[place] = random.octet(),
        1 => octets[place] ^= 1 << random.below(8),
        2 => octets.truncate(random.below(octets.len() + 1)),
        3 => octets.push(random.octet()),
        4 => octets.insert(place, random.octet()),
        _ => octets[2] = random.pick(&[128, 129, 131, 133, 134, 193, 195, 197, 198, 3, 192]),
    }
    octets
}

#[test]
fn requests() {
    let mut accepted = [0; 2];
    for seed in SEEDS {
        let random = &mut Random::new(seed, 1);
        for _ in 0..DRAWN {
            let request = draw_request(random);
            let octets = message::request_octets(&request);
            let lengths = lengths(&octets, random);
            check_written(&request, &lengths, write_request, message::write_request);
            let Ok(octets) = octets else {
                continue;
            };
            accepted[0] += usize::from(check_request_read(&octets));
            for _ in 0..3 {
                let octets = damaged(random, octets.clone());
                accepted[1] += usize::from(check_request_read(&octets));
                check_answer_read(&octets);
            }
        }
    }
    println!("{accepted:?} requests read, whole and damaged");
    assert!(accepted[0] > SEEDS.len() * DRAWN / 2 && accepted[1] > 1000);
}

#[test]
fn answers() {
    let mut accepted = [0; 2];
    for seed in SEEDS {
        let random = &mut Random::new(seed, 2);
        for _ in 0..DRAWN {
            let answer = draw_answer(random);
            let octets = message::answer_octets(&answer);
            let lengths = lengths(&octets, random);
            check_written(&answer, &lengths, write_answer, message::write_answer);
            let Ok(octets) = octets else {
                continue;
            };
            accepted[0] += usize::from(check_answer_read(&octets));
            for _ in 0..3 {
                let octets = changed(random, &octets);
                accepted[1] += usize::from(check_answer_read(&octets));
                check_request_read(&octets);
            }
        }
    }
    println!("{accepted:?} answers read, whole and changed");
    assert!(accepted[0] > SEEDS.len() * DRAWN / 2 && accepted[1] > 1000);
}

#[test]
fn no_octets_and_too_many() {
    for octets in [vec![], vec![0x10], vec![0x10; 2049]] {
        assert!(!check_request_read(&octets));
        assert!(!check_answer_read(&octets));
    }
    let mut tags = vec![0x10, 1, 5, 0, 0x88, 2, 0x81, 0];
    tags.resize(8 + 8 * 256, 0);
    assert!(!check_request_read(&tags));
}
