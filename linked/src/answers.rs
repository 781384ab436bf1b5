//! Draws the octets that a gate may be given: every kind of answer and the denial as the second program's library
//! writes them, the same damaged once or twice, and layouts that are sound but over 2,048 octets.

use second::message::{
    answer_octets, length_width, push_length, Answer, Form, MemoryData, Reply, ResourceInformation,
    TagResource, LARGEST_LENGTH,
};
use second::random::Random;

const DATA_LENGTHS: [usize; 18] = [
    0, 0, 1, 2, 117, 118, 119, 120, 126, 127, 128, 129, 1023, 1024, 2021, 2030, 2031, 2032,
];
const COUNTS: [usize; 16] = [
    0, 1, 2, 6, 7, 14, 15, 16, 17, 118, 119, 126, 127, 128, 254, 255,
];

/// What was done to drawn octets.
pub const SOUND: &str = "octets as written";
pub const OVER_LONG: &str = "octets over 2,048";
pub const TWICE: &str = "octets damaged twice";
const DAMAGES: [&str; 18] = [
    "octets cut",
    "octets with a stray one",
    "octets with a flipped bit",
    "octets with a flipped bit in front",
    "length in a longer form",
    "length in the form C0",
    "length in three octets",
    "length one more",
    "length one less",
    "other profile",
    "fill bits",
    "other command type",
    "other answer type",
    "other count",
    "supplement of 126 to 255",
    "mode code that the tables lack",
    "octets drawn",
    "no octets",
];

/// Octets that are an answer or a denial, or nearly, and what was done to them.
pub fn draw_octets(random: &mut Random) -> (&'static str, Vec<u8>) {
    if random.chance(4) {
        return (OVER_LONG, over_long(random));
    }
    let (answer, octets) = draw_written(random);
    if random.chance(55) {
        return (SOUND, octets);
    }
    let kind = random.below(DAMAGES.len());
    let once = damaged(random, &answer, octets, kind);
    if random.chance(15) {
        return (TWICE, flipped(random, once, 24));
    }
    (DAMAGES[kind], once)
}

/// An answer that the library writes, and its octets.
fn draw_written(random: &mut Random) -> (Answer, Vec<u8>) {
    loop {
        let answer = Answer {
            version: random.below(16) as u64,
            reply: draw_reply(random),
        };
        if let Ok(octets) = answer_octets(&answer) {
            return (answer, octets);
        }
    }
}

fn draw_reply(random: &mut Random) -> Reply {
    let form = random.pick(&[Form::Plain, Form::WithPassword]);
    match random.below(9) {
        0 => Reply::ResourceInformation(draw_resources(random)),
        1 => Reply::Allocate(form, random.eight()),
        2 => Reply::Free(form, random.eight()),
        3 => Reply::Read(form, draw_memory(random, 2032)),
        4 => Reply::Write(form, random.eight()),
        5 => Reply::BulkRead(form, draw_memories(random)),
        6 => {
            let count = draw_count(random, 255);
            Reply::BulkWrite(form, (0..count).map(|_| random.eight()).collect())
        }
        _ => draw_denial(random),
    }
}

fn draw_denial(random: &mut Random) -> Reply {
    let length = match random.below(3) {
        0 => random.pick(&[0, 1, 126, 127]),
        1 => random.below(128),
        _ => 0,
    };
    Reply::Denial {
        status: u64::from(random.octet()),
        supplement: random.octets(length),
    }
}

fn draw_count(random: &mut Random, most: usize) -> usize {
    let count = match random.weighted(&[30, 55, 15]) {
        0 => random.pick(&COUNTS),
        1 => random.below(18),
        _ => random.between(0, most),
    };
    count.min(most)
}

fn draw_memory(random: &mut Random, most: usize) -> MemoryData {
    let length = match random.weighted(&[50, 40, 10]) {
        0 => random.pick(&DATA_LENGTHS),
        1 => random.below(150),
        _ => random.between(0, most),
    };
    MemoryData {
        tag: random.eight(),
        data: random.octets(length.min(most)),
    }
}

/// Memory data that a body of 2,042 octets holds; the last of it at times up to its end.
fn draw_memories(random: &mut Random) -> Vec<MemoryData> {
    let count = draw_count(random, 226);
    let mut room = 2040;
    let mut entries = Vec::new();
    for _ in 0..count {
        if room < 12 {
            break;
        }
        let most = if count > 20 { 3 } else { room - 10 };
        let memory = draw_memory(random, most.min(room - 10));
        room -= 8 + length_width(memory.data.len()) + memory.data.len();
        entries.push(memory);
    }
    entries
}

fn draw_resources(random: &mut Random) -> ResourceInformation {
    let count = draw_count(random, 119);
    ResourceInformation {
        receivable_size: draw_field(random, 4),
        remaining_tags: draw_field(random, 2),
        remaining_octets: draw_field(random, 4),
        remaining_volatile_tags: draw_field(random, 2),
        remaining_volatile_octets: draw_field(random, 4),
        bulk_limit: draw_field(random, 2),
        tags: (0..count).map(|_| draw_resource(random)).collect(),
    }
}

fn draw_resource(random: &mut Random) -> TagResource {
    TagResource {
        tag: random.eight(),
        mode: random.pick(&[0, 1, 2, 4, 5, 6]),
        data_size: draw_field(random, 4),
        area_size: draw_field(random, 4),
    }
}

/// A number of this many octets, its smallest and greatest included.
fn draw_field(random: &mut Random, width: usize) -> u64 {
    let greatest = (1 << (8 * width)) - 1;
    match random.below(6) {
        0 => 0,
        1 => greatest,
        _ => random.number() & greatest,
    }
}

/// Over 2,048 octets, in a layout that is sound but for that, or with octets behind it.
fn over_long(random: &mut Random) -> Vec<u8> {
    let mut body = Vec::new();
    let (kind, count) = match random.below(4) {
        0 => (random.pick(&[131, 195]), 0),
        1 => (random.pick(&[133, 197]), 2),
        2 => (random.pick(&[134, 198]), random.between(256, 300)),
        _ => return stretched(random),
    };
    let longer = random.pick(&[2033, 2040, 4000]);
    match kind {
        131 | 195 => body.extend(memory_octets(random, longer)),
        133 | 197 => {
            body.push(2);
            body.extend(memory_octets(random, 3));
            body.extend(memory_octets(random, longer));
        }
        _ => {
            body.extend(shortest_form(count));
            body.extend(random.octets(8 * count));
        }
    }
    let mut octets = vec![0x10, 1, kind, 0];
    octets.extend(shortest_form(body.len()));
    octets.extend(body);
    octets
}

fn stretched(random: &mut Random) -> Vec<u8> {
    let (_, mut octets) = draw_written(random);
    let length = random.pick(&[2049, 2050, 5000]);
    octets.resize(length, 0);
    octets
}

fn memory_octets(random: &mut Random, length: usize) -> Vec<u8> {
    let mut octets = random.octets(8);
    octets.extend(shortest_form(length));
    octets.extend(random.octets(length));
    octets
}

fn shortest_form(number: usize) -> Vec<u8> {
    let mut form = Vec::new();
    push_length(&mut form, number.min(LARGEST_LENGTH)).expect("it has a form");
    form
}

/// The answer damaged once, by the kind's place in `DAMAGES`.
fn damaged(random: &mut Random, answer: &Answer, octets: Vec<u8>, kind: usize) -> Vec<u8> {
    let places = length_places(answer, &octets);
    match kind {
        0 => cut(random, octets),
        1 => stray(random, octets),
        2 => flipped(random, octets, 2048),
        3 => flipped(random, octets, 24),
        4..=8 => wrong_length(random, octets, &places, kind),
        9 => set(octets, 3, random.pick(&[1, 2, 128, 255])),
        10 => {
            let first = octets[0] | random.between(1, 15) as u8;
            set(octets, 0, first)
        }
        11 => set(octets, 1, random.pick(&[0, 1, 2, 128, 254, 255])),
        12 => other_type(random, octets),
        13 => wrong_count(random, answer, octets, &places),
        14 => supplement(random, octets[0]),
        15 => wrong_mode(random, answer, octets),
        16 => {
            let length = random.below(40);
            random.octets(length)
        }
        _ => Vec::new(),
    }
}

fn other_type(random: &mut Random, octets: Vec<u8>) -> Vec<u8> {
    let drawn = random.octet();
    let types = [
        0, 3, 127, 128, 131, 134, 135, 192, 193, 198, 199, 255, drawn,
    ];
    set(octets, 2, random.pick(&types))
}

fn set(mut octets: Vec<u8>, place: usize, octet: u8) -> Vec<u8> {
    octets[place] = octet;
    octets
}

fn cut(random: &mut Random, mut octets: Vec<u8>) -> Vec<u8> {
    let last = octets.len() - 1;
    let drawn = random.below(octets.len());
    octets.truncate(random.pick(&[drawn, drawn, last, drawn.min(7)]));
    repaired_at_times(random, octets)
}

fn stray(random: &mut Random, mut octets: Vec<u8>) -> Vec<u8> {
    let octet = random.octet();
    octets.push(random.pick(&[0, 0xAA, octet]));
    repaired_at_times(random, octets)
}

fn flipped(random: &mut Random, mut octets: Vec<u8>, within: usize) -> Vec<u8> {
    if !octets.is_empty() {
        let place = random.below(octets.len().min(within));
        octets[place] ^= 1 << random.below(8);
    }
    octets
}

/// The same with its body's right length before it, half of the times.
fn repaired_at_times(random: &mut Random, octets: Vec<u8>) -> Vec<u8> {
    if octets.len() < 5 || octets[1] != 1 || random.chance(50) {
        return octets;
    }
    with_right_length(octets)
}

fn with_right_length(octets: Vec<u8>) -> Vec<u8> {
    let body = octets.get(4 + form_width(octets[4])..).unwrap_or(&[]);
    let mut repaired = octets[..4].to_vec();
    repaired.extend(shortest_form(body.len()));
    repaired.extend_from_slice(body);
    repaired
}

fn form_width(first: u8) -> usize {
    if first < 0x80 {
        1
    } else {
        2
    }
}

/// Where the lengths and counts of an answer stand, with their numbers: the body's first, then a list's count.
fn length_places(answer: &Answer, octets: &[u8]) -> Vec<(usize, usize)> {
    if let Reply::Denial { supplement, .. } = &answer.reply {
        return vec![(3, supplement.len())];
    }
    let body = 4 + form_width(octets[4]);
    let mut places = vec![(4, octets.len() - body)];
    match &answer.reply {
        Reply::ResourceInformation(information) => places.push((body + 18, information.tags.len())),
        Reply::Read(_, memory) => places.push((body + 8, memory.data.len())),
        Reply::BulkWrite(_, tags) => places.push((body, tags.len())),
        Reply::BulkRead(_, entries) => {
            places.push((body, entries.len()));
            let mut place = body + length_width(entries.len());
            for memory in entries {
                let length = memory.data.len();
                places.push((place + 8, length));
                place += 8 + length_width(length) + length;
            }
        }
        _ => {}
    }
    places
}

/// A length in a longer form, in the form C0, in three octets, or one off.
fn wrong_length(
    random: &mut Random,
    octets: Vec<u8>,
    places: &[(usize, usize)],
    kind: usize,
) -> Vec<u8> {
    let (place, number) = random.pick(places);
    let (high, low) = ((number >> 8) as u8, number as u8);
    let form = match kind {
        4 => vec![0x80 | high, low],
        5 => vec![0xC0 | high, low],
        6 => vec![0x82, high, low],
        7 => shortest_form(number + 1),
        _ => shortest_form(number.max(1) - 1),
    };
    replaced(random, octets, place, number, &form)
}

/// The count of a list one off, greater than it can be, or with an entry's octets behind it.
fn wrong_count(
    random: &mut Random,
    answer: &Answer,
    octets: Vec<u8>,
    places: &[(usize, usize)],
) -> Vec<u8> {
    let list = matches!(
        answer.reply,
        Reply::ResourceInformation(_) | Reply::BulkRead(..) | Reply::BulkWrite(..)
    );
    if !list {
        return flipped(random, octets, 24);
    }
    let (place, number) = places[1];
    let other = random.pick(&[number + 1, number.max(1) - 1, number + 2, 16_383]);
    replaced(random, octets, place, number, &shortest_form(other))
}

/// Puts a form in a length's place, mostly with the body's length made right again.
fn replaced(
    random: &mut Random,
    octets: Vec<u8>,
    place: usize,
    number: usize,
    form: &[u8],
) -> Vec<u8> {
    let mut other = octets[..place].to_vec();
    other.extend_from_slice(form);
    other.extend_from_slice(&octets[place + length_width(number)..]);
    if place > 4 && random.chance(80) {
        return with_right_length(other);
    }
    other
}

/// A denial whose supplement has 126 to 129 or 255 octets, or one more or less than it says.
fn supplement(random: &mut Random, version: u8) -> Vec<u8> {
    let length = random.pick(&[126, 127, 128, 129, 255]);
    let more = random.pick(&[0, 0, 0, 1]);
    let mut octets = vec![version, 255, random.octet(), length as u8];
    octets.extend(random.octets(length + more));
    octets
}

/// A mode code that the tables lack in an entry of resource information.
fn wrong_mode(random: &mut Random, answer: &Answer, octets: Vec<u8>) -> Vec<u8> {
    let Reply::ResourceInformation(information) = &answer.reply else {
        return flipped(random, octets, 24);
    };
    if information.tags.is_empty() {
        return flipped(random, octets, 24);
    }
    let entry = random.below(information.tags.len());
    let place = octets.len() - 17 * (information.tags.len() - entry) + 8;
    set(octets, place, random.pick(&[3, 7, 8, 0x10, 0x80, 0xFF]))
}
