//! Compares the seven write functions with the second program's `write_request`: the result and the whole area, the
//! octets behind the message included. Drawn are all versions and modes, data and lists at the limits of a message,
//! slices that do not belong together, and areas too short, just long enough and longer.

use crate::calls::{lent, octets, refused, Seen, Writing, BESIDE};
use crate::compare::{Comparison, Difference};
use second::message::{request_octets, write_request};
use second::random::Random;

/// Lengths of data where a form changes or a message of 2,048 octets is just reached, and far beyond.
const DATA_LENGTHS: [usize; 33] = [
    0, 0, 1, 2, 104, 105, 106, 112, 113, 114, 117, 118, 119, 126, 127, 128, 129, 2017, 2018, 2019,
    2020, 2023, 2024, 2025, 2026, 2027, 2028, 2031, 2032, 2033, 2047, 2048, 2060,
];
const FAR_LENGTHS: [usize; 5] = [4096, 16_383, 16_384, 20_000, 65_536];
/// Counts of entries where a form changes or a message of 2,048 octets is just reached.
const COUNTS: [usize; 26] = [
    0, 0, 1, 2, 7, 8, 15, 16, 17, 112, 113, 119, 120, 121, 126, 127, 128, 129, 225, 226, 227, 254,
    255, 255, 256, 300,
];
const SIZES: [u32; 8] = [0, 1, 1023, 1024, 1025, 65_536, u32::MAX - 1, u32::MAX];

const FUNCTIONS: [&str; 7] = [
    "write_resource_information",
    "write_allocate",
    "write_free",
    "write_read",
    "write_write",
    "write_bulk_read",
    "write_bulk_write",
];

/// One call of a drawn write function.
pub fn compare_writing(comparison: &mut Comparison, random: &mut Random) -> Result<(), Difference> {
    let writing = draw_writing(random);
    let length = area_length(random, &writing);
    let area = random.octets(length + 2 * BESIDE);
    let second = second_writes(&writing, area.clone());
    let mut proved_area = area.clone();
    let result = comparison.proved.write(lent(&mut proved_area), &writing);
    let proved = Seen {
        result,
        octets: proved_area,
        words: Vec::new(),
    };
    let function = FUNCTIONS[usize::from(writing.operation)];
    let number = second.result.min(0);
    let call = || format!("{writing} area of {length} in {}", octets(&area));
    let pair = (function, Some(writing.kind()), number);
    comparison.case(pair, &second, &proved, call)?;
    count_limits(comparison, &writing, length, second.result);
    Ok(())
}

/// Counts the limits of areas and messages that a call reached.
fn count_limits(comparison: &mut Comparison, writing: &Writing, area: usize, result: i32) {
    let message = writing
        .request()
        .and_then(|request| request_octets(&request));
    let length = message.map_or(0, |message| message.len());
    let limits = [
        (
            "slices that do not belong together",
            !writing.belong_together(),
        ),
        ("area one octet too short", area + 1 == length),
        ("area just long enough", area == length && length > 0),
        ("area with octets behind", area > length && length > 0),
        ("request of 2,048 octets", length == 2048),
    ];
    for (limit, is_reached) in limits {
        if is_reached {
            comparison.reached((limit, None, result.min(0)));
        }
    }
}

/// What the second program's library gives: a message in the area, or a refusal that leaves it.
fn second_writes(writing: &Writing, mut area: Vec<u8>) -> Seen {
    let written = writing
        .request()
        .and_then(|request| write_request(&request, lent(&mut area)));
    let result = match written {
        Ok(length) => length as i32,
        Err(number) => refused(number),
    };
    Seen {
        result,
        octets: area,
        words: Vec::new(),
    }
}

/// One octet too short, exactly long enough and longer as a rule.
fn area_length(random: &mut Random, writing: &Writing) -> usize {
    let message = writing
        .request()
        .and_then(|request| request_octets(&request));
    let needed = message.map_or(2048, |message| message.len());
    match random.weighted(&[15, 30, 30, 10, 10, 5]) {
        0 => needed - 1,
        1 => needed,
        2 => needed + random.between(1, 20),
        3 => random.pick(&[0, 1, 4, 5, 6]),
        4 => random.pick(&[2047, 2048, 2049, 2100]),
        _ => random.below(2100),
    }
}

fn draw_writing(random: &mut Random) -> Writing {
    let operation = random.below(7) as u8;
    let mut writing = Writing {
        operation,
        version: draw_version(random),
        locked: operation != 0 && random.chance(50),
        tag: random.number(),
        password: draw_password(random),
        mode: draw_mode(random),
        size: draw_size(random),
        ..Writing::default()
    };
    match operation {
        0 | 5 | 6 => draw_list(random, &mut writing),
        1 | 4 => {
            let length = data_length(random);
            writing.bytes = random.octets(length);
        }
        _ => {}
    }
    writing
}

fn draw_version(random: &mut Random) -> u8 {
    match random.weighted(&[85, 8, 7]) {
        0 => random.below(16) as u8,
        1 => random.pick(&[16, 17, 31, 32, 128, 255]),
        _ => random.octet(),
    }
}

/// A password counts only if locked; all zeros is one too.
fn draw_password(random: &mut Random) -> u64 {
    match random.below(8) {
        0 => 0,
        _ => random.number(),
    }
}

fn draw_mode(random: &mut Random) -> u8 {
    match random.weighted(&[80, 8, 12]) {
        0 => random.pick(&[0, 1, 2, 4, 5, 6]),
        1 => random.pick(&[3, 7, 8, 0x80, 0xFF]),
        _ => random.octet(),
    }
}

fn draw_size(random: &mut Random) -> u32 {
    match random.below(3) {
        0 => random.number() as u32,
        _ => random.pick(&SIZES),
    }
}

fn data_length(random: &mut Random) -> usize {
    match random.weighted(&[50, 30, 19, 1]) {
        0 => random.pick(&DATA_LENGTHS),
        1 => random.below(200),
        2 => random.below(2061),
        _ => random.pick(&FAR_LENGTHS),
    }
}

fn list_count(random: &mut Random) -> usize {
    match random.weighted(&[50, 30, 20]) {
        0 => random.pick(&COUNTS),
        1 => random.below(18),
        _ => random.below(301),
    }
}

fn draw_list(random: &mut Random, writing: &mut Writing) {
    let count = list_count(random);
    writing.tags = draw_numbers(random, count);
    if writing.operation == 0 {
        return;
    }
    if writing.locked {
        writing.passwords = draw_numbers(random, count);
    }
    if writing.operation == 6 {
        draw_parts(random, writing);
    }
    if random.chance(15) {
        part_slices(random, writing);
    }
}

fn draw_numbers(random: &mut Random, count: usize) -> Vec<u64> {
    (0..count).map(|_| random.number()).collect()
}

/// The parts of a bulk write: short ones, mostly behind one another; the last one at times up to the limit.
fn draw_parts(random: &mut Random, writing: &mut Writing) {
    let count = writing.tags.len();
    let most = random.pick(&[0, 1, 3, 20, 130, 400]);
    writing.lengths = (0..count).map(|_| random.between(0, most)).collect();
    if random.chance(40) {
        fill_message(random, writing);
    }
    let mut at = 0;
    for length in &writing.lengths {
        writing.starts.push(at);
        at += length;
    }
    let behind = random.pick(&[0, 0, 5]);
    writing.bytes = random.octets(at + behind);
    if random.chance(25) {
        overlap(random, writing);
    }
}

/// Makes the last part as long as a message of 2,047 to 2,050 octets wants, if the others leave room.
fn fill_message(random: &mut Random, writing: &mut Writing) {
    let Some((last, others)) = writing.lengths.split_last_mut() else {
        return;
    };
    let key = if writing.locked { 16 } else { 8 };
    let width = |length: usize| key + length + if length < 128 { 1 } else { 2 };
    let count = if others.len() < 127 { 1 } else { 2 };
    let body = count + others.iter().map(|length| width(*length)).sum::<usize>();
    let wanted: usize = random.pick(&[2041, 2042, 2042, 2043, 2044]);
    if let Some(length) = wanted.checked_sub(body + key + 2) {
        *last = length;
    }
}

/// Parts that share octets or stand in another order.
fn overlap(random: &mut Random, writing: &mut Writing) {
    for (start, length) in writing.starts.iter_mut().zip(&writing.lengths) {
        *start = random.between(0, writing.bytes.len() - length);
    }
}

/// Makes the slices of a list not belong together, as a rule.
fn part_slices(random: &mut Random, writing: &mut Writing) {
    let kinds = if writing.operation == 5 { 3 } else { 9 };
    match random.below(kinds) {
        0 => drop_one(random, &mut writing.passwords),
        1 => writing.passwords.push(1),
        2 => writing.locked = !writing.locked,
        3 => drop_one(random, &mut writing.starts),
        4 => drop_one(random, &mut writing.lengths),
        5 => writing.starts.push(0),
        6 => writing.lengths.push(0),
        7 => {
            writing.bytes.pop();
        }
        _ => place_outside(random, writing),
    }
}

fn drop_one<Number>(random: &mut Random, numbers: &mut Vec<Number>) {
    match random.below(3) {
        0 => numbers.clear(),
        _ => {
            numbers.pop();
        }
    }
}

/// A part that starts or ends behind the bytes, or whose end is no number.
fn place_outside(random: &mut Random, writing: &mut Writing) {
    if writing.starts.is_empty() {
        return;
    }
    let entry = random.below(writing.starts.len());
    let behind = writing.bytes.len() + 1;
    match random.below(4) {
        0 => writing.starts[entry] = behind,
        1 => writing.starts[entry] = usize::MAX,
        2 => writing.lengths[entry] = usize::MAX,
        _ => writing.lengths[entry] = behind - writing.starts[entry],
    }
}
