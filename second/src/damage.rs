//! Damages a request: cuts, stray octets, flipped bits, other versions and types, wrong lengths and counts.
//! Each kind aims at a line of document 01's table of denials (4, 12, 16 and 7), or at the order of two lines.

use crate::message::{push_length, LARGEST_LENGTH};
use crate::random::Random;

const KINDS: usize = 27;
const MODE_KIND: usize = 20;

/// The request damaged once, at times twice.
pub fn damaged(random: &mut Random, request: Vec<u8>) -> Vec<u8> {
    let kind = match request[2] {
        1 | 65 if random.chance(25) => MODE_KIND,
        0 | 5 | 6 | 69 | 70 if random.chance(25) => random.between(17, 19),
        _ => random.below(KINDS),
    };
    let once = damaged_by(random, request, kind);
    if random.chance(15) {
        let kind = random.below(KINDS);
        return damaged_by(random, once, kind);
    }
    once
}

fn damaged_by(random: &mut Random, request: Vec<u8>, kind: usize) -> Vec<u8> {
    if request.len() < 5 {
        return random_octets(random);
    }
    match kind {
        0..=6 => first_octets(random, request, kind),
        7..=12 => cuts_and_strays(random, request, kind),
        13..=16 => lengths(random, request, kind),
        17..=19 => counts(random, request, kind),
        MODE_KIND => mode(random, request),
        21 => flipped(random, request, 24),
        22 => flipped(random, request, 2048),
        23 => swapped_type(random, request),
        24 => replaced(random, request),
        25 => random_octets(random),
        _ => Vec::new(),
    }
}

/// Version, fill, command type, operation type and security profile.
fn first_octets(random: &mut Random, request: Vec<u8>, kind: usize) -> Vec<u8> {
    let mut request = request;
    match kind {
        0 => request[0] = other_version(random) << 4,
        1 => request[0] = other_version(random) << 4 | fill(random),
        2 => request[0] |= fill(random),
        3 => {
            let drawn = random.octet();
            request[1] = random.pick(&[0, 2, 3, 128, 254, 255, drawn]);
        }
        4 => request[2] = unknown_type(random),
        5 => {
            request[2] = unknown_type(random);
            request[3] = profile(random);
            if random.chance(30) {
                request[0] |= fill(random);
            }
        }
        _ => request[3] = profile(random),
    }
    request
}

fn other_version(random: &mut Random) -> u8 {
    (2 + random.below(15) as u8) % 16
}

fn fill(random: &mut Random) -> u8 {
    1 + random.below(15) as u8
}

fn profile(random: &mut Random) -> u8 {
    let drawn = random.between(1, 255) as u8;
    random.pick(&[1, 2, 128, 255, drawn])
}

fn unknown_type(random: &mut Random) -> u8 {
    let low = random.between(7, 64) as u8;
    let high = random.between(71, 255) as u8;
    random.pick(&[7, 64, 71, 128, 131, 193, 198, 255, low, high])
}

fn cuts_and_strays(random: &mut Random, request: Vec<u8>, kind: usize) -> Vec<u8> {
    let mut request = request;
    match kind {
        7 => request.truncate(random.below(request.len())),
        8 => {
            if random.chance(50) {
                request[2] = unknown_type(random);
            }
            request.truncate(random.pick(&[1, 2, 3, 3, 3, 4, 5, 6]));
        }
        9 => request.truncate(request.len() - 1),
        10 => {
            for _ in 0..random.between(1, 3) {
                request.push(random.pick(&[0, 0, 0xAA, 0x01]));
            }
        }
        11 => {
            request.pop();
            request = with_right_length(request);
        }
        _ => {
            request.push(random.pick(&[0, 0, 0xAA]));
            request = with_right_length(request);
        }
    }
    request.truncate(2048);
    request
}

/// A length or count somewhere in the request, in a wrong form or with a wrong number.
fn lengths(random: &mut Random, request: Vec<u8>, kind: usize) -> Vec<u8> {
    let places = length_places(&request);
    if places.is_empty() {
        return flipped(random, request, 24);
    }
    let place = if random.chance(40) {
        places[0]
    } else {
        random.pick(&places)
    };
    let number = length_at(&request, place);
    let (form, width) = match kind {
        13 => (longer_form(random, number), true),
        14 => (vec![0xC0 | (number >> 8) as u8, number as u8], true),
        15 => (shortest_form(number + 1), random.chance(70)),
        _ => (shortest_form(number.max(1) - 1), random.chance(70)),
    };
    replace_length(request, place, &form, width)
}

fn shortest_form(number: usize) -> Vec<u8> {
    let mut form = Vec::new();
    push_length(&mut form, number.min(LARGEST_LENGTH)).expect("it has a form");
    form
}

/// Forms that other encodings have for the same number.
fn longer_form(random: &mut Random, number: usize) -> Vec<u8> {
    let two = vec![0x80 | (number >> 8) as u8, number as u8];
    let marked = vec![0x81, number as u8];
    let three = vec![0x82, (number >> 8) as u8, number as u8];
    if number <= 127 && random.chance(80) {
        return two;
    }
    random.pick(&[two, marked, three])
}

/// Puts the form in the length's place; an inner one at times with the body's length made right again.
fn replace_length(request: Vec<u8>, place: usize, form: &[u8], repair: bool) -> Vec<u8> {
    let mut damaged = request[..place].to_vec();
    damaged.extend_from_slice(form);
    let behind = place + form_width(request[place]);
    damaged.extend_from_slice(request.get(behind..).unwrap_or(&[]));
    damaged.truncate(2048);
    if place > 4 && repair {
        return with_right_length(damaged);
    }
    damaged
}

/// The same body with its right length before it.
fn with_right_length(request: Vec<u8>) -> Vec<u8> {
    let Some(first) = request.get(4) else {
        return request;
    };
    let start = 4 + form_width(*first);
    let body = request.get(start..).unwrap_or(&[]);
    let mut repaired = request[..4].to_vec();
    push_length(&mut repaired, body.len()).expect("the body of a request fits");
    repaired.extend_from_slice(body);
    repaired.truncate(2048);
    repaired
}

fn form_width(first: u8) -> usize {
    if first < 0x80 {
        1
    } else {
        2
    }
}

fn length_at(request: &[u8], place: usize) -> usize {
    let first = usize::from(request[place]);
    if first < 0x80 {
        return first;
    }
    (first & 0x3F) << 8 | request.get(place + 1).map_or(0, |low| usize::from(*low))
}

/// Where the lengths and counts of a request stand, the body's first; those of a damaged one as far as they go.
fn length_places(request: &[u8]) -> Vec<usize> {
    let body = 4 + form_width(request[4]);
    let mut places = vec![4];
    match request[2] {
        0 | 5 | 69 => places.push(body),
        1 => places.push(body + 13),
        65 => places.push(body + 21),
        4 => places.push(body + 8),
        68 => places.push(body + 16),
        6 => memory_places(request, body, 8, &mut places),
        70 => memory_places(request, body, 16, &mut places),
        _ => {}
    }
    places.retain(|place| {
        place + 1 < request.len() || *place + 1 == request.len() && request[*place] < 0x80
    });
    places
}

fn memory_places(request: &[u8], body: usize, before: usize, places: &mut Vec<usize>) {
    let Some(first) = request.get(body) else {
        return;
    };
    places.push(body);
    let mut place = body + form_width(*first) + before;
    while place < request.len() {
        places.push(place);
        place += form_width(request[place]) + length_at(request, place) + before;
    }
}

/// The count of a list, or the count together with a cut or stray octet; others are flipped.
fn counts(random: &mut Random, request: Vec<u8>, kind: usize) -> Vec<u8> {
    let body = 4 + form_width(request[4]);
    let is_list = matches!(request[2], 0 | 5 | 6 | 69 | 70);
    if !is_list || body >= request.len() {
        return flipped(random, request, 24);
    }
    let count = length_at(&request, body);
    let other = match kind {
        17 => random.pick(&[17, 17, 18, 127, 128, 255, 16_383]),
        18 => count + 1,
        _ => count.max(1) - 1,
    };
    replace_length(request, body, &shortest_form(other), true)
}

fn mode(random: &mut Random, request: Vec<u8>) -> Vec<u8> {
    let mut request = request;
    let place = 4 + form_width(request[4]) + 8;
    if matches!(request[2], 1 | 65) && place < request.len() {
        let drawn = random.between(8, 255) as u8;
        request[place] = random.pick(&[3, 3, 7, 7, 8, 0x10, 0x80, 0xFC, drawn]);
        return request;
    }
    flipped(random, request, 24)
}

fn flipped(random: &mut Random, request: Vec<u8>, within: usize) -> Vec<u8> {
    let mut request = request;
    let place = random.below(request.len().min(within));
    request[place] ^= 1 << random.below(8);
    request
}

/// The body of one operation under the type of another.
fn swapped_type(random: &mut Random, request: Vec<u8>) -> Vec<u8> {
    let mut request = request;
    request[2] = random.pick(&[0, 1, 2, 3, 4, 5, 6, 65, 66, 67, 68, 69, 70]);
    request
}

fn replaced(random: &mut Random, request: Vec<u8>) -> Vec<u8> {
    let mut request = request;
    let place = random.below(request.len());
    match random.below(3) {
        0 => request[place] = random.octet(),
        1 => {
            request.remove(place);
        }
        _ => request.insert(place, random.octet()),
    }
    request.truncate(2048);
    request
}

fn random_octets(random: &mut Random) -> Vec<u8> {
    let length = random.pick(&[1, 2, 3, 4, 5, 6, 13, 40, 300]);
    let mut octets = random.octets(length);
    if random.chance(70) {
        octets[0] = 0x10;
    }
    if octets.len() > 1 && random.chance(70) {
        octets[1] = 0x01;
    }
    octets
}
