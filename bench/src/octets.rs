//! Lengths and short runs of octets, as the responder and the codec both need them.
//! Rule: document 01, "Messages": 0 to 127 in one octet, 128 to 16,383 in two with top bits 10, high part first, and
//! the shorter form wherever it can hold the number.

/// The form of a length from 128 to 16,383.
#[inline]
pub fn two_octets(length: usize) -> [u8; 2] {
    (0x8000 | length as u16).to_be_bytes()
}

/// How many octets the form of this length has.
#[inline]
pub fn length_width(length: usize) -> usize {
    if length < 128 {
        1
    } else {
        2
    }
}

/// The width of data with its length before it.
#[inline]
pub fn data_width(length: usize) -> usize {
    length_width(length) + length
}

/// A length or count in its one form, and what stands behind it.
#[inline]
pub fn split_length(octets: &[u8]) -> Option<(usize, &[u8])> {
    match octets {
        [first @ 0..=127, rest @ ..] => Some((usize::from(*first), rest)),
        [first @ 128..=191, second, rest @ ..] => {
            let length = usize::from(first & 0x3F) << 8 | usize::from(*second);
            (length >= 128).then_some((length, rest))
        }
        _ => None,
    }
}

/// Data behind its length, and what stands behind it.
#[inline]
pub fn split_data(octets: &[u8]) -> Option<(&[u8], &[u8])> {
    let (length, rest) = split_length(octets)?;
    rest.split_at_checked(length)
}

/// The body behind the first four octets of a message, if its length is exactly the rest.
#[inline]
pub fn body(message: &[u8]) -> Option<&[u8]> {
    let (length, body) = split_length(message.get(4..)?)?;
    (length == body.len()).then_some(body)
}

/// A mode code of the tables: read only, write only or both, with SPF or without.
#[inline]
pub fn is_mode_code(code: u8) -> bool {
    code <= 6 && code & 3 != 3
}

/// Copies data into a place of its length, without a call if there is little.
#[inline(always)]
pub fn copy_data(place: &mut [u8], data: &[u8]) {
    let length = data.len();
    let place = &mut place[..length];
    match length {
        0 => {}
        1..=3 => {
            place[0] = data[0];
            place[length / 2] = data[length / 2];
            place[length - 1] = data[length - 1];
        }
        4..=7 => copy_ends::<4>(place, data),
        8..=15 => copy_ends::<8>(place, data),
        16..=32 => copy_ends::<16>(place, data),
        _ => place.copy_from_slice(data),
    }
}

/// Copies the first and the last octets, so many that nothing is left between them.
#[inline(always)]
fn copy_ends<const WIDTH: usize>(place: &mut [u8], data: &[u8]) {
    if let (Some(first), Some(last)) = (data.first_chunk::<WIDTH>(), data.last_chunk::<WIDTH>()) {
        let behind = data.len() - WIDTH;
        place[..WIDTH].copy_from_slice(first);
        place[behind..].copy_from_slice(last);
    }
}
