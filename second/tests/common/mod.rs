//! What the tests share: octets written as in the papers, with K, P and V for the known tags and password.

#![allow(dead_code)]

use second::log::hexadecimal;
use second::unit::{Port, Unit};

pub const K: [u8; 8] = [0x00, 0x11, 0x22, 0x33, 0x44, 0x55, 0x66, 0x77];
pub const P: [u8; 8] = [1, 2, 3, 4, 5, 6, 7, 8];
pub const V: [u8; 8] = [0x80, 0xAA, 0xBB, 0xCC, 0xDD, 0xEE, 0xFF, 0x00];

/// The octets of a text such as `10 01 03 00 08 K`.
pub fn octets(text: &str) -> Vec<u8> {
    let mut octets = Vec::new();
    for word in text.split_whitespace() {
        match word {
            "K" => octets.extend_from_slice(&K),
            "P" => octets.extend_from_slice(&P),
            "V" => octets.extend_from_slice(&V),
            _ => octets.push(u8::from_str_radix(word, 16).expect("two hexadecimal digits")),
        }
    }
    octets
}

/// The text's octets followed by others.
pub fn with(text: &str, others: &[u8]) -> Vec<u8> {
    let mut all = octets(text);
    all.extend_from_slice(others);
    all
}

/// A unit with version 1 and both options.
pub fn unit() -> Unit {
    Unit::start(1, true, true).expect("version 1 starts")
}

/// Asks the unit and wants exactly this answer.
pub fn expect_octets(unit: &mut Unit, port: Port, request: &[u8], answer: &[u8]) {
    let given = unit.respond(port, request, 2048).expect("an answer");
    assert_eq!(
        hexadecimal(&given),
        hexadecimal(answer),
        "answer to {}",
        hexadecimal(request)
    );
}

/// The same for the normal port, with texts.
pub fn expect(unit: &mut Unit, request: &str, answer: &str) {
    expect_octets(unit, Port::Normal, &octets(request), &octets(answer));
}

pub fn expect_secure(unit: &mut Unit, request: &str, answer: &str) {
    expect_octets(unit, Port::Secure, &octets(request), &octets(answer));
}

/// The tag with this number as its last octet.
pub fn numbered(number: u8) -> [u8; 8] {
    [0x00, 1, 2, 3, 4, 5, 6, number]
}

/// An allocation request with no initial value.
pub fn allocation(tag: &[u8; 8], mode: u8, size: u32) -> Vec<u8> {
    let mut request = with("10 01 01 00 0E", tag);
    request.push(mode);
    request.extend_from_slice(&size.to_be_bytes());
    request.push(0);
    request
}

/// A write request for data of any length.
pub fn write(tag: &[u8; 8], data: &[u8]) -> Vec<u8> {
    let mut body = tag.to_vec();
    second::message::push_length(&mut body, data.len()).expect("a length");
    body.extend_from_slice(data);
    enveloped(4, &body)
}

/// A list request of plain tags.
pub fn list(operation_type: u8, tags: &[[u8; 8]]) -> Vec<u8> {
    let mut body = Vec::new();
    second::message::push_length(&mut body, tags.len()).expect("a length");
    body.extend(tags.concat());
    enveloped(operation_type, &body)
}

pub fn enveloped(message_type: u8, body: &[u8]) -> Vec<u8> {
    let mut message = vec![0x10, 0x01, message_type, 0x00];
    second::message::push_length(&mut message, body.len()).expect("a length");
    message.extend_from_slice(body);
    message
}

/// The number of a denial, or 0 for another answer.
pub fn outcome(unit: &mut Unit, port: Port, request: &[u8]) -> u8 {
    let answer = unit.respond(port, request, 2048).expect("an answer");
    match answer[1] {
        0xFF => answer[2],
        _ => 0,
    }
}
