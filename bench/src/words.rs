//! Answers and entries told in the words of include/taxeedhuul.h, as the proved library and asn1c's decoder tell them.

use crate::gate::{Value, ANSWER_WORDS};

pub const TAG_WORDS: usize = 1;
pub const MEMORY_DATA_WORDS: usize = 3;
pub const RESOURCE_WORDS: usize = 4;

/// Where in an answer's words its start stands, and behind it the length of data or the count of a list.
pub const START: usize = 4;
pub const COUNT: usize = 5;

/// The value of these words; data is found by its start and length.
pub fn value(words: &[u64], data: impl Fn(u64, usize) -> Vec<u8>) -> Value {
    let (start, has_data) = match words.len() {
        ANSWER_WORDS => (START, matches!(words[0], 131 | 195 | 255)),
        MEMORY_DATA_WORDS => (1, true),
        _ => (0, false),
    };
    let mut value = Value {
        words: words.to_vec(),
        data: Vec::new(),
    };
    if has_data {
        value.data = data(words[start], words[start + 1] as usize);
    }
    if start > 0 {
        value.words[start] = 0;
    }
    value
}
