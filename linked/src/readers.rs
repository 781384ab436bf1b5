//! Compares `read_answer` and the readers of entries with the second program's `read_answer`: the result and all words
//! of the lent slice, those behind the told ones included. Lists are walked entry by entry, and the readers of entries
//! are also tried at places where no entry stands.

use crate::answers::draw_octets;
use crate::calls::{lent, numbers, octets as shown, refused, Seen, BESIDE, TOO_SHORT};
use crate::compare::{Comparison, Difference};
use crate::proved::EntryReader;
use second::message::{
    is_mode_code, length_width, push_length, read_answer, Answer, Form, MemoryData, Reply, ILLEGAL,
    MESSAGE_LIMIT,
};
use second::random::Random;

const ANSWER_WORDS: usize = 12;
const READERS: [EntryReader; 3] = [
    EntryReader::Tag,
    EntryReader::MemoryData,
    EntryReader::Resource,
];

/// Reads drawn octets, and the entries of their list if they have one.
pub fn compare_reading(comparison: &mut Comparison, random: &mut Random) -> Result<(), Difference> {
    let (done, octets) = draw_octets(random);
    compare_answer(comparison, random, &octets)?;
    let outcome = read_answer(&octets).map_or_else(refused, |_| 0);
    comparison.reached((done, None, outcome));
    if let Ok(answer) = read_answer(&octets) {
        compare_list(comparison, random, &octets, &answer.reply)?;
    }
    if random.chance(40) {
        let reader = random.pick(&READERS);
        let at = draw_place(random, octets.len());
        compare_entry(comparison, random, reader, &octets, at)?;
    }
    Ok(())
}

fn compare_answer(
    comparison: &mut Comparison,
    random: &mut Random,
    octets: &[u8],
) -> Result<(), Difference> {
    let old = draw_words(random, ANSWER_WORDS);
    let (kind, second) = match read_answer(octets) {
        Ok(answer) => {
            let words = answer_words(&answer, octets.len());
            (Some(words[0] as u8), filled(&old, words[0] as i32, &words))
        }
        Err(number) => (None, seen(refused(number), old.clone())),
    };
    let mut fields = old.clone();
    let result = comparison.proved.read_answer(octets, lent(&mut fields));
    let proved = seen(result, fields);
    let call = || format!("octets {} fields {}", shown(octets), lent_words(&old));
    let pair = ("read_answer", kind, second.result.min(0));
    comparison.case(pair, &second, &proved, call)
}

/// Words, of which a part is lent: mostly enough of them, at times one or more too few.
fn draw_words(random: &mut Random, needed: usize) -> Vec<u64> {
    let length = match random.weighted(&[75, 10, 15]) {
        0 => needed + random.below(3),
        1 => needed - 1,
        _ => random.between(0, needed + 2),
    };
    let all = length + 2 * BESIDE;
    (0..all).map(|_| random.number()).collect()
}

fn lent_words(all: &[u64]) -> String {
    let length = all.len() - 2 * BESIDE;
    format!("{length} in {}", numbers(all))
}

fn seen(result: i32, words: Vec<u64>) -> Seen {
    Seen {
        result,
        octets: Vec::new(),
        words,
    }
}

/// The header's rule: the words stand at the front and those behind them stay; too few of them are refused.
fn filled(old: &[u64], result: i32, words: &[u64]) -> Seen {
    let mut new = old.to_vec();
    let fields = lent(&mut new);
    if fields.len() < words.len() {
        return seen(TOO_SHORT, old.to_vec());
    }
    fields[..words.len()].copy_from_slice(words);
    seen(result, new)
}

/// The twelve words of what the second program read. Data, supplement and entries stand at the end of the octets.
fn answer_words(answer: &Answer, length: usize) -> [u64; ANSWER_WORDS] {
    let mut words = [0; ANSWER_WORDS];
    words[0] = u64::from(answer_kind(&answer.reply));
    words[1] = answer.version;
    let mut tell = |last: usize, number: usize| {
        words[4] = (length - last) as u64;
        words[5] = number as u64;
    };
    match &answer.reply {
        Reply::Allocate(_, tag) | Reply::Free(_, tag) | Reply::Write(_, tag) => {
            words[3] = u64::from_be_bytes(*tag)
        }
        Reply::Read(_, memory) => {
            tell(memory.data.len(), memory.data.len());
            words[3] = u64::from_be_bytes(memory.tag);
        }
        Reply::BulkRead(_, entries) => {
            tell(entries.iter().map(entry_width).sum(), entries.len());
        }
        Reply::BulkWrite(_, tags) => tell(8 * tags.len(), tags.len()),
        Reply::Denial { status, supplement } => {
            tell(supplement.len(), supplement.len());
            words[2] = *status;
        }
        Reply::ResourceInformation(told) => {
            tell(17 * told.tags.len(), told.tags.len());
            words[6..].copy_from_slice(&[
                told.receivable_size,
                told.remaining_tags,
                told.remaining_octets,
                told.remaining_volatile_tags,
                told.remaining_volatile_octets,
                told.bulk_limit,
            ]);
        }
    }
    words
}

/// The type of an answer by document 01's table, or 255.
fn answer_kind(reply: &Reply) -> u8 {
    let (plain, form) = match reply {
        Reply::ResourceInformation(_) => (128, &Form::Plain),
        Reply::Allocate(form, _) => (129, form),
        Reply::Free(form, _) => (130, form),
        Reply::Read(form, _) => (131, form),
        Reply::Write(form, _) => (132, form),
        Reply::BulkRead(form, _) => (133, form),
        Reply::BulkWrite(form, _) => (134, form),
        Reply::Denial { .. } => return 255,
    };
    match form {
        Form::Plain => plain,
        Form::WithPassword => plain + 64,
    }
}

fn entry_width(memory: &MemoryData) -> usize {
    8 + length_width(memory.data.len()) + memory.data.len()
}

// ---- the entries of a list

/// Walks a list: all entries up to 20, some of a longer one, and at times the place behind the last.
fn compare_list(
    comparison: &mut Comparison,
    random: &mut Random,
    octets: &[u8],
    reply: &Reply,
) -> Result<(), Difference> {
    let (reader, widths): (EntryReader, Vec<usize>) = match reply {
        Reply::BulkRead(_, entries) => (
            EntryReader::MemoryData,
            entries.iter().map(entry_width).collect(),
        ),
        Reply::BulkWrite(_, tags) => (EntryReader::Tag, vec![8; tags.len()]),
        Reply::ResourceInformation(told) => (EntryReader::Resource, vec![17; told.tags.len()]),
        _ => return Ok(()),
    };
    let mut at = octets.len() - widths.iter().sum::<usize>();
    for width in &widths {
        if widths.len() <= 20 || random.below(widths.len()) < 4 {
            compare_entry(comparison, random, reader, octets, at)?;
        }
        at += width;
    }
    if random.chance(10) {
        compare_entry(comparison, random, reader, octets, at)?;
    }
    Ok(())
}

/// A place anywhere, at the end or far behind it.
fn draw_place(random: &mut Random, length: usize) -> usize {
    match random.below(4) {
        0 => random.pick(&[usize::MAX, usize::MAX - 7, 1 << 32, 65_536]),
        1 => length.saturating_sub(random.pick(&[0, 1, 7, 8, 9, 10, 16, 17, 18])),
        2 => random.pick(&[0, 1, 4, 5, 6, 7, 23, 24, 25]),
        _ => random.between(0, length + 3),
    }
}

fn compare_entry(
    comparison: &mut Comparison,
    random: &mut Random,
    reader: EntryReader,
    octets: &[u8],
    at: usize,
) -> Result<(), Difference> {
    if comparison.is_complete() {
        return Ok(());
    }
    let (function, needed) = match reader {
        EntryReader::Tag => ("read_tag", 1),
        EntryReader::MemoryData => ("read_memory_data", 3),
        EntryReader::Resource => ("read_resource", 4),
    };
    let old = draw_words(random, needed);
    let second = match entry_at(reader, octets, at) {
        Some((next, words)) => filled(&old, next as i32, &words),
        None => seen(refused(ILLEGAL), old.clone()),
    };
    let mut fields = old.clone();
    let result = comparison
        .proved
        .read_entry(reader, octets, at, lent(&mut fields));
    let proved = seen(result, fields);
    let call = || {
        format!(
            "octets {} at {at:X} fields {}",
            shown(octets),
            lent_words(&old)
        )
    };
    comparison.case(
        (function, None, second.result.min(0)),
        &second,
        &proved,
        call,
    )
}

/// The entry that stands at a place: where the next does, and its words. The second program reads lists as a whole;
/// a tag, a length and a mode code are its own here too.
fn entry_at(reader: EntryReader, octets: &[u8], at: usize) -> Option<(usize, Vec<u64>)> {
    if octets.len() > MESSAGE_LIMIT {
        return None;
    }
    let tag = number_at(octets, at, 8)?;
    match reader {
        EntryReader::Tag => Some((at + 8, vec![tag])),
        EntryReader::MemoryData => {
            let (length, width) = length_at(octets, at + 8)?;
            let start = at + 8 + width;
            octets.get(start..start + length)?;
            Some((start + length, vec![tag, start as u64, length as u64]))
        }
        EntryReader::Resource => {
            let mode = number_at(octets, at + 8, 1)?;
            let held = number_at(octets, at + 9, 4)?;
            let size = number_at(octets, at + 13, 4)?;
            is_mode_code(mode as u8).then(|| (at + 17, vec![tag, mode, held, size]))
        }
    }
}

fn number_at(octets: &[u8], at: usize, width: usize) -> Option<u64> {
    let octets = octets.get(at..at.checked_add(width)?)?;
    Some(
        octets
            .iter()
            .fold(0, |number, octet| number << 8 | u64::from(*octet)),
    )
}

/// The length at a place and the width of its form, if it is the form that the second program writes.
fn length_at(octets: &[u8], at: usize) -> Option<(usize, usize)> {
    let first = usize::from(*octets.get(at)?);
    let length = match first {
        0..=0x7F => first,
        _ => (first & 0x3F) << 8 | usize::from(*octets.get(at + 1)?),
    };
    let mut form = Vec::new();
    push_length(&mut form, length).ok()?;
    octets[at..]
        .starts_with(&form)
        .then_some((length, form.len()))
}
