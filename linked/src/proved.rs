//! The proved side: what the functions of the archive give, or the same altered in one named way.
//! The wrong ones show that the drawn calls reach the rules: `tell-apart` must notice every one of them. A function
//! that is not altered passes its arguments and its result on as they are.

use crate::archive::{self, Unit};
use crate::calls::{Fit, Slices, Writing, MALFORMED, TOO_SHORT};

#[derive(Clone, Copy, Debug, PartialEq, Eq)]
pub enum Wrong {
    ShortAreaBefore16,
    OctetBehindMessageChanged,
    OctetWrittenIntoShortArea,
    LockedIgnored,
    PlainListTakesPasswords,
    LastOf255EntriesDropped,
    WordNotZeroed,
    WordBehindChanged,
    ElevenWordsTaken,
    OctetsOver2048Cut,
    EntryPlaceNotMoved,
    EntryReadBehindEnd,
    Port2Accepted,
    AnswerAreaOf2047Taken,
    OctetBehindAnswerChanged,
    NineAndFiveExchanged,
    Mode3Fitted,
    SpfNotFitted,
    FirstDataDropped,
    Version16Started,
    ShortMemoryStarted,
}

use Wrong::*;

pub const NAMES: [(&str, Wrong); 21] = [
    ("short_area_before_16", ShortAreaBefore16),
    ("octet_behind_message_changed", OctetBehindMessageChanged),
    ("octet_written_into_short_area", OctetWrittenIntoShortArea),
    ("locked_ignored", LockedIgnored),
    ("plain_list_takes_passwords", PlainListTakesPasswords),
    ("last_of_255_entries_dropped", LastOf255EntriesDropped),
    ("word_not_zeroed", WordNotZeroed),
    ("word_behind_changed", WordBehindChanged),
    ("eleven_words_taken", ElevenWordsTaken),
    ("octets_over_2048_cut", OctetsOver2048Cut),
    ("entry_place_not_moved", EntryPlaceNotMoved),
    ("entry_read_behind_end", EntryReadBehindEnd),
    ("port_2_accepted", Port2Accepted),
    ("answer_area_of_2047_taken", AnswerAreaOf2047Taken),
    ("octet_behind_answer_changed", OctetBehindAnswerChanged),
    ("nine_and_five_exchanged", NineAndFiveExchanged),
    ("mode_3_fitted", Mode3Fitted),
    ("spf_not_fitted", SpfNotFitted),
    ("first_data_dropped", FirstDataDropped),
    ("version_16_started", Version16Started),
    ("short_memory_started", ShortMemoryStarted),
];

/// The wrong side of this name.
pub fn named(name: &str) -> Option<Wrong> {
    let known = NAMES.iter().find(|(known, _)| *known == name);
    known.map(|(_, wrong)| *wrong)
}

/// The readers of an entry of a list.
#[derive(Clone, Copy, Debug, PartialEq, Eq)]
pub enum EntryReader {
    Tag,
    MemoryData,
    Resource,
}

/// The archive, or one that is wrong in one way.
#[derive(Clone, Copy, Debug, Default)]
pub struct Proved {
    pub wrong: Option<Wrong>,
}

impl Proved {
    fn is(self, wrong: Wrong) -> bool {
        self.wrong == Some(wrong)
    }

    // ---- the gate writes

    pub fn write(self, area: &mut [u8], writing: &Writing) -> i32 {
        let result = written(area, &self.altered_writing(writing));
        if self.is(ShortAreaBefore16) && result == MALFORMED && area.len() < 6 {
            return TOO_SHORT;
        }
        if self.is(OctetBehindMessageChanged) && result >= 0 {
            change(area.get_mut(result as usize));
        }
        if self.is(OctetWrittenIntoShortArea) && result == TOO_SHORT {
            change(area.first_mut());
        }
        result
    }

    fn altered_writing(self, writing: &Writing) -> Writing {
        let mut writing = writing.clone();
        match self.wrong {
            Some(LockedIgnored) if !writing.is_list() => writing.locked = false,
            Some(PlainListTakesPasswords) if !writing.locked => writing.passwords.clear(),
            Some(LastOf255EntriesDropped)
                if writing.operation == 0 && writing.tags.len() == 255 =>
            {
                writing.tags.truncate(254)
            }
            _ => {}
        }
        writing
    }

    // ---- the gate reads

    pub fn read_answer(self, octets: &[u8], fields: &mut [u64]) -> i32 {
        let old = fields.to_vec();
        let octets = match self.wrong {
            Some(OctetsOver2048Cut) => &octets[..octets.len().min(2048)],
            _ => octets,
        };
        let result = archive::read_answer(octets, fields);
        if result >= 0 {
            match self.wrong {
                Some(WordNotZeroed) if result != 128 => fields[11] = old[11],
                Some(WordBehindChanged) => change(fields.get_mut(12)),
                _ => {}
            }
        }
        if self.is(ElevenWordsTaken) && result == TOO_SHORT && fields.len() == 11 {
            let mut words = [0; 12];
            let result = archive::read_answer(octets, &mut words);
            fields.copy_from_slice(&words[..11]);
            return result;
        }
        result
    }

    pub fn read_entry(
        self,
        reader: EntryReader,
        octets: &[u8],
        at: usize,
        fields: &mut [u64],
    ) -> i32 {
        let read = match reader {
            EntryReader::Tag => archive::read_tag,
            EntryReader::MemoryData => archive::read_memory_data,
            EntryReader::Resource => archive::read_resource,
        };
        let result = read(octets, at, fields);
        if self.is(EntryPlaceNotMoved) && result > 0 {
            return at as i32;
        }
        if self.is(EntryReadBehindEnd) && result == MALFORMED && at == octets.len() {
            return at as i32;
        }
        result
    }

    // ---- the unit

    pub fn start(
        self,
        mut slices: Slices,
        version: u8,
        allocation: bool,
        passwords: bool,
    ) -> Result<Unit, (i32, Slices)> {
        let version = match version {
            16 if self.is(Version16Started) => 0,
            _ => version,
        };
        if self.is(ShortMemoryStarted) && slices.memory.len() + 1 == Slices::MEMORY {
            slices.memory.push(0);
        }
        archive::start(slices, version, allocation, passwords)
    }

    pub fn respond(self, unit: &mut Unit, port: u8, request: &[u8], answer: &mut [u8]) -> i32 {
        let port = match port {
            2 if self.is(Port2Accepted) => 0,
            _ => port,
        };
        if self.is(AnswerAreaOf2047Taken) && answer.len() == 2047 {
            return respond_shorter(unit, port, request, answer);
        }
        let result = unit.respond(port, request, answer);
        if self.is(OctetBehindAnswerChanged) && result >= 0 {
            change(answer.get_mut(result as usize));
        }
        result
    }

    pub fn fit(self, unit: &mut Unit, fit: &Fit) -> i32 {
        let mut fit = fit.clone();
        match self.wrong {
            Some(Mode3Fitted) if fit.mode == 3 => fit.mode = 0,
            Some(SpfNotFitted) => fit.spf = false,
            Some(FirstDataDropped) if fit.first.len() <= fit.size as usize => fit.first.clear(),
            _ => {}
        }
        match unit.fit(&fit) {
            -9 if self.is(NineAndFiveExchanged) => -5,
            -5 if self.is(NineAndFiveExchanged) => -9,
            result => result,
        }
    }
}

/// An answer into an area of one octet less than a unit wants.
fn respond_shorter(unit: &mut Unit, port: u8, request: &[u8], answer: &mut [u8]) -> i32 {
    let mut longer = answer.to_vec();
    longer.push(0);
    let result = unit.respond(port, request, &mut longer);
    answer.copy_from_slice(&longer[..answer.len()]);
    result
}

/// The function of the operation.
fn written(area: &mut [u8], writing: &Writing) -> i32 {
    let write = match writing.operation {
        0 => archive::write_resource_information,
        1 => archive::write_allocate,
        2 => archive::write_free,
        3 => archive::write_read,
        4 => archive::write_write,
        5 => archive::write_bulk_read,
        _ => archive::write_bulk_write,
    };
    write(area, writing)
}

fn change<Number: From<u8> + std::ops::BitXorAssign>(place: Option<&mut Number>) {
    if let Some(place) = place {
        *place ^= Number::from(1);
    }
}
