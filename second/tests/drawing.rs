//! The drawn logs: the same for a seed everywhere, and reaching each rule of document 01 often enough.
//! Each reached rule is named by a line below; a name that occurs too seldom fails the test.

mod common;

use second::draw::{draw_log, draw_single_log, Log};
use second::message::{
    length_width, read_request, Allocation, MemoryData, Operation, Password, Tag,
};
use second::unit::{is_unit_managed, may_read, needs_spf, normal, Port, Registered, Unit};
use std::collections::BTreeMap;

const RECORDS: usize = 60_000;
const SELDOM: usize = 20;

const RULES: [&str; 55] = [
    "allocated as the 32nd tag",
    "allocated the last octet",
    "allocated in freed room",
    "allocated a volatile tag",
    "allocated with zeros for password",
    "allocated with an initial value",
    "allocated with an initial value longer than the area",
    "5 for the table alone",
    "5 for the memory alone, by one octet",
    "5 for both",
    "6 for a unit-managed tag",
    "9 for 0",
    "9 for 1,025",
    "9 for the greatest size",
    "9 in a full table",
    "area of 1",
    "area of 1,024",
    "wrote nothing",
    "wrote 127",
    "wrote 128",
    "wrote the whole area",
    "9 by one octet",
    "wrote less than held",
    "single with a password one bit off",
    "single with zeros for no password",
    "single with ignored bits",
    "bulk of 0",
    "bulk of 1",
    "bulk of 15",
    "bulk of 16",
    "bulk of 17",
    "bulk over 127",
    "bulk with a repeated tag",
    "bulk with a tag repeated in ignored bits only",
    "bulk with a wrong password",
    "bulk with a right password behind a wrong one",
    "plain bulk with a protected tag",
    "password bulk with an unprotected tag",
    "bulk with an SPF tag by the normal port",
    "bulk of strangers",
    "bulk read of 2,042",
    "bulk read too long by one octet",
    "bulk read with a shorter entry behind one too long",
    "resource information of a protected tag",
    "resource information of an SPF tag by the normal port",
    "resource information of a written write-only tag",
    "whole request of 2,047",
    "whole request of 2,048",
    "other version and fill",
    "12 with three octets",
    "12 with a wrong profile",
    "16 for a length with C0",
    "16 for a longer length",
    "16 for more than 16 entries",
    "empty request",
];

/// A unit before a request, the request, and the outcome: 0 for an answer, or the denial's number.
struct Exchange<'a> {
    unit: &'a Unit,
    port: Port,
    request: &'a [u8],
    answer: &'a [u8],
    freed: bool,
}

type Names = Vec<&'static str>;

impl Exchange<'_> {
    fn outcome(&self) -> u8 {
        match self.answer[1] {
            0xFF => self.answer[2],
            _ => 0,
        }
    }

    fn find(&self, tag: &Tag) -> Option<&Registered> {
        self.unit
            .tags()
            .iter()
            .find(|known| known.tag == normal(tag))
    }

    fn names(&self) -> Names {
        let mut names = Names::new();
        match read_request(self.request) {
            Ok(request) if self.outcome() != 4 => {
                self.whole(&mut names);
                self.decoded(&request.operation, &mut names);
            }
            _ => self.damaged(&mut names),
        }
        names
    }

    fn whole(&self, names: &mut Names) {
        match self.request.len() {
            2047 => names.push("whole request of 2,047"),
            2048 => names.push("whole request of 2,048"),
            _ => {}
        }
    }

    fn decoded(&self, operation: &Operation, names: &mut Names) {
        match operation {
            Operation::ResourceInformation(tags) => self.resource(tags, names),
            Operation::Allocate(allocation, password) => {
                self.allocation(allocation, password, names)
            }
            Operation::Free(tag, password) | Operation::Read(tag, password) => {
                self.single(tag, password, names)
            }
            Operation::Write(memory, password) => {
                self.single(&memory.tag, password, names);
                self.write(memory, names);
            }
            Operation::BulkRead(list) => {
                let entries = list.clone().into_entries();
                self.bulk(&entries, names);
                self.bulk_read(&entries, names);
            }
            Operation::BulkWrite(list) => {
                let entries = list.clone().into_entries();
                let entries: Vec<_> = entries
                    .iter()
                    .map(|(memory, password)| (memory.tag, *password))
                    .collect();
                self.bulk(&entries, names);
            }
        }
    }

    fn allocation(&self, allocation: &Allocation, password: &Option<Password>, names: &mut Names) {
        let tags = self.unit.tags().len();
        let remaining = 8192 - self.unit.octets_in_use();
        let size = allocation.size;
        match self.outcome() {
            0 => self.allocated(allocation, password, names),
            5 if size <= remaining => names.push("5 for the table alone"),
            5 if tags < 32 && size == remaining + 1 => {
                names.push("5 for the memory alone, by one octet")
            }
            5 if tags == 32 => names.push("5 for both"),
            6 if is_unit_managed(&allocation.tag) => names.push("6 for a unit-managed tag"),
            9 if tags == 32 => names.push("9 in a full table"),
            9 if size == 0 => names.push("9 for 0"),
            9 if size == 1025 => names.push("9 for 1,025"),
            9 if size == 4_294_967_295 => names.push("9 for the greatest size"),
            _ => {}
        }
    }

    fn allocated(&self, allocation: &Allocation, password: &Option<Password>, names: &mut Names) {
        let size = allocation.size;
        let in_use = self.unit.octets_in_use() + size;
        let initial = allocation.initial_value.len() as u64;
        for (name, holds) in [
            ("allocated as the 32nd tag", self.unit.tags().len() == 31),
            ("allocated the last octet", in_use == 8192),
            ("allocated in freed room", self.freed),
            ("allocated a volatile tag", allocation.tag[0] & 0x80 != 0),
            (
                "allocated with zeros for password",
                *password == Some([0; 8]),
            ),
            (
                "allocated with an initial value",
                initial > 0 && initial <= size,
            ),
            (
                "allocated with an initial value longer than the area",
                initial > size,
            ),
            ("area of 1", size == 1),
            ("area of 1,024", size == 1024),
        ] {
            if holds {
                names.push(name);
            }
        }
    }

    fn single(&self, tag: &Tag, password: &Option<Password>, names: &mut Names) {
        let Some(known) = self.find(tag) else {
            return;
        };
        if let (Some(own), Some(given)) = (known.password, password) {
            let apart = u64::from_be_bytes(own) ^ u64::from_be_bytes(*given);
            if apart.count_ones() == 1 {
                names.push("single with a password one bit off");
            }
        }
        if known.password.is_none() && *password == Some([0; 8]) {
            names.push("single with zeros for no password");
        }
        if tag[0] & 0x3F != 0 && self.outcome() == 0 {
            names.push("single with ignored bits");
        }
    }

    fn write(&self, memory: &MemoryData, names: &mut Names) {
        let Some(known) = self.find(&memory.tag) else {
            return;
        };
        let length = memory.data.len();
        let written = self.outcome() == 0;
        for (name, holds) in [
            ("wrote nothing", written && length == 0),
            ("wrote 127", written && length == 127),
            ("wrote 128", written && length == 128),
            ("wrote the whole area", written && length == known.size()),
            (
                "9 by one octet",
                self.outcome() == 9 && length == known.size() + 1,
            ),
            (
                "wrote less than held",
                written && length < known.held_length,
            ),
        ] {
            if holds {
                names.push(name);
            }
        }
    }

    fn bulk(&self, entries: &[(Tag, Option<Password>)], names: &mut Names) {
        match entries.len() {
            0 => names.push("bulk of 0"),
            1 => names.push("bulk of 1"),
            15 => names.push("bulk of 15"),
            16 => names.push("bulk of 16"),
            17 => names.push("bulk of 17"),
            128.. => names.push("bulk over 127"),
            _ => {}
        }
        if entries.len() > 16 || entries.is_empty() {
            return;
        }
        if entries.iter().all(|(tag, _)| self.find(tag).is_none()) {
            names.push("bulk of strangers");
        }
        self.repeats(entries, names);
        self.passwords(entries, names);
    }

    fn repeats(&self, entries: &[(Tag, Option<Password>)], names: &mut Names) {
        for (place, (tag, _)) in entries.iter().enumerate() {
            if self.find(tag).is_none() {
                continue;
            }
            for (earlier, _) in &entries[..place] {
                if earlier == tag {
                    names.push("bulk with a repeated tag");
                } else if normal(earlier) == normal(tag) {
                    names.push("bulk with a tag repeated in ignored bits only");
                }
            }
        }
    }

    fn passwords(&self, entries: &[(Tag, Option<Password>)], names: &mut Names) {
        let mut wrong_before = false;
        for (tag, password) in entries {
            let Some(known) = self.find(tag) else {
                continue;
            };
            if needs_spf(known.mode) && self.port == Port::Normal {
                names.push("bulk with an SPF tag by the normal port");
            }
            match (known.password, password) {
                (Some(_), None) => names.push("plain bulk with a protected tag"),
                (None, Some(_)) => names.push("password bulk with an unprotected tag"),
                (Some(own), Some(given)) if own != *given => {
                    wrong_before = true;
                    names.push("bulk with a wrong password");
                }
                (Some(_), Some(_)) if wrong_before => {
                    names.push("bulk with a right password behind a wrong one")
                }
                _ => {}
            }
        }
    }

    fn bulk_read(&self, entries: &[(Tag, Option<Password>)], names: &mut Names) {
        if self.outcome() != 0 {
            return;
        }
        if self.answer.len() == 2048 {
            names.push("bulk read of 2,042");
        }
        let mut body = 1;
        let mut too_long = false;
        for (tag, password) in entries {
            let Some(known) = self.find(tag) else {
                continue;
            };
            let reached = !needs_spf(known.mode) || self.port == Port::Secure;
            if !reached || known.password != *password || !may_read(known.mode) {
                continue;
            }
            let width = 8 + length_width(known.held_length) + known.held_length;
            if body + width > 2042 {
                too_long = true;
                if body + width == 2043 {
                    names.push("bulk read too long by one octet");
                }
                continue;
            }
            body += width;
            if too_long {
                names.push("bulk read with a shorter entry behind one too long");
            }
        }
    }

    fn resource(&self, tags: &[Tag], names: &mut Names) {
        if self.outcome() != 0 {
            return;
        }
        for known in tags.iter().filter_map(|tag| self.find(tag)) {
            if known.password.is_some() {
                names.push("resource information of a protected tag");
            }
            if needs_spf(known.mode) && self.port == Port::Normal {
                names.push("resource information of an SPF tag by the normal port");
            }
            if !may_read(known.mode) && known.held_length > 0 {
                names.push("resource information of a written write-only tag");
            }
        }
    }

    /// Requests that do not decode; the forms of lengths are looked for in the body's length and a list's count.
    fn damaged(&self, names: &mut Names) {
        let Some(first) = self.request.first() else {
            names.push("empty request");
            return;
        };
        let octet = |place: usize| self.request.get(place).copied();
        if self.outcome() == 4 && first & 0x0F != 0 {
            names.push("other version and fill");
        }
        if self.outcome() == 12 && self.request.len() == 3 {
            names.push("12 with three octets");
        }
        if self.outcome() == 12 && octet(3).is_some_and(|profile| profile != 0) {
            names.push("12 with a wrong profile");
        }
        if self.outcome() == 16 && self.request.len() > 3 && self.request[..2] == [0x10, 1] {
            self.damaged_length(names);
        }
    }

    fn damaged_length(&self, names: &mut Names) {
        let length = self.request.get(4..6).unwrap_or(&[0, 0]);
        let rest = self.request.len().saturating_sub(6);
        let number = usize::from(length[0] & 0x3F) << 8 | usize::from(length[1]);
        if length[0] >= 0xC0 && number == rest {
            names.push("16 for a length with C0");
        }
        if length[0] == 0x80 && number == rest && rest <= 127 {
            names.push("16 for a longer length");
        }
        let is_list = matches!(self.request[2], 0 | 5 | 6 | 69 | 70);
        let count = second::message::list_count(self.request);
        if is_list && count.is_ok_and(|count| count > 16) {
            names.push("16 for more than 16 entries");
        }
    }
}

/// Runs the log through a unit and counts the names of the rules reached.
fn count(log: &Log, counts: &mut BTreeMap<&'static str, usize>) {
    let mut unit = common::unit();
    let mut granted = 0;
    for number in 1..=log.records() {
        let before = unit.clone();
        let port = match log.record(number)[2] {
            0 => Port::Normal,
            _ => Port::Secure,
        };
        let request = log.request(number);
        let answer = unit.respond(port, request, 2048).expect("an answer");
        granted += unit.octets_in_use().saturating_sub(before.octets_in_use());
        let exchange = Exchange {
            unit: &before,
            port,
            request,
            answer: &answer,
            freed: granted > 8192,
        };
        for name in exchange.names() {
            *counts.entry(name).or_default() += 1;
        }
    }
}

#[test]
fn every_rule_is_reached() {
    let mut counts = BTreeMap::new();
    let mut records = 0;
    let mut number = 0;
    while records < RECORDS {
        number += 1;
        let log = draw_log(2024, number);
        records += log.records();
        count(&log, &mut counts);
    }
    for (name, count) in &counts {
        println!("{count:6} {name}");
        assert!(RULES.contains(name), "{name} is not in the list");
    }
    for name in RULES {
        let count = counts.get(name).copied().unwrap_or(0);
        assert!(count >= SELDOM, "{name}: {count}");
    }
}

/// FNV-1a over the octets.
fn fingerprint(octets: &[u8]) -> u64 {
    octets.iter().fold(0xCBF2_9CE4_8422_2325, |sum, octet| {
        (sum ^ u64::from(*octet)).wrapping_mul(0x0000_0100_0000_01B3)
    })
}

/// A change of the drawing changes these numbers, and then they are to be renewed; the machine must not.
#[test]
fn same_logs_everywhere() {
    let logs: Vec<u8> = (1..=20)
        .flat_map(|number| draw_log(7, number).octets)
        .collect();
    assert_eq!(
        logs,
        (1..=20)
            .flat_map(|number| draw_log(7, number).octets)
            .collect::<Vec<u8>>()
    );
    assert_ne!(draw_log(7, 1).octets, draw_log(8, 1).octets);
    assert_ne!(draw_log(7, 1).octets, draw_log(7, 2).octets);
    assert_eq!(format!("{:016X}", fingerprint(&logs)), "74BA17A9D813DC86");
}

#[test]
fn single_log_has_its_records() {
    let log = draw_single_log(1, 500);
    assert_eq!(log.records(), 500);
    assert_eq!(log.starts.last(), Some(&log.octets.len()));
}
