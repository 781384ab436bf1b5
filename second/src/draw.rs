//! Draws logs for the gate log program: each is one unit from its start, in phases of fill, use, churn and attack.
//! The n-th log of a seed's sequence depends on the seed and on n alone. Most logs end whole; the others end in
//! each of the ways that document 01 calls a bad record.

use crate::commands::{Command, Commands};
use crate::damage::damaged;
use crate::log::MARK;
use crate::random::Random;
use crate::unit::Port;

/// How a log ends.
#[derive(Clone, Copy, Debug, PartialEq, Eq, PartialOrd, Ord)]
pub enum Ending {
    EmptyInput,
    Whole,
    WrongMark,
    PortAbove1,
    LengthAbove2048,
    CutInMark,
    CutAfterMark,
    CutAfterPort,
    CutInLength,
    CutAfterLength,
    CutInRequest,
}

impl Ending {
    pub fn words(self) -> &'static str {
        match self {
            Ending::EmptyInput => "empty input",
            Ending::Whole => "ended whole",
            Ending::WrongMark => "wrong mark",
            Ending::PortAbove1 => "port above 1",
            Ending::LengthAbove2048 => "length above 2,048",
            Ending::CutInMark => "cut in the mark",
            Ending::CutAfterMark => "cut after the mark",
            Ending::CutAfterPort => "cut after the port",
            Ending::CutInLength => "cut in the length",
            Ending::CutAfterLength => "cut after the length",
            Ending::CutInRequest => "cut in the request",
        }
    }
}

pub const ENDINGS: [Ending; 11] = [
    Ending::EmptyInput,
    Ending::Whole,
    Ending::WrongMark,
    Ending::PortAbove1,
    Ending::LengthAbove2048,
    Ending::CutInMark,
    Ending::CutAfterMark,
    Ending::CutAfterPort,
    Ending::CutInLength,
    Ending::CutAfterLength,
    Ending::CutInRequest,
];

/// A drawn log, with the place where each whole record starts and, last, where they end.
pub struct Log {
    pub octets: Vec<u8>,
    pub starts: Vec<usize>,
    pub ending: Ending,
}

impl Log {
    /// The number of records that are answered.
    pub fn records(&self) -> usize {
        self.starts.len() - 1
    }

    /// The octets of the record with this number from 1; behind the last one, what the log ends with.
    pub fn record(&self, number: usize) -> &[u8] {
        let start = self.starts[(number - 1).min(self.records())];
        let end = self
            .starts
            .get(number)
            .copied()
            .unwrap_or(self.octets.len());
        &self.octets[start..end]
    }

    /// The request of an answered record.
    pub fn request(&self, number: usize) -> &[u8] {
        &self.record(number)[5..]
    }
}

#[derive(Clone, Copy, Debug, PartialEq, Eq)]
enum Phase {
    Fill,
    Use,
    Churn,
    Attack,
}

/// The log with this number, from 1, of the seed's sequence.
pub fn draw_log(seed: u64, number: u64) -> Log {
    let mut random = Random::new(seed, number);
    let records = draw_length(&mut random);
    let ending = if random.chance(40) {
        Ending::Whole
    } else {
        random.pick(&ENDINGS[2..])
    };
    let mut drawing = Drawing::new(random, records);
    drawing.draw_records();
    drawing.end(ending)
}

/// One log with this many records that ends whole.
pub fn draw_single_log(seed: u64, records: usize) -> Log {
    let mut drawing = Drawing::new(Random::new(seed, 0), records);
    drawing.draw_records();
    drawing.end(Ending::Whole)
}

fn draw_length(random: &mut Random) -> usize {
    match random.weighted(&[5, 10, 20, 45, 15, 5]) {
        0 => 0,
        1 => random.between(1, 10),
        2 => random.between(11, 150),
        3 => random.between(150, 600),
        4 => random.between(600, 1500),
        _ => random.between(1500, 4000),
    }
}

struct Drawing {
    commands: Commands,
    octets: Vec<u8>,
    starts: Vec<usize>,
    planned: usize,
    last: Option<Command>,
}

impl Drawing {
    fn new(random: Random, planned: usize) -> Drawing {
        Drawing {
            commands: Commands::new(random),
            octets: Vec::new(),
            starts: vec![0],
            planned,
            last: None,
        }
    }

    fn is_complete(&self) -> bool {
        self.starts.len() > self.planned
    }

    fn draw_records(&mut self) {
        let mut phase = Phase::Fill;
        while !self.is_complete() {
            self.draw_phase(phase);
            let weights = [22, 38, 22, 18];
            let next = self.commands.random.weighted(&weights);
            phase = [Phase::Fill, Phase::Use, Phase::Churn, Phase::Attack][next];
        }
    }

    fn draw_phase(&mut self, phase: Phase) {
        let length = match phase {
            Phase::Fill => self.commands.random.between(15, 70),
            _ => self.commands.random.between(5, 60),
        };
        self.commands.carelessness = match phase {
            Phase::Fill => 8,
            Phase::Use => 14,
            Phase::Churn => 10,
            Phase::Attack => 55,
        };
        for _ in 0..length {
            if self.is_complete() {
                return;
            }
            self.draw_step(phase);
        }
    }

    /// One record as a rule; a measured bulk read is two, and a full unit is eased at times.
    fn draw_step(&mut self, phase: Phase) {
        if self.commands.is_full() && self.commands.random.chance(12) {
            let command = self.commands.free();
            self.add(command);
            return;
        }
        let weights = match phase {
            Phase::Fill => [62, 3, 4, 14, 4, 4, 1, 4, 1, 2, 1],
            Phase::Use => [4, 2, 13, 19, 14, 15, 9, 8, 1, 12, 3],
            Phase::Churn => [33, 25, 8, 12, 6, 5, 2, 5, 1, 2, 1],
            Phase::Attack => [6, 8, 12, 12, 9, 9, 1, 4, 3, 34, 2],
        };
        let commands = &mut self.commands;
        let command = match commands.random.weighted(&weights) {
            0 => commands.allocate(),
            1 => commands.free(),
            2 => commands.read(),
            3 => commands.write(),
            4 => commands.bulk_read(),
            5 => commands.bulk_write(),
            6 => {
                for command in commands.measured_bulk_read() {
                    self.add(command);
                }
                return;
            }
            7 => commands.resource_information(),
            8 => commands.brimful(),
            9 => self.damaged_command(),
            _ => self.repeated_command(),
        };
        self.add(command);
    }

    fn damaged_command(&mut self) -> Command {
        let (port, request) = self.commands.any();
        (port, damaged(&mut self.commands.random, request))
    }

    /// The last request again, by either port.
    fn repeated_command(&mut self) -> Command {
        match self.last.clone() {
            Some((_, request)) if self.commands.random.chance(50) => (Port::Normal, request),
            Some((_, request)) => (Port::Secure, request),
            None => self.commands.any(),
        }
    }

    /// Adds the record and lets the model answer it.
    fn add(&mut self, command: Command) {
        if self.is_complete() {
            return;
        }
        let (port, request) = &command;
        push_record(&mut self.octets, *port, request);
        self.starts.push(self.octets.len());
        self.commands
            .unit
            .respond(*port, request, 2048)
            .expect("the answer area is long enough");
        self.last = Some(command);
    }

    fn end(mut self, ending: Ending) -> Log {
        let octets = self.ending_octets(ending);
        self.octets.extend_from_slice(&octets);
        let ending = if self.octets.is_empty() {
            Ending::EmptyInput
        } else {
            ending
        };
        Log {
            octets: self.octets,
            starts: self.starts,
            ending,
        }
    }

    /// What stands behind the last whole record.
    fn ending_octets(&mut self, ending: Ending) -> Vec<u8> {
        let (port, request) = self.commands.any();
        let mut octets = Vec::new();
        push_record(&mut octets, port, &request);
        let random = &mut self.commands.random;
        match ending {
            Ending::EmptyInput | Ending::Whole => octets.clear(),
            Ending::WrongMark => wrong_mark(random, &mut octets),
            Ending::PortAbove1 => {
                let drawn = random.between(2, 255) as u8;
                octets[2] = random.pick(&[2, 3, 0x31, 0x80, 0x81, 0xFF, drawn]);
            }
            Ending::LengthAbove2048 => too_long(random, &mut octets),
            Ending::CutInMark => octets.truncate(1),
            Ending::CutAfterMark => octets.truncate(2),
            Ending::CutAfterPort => octets.truncate(3),
            Ending::CutInLength => octets.truncate(4),
            Ending::CutAfterLength => octets.truncate(5),
            Ending::CutInRequest => octets.truncate(random.between(6, octets.len() - 1)),
        }
        let stops_early = matches!(
            ending,
            Ending::WrongMark | Ending::PortAbove1 | Ending::LengthAbove2048
        );
        if stops_early {
            self.add_behind(ending, &mut octets);
        }
        octets
    }

    /// Whole records behind a bad one, which no program may answer; or the bad one cut short.
    fn add_behind(&mut self, ending: Ending, octets: &mut Vec<u8>) {
        let shortest = match ending {
            Ending::WrongMark => 2,
            Ending::PortAbove1 => 3,
            _ => 5,
        };
        match self.commands.random.below(4) {
            0 => octets.truncate(self.commands.random.between(shortest, 5)),
            1 => {}
            _ => {
                for _ in 0..self.commands.random.between(1, 3) {
                    let (port, request) = self.commands.any();
                    push_record(octets, port, &request);
                }
            }
        }
    }
}

fn wrong_mark(random: &mut Random, octets: &mut [u8]) {
    let flipped = [0x4D, 0x41 ^ (1 << random.below(8))];
    let mark = random.pick(&[
        [0x41, 0x4D],
        [0x4C, 0x47],
        [0x4D, 0x42],
        [0x6D, 0x61],
        [0x00, 0x41],
        [0x0A, 0x4D],
        flipped,
    ]);
    octets[..2].copy_from_slice(&mark);
}

/// A length above 2,048, with that many octets behind it as a rule.
fn too_long(random: &mut Random, octets: &mut Vec<u8>) {
    let drawn = random.between(2049, 65_535);
    let length = random.pick(&[2049, 2049, 2050, 4096, 65_535, drawn]);
    octets[3..5].copy_from_slice(&(length as u16).to_be_bytes());
    if random.chance(70) {
        octets.resize(5 + length, 0);
    }
}

fn push_record(octets: &mut Vec<u8>, port: Port, request: &[u8]) {
    octets.extend_from_slice(&MARK);
    octets.push(match port {
        Port::Normal => 0,
        Port::Secure => 1,
    });
    octets.extend_from_slice(&(request.len() as u16).to_be_bytes());
    octets.extend_from_slice(request);
}
