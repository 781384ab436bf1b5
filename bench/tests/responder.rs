//! The hand-written responder against the second program: every answer on drawn logs, other versions and options,
//! the vehicle's call, short answer areas, and the octets past every answer.
//! Rules: document 01. The logs of a seed are the same everywhere.

use bench::fast;
use second::commands::Commands;
use second::damage::damaged;
use second::draw::draw_log;
use second::random::Random;
use second::unit::{self, Port};

const SEEDS: [u64; 8] = [1, 2, 3, 7, 11, 2024, 65_537, 4_294_967_295];
const RECORDS: usize = 50_000;
const BEHIND: u8 = 0x5A;

/// Both units, and an answer area somewhat longer than asked for.
struct Pair {
    fast: fast::Unit,
    second: unit::Unit,
    area: [u8; 2100],
}

impl Pair {
    fn start(version: u8, allocation: bool, passwords: bool) -> Pair {
        Pair {
            fast: fast::Unit::start(version, allocation, passwords).expect("a version up to 15"),
            second: unit::Unit::start(version.into(), allocation, passwords)
                .expect("a version up to 15"),
            area: [BEHIND; 2100],
        }
    }

    /// Both answer alike, and what stands past the answer is kept.
    fn check(&mut self, port: Port, request: &[u8]) {
        let expected = self
            .second
            .respond(port, request, 2048)
            .expect("the area is long enough");
        self.area.fill(BEHIND);
        let length = self.fast.respond(fast_port(port), request, &mut self.area);
        assert_eq!(length, Ok(expected.len()), "{request:02X?}");
        let (answer, behind) = self.area.split_at(expected.len());
        assert_eq!(answer, expected, "{request:02X?}");
        assert!(behind.iter().all(|octet| *octet == BEHIND));
    }

    /// Every registered tag is told alike and holds the same, as far as it may be read.
    fn check_contents(&mut self) {
        for known in self.second.tags().to_vec() {
            let mut request = vec![self.version_octet(), 1, 0, 0, 9, 1];
            request.extend_from_slice(&known.tag);
            self.check(Port::Normal, &request);
            let mut request = vec![self.version_octet(), 1, 3, 0, 8];
            if let Some(password) = known.password {
                request[2..].copy_from_slice(&[67, 0, 16]);
                request.extend_from_slice(&known.tag);
                request.extend_from_slice(&password);
            } else {
                request.extend_from_slice(&known.tag);
            }
            self.check(Port::Secure, &request);
        }
    }

    fn version_octet(&mut self) -> u8 {
        let denial = self.second.respond(Port::Normal, &[], 2048);
        denial.expect("the area is long enough")[0]
    }
}

fn fast_port(port: Port) -> fast::Port {
    match port {
        Port::Normal => fast::Port::Normal,
        Port::Secure => fast::Port::Secure,
    }
}

/// The port and the request of a record.
fn command(record: &[u8]) -> (Port, &[u8]) {
    let port = match record[2] {
        0 => Port::Normal,
        _ => Port::Secure,
    };
    (port, &record[5..])
}

fn compare_logs(seed: u64) -> usize {
    let mut records = 0;
    for number in 1.. {
        let log = draw_log(seed, number);
        let mut pair = Pair::start(1, true, true);
        for record in 1..=log.records() {
            let (port, request) = command(log.record(record));
            pair.check(port, request);
        }
        pair.check_contents();
        records += log.records();
        if records >= RECORDS {
            break;
        }
    }
    records
}

#[test]
fn every_answer_on_drawn_logs() {
    let records: usize = SEEDS.iter().map(|seed| compare_logs(*seed)).sum();
    println!("{records} records of {} seeds, no difference", SEEDS.len());
    assert!(records >= 300_000);
}

fn fit_both(pair: &mut Pair, random: &mut Random) {
    let mut tag = random.eight();
    tag[0] |= 0x40 * u8::from(random.chance(90));
    if random.chance(20) && !pair.second.tags().is_empty() {
        tag = random.pick(pair.second.tags()).tag;
    }
    let size = random.pick(&[0, 1, 2, 16, 127, 128, 200, 700, 1023, 1024, 1025, 65_537]);
    let length = random.pick(&[0, 1, size.min(1025), size.min(1025) / 2, size.min(1025) + 1]);
    let first_data = random.octets(length);
    let eight = random.eight();
    let password = random.pick(&[None, None, Some([0; 8]), Some(eight)]);
    let spf_required = random.chance(30);
    let modes = [
        (unit::Mode::Both, fast::Mode::Both),
        (unit::Mode::WriteOnly, fast::Mode::WriteOnly),
        (unit::Mode::ReadOnly, fast::Mode::ReadOnly),
    ];
    let (second_mode, fast_mode) = random.pick(&modes);
    let expected = pair.second.fit(&unit::Fitting {
        tag,
        size: size as u64,
        mode: second_mode,
        spf_required,
        password,
        first_data: first_data.clone(),
    });
    let result = pair.fast.fit(&fast::Fitting {
        tag,
        size: size as u32,
        mode: fast_mode,
        spf_required,
        password,
        first_data: &first_data,
    });
    assert_eq!(result, expected);
}

/// Requests that suit the unit's tags, damaged ones among them, with the unit's version.
fn drawn_request(commands: &mut Commands, pair: &Pair, version: u8) -> (Port, Vec<u8>) {
    commands.unit = pair.second.clone();
    let (port, mut request) = commands.any();
    if commands.random.chance(25) {
        request = damaged(&mut commands.random, request);
    }
    if let Some(first) = request.first_mut() {
        if commands.random.chance(97) {
            *first = version << 4 | (*first & 0x0F);
        }
    }
    (port, request)
}

#[test]
fn other_versions_options_and_fitted_tags() {
    let mut records = 0;
    for number in 0..256 {
        let version = (number % 16) as u8;
        let options = number / 16;
        let mut pair = Pair::start(version, options % 2 == 0, options / 2 % 2 == 0);
        let mut commands = Commands::new(Random::new(90, number));
        commands.carelessness = 20;
        for _ in 0..300 {
            if commands.random.chance(10) {
                let mut random = commands.random.clone();
                fit_both(&mut pair, &mut random);
                commands.random = random;
            }
            let (port, request) = drawn_request(&mut commands, &pair, version);
            pair.check(port, &request);
            records += 1;
        }
        pair.check_contents();
    }
    println!("{records} records with drawn fittings, no difference");
}

#[test]
fn short_answer_areas() {
    let request = [0x10, 1, 0, 0, 1, 0];
    for length in [0, 1, 4, 24, 2047] {
        let mut pair = Pair::start(1, true, true);
        let mut area = vec![BEHIND; length];
        let port = fast::Port::Normal;
        assert_eq!(pair.fast.respond(port, &request, &mut area), Err(300));
        assert!(area.iter().all(|octet| *octet == BEHIND));
    }
}

/// Among them requests that would decode if they were shorter: a write of 2,033 octets and a list of 256 tags.
#[test]
fn long_requests() {
    let starts: [&[u8]; 5] = [
        &[0x10, 1, 4, 0],
        &[0x20, 1, 4, 0],
        &[0x11, 1, 4, 0],
        &[
            0x10, 1, 4, 0, 0x87, 0xFB, 0, 0, 0, 0, 0, 0, 0, 0, 0x87, 0xF1,
        ],
        &[0x10, 1, 5, 0, 0x88, 0x02, 0x81, 0],
    ];
    for start in starts {
        for length in [2048, 2049, 2056, 4096, 70_000] {
            let mut request = start.to_vec();
            request.resize(length, 0);
            Pair::start(1, true, true).check(Port::Normal, &request);
        }
    }
}

#[test]
fn versions_above_15() {
    for version in 16..=255 {
        assert_eq!(fast::Unit::start(version, true, true).err(), Some(301));
    }
}
