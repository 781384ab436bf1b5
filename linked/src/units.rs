//! Compares units: one of the archive and one of the second program, started alike and then given the same calls.
//! Seen of a call are its result, the whole answer area, the head's five words, and what the memory holds; of a
//! refusal, that the lent slices are untouched. Requests are drawn by the second program's `commands` and `damage`.

use crate::archive::Unit;
use crate::calls::{lent, octets, refused, Fit, Seen, Slices, BESIDE, MALFORMED, TOO_SHORT};
use crate::compare::{Comparison, Difference, Pair};
use second::commands::{Command, Commands};
use second::damage::damaged;
use second::random::Random;
use second::unit::{is_unit_managed, normal, Fitting, Mode, Port, FIRST_KIND};

const LONGEST_AREA: usize = 4096;
const TELLING_SIZES: [u32; 10] = [0, 1, 2, 1023, 1024, 1024, 1025, 65_537, 1 << 31, u32::MAX];

/// Starts some units, and gives calls to the last one.
pub fn compare_units(comparison: &mut Comparison, mut random: Random) -> Result<(), Difference> {
    for _ in 0..random.between(1, 3) {
        compare_start(comparison, &mut random)?;
    }
    let version = random.below(16) as u8;
    let (allocation, passwords) = draw_options(&mut random);
    let slices = draw_slices(&mut random, Slices::HEAD, Slices::TABLE, Slices::MEMORY);
    let Some(unit) = start(comparison, slices, version, allocation, passwords)? else {
        return Ok(());
    };
    let noise = random.octets(2 * (LONGEST_AREA + BESIDE));
    let calls = random.between(20, 500);
    let mut commands = Commands::new(random);
    let (number, wrong) = (u64::from(version), comparison.second);
    commands.unit = second::unit::Unit::start_wrong(number, allocation, passwords, wrong)
        .expect("the version is at most 15");
    let both = Both {
        comparison,
        commands,
        unit,
        options: [u64::from(version), allocation.into(), passwords.into()],
        noise,
        last: None,
    };
    both.run(calls)
}

/// Both options mostly.
fn draw_options(random: &mut Random) -> (bool, bool) {
    random.pick(&[
        (true, true),
        (true, true),
        (true, false),
        (false, true),
        (false, false),
    ])
}

/// Slices with any content.
fn draw_slices(random: &mut Random, head: usize, table: usize, memory: usize) -> Slices {
    Slices {
        head: (0..head).map(|_| random.number()).collect(),
        table: (0..table).map(|_| random.number()).collect(),
        memory: random.octets(memory),
    }
}

/// Slices of which one has not its length.
fn other_slices(random: &mut Random) -> Slices {
    let mut lengths = [Slices::HEAD, Slices::TABLE, Slices::MEMORY];
    let which = random.below(3);
    let right = lengths[which];
    lengths[which] = random.pick(&[0, 1, right - 1, right - 1, right + 1, 2 * right]);
    draw_slices(random, lengths[0], lengths[1], lengths[2])
}

fn compare_start(comparison: &mut Comparison, random: &mut Random) -> Result<(), Difference> {
    let drawn = random.octet();
    let version = random.below(18) as u8;
    let version = random.pick(&[version, version, version, 16, drawn]);
    let (allocation, passwords) = draw_options(random);
    let slices = match random.below(2) {
        0 => other_slices(random),
        _ => draw_slices(random, Slices::HEAD, Slices::TABLE, Slices::MEMORY),
    };
    start(comparison, slices, version, allocation, passwords)?;
    Ok(())
}

/// Starts a unit on both sides: 301 for the version as the second program says it, then 300 by the header's rule, as
/// the second program has no lent slices.
fn start(
    comparison: &mut Comparison,
    slices: Slices,
    version: u8,
    allocation: bool,
    passwords: bool,
) -> Result<Option<Unit>, Difference> {
    if comparison.is_complete() {
        return Ok(None);
    }
    let second = match second::unit::Unit::start(u64::from(version), allocation, passwords) {
        Err(number) => untouched(refused(number)),
        Ok(_) if !slices.are_a_units() => untouched(TOO_SHORT),
        Ok(_) => seen(
            0,
            vec![version.into(), allocation.into(), passwords.into(), 0, 0, 0],
        ),
    };
    let (unit, proved) =
        match comparison
            .proved
            .start(slices.clone(), version, allocation, passwords)
        {
            Ok(unit) => {
                let words = unit_words(unit.slices());
                (Some(unit), seen(0, words))
            }
            Err((result, left)) => (None, seen(result, vec![u64::from(left == slices)])),
        };
    let lengths = (slices.head.len(), slices.table.len(), slices.memory.len());
    let call = || {
        format!("lengths {lengths:X?} version {version:X} allocation {allocation} passwords {passwords}")
    };
    comparison.case(("start", None, second.result), &second, &proved, call)?;
    Ok(unit)
}

fn seen(result: i32, words: Vec<u64>) -> Seen {
    Seen {
        result,
        octets: Vec::new(),
        words,
    }
}

/// A refusal: the one word says that the lent slices are as they were.
fn untouched(result: i32) -> Seen {
    seen(result, vec![1])
}

/// The head's words, and what the memory holds.
fn unit_words(slices: &Slices) -> Vec<u64> {
    let mut words = slices.head.clone();
    words.push(content(&slices.memory));
    words
}

/// The sum of the sixth powers of all octets. Document 01 does not say where in the memory an area lies, but that all
/// octets outside of areas are zero: the sum over the memory is that over the areas.
fn content(octets: &[u8]) -> u64 {
    octets.iter().map(|octet| u64::from(*octet).pow(6)).sum()
}

/// Two units that were given the same calls; the second program's is the model of the drawing.
struct Both<'a> {
    comparison: &'a mut Comparison,
    commands: Commands,
    unit: Unit,
    options: [u64; 3],
    noise: Vec<u8>,
    last: Option<Command>,
}

impl Both<'_> {
    fn run(mut self, calls: usize) -> Result<(), Difference> {
        let fits = self.commands.random.pick(&[2, 10, 40]);
        for call in 0..calls {
            if self.comparison.is_complete() {
                break;
            }
            if call % 40 == 0 {
                self.commands.carelessness = self.commands.random.pick(&[8, 12, 55]);
            }
            self.step(fits)?;
        }
        Ok(())
    }

    /// One call as a rule; a measured bulk read is two.
    fn step(&mut self, fits: usize) -> Result<(), Difference> {
        if self.commands.random.chance(2) {
            return self.compare_other_slices();
        }
        if self.commands.random.chance(fits) {
            let fit = self.draw_fit();
            return self.compare_fit(&fit);
        }
        for (port, request) in self.draw_commands() {
            self.compare_respond(port, request)?;
        }
        Ok(())
    }

    // ---- respond

    /// Requests of the unit's own version as a rule, a share of them damaged, too long or given before.
    fn draw_commands(&mut self) -> Vec<Command> {
        let commands = &mut self.commands;
        let drawn = match commands
            .random
            .weighted(&[22, 6, 9, 14, 9, 9, 3, 6, 2, 16, 3, 1])
        {
            _ if commands.is_full() && commands.random.chance(12) => vec![commands.free()],
            0 => vec![commands.allocate()],
            1 => vec![commands.free()],
            2 => vec![commands.read()],
            3 => vec![commands.write()],
            4 => vec![commands.bulk_read()],
            5 => vec![commands.bulk_write()],
            6 => commands.measured_bulk_read(),
            7 => vec![commands.resource_information()],
            8 => vec![commands.brimful()],
            9 => return vec![self.damaged_command()],
            10 => return vec![self.repeated_command()],
            _ => vec![self.over_long_command()],
        };
        drawn
            .into_iter()
            .map(|(port, request)| (port, self.of_own_version(request)))
            .collect()
    }

    /// The drawing writes version 1.
    fn of_own_version(&mut self, mut request: Vec<u8>) -> Vec<u8> {
        if request.first() == Some(&0x10) && self.commands.random.chance(98) {
            request[0] = (self.options[0] as u8) << 4;
        }
        request
    }

    fn damaged_command(&mut self) -> Command {
        let (port, request) = self.commands.any();
        let request = self.of_own_version(request);
        let request = damaged(&mut self.commands.random, request);
        (port, self.of_own_version(request))
    }

    fn over_long_command(&mut self) -> Command {
        let (port, mut request) = self.commands.any();
        let length = self.commands.random.pick(&[2049, 2050, 3000]);
        request.resize(length, 0);
        (port, request)
    }

    /// The last request again, by either port.
    fn repeated_command(&mut self) -> Command {
        let port = self.commands.random.pick(&[Port::Normal, Port::Secure]);
        match self.last.clone() {
            Some((_, request)) => (port, request),
            None => self.commands.any(),
        }
    }

    /// An area of 2,048 octets or more as a rule, with old content and octets beside it.
    fn draw_area(&mut self) -> Vec<u8> {
        let random = &mut self.commands.random;
        let length = match random.weighted(&[70, 23, 3, 2, 2]) {
            0 => 2048,
            1 => random.pick(&[2049, 2050, 3000, LONGEST_AREA]),
            2 => 2047,
            3 => 0,
            _ => random.below(2048),
        };
        let start = random.below(LONGEST_AREA);
        self.noise[start..start + length + 2 * BESIDE].to_vec()
    }

    fn draw_port(&mut self, port: Port) -> u8 {
        let random = &mut self.commands.random;
        if random.chance(3) {
            let drawn = random.between(2, 255) as u8;
            return random.pick(&[2, 3, 0x80, 0xFF, drawn]);
        }
        match port {
            Port::Normal => 0,
            Port::Secure => 1,
        }
    }

    fn compare_respond(&mut self, port: Port, request: Vec<u8>) -> Result<(), Difference> {
        if self.comparison.is_complete() {
            return Ok(());
        }
        let number = self.draw_port(port);
        let area = self.draw_area();
        let second = self.second_responds(number, &request, area.clone());
        let before = self.move_unit();
        let mut answer = area.clone();
        let proved = self.comparison.proved;
        let result = proved.respond(&mut self.unit, number, &request, lent(&mut answer));
        let proved = self.proved_seen(result, answer, &before);
        let call = || {
            let length = area.len() - 2 * BESIDE;
            let request = octets(&request);
            format!("port {number:X} request {request} answer area of {length}")
        };
        let pair = respond_pair(&request, &second);
        self.comparison.case(pair, &second, &proved, call)?;
        self.last = Some((port, request));
        self.count_full_memory();
        Ok(())
    }

    /// The second program's ports are two; others are refused with 16 by the header's rule, before a short area.
    fn second_responds(&mut self, port: u8, request: &[u8], mut area: Vec<u8>) -> Seen {
        let unit = &mut self.commands.unit;
        let place = lent(&mut area);
        let answer = match port {
            0 => unit.respond(Port::Normal, request, place.len()),
            1 => unit.respond(Port::Secure, request, place.len()),
            _ => Err(16),
        };
        let result = answer.map(|answer| {
            place[..answer.len()].copy_from_slice(&answer);
            answer.len() as i32
        });
        self.second_seen(result, area)
    }

    /// Goes on with a copy, as a unit may be copied as a whole; the unit before the call is left.
    fn move_unit(&mut self) -> Unit {
        let copy = self.unit.clone();
        std::mem::replace(&mut self.unit, copy)
    }

    // ---- what is seen

    fn second_seen(&self, result: Result<i32, u16>, octets: Vec<u8>) -> Seen {
        let (result, words) = match result {
            Ok(result) => (result, self.second_words()),
            Err(number) => (refused(number), vec![1]),
        };
        Seen {
            result,
            octets,
            words,
        }
    }

    fn second_words(&self) -> Vec<u64> {
        let unit = &self.commands.unit;
        let mut words = self.options.to_vec();
        words.push(unit.tags().len() as u64);
        words.push(unit.octets_in_use());
        words.push(unit.tags().iter().map(|known| content(&known.area)).sum());
        words
    }

    fn proved_seen(&self, result: i32, octets: Vec<u8>, before: &Unit) -> Seen {
        let words = match result {
            0.. => unit_words(self.unit.slices()),
            _ => vec![is_same(&self.unit, before)],
        };
        Seen {
            result,
            octets,
            words,
        }
    }

    fn count_full_memory(&mut self) {
        if self.commands.remaining_octets() == 0 {
            self.comparison.reached(("a full memory", None, 0));
        }
    }

    // ---- fit

    fn draw_fit(&mut self) -> Fit {
        let size = self.draw_size();
        let length = self.draw_first_length(size);
        let tag = self.draw_tag();
        let random = &mut self.commands.random;
        let drawn = random.between(3, 255) as u8;
        Fit {
            tag,
            size,
            mode: [0, 1, 2, 3, drawn][random.weighted(&[60, 18, 14, 3, 5])],
            spf: random.chance(30),
            locked: random.chance(40),
            password: random.number() * random.below(8).min(1) as u64,
            first: random.octets(length),
        }
    }

    /// A unit-managed tag as a rule, mostly one that is not registered, with its ignored bits set at times.
    fn draw_tag(&mut self) -> u64 {
        let (_, request) = match self.commands.random.chance(85) {
            true => self.commands.allocate(),
            false => self.commands.free(),
        };
        let body = if request[4] < 0x80 { 5 } else { 6 };
        let mut tag = [0; 8];
        tag.copy_from_slice(&request[body..body + 8]);
        if self.commands.random.chance(90) {
            tag[0] |= 0x40;
        }
        u64::from_be_bytes(tag)
    }

    /// At the limits of an area and of the memory's remaining octets, or any.
    fn draw_size(&mut self) -> u32 {
        let remaining = self.commands.remaining_octets() as u32;
        let random = &mut self.commands.random;
        if remaining <= 1024 && random.chance(40) {
            return random.pick(&[remaining, remaining, remaining + 1, remaining.max(1) - 1]);
        }
        match random.weighted(&[15, 50, 35]) {
            0 => random.pick(&TELLING_SIZES),
            1 => random.between(1, 200) as u32,
            _ => random.between(1, 1024) as u32,
        }
    }

    /// First data up to the size, and over it.
    fn draw_first_length(&mut self, size: u32) -> usize {
        let size = size.min(1100) as usize;
        let random = &mut self.commands.random;
        match random.weighted(&[20, 40, 20, 12, 8]) {
            0 => 0,
            1 => random.between(0, size),
            2 => size,
            3 => size + 1,
            _ => random.between(0, 2100),
        }
    }

    fn compare_fit(&mut self, fit: &Fit) -> Result<(), Difference> {
        let pair = self.fit_name(fit);
        let fitted = self.second_fits(fit);
        let second = self.second_seen(fitted, Vec::new());
        let before = self.move_unit();
        let result = self.comparison.proved.fit(&mut self.unit, fit);
        let proved = self.proved_seen(result, Vec::new(), &before);
        let pair = match second.result {
            -5 | -6 | -9 | -12 => pair,
            _ => "fit",
        };
        self.comparison
            .case((pair, None, second.result), &second, &proved, || {
                fit.to_string()
            })?;
        self.count_full_memory();
        Ok(())
    }

    /// The second program's modes are three; codes above 2 are refused with 16 by the header's rule.
    fn second_fits(&mut self, fit: &Fit) -> Result<i32, u16> {
        let mode = match fit.mode {
            0 => Mode::Both,
            1 => Mode::WriteOnly,
            2 => Mode::ReadOnly,
            _ => return Err(16),
        };
        let fitting = Fitting {
            tag: fit.tag.to_be_bytes(),
            size: u64::from(fit.size),
            mode,
            spf_required: fit.spf,
            password: fit.locked.then(|| fit.password.to_be_bytes()),
            first_data: fit.first.clone(),
        };
        self.commands.unit.fit(&fitting).map(|()| 0)
    }

    /// Which way to a refusal it is, if it is refused.
    fn fit_name(&self, fit: &Fit) -> &'static str {
        let tag = fit.tag.to_be_bytes();
        let tags = self.commands.unit.tags();
        if !is_unit_managed(&tag) {
            return "fit of a tag not unit-managed";
        }
        if tags.iter().any(|known| known.tag == normal(&tag)) {
            return "fit of a registered tag";
        }
        if fit.locked && self.options[2] == 0 {
            return "fit with a password not fitted";
        }
        if !(1..=FIRST_KIND.area).contains(&u64::from(fit.size)) {
            return "fit of a bad size";
        }
        if fit.first.len() > fit.size as usize {
            return "fit of data over the size";
        }
        match tags.len() == FIRST_KIND.tags {
            true => "fit into a full table",
            false => "fit into a memory without room",
        }
    }

    // ---- slices of other lengths

    /// Slices that have not a unit's lengths: 16 for the port or the mode, then 300, by the header's rule.
    fn compare_other_slices(&mut self) -> Result<(), Difference> {
        let unit = Unit::of_other_lengths(other_slices(&mut self.commands.random));
        if self.commands.random.chance(50) {
            return self.fit_other_slices(unit);
        }
        self.respond_other_slices(unit)
    }

    fn fit_other_slices(&mut self, mut unit: Unit) -> Result<(), Difference> {
        let fit = self.draw_fit();
        let before = unit.clone();
        let second = untouched(if fit.mode > 2 { MALFORMED } else { TOO_SHORT });
        let result = self.comparison.proved.fit(&mut unit, &fit);
        let proved = seen(result, vec![is_same(&unit, &before)]);
        let call = || format!("in slices of other lengths, {fit}");
        let pair = ("fit", None, second.result);
        self.comparison.case(pair, &second, &proved, call)
    }

    fn respond_other_slices(&mut self, mut unit: Unit) -> Result<(), Difference> {
        let (port, request) = self.commands.any();
        let port = self.draw_port(port);
        let area = self.draw_area();
        let before = unit.clone();
        let mut second = untouched(if port > 1 { MALFORMED } else { TOO_SHORT });
        let mut answer = area.clone();
        let proved = self.comparison.proved;
        let result = proved.respond(&mut unit, port, &request, lent(&mut answer));
        let mut proved = seen(result, vec![is_same(&unit, &before)]);
        (second.octets, proved.octets) = (area, answer);
        let request = octets(&request);
        let call = || format!("in slices of other lengths, port {port:X} request {request}");
        let pair = ("respond", None, second.result);
        self.comparison.case(pair, &second, &proved, call)
    }
}

/// The word of a refusal: 1 if the slices are as they were.
fn is_same(unit: &Unit, before: &Unit) -> u64 {
    u64::from(unit.slices() == before.slices())
}

/// The operation and the outcome of an answered request; 4, 16 and an unknown type stand under no operation.
fn respond_pair(request: &[u8], second: &Seen) -> Pair {
    if second.result < 0 {
        return ("respond", None, second.result);
    }
    let answer = &second.octets[BESIDE..];
    let status = match answer[1] {
        255 => answer[2],
        _ => 0,
    };
    let operation = request.get(2).copied();
    let operation = operation.filter(|kind| matches!(kind, 0..=6 | 65..=70));
    match status {
        4 | 16 => ("respond", None, status.into()),
        _ => ("respond", operation, status.into()),
    }
}
