//! Compares another gate log program with this one on drawn logs, line by line, and counts what the logs reached.
//! Rules: a pair of operation and outcome is counted as document 01's lines decide it; the table of pairs that a
//! gate log can reach is `REACHABLE`, and a comparison that misses one of them has not compared enough.

use crate::draw::{draw_log, draw_single_log, Ending, Log, ENDINGS};
use crate::log::{hexadecimal, run_log};
use crate::wrong::NAMES;
use std::collections::btree_map::{BTreeMap, Entry};
use std::io::{self, Read, Write};
use std::process::{Command, Stdio};

/// The answer is no denial.
const ANSWERED: u8 = 0;

/// Log 0 of a seed is one long log that ends whole: what only large numbers and a long history show.
const LONG_LOG: usize = 200_000;

fn log_of(seed: u64, number: u64) -> Log {
    match number {
        0 => draw_single_log(seed, LONG_LOG),
        _ => draw_log(seed, number),
    }
}

/// The outcomes that a gate log can reach, by operation; none is a request that does not decode.
/// The unit has version 1 and both options, no tag is ever fitted by the vehicle, and the answer area is long enough.
/// Never: 1, 2, 3 and 255 (not given by this unit), 300 (not an answer), 16, 4 and 12 behind a decoded request.
const REACHABLE: [(Option<u8>, &[u8]); 14] = [
    // Does not decode: 16 by many lines, 4 for another version, 12 for an operation type that is not in the table.
    // No other line stands before decoding.
    (None, &[4, 12, 16]),
    // Resource information has a list, so 7; it tells of registered tags only and denies nothing else.
    (Some(0), &[ANSWERED, 7]),
    // Allocate has no list, so no 7. 6 for a registered or unit-managed tag, 9 for the size, 5 for the table or the
    // memory. It asks for no port, password or mode, so no 11, 10, 8.
    (Some(1), &[ANSWERED, 5, 6, 9]),
    // Free: 6, 11 on the normal port, 10. It asks for no mode or size, so no 8, 9. Allocation leaves tags with and
    // without a password, so 10 is reached by the plain form (missing) and with a password (another, or not wanted).
    (Some(2), &[ANSWERED, 6, 10, 11]),
    // Read: 6, 11, 10, 8 for a tag that was allocated write only. No size is asked, so no 9.
    (Some(3), &[ANSWERED, 6, 8, 10, 11]),
    // Write: 6, 11, 10, 8 for a tag that was allocated read only, 9 for data longer than the area.
    (Some(4), &[ANSWERED, 6, 8, 9, 10, 11]),
    // Bulk read and bulk write: 7, and else always a list as the answer, as bad entries are passed over.
    (Some(5), &[ANSWERED, 7]),
    (Some(6), &[ANSWERED, 7]),
    // With a password the same lines apply, and 17 entries with a password fit a request.
    (Some(65), &[ANSWERED, 5, 6, 9]),
    (Some(66), &[ANSWERED, 6, 10, 11]),
    (Some(67), &[ANSWERED, 6, 8, 10, 11]),
    (Some(68), &[ANSWERED, 6, 8, 9, 10, 11]),
    (Some(69), &[ANSWERED, 7]),
    (Some(70), &[ANSWERED, 7]),
];

/// The first line in which two programs differ.
pub struct Difference {
    pub log: u64,
    pub record: usize,
    pub octets: Vec<u8>,
    pub ours: String,
    pub theirs: String,
}

/// What the compared logs reached.
#[derive(Default)]
struct Counts {
    records: usize,
    logs: u64,
    pairs: BTreeMap<(Option<u8>, u8), u64>,
    endings: BTreeMap<Ending, u64>,
}

impl Counts {
    fn add(&mut self, log: &Log, ours: &[u8]) {
        self.records += log.records();
        self.logs += 1;
        *self.endings.entry(log.ending).or_default() += 1;
        let lines = ours.split(|octet| *octet == b'\n');
        for (number, line) in (1..=log.records()).zip(lines) {
            let pair = pair(log.request(number), line);
            *self.pairs.entry(pair).or_default() += 1;
        }
    }

    fn print(&self, output: &mut impl Write) -> io::Result<()> {
        for ((operation, outcome), count) in &self.pairs {
            writeln!(output, "{} {count}", pair_words(*operation, *outcome))?;
        }
        for (ending, count) in &self.endings {
            writeln!(output, "{} {count}", ending.words())?;
        }
        let (records, logs) = (self.records, self.logs);
        writeln!(output, "{records} records, {logs} logs, no difference")
    }

    /// The reachable pairs and the endings that did not occur.
    fn missing(&self) -> Vec<String> {
        let reachable = REACHABLE.iter().flat_map(|(operation, outcomes)| {
            outcomes.iter().map(move |outcome| (*operation, *outcome))
        });
        let pairs = reachable
            .filter(|pair| !self.pairs.contains_key(pair))
            .map(|(operation, outcome)| pair_words(operation, outcome));
        let endings = ENDINGS
            .iter()
            .filter(|ending| !self.endings.contains_key(ending))
            .map(|ending| ending.words().to_string());
        pairs.chain(endings).collect()
    }
}

/// The operation of a request and the outcome that the line of its answer shows.
fn pair(request: &[u8], line: &[u8]) -> (Option<u8>, u8) {
    let start = line
        .iter()
        .position(|octet| *octet == b' ')
        .map_or(0, |place| place + 1);
    let digit = |place: usize| char::from(line[start + place]).to_digit(16).unwrap_or(0) as u8;
    let outcome = match (digit(2), digit(3)) {
        (15, 15) => digit(4) << 4 | digit(5),
        _ => ANSWERED,
    };
    match outcome {
        4 | 12 | 16 => (None, outcome),
        _ => (Some(request[2]), outcome),
    }
}

fn pair_words(operation: Option<u8>, outcome: u8) -> String {
    let operation = operation.map_or("-".to_string(), |number| number.to_string());
    match outcome {
        ANSWERED => format!("{operation} A"),
        number => format!("{operation} {number}"),
    }
}

/// Compares the program with this one, on the long log and then on so many records more; true if there is no
/// difference and everything reachable occurred.
pub fn compare(
    seed: u64,
    records: usize,
    program: &[String],
    output: &mut impl Write,
) -> io::Result<bool> {
    writeln!(output, "seed {seed}")?;
    let mut counts = Counts::default();
    while counts.records < LONG_LOG + records {
        let number = counts.logs;
        let log = log_of(seed, number);
        let ours = own_output(&log.octets)?;
        let theirs = output_of(program, &log.octets)?;
        if let Some(difference) = first_difference(number, &log, &ours, &theirs) {
            print_difference(output, seed, &difference)?;
            return Ok(false);
        }
        counts.add(&log, &ours);
    }
    counts.print(output)?;
    let missing = counts.missing();
    for words in &missing {
        writeln!(output, "{words} did not occur")?;
    }
    Ok(missing.is_empty())
}

fn print_difference(output: &mut impl Write, seed: u64, difference: &Difference) -> io::Result<()> {
    let log = difference.log;
    writeln!(
        output,
        "difference: seed {seed}, log {log}, record {}",
        difference.record
    )?;
    writeln!(output, "record {}", hexadecimal(&difference.octets))?;
    writeln!(output, "ours   {}", difference.ours)?;
    writeln!(output, "theirs {}", difference.theirs)?;
    match log {
        0 => writeln!(
            output,
            "second draw --seed {seed} --records {LONG_LOG} --single"
        ),
        _ => writeln!(output, "second draw --seed {seed} --log {log}"),
    }
}

/// What this program's own gate log program prints.
pub fn own_output(octets: &[u8]) -> io::Result<Vec<u8>> {
    let mut input = octets;
    let mut output = Vec::new();
    run_log(&mut input, &mut output, None)?;
    Ok(output)
}

/// What the program prints for the log. A program may stop reading at a bad record, so a closed pipe is no fault; to
/// end by a signal or with a status other than 0 is one.
fn output_of(program: &[String], octets: &[u8]) -> io::Result<Vec<u8>> {
    let mut child = Command::new(&program[0])
        .args(&program[1..])
        .stdin(Stdio::piped())
        .stdout(Stdio::piped())
        .spawn()?;
    let mut input = child.stdin.take().expect("the input is a pipe");
    let mut output = child.stdout.take().expect("the output is a pipe");
    let mut printed = Vec::new();
    std::thread::scope(|scope| {
        scope.spawn(move || {
            let _ = input.write_all(octets);
        });
        output.read_to_end(&mut printed)
    })?;
    let status = child.wait()?;
    if !status.success() {
        let words = format!("{}: {status}", program.join(" "));
        return Err(io::Error::other(words));
    }
    Ok(printed)
}

/// The first line that differs, with the record it belongs to.
fn first_difference(number: u64, log: &Log, ours: &[u8], theirs: &[u8]) -> Option<Difference> {
    if ours == theirs {
        return None;
    }
    let mut our_lines = ours.split(|octet| *octet == b'\n');
    let mut their_lines = theirs.split(|octet| *octet == b'\n');
    let mut record = 0;
    loop {
        record += 1;
        let (our_line, their_line) = (our_lines.next(), their_lines.next());
        if our_line != their_line {
            return Some(Difference {
                log: number,
                record,
                octets: log.record(record).to_vec(),
                ours: line_words(our_line),
                theirs: line_words(their_line),
            });
        }
    }
}

fn line_words(line: Option<&[u8]>) -> String {
    match line {
        Some(line) => String::from_utf8_lossy(line).into_owned(),
        None => "(no line)".to_string(),
    }
}

/// Compares every wrong program with the right one; true if each of them is told apart.
/// The first word of the program runs its gate log with the name of the wrong program behind it.
pub fn tell_apart(
    seed: u64,
    records: usize,
    program: &str,
    output: &mut impl Write,
) -> io::Result<bool> {
    writeln!(output, "seed {seed}")?;
    let mut logs = BTreeMap::new();
    let mut told = 0;
    for (name, _) in NAMES {
        let words = ["log", "--wrong", name].map(str::to_string);
        let program = [&[program.to_string()], &words[..]].concat();
        match notice(seed, records, &program, &mut logs)? {
            Some((log, record)) => {
                told += 1;
                writeln!(output, "{name}: log {log}, record {record}")?;
            }
            None => writeln!(output, "{name}: NOT told apart in {records} records")?,
        }
    }
    writeln!(
        output,
        "{told} of {} wrong programs told apart",
        NAMES.len()
    )?;
    Ok(told == NAMES.len())
}

/// Where the program is first noticed, in so many records or in the long log; the logs drawn so far are kept for the
/// next program.
fn notice(
    seed: u64,
    records: usize,
    program: &[String],
    logs: &mut BTreeMap<u64, (Log, Vec<u8>)>,
) -> io::Result<Option<(u64, usize)>> {
    let mut compared = 0;
    let mut number = 0;
    loop {
        number = if compared < records { number + 1 } else { 0 };
        if let Entry::Vacant(place) = logs.entry(number) {
            let log = log_of(seed, number);
            let ours = own_output(&log.octets)?;
            place.insert((log, ours));
        }
        let (log, ours) = &logs[&number];
        let theirs = output_of(program, &log.octets)?;
        if let Some(difference) = first_difference(number, log, ours, &theirs) {
            return Ok(Some((difference.log, difference.record)));
        }
        if number == 0 {
            return Ok(None);
        }
        compared += log.records();
    }
}
