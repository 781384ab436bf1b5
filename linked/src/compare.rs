//! Runs the drawn calls on both sides, counts what they reached, and reports the first difference.
//! A pair is a function, the operation where there is one, and the outcome; the table of pairs that the drawn calls
//! can reach is `REACHABLE`, and a comparison that misses one of them has not compared enough.

use crate::calls::Seen;
use crate::proved::{Proved, NAMES};
use crate::{readers, units, writers};
use second::random::Random;
use second::wrong::{Wrong as SecondWrong, NAMES as SECOND_NAMES};
use std::collections::BTreeMap;
use std::io::{self, Write};

/// How many calls of the writers or readers are drawn from one sequence of numbers.
const ROUND: usize = 64;

/// The second program's wrong ones that no unit of some hundred calls shows.
const LONG_LOGS_ONLY: [&str; 3] = [
    "five_thousand_records",
    "number_of_four_digits",
    "granted_octets_overflow",
];

/// A function, an operation type or none, and the outcome: 0 done or answered, a status above 0 denied, a number
/// below 0 refused.
pub type Pair = (&'static str, Option<u8>, i32);

/// The outcomes of each function by operation, as far as the documents and the header let them occur.
/// A unit of any version and options is drawn, the vehicle fits tags, and answer areas may be short.
/// Never: 1, 2, 3 and 255 (not given by this unit); in a row of an operation 4, 16 (they stand under no operation).
#[rustfmt::skip]
const REACHABLE: [(&str, Option<u8>, &[i32]); 81] = [
    // Each writer: a request, 16 (the version at least) and 300.
    ("write_resource_information", Some(0), &[0, -16, -300]),
    ("write_allocate", Some(1), &[0, -16, -300]),
    ("write_allocate", Some(65), &[0, -16, -300]),
    ("write_free", Some(2), &[0, -16, -300]),
    ("write_free", Some(66), &[0, -16, -300]),
    ("write_read", Some(3), &[0, -16, -300]),
    ("write_read", Some(67), &[0, -16, -300]),
    ("write_write", Some(4), &[0, -16, -300]),
    ("write_write", Some(68), &[0, -16, -300]),
    ("write_bulk_read", Some(5), &[0, -16, -300]),
    ("write_bulk_read", Some(69), &[0, -16, -300]),
    ("write_bulk_write", Some(6), &[0, -16, -300]),
    ("write_bulk_write", Some(70), &[0, -16, -300]),
    ("slices that do not belong together", None, &[-16]),
    ("area one octet too short", None, &[-300]),
    ("area just long enough", None, &[0]),
    ("area with octets behind", None, &[0]),
    ("request of 2,048 octets", None, &[0, -300]),
    // What was read: as the second program wrote it, or damaged; some damage leaves an answer.
    ("octets as written", None, &[0]),
    ("octets over 2,048", None, &[-16]),
    ("octets damaged twice", None, &[0, -16]),
    ("octets cut", None, &[-16]),
    ("octets with a stray one", None, &[-16]),
    ("octets with a flipped bit", None, &[0, -16]),
    ("octets with a flipped bit in front", None, &[0, -16]),
    ("length in a longer form", None, &[-16]),
    ("length in the form C0", None, &[-16]),
    ("length in three octets", None, &[-16]),
    ("length one more", None, &[-16]),
    ("length one less", None, &[-16]),
    ("other profile", None, &[-16]),
    ("fill bits", None, &[-16]),
    ("other command type", None, &[0, -16]),
    ("other answer type", None, &[0, -16]),
    ("other count", None, &[-16]),
    ("supplement of 126 to 255", None, &[0, -16]),
    ("mode code that the tables lack", None, &[-16]),
    ("octets drawn", None, &[-16]),
    ("no octets", None, &[-16]),
    // What is no answer has no type. Of each kind of answer, and of the denial: the words, or 300 for too few of them.
    ("read_answer", None, &[-16]),
    ("read_answer", Some(128), &[0, -300]),
    ("read_answer", Some(129), &[0, -300]),
    ("read_answer", Some(130), &[0, -300]),
    ("read_answer", Some(131), &[0, -300]),
    ("read_answer", Some(132), &[0, -300]),
    ("read_answer", Some(133), &[0, -300]),
    ("read_answer", Some(134), &[0, -300]),
    ("read_answer", Some(193), &[0, -300]),
    ("read_answer", Some(194), &[0, -300]),
    ("read_answer", Some(195), &[0, -300]),
    ("read_answer", Some(196), &[0, -300]),
    ("read_answer", Some(197), &[0, -300]),
    ("read_answer", Some(198), &[0, -300]),
    ("read_answer", Some(255), &[0, -300]),
    ("read_tag", None, &[0, -16, -300]),
    ("read_memory_data", None, &[0, -16, -300]),
    ("read_resource", None, &[0, -16, -300]),
    // A version above 15; slices of other lengths.
    ("start", None, &[0, -301, -300]),
    // No operation: a port above 1, short areas and other slices; then 4, an unknown type, and what does not decode.
    ("respond", None, &[-16, -300, 4, 12, 16]),
    // 12 where the option is not fitted: allocation's covers 1, 2, 65 and 66, that of passwords 65 to 70.
    ("respond", Some(0), &[0, 7]),
    ("respond", Some(1), &[0, 5, 6, 9, 12]),
    ("respond", Some(2), &[0, 6, 10, 11, 12]),
    ("respond", Some(3), &[0, 6, 8, 10, 11]),
    ("respond", Some(4), &[0, 6, 8, 9, 10, 11]),
    ("respond", Some(5), &[0, 7]),
    ("respond", Some(6), &[0, 7]),
    ("respond", Some(65), &[0, 5, 6, 9, 12]),
    ("respond", Some(66), &[0, 6, 10, 11, 12]),
    ("respond", Some(67), &[0, 6, 8, 10, 11, 12]),
    ("respond", Some(68), &[0, 6, 8, 9, 10, 11, 12]),
    ("respond", Some(69), &[0, 7, 12]),
    ("respond", Some(70), &[0, 7, 12]),
    // A mode above 2; slices of other lengths; then document 01's numbers, each for both ways to it.
    ("fit", None, &[0, -16, -300]),
    ("fit of a tag not unit-managed", None, &[-6]),
    ("fit of a registered tag", None, &[-6]),
    ("fit with a password not fitted", None, &[-12]),
    ("fit of a bad size", None, &[-9]),
    ("fit of data over the size", None, &[-9]),
    ("fit into a full table", None, &[-5]),
    ("fit into a memory without room", None, &[-5]),
    // 8,192 octets all in use.
    ("a full memory", None, &[0]),
];

/// Where the two sides differ.
pub struct Difference {
    pub case: usize,
    pub call: String,
    pub second: String,
    pub proved: String,
}

/// The cases so far, and what they reached.
pub struct Comparison {
    pub proved: Proved,
    /// The one way in which the second program's unit is wrong, for `tell_apart`.
    pub second: Option<SecondWrong>,
    cases: usize,
    wanted: usize,
    pairs: BTreeMap<Pair, u64>,
}

impl Comparison {
    fn new(proved: Proved, second: Option<SecondWrong>, wanted: usize) -> Comparison {
        Comparison {
            proved,
            second,
            cases: 0,
            wanted,
            pairs: BTreeMap::new(),
        }
    }

    pub fn is_complete(&self) -> bool {
        self.cases >= self.wanted
    }

    /// Counts a case and compares what is seen of it.
    pub fn case(
        &mut self,
        pair: Pair,
        second: &Seen,
        proved: &Seen,
        call: impl Fn() -> String,
    ) -> Result<(), Difference> {
        self.cases += 1;
        self.reached(pair);
        if second == proved {
            return Ok(());
        }
        Err(Difference {
            case: self.cases,
            call: format!("{} {}", pair.0, call()),
            second: second.to_string(),
            proved: proved.to_string(),
        })
    }

    /// Counts what a case reached besides.
    pub fn reached(&mut self, pair: Pair) {
        *self.pairs.entry(pair).or_default() += 1;
    }

    /// So many cases, in rounds of which each has its own numbers.
    fn run(&mut self, seed: u64) -> Result<(), Difference> {
        let mut round = 0;
        while !self.is_complete() {
            round += 1;
            let mut random = Random::new(seed, round);
            match random.weighted(&[35, 35, 30]) {
                0 => self.repeat(&mut random, writers::compare_writing)?,
                1 => self.repeat(&mut random, readers::compare_reading)?,
                _ => units::compare_units(self, random)?,
            }
        }
        Ok(())
    }

    fn repeat(
        &mut self,
        random: &mut Random,
        compare: fn(&mut Comparison, &mut Random) -> Result<(), Difference>,
    ) -> Result<(), Difference> {
        for _ in 0..ROUND {
            if !self.is_complete() {
                compare(self, random)?;
            }
        }
        Ok(())
    }

    fn print(&self, output: &mut impl Write) -> io::Result<()> {
        for (pair, count) in &self.pairs {
            writeln!(output, "{} {count}", pair_words(*pair))?;
        }
        writeln!(output, "{} cases, no difference", self.cases)
    }

    fn missing(&self) -> Vec<Pair> {
        let reachable = REACHABLE
            .iter()
            .flat_map(|(function, operation, outcomes)| {
                outcomes
                    .iter()
                    .map(move |outcome| (*function, *operation, *outcome))
            });
        reachable
            .filter(|pair| !self.pairs.contains_key(pair))
            .collect()
    }
}

fn pair_words((function, operation, outcome): Pair) -> String {
    let operation = operation.map_or(String::new(), |number| format!(" {number}"));
    match outcome {
        0 => format!("{function}{operation} done"),
        1.. => format!("{function}{operation} denied {outcome}"),
        _ => format!("{function}{operation} {outcome}"),
    }
}

/// Compares so many cases; true if there is no difference and everything reachable occurred.
pub fn compare(
    seed: u64,
    cases: usize,
    proved: Proved,
    output: &mut impl Write,
) -> io::Result<bool> {
    writeln!(output, "seed {seed}")?;
    let mut comparison = Comparison::new(proved, None, cases);
    if let Err(difference) = comparison.run(seed) {
        print_difference(output, seed, &difference)?;
        return Ok(false);
    }
    comparison.print(output)?;
    let missing = comparison.missing();
    for pair in &missing {
        writeln!(output, "{} did not occur", pair_words(*pair))?;
    }
    Ok(missing.is_empty())
}

fn print_difference(output: &mut impl Write, seed: u64, difference: &Difference) -> io::Result<()> {
    writeln!(output, "difference: seed {seed}, case {}", difference.case)?;
    writeln!(output, "call   {}", difference.call)?;
    writeln!(output, "second {}", difference.second)?;
    writeln!(output, "proved {}", difference.proved)
}

/// Compares every wrong side, and the archive with every wrong unit of the second program; true if all are noticed.
pub fn tell_apart(seed: u64, cases: usize, output: &mut impl Write) -> io::Result<bool> {
    writeln!(output, "seed {seed}")?;
    let archives = NAMES.iter().map(|(name, wrong)| {
        let proved = Proved {
            wrong: Some(*wrong),
        };
        (*name, Comparison::new(proved, None, cases))
    });
    let units = SECOND_NAMES
        .iter()
        .filter(|(name, _)| !LONG_LOGS_ONLY.contains(name))
        .map(|(name, wrong)| {
            let proved = Proved::default();
            (*name, Comparison::new(proved, Some(*wrong), cases))
        });
    let (mut told, mut all) = (0, 0);
    for (name, mut comparison) in archives.chain(units) {
        all += 1;
        match comparison.run(seed) {
            Err(difference) => {
                told += 1;
                writeln!(output, "{name}: case {}", difference.case)?;
            }
            Ok(()) => writeln!(output, "{name}: NOT told apart in {cases} cases")?,
        }
    }
    writeln!(output, "{told} of {all} wrong sides told apart")?;
    Ok(told == all)
}
