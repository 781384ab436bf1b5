//! The commands of the comparison: compare, wrong, tell-apart.
//! It links libcapi.a, draws calls from a seed, and compares each with the second program's library and unit.

mod answers;
mod archive;
mod calls;
mod compare;
mod proved;
mod readers;
mod units;
mod writers;

use compare::{compare, tell_apart};
use proved::{named, Proved, Wrong, NAMES};
use std::io::{self, Read, Write};
use std::process::ExitCode;

const USAGE: &str = "usage:
  linked compare [--seed S] --cases N [--wrong NAME]
  linked wrong
  linked tell-apart [--seed S] --cases N";

#[derive(Default)]
struct Options {
    seed: Option<u64>,
    cases: Option<usize>,
    wrong: Option<Wrong>,
}

fn main() -> ExitCode {
    let words: Vec<String> = std::env::args().skip(1).collect();
    match run(&words) {
        Ok(true) => ExitCode::SUCCESS,
        Ok(false) => ExitCode::FAILURE,
        Err(message) => {
            eprintln!("{message}");
            ExitCode::from(2)
        }
    }
}

fn run(words: &[String]) -> Result<bool, String> {
    let (command, words) = words.split_first().ok_or(USAGE)?;
    let options = read_options(words)?;
    let cases = options.cases.ok_or(USAGE.to_string());
    let mut output = io::stdout().lock();
    let done = match command.as_str() {
        "compare" => {
            let proved = Proved {
                wrong: options.wrong,
            };
            compare(seed(&options)?, cases?, proved, &mut output)
        }
        "wrong" => list_wrong(&mut output),
        "tell-apart" => tell_apart(seed(&options)?, cases?, &mut output),
        _ => return Err(USAGE.to_string()),
    };
    done.map_err(|error| error.to_string())
}

fn read_options(words: &[String]) -> Result<Options, String> {
    let mut options = Options::default();
    let mut words = words.iter();
    while let Some(word) = words.next() {
        let value = words.next().ok_or(format!("{word} wants a value"))?;
        match word.as_str() {
            "--seed" => options.seed = Some(read_number(value)?),
            "--cases" => options.cases = Some(read_number(value)? as usize),
            "--wrong" => {
                let wrong = named(value).ok_or(format!("no wrong side is named {value}"))?;
                options.wrong = Some(wrong);
            }
            _ => return Err(USAGE.to_string()),
        }
    }
    Ok(options)
}

fn read_number(word: &str) -> Result<u64, String> {
    word.parse().map_err(|_| format!("{word} is not a number"))
}

/// The seed given, or one from the machine's own source.
fn seed(options: &Options) -> Result<u64, String> {
    if let Some(seed) = options.seed {
        return Ok(seed);
    }
    let mut octets = [0; 8];
    std::fs::File::open("/dev/urandom")
        .and_then(|mut source| source.read_exact(&mut octets))
        .map_err(|error| format!("no seed: {error}"))?;
    Ok(u64::from_be_bytes(octets))
}

fn list_wrong(output: &mut impl Write) -> io::Result<bool> {
    for (name, _) in NAMES {
        writeln!(output, "{name}")?;
    }
    Ok(true)
}
