//! The commands of the second program: log, draw, compare, wrong, tell-apart.
//! Each word after a command is an option with its value, or begins the program to compare with.

use second::compare::{compare, tell_apart};
use second::draw::{draw_log, draw_single_log};
use second::log::run_log;
use second::wrong::{named, Wrong, NAMES};
use std::io::{self, BufReader, BufWriter, Read, Write};
use std::process::ExitCode;

const USAGE: &str = "usage:
  second log [--wrong NAME]
  second draw [--seed S] --records N [--single]
  second draw [--seed S] [--records N] --log K
  second compare [--seed S] --records N PROGRAM [ARGUMENTS]
  second wrong
  second tell-apart [--seed S] --records N";

const BUFFER: usize = 1 << 16;

/// The options of all commands and the words behind them.
#[derive(Default)]
struct Options {
    seed: Option<u64>,
    records: Option<usize>,
    log: Option<u64>,
    single: bool,
    wrong: Option<Wrong>,
    rest: Vec<String>,
}

fn main() -> ExitCode {
    let words: Vec<String> = std::env::args().skip(1).collect();
    match run(&words) {
        Ok(true) => ExitCode::SUCCESS,
        Ok(false) => ExitCode::FAILURE,
        Err(message) => {
            eprintln!("{message}");
            ExitCode::from(2)
        }
    }
}

fn run(words: &[String]) -> Result<bool, String> {
    let (command, words) = words.split_first().ok_or(USAGE)?;
    let options = read_options(words)?;
    if command != "compare" && !options.rest.is_empty() {
        return Err(USAGE.to_string());
    }
    match command.as_str() {
        "log" => log(&options).map_err(in_words),
        "draw" => draw(&options),
        "compare" if !options.rest.is_empty() => {
            let (seed, records) = (seed(&options)?, records(&options)?);
            compare(seed, records, &options.rest, &mut io::stdout()).map_err(in_words)
        }
        "wrong" => list_wrong().map_err(in_words),
        "tell-apart" => {
            let (seed, records) = (seed(&options)?, records(&options)?);
            let program = std::env::current_exe().map_err(in_words)?;
            tell_apart(seed, records, &program.to_string_lossy(), &mut io::stdout())
                .map_err(in_words)
        }
        _ => Err(USAGE.to_string()),
    }
}

fn in_words(error: io::Error) -> String {
    error.to_string()
}

fn read_options(words: &[String]) -> Result<Options, String> {
    let mut options = Options::default();
    let mut words = words.iter();
    while let Some(word) = words.next() {
        let mut value = || words.next().ok_or(format!("{word} wants a value"));
        match word.as_str() {
            "--seed" => options.seed = Some(read_number(value()?)?),
            "--records" => options.records = Some(read_number(value()?)? as usize),
            "--log" => options.log = Some(read_number(value()?)?),
            "--single" => options.single = true,
            "--wrong" => {
                let name = value()?;
                let wrong = named(name).ok_or(format!("no wrong program is named {name}"))?;
                options.wrong = Some(wrong);
            }
            _ if word.starts_with("--") => return Err(USAGE.to_string()),
            _ => {
                options.rest.push(word.clone());
                options.rest.extend(words.cloned());
                break;
            }
        }
    }
    Ok(options)
}

fn read_number(word: &str) -> Result<u64, String> {
    word.parse().map_err(|_| format!("{word} is not a number"))
}

fn records(options: &Options) -> Result<usize, String> {
    options.records.ok_or(USAGE.to_string())
}

/// The seed given, or one from the machine's own source.
fn seed(options: &Options) -> Result<u64, String> {
    if let Some(seed) = options.seed {
        return Ok(seed);
    }
    let mut octets = [0; 8];
    std::fs::File::open("/dev/urandom")
        .and_then(|mut source| source.read_exact(&mut octets))
        .map_err(|error| format!("no seed: {error}"))?;
    Ok(u64::from_be_bytes(octets))
}

fn log(options: &Options) -> io::Result<bool> {
    let mut input = BufReader::with_capacity(BUFFER, io::stdin().lock());
    let mut output = BufWriter::with_capacity(BUFFER, io::stdout().lock());
    run_log(&mut input, &mut output, options.wrong)?;
    Ok(true)
}

/// Writes the octets of the drawn logs; a drawn seed goes to the error output, as it is no part of a log.
fn draw(options: &Options) -> Result<bool, String> {
    let seed = seed(options)?;
    if options.seed.is_none() {
        eprintln!("seed {seed}");
    }
    let mut output = BufWriter::with_capacity(BUFFER, io::stdout().lock());
    let written = match options.log {
        Some(0) => return Err("logs are numbered from 1".to_string()),
        Some(number) => output.write_all(&draw_log(seed, number).octets),
        None if options.single => {
            output.write_all(&draw_single_log(seed, records(options)?).octets)
        }
        None => draw_all(seed, records(options)?, &mut output),
    };
    written.and_then(|()| output.flush()).map_err(in_words)?;
    Ok(true)
}

fn draw_all(seed: u64, records: usize, output: &mut impl Write) -> io::Result<()> {
    let mut drawn = 0;
    let mut number = 0;
    while drawn < records {
        number += 1;
        let log = draw_log(seed, number);
        drawn += log.records();
        output.write_all(&log.octets)?;
    }
    Ok(())
}

fn list_wrong() -> io::Result<bool> {
    let mut output = io::stdout().lock();
    for (name, _) in NAMES {
        writeln!(output, "{name}")?;
    }
    Ok(true)
}
