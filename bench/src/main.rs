//! The benchmark: the proved responder beside a hand-written one over the same requests, and the proved message
//! library beside a hand-written one over the same messages, each pair in turn in one process.
//! `--responder` and `--messages` take one of the two tables, `--rows WORD` only rows whose name holds the word;
//! `--against-itself` measures the hand-written ones against themselves, which shows the noise.

#![deny(unsafe_code)]

#[cfg(feature = "asn1c")]
#[allow(unsafe_code)]
mod asn1c;
mod gate;
mod measure;
mod messages;
#[cfg(proved)]
#[allow(unsafe_code)]
mod proved;
mod responder;
mod rows;
mod table;
#[cfg(any(proved, feature = "asn1c"))]
mod words;

use measure::Times;
use std::env;
use std::process::ExitCode;
use table::Table;

const HAND_WRITTEN: &str = "hand-written";

/// The column of the hand-written responder.
const HAND_WRITTEN_RESPONDER: &str = if cfg!(feature = "scattered") {
    "scattered"
} else {
    HAND_WRITTEN
};

const USAGE: &str = "usage: bench [--responder] [--messages] [--rows WORD] [--against-itself]";

#[derive(Default)]
struct Options {
    word: String,
    responder: bool,
    messages: bool,
    against_itself: bool,
}

fn options() -> Option<Options> {
    let mut options = Options::default();
    let mut words = env::args().skip(1);
    while let Some(word) = words.next() {
        match word.as_str() {
            "--rows" => options.word = words.next()?,
            "--responder" => options.responder = true,
            "--messages" => options.messages = true,
            "--against-itself" => options.against_itself = true,
            _ => return None,
        }
    }
    Some(options)
}

fn main() -> ExitCode {
    let Some(options) = options() else {
        eprintln!("{USAGE}");
        return ExitCode::FAILURE;
    };
    let result = if options.against_itself {
        run(&options, &AGAINST_ITSELF)
    } else {
        run_proved(&options)
    };
    match result {
        Ok(()) => ExitCode::SUCCESS,
        Err(words) => {
            eprintln!("{words}");
            ExitCode::FAILURE
        }
    }
}

/// What stands in the first column, and how it is measured beside the hand-written ones.
struct First {
    responder: &'static str,
    measure_responder: fn(&rows::Row) -> Result<Times, String>,
    messages: &'static str,
    measure_messages: fn(&messages::Row) -> Result<Times, String>,
}

const AGAINST_ITSELF: First = First {
    responder: HAND_WRITTEN_RESPONDER,
    measure_responder: responder::measure::<responder::HandWritten, responder::HandWritten>,
    messages: HAND_WRITTEN,
    measure_messages: messages::measure::<gate::HandWritten, gate::HandWritten>,
};

#[cfg(proved)]
fn run_proved(options: &Options) -> Result<(), String> {
    let first = First {
        responder: "proved",
        measure_responder: responder::measure::<proved::Proved, responder::HandWritten>,
        messages: "proved",
        measure_messages: messages::measure::<proved::ProvedLibrary, gate::HandWritten>,
    };
    run(options, &first)
}

#[cfg(not(proved))]
fn run_proved(_: &Options) -> Result<(), String> {
    Err(concat!(
        "the proved archive is missing: it was not there when this was built.\n",
        "Make it with `bash .ci/archive`, then build again; or take --against-itself."
    )
    .to_string())
}

/// The tables that are asked for, one after the other.
fn run(options: &Options, first: &First) -> Result<(), String> {
    let both = options.responder == options.messages;
    let mut printed = 0;
    if both || options.responder {
        let table = Table {
            sides: vec![first.responder, HAND_WRITTEN_RESPONDER],
            rows: rows::rows(),
            measure: first.measure_responder,
        };
        printed += table.run(&options.word)?;
    }
    if both || options.messages {
        let mut sides = vec![first.messages, HAND_WRITTEN];
        if cfg!(feature = "asn1c") {
            sides.push("asn1c");
        }
        let table = Table {
            sides,
            rows: messages::rows(),
            measure: first.measure_messages,
        };
        printed += table.run(&options.word)?;
    }
    if printed == 0 {
        return Err("no row has this word in its name".to_string());
    }
    Ok(())
}
