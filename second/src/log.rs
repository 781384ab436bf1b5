//! The gate log program: records from an input, one line an answer to an output, in constant memory.
//! Rules: document 01, "The gate log program". The unit has version 1, both options and no tags at first.

use crate::unit::{Port, Unit};
use crate::wrong::Wrong;
use std::io::{self, BufRead, ErrorKind, Read, Write};

pub const MARK: [u8; 2] = [0x4D, 0x41];
pub const REQUEST_LIMIT: usize = 2048;
pub const RECORD_LIMIT: u64 = 4_294_967_295;

const ANSWER_AREA: usize = 2048;
const DIGITS: &[u8; 16] = b"0123456789ABCDEF";

/// What stands at the present place of the input.
enum Record {
    End,
    Bad,
    Whole { port: Port, length: usize },
}

/// Answers every record of the log and prints the last line in every case.
pub fn run_log(
    input: &mut impl BufRead,
    output: &mut impl Write,
    wrong: Option<Wrong>,
) -> io::Result<()> {
    let record_limit = match wrong {
        Some(Wrong::FiveThousandRecords) => 5000,
        _ => RECORD_LIMIT,
    };
    run_log_to(input, output, wrong, record_limit)
}

/// The same with a limit of records that a test can reach.
pub fn run_log_to(
    input: &mut impl BufRead,
    output: &mut impl Write,
    wrong: Option<Wrong>,
    record_limit: u64,
) -> io::Result<()> {
    let mut unit = Unit::start_wrong(1, true, true, wrong).expect("version 1 starts");
    let mut request = [0; REQUEST_LIMIT];
    let mut answered: u64 = 0;
    loop {
        match read_record(input, &mut request)? {
            Record::End => break,
            Record::Whole { port, length } if answered < record_limit => {
                answered += 1;
                let answer = unit
                    .respond(port, &request[..length], ANSWER_AREA)
                    .expect("the answer area is long enough");
                let number = match wrong {
                    Some(Wrong::NumberOfFourDigits) => answered % 10_000,
                    _ => answered,
                };
                write_line(output, number, &answer)?;
            }
            _ => {
                writeln!(output, "bad record {}", answered + 1)?;
                break;
            }
        }
    }
    writeln!(output, "records {answered}")?;
    output.flush()
}

/// Reads the next record; its request then stands at the start of the buffer.
fn read_record(input: &mut impl Read, request: &mut [u8; REQUEST_LIMIT]) -> io::Result<Record> {
    let mut start = [0; 5];
    match read_full(input, &mut start)? {
        0 => return Ok(Record::End),
        5 => {}
        _ => return Ok(Record::Bad),
    }
    let length = usize::from(start[3]) << 8 | usize::from(start[4]);
    let port = match start[2] {
        0 => Port::Normal,
        1 => Port::Secure,
        _ => return Ok(Record::Bad),
    };
    if start[..2] != MARK || length > REQUEST_LIMIT {
        return Ok(Record::Bad);
    }
    if read_full(input, &mut request[..length])? < length {
        return Ok(Record::Bad);
    }
    Ok(Record::Whole { port, length })
}

/// Fills the buffer as far as the input goes and gives the number of octets read.
fn read_full(input: &mut impl Read, buffer: &mut [u8]) -> io::Result<usize> {
    let mut filled = 0;
    while filled < buffer.len() {
        match input.read(&mut buffer[filled..]) {
            Ok(0) => break,
            Ok(count) => filled += count,
            Err(error) if error.kind() == ErrorKind::Interrupted => {}
            Err(error) => return Err(error),
        }
    }
    Ok(filled)
}

fn write_line(output: &mut impl Write, number: u64, answer: &[u8]) -> io::Result<()> {
    let mut line = number.to_string().into_bytes();
    line.push(b' ');
    push_hexadecimal(&mut line, answer);
    line.push(b'\n');
    output.write_all(&line)
}

/// Appends the octets in capital hexadecimal.
pub fn push_hexadecimal(line: &mut Vec<u8>, octets: &[u8]) {
    line.reserve(2 * octets.len());
    for octet in octets {
        line.push(DIGITS[usize::from(octet >> 4)]);
        line.push(DIGITS[usize::from(octet & 15)]);
    }
}

/// The octets in capital hexadecimal.
pub fn hexadecimal(octets: &[u8]) -> String {
    let mut line = Vec::new();
    push_hexadecimal(&mut line, octets);
    line.into_iter().map(char::from).collect()
}
