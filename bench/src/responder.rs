//! What the benchmark asks of a responder, the hand-written one as such, and how two of them are measured over a row.
//! A unit stands at the start of a page, so that no run has it better or worse placed than another.

use crate::measure::{best_times, written_alike, Side, Sides, Times};
use crate::rows::{Command, Outcome, Row};
use bench::fast;

pub trait Responder: Side + Sized + 'static {
    /// A new unit of version 1 with both options. It runs requests; port 0 is normal, 1 secure.
    fn start() -> Box<Self>;
}

#[repr(align(4096))]
pub struct HandWritten(fast::Unit);

impl Responder for HandWritten {
    fn start() -> Box<HandWritten> {
        let unit = fast::Unit::start(1, true, true).expect("version 1 starts");
        Box::new(HandWritten(unit))
    }
}

impl Side for HandWritten {
    #[inline(always)]
    fn run(&mut self, port: u8, request: &[u8], area: &mut [u8]) -> i32 {
        let port = match port {
            0 => fast::Port::Normal,
            _ => fast::Port::Secure,
        };
        match self.0.respond(port, request, area) {
            Ok(length) => length as i32,
            Err(number) => -i32::from(number),
        }
    }
}

/// The times of two responders in one visit to a row, or why they cannot be compared.
pub fn measure<First: Responder, Second: Responder>(row: &Row) -> Result<Times, String> {
    let mut sides: Sides = vec![First::start(), Second::start()];
    for command in &row.before {
        written_alike(&mut sides, command.input())?;
    }
    check(&mut sides, row)?;
    let inputs: Vec<_> = row.requests.iter().map(Command::input).collect();
    let times = best_times(&mut sides, &inputs);
    check(&mut sides, row)?;
    Ok(times)
}

/// Both answer the row's requests alike, twice, with the outcome that the row is about.
fn check(sides: &mut Sides, row: &Row) -> Result<(), String> {
    for command in row.requests.iter().chain(&row.requests) {
        let answer = written_alike(sides, command.input())?;
        if Outcome::of(&answer) != Some(row.outcome) {
            return Err(format!("the outcome is not the row's: {answer:02X?}"));
        }
    }
    Ok(())
}
