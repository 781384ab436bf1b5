//! Runs two or three sides over the same octets: first to compare what they write, then in turn to measure them.
//! A round is one batch of each; the best batch of all rounds counts, and every row is visited several times, so
//! that a busy second does not fall on one row alone. Octets and area stand elsewhere in their pages from round to
//! round, so that no side gains or loses by the place of a buffer.

use std::hint::black_box;
use std::time::{Duration, Instant};

const BATCH: Duration = Duration::from_micros(10);
const VISIT: Duration = Duration::from_millis(40);
const PAGE: usize = 4096;
const LINE: usize = 64;
const AREA: usize = 2048;
const BEHIND: u8 = 0x5A;

/// The port by which octets came, and the octets; for a side that knows no ports it is 0.
pub type Input<'a> = (u8, &'a [u8]);

/// One of those that are measured against each other.
pub trait Side {
    /// The length of what it wrote at the start of the area, or the number to the caller below zero.
    fn run(&mut self, port: u8, octets: &[u8], area: &mut [u8]) -> i32;

    /// The time of one batch.
    #[inline(never)]
    fn batch(&mut self, inputs: &[Input], area: &mut [u8], passes: usize) -> Duration {
        let start = Instant::now();
        for _ in 0..passes {
            for (port, octets) in inputs {
                let length = self.run(*port, black_box(octets), black_box(area));
                black_box(length);
            }
        }
        start.elapsed()
    }
}

/// The sides of a row; the first is compared with the second, and a third stands beside them.
pub type Sides = Vec<Box<dyn Side>>;

/// The best nanoseconds an input of each side, without end for a side that is not there.
#[derive(Clone, Copy)]
pub struct Times(pub [f64; 3]);

impl Times {
    pub const NONE: Times = Times([f64::INFINITY; 3]);

    pub fn ratio(&self) -> f64 {
        self.0[0] / self.0[1]
    }

    pub fn best(self, other: Times) -> Times {
        Times([0, 1, 2].map(|side| self.0[side].min(other.0[side])))
    }
}

/// What all sides write alike, leaving the octets past it alone.
pub fn written_alike(sides: &mut Sides, input: Input) -> Result<Vec<u8>, String> {
    let mut written: Vec<_> = sides
        .iter_mut()
        .map(|side| written(&mut **side, input))
        .collect();
    match written.pop() {
        Some(Some(last)) if written.iter().all(|other| other.as_ref() == Some(&last)) => Ok(last),
        last => Err(format!(
            "the sides differ\nof {:02X?}\n{written:02X?}\n{last:02X?}",
            input.1
        )),
    }
}

/// What a side writes, or none if the caller gets a number or octets past it are not kept.
fn written(side: &mut dyn Side, (port, octets): Input) -> Option<Vec<u8>> {
    let mut area = vec![BEHIND; AREA];
    let length = side.run(port, octets, &mut area);
    let length = usize::try_from(length).ok()?;
    let behind = area.get(length..)?;
    let is_kept = behind.iter().all(|octet| *octet == BEHIND);
    is_kept.then(|| area[..length].to_vec())
}

/// The times of the sides in one visit.
pub fn best_times(sides: &mut Sides, inputs: &[Input]) -> Times {
    let mut octets = Pages::new();
    let mut area = Pages::new();
    let passes: Vec<usize> = sides
        .iter_mut()
        .map(|side| passes(&mut **side, inputs))
        .collect();
    let mut times = Times::NONE;
    let started = Instant::now();
    for round in 0.. {
        let placed = place(inputs, &mut octets.0[round * LINE % PAGE..]);
        let area = &mut area.0[round * 5 * LINE % PAGE..][..AREA];
        for ((side, passes), best) in sides.iter_mut().zip(&passes).zip(&mut times.0) {
            let time = side.batch(&placed, area, *passes).as_nanos() as f64;
            *best = best.min(time / (passes * inputs.len()) as f64);
        }
        if started.elapsed() > VISIT {
            break;
        }
    }
    times
}

/// How often a side's batch goes through the inputs to last as long as a batch should.
fn passes(side: &mut dyn Side, inputs: &[Input]) -> usize {
    let mut octets = Pages::new();
    let mut area = Pages::new();
    let placed = place(inputs, &mut octets.0);
    let times = [0; 100].map(|_: i32| side.batch(&placed, &mut area.0[..AREA], 10));
    let best = times.into_iter().min().unwrap_or(BATCH);
    (10 * BATCH.as_nanos() / best.as_nanos().max(1)).max(1) as usize
}

#[repr(align(4096))]
struct Pages([u8; 3 * PAGE]);

impl Pages {
    fn new() -> Box<Pages> {
        Box::new(Pages([BEHIND; 3 * PAGE]))
    }
}

/// The octets one behind the other in a buffer, each with its port.
fn place<'a>(inputs: &[Input], buffer: &'a mut [u8]) -> Vec<Input<'a>> {
    let mut placed = Vec::with_capacity(inputs.len());
    let mut rest = buffer;
    for (port, octets) in inputs {
        let (part, behind) = rest.split_at_mut(octets.len());
        part.copy_from_slice(octets);
        placed.push((*port, &*part));
        rest = behind;
    }
    placed
}
