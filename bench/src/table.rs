//! Measures the rows of a table and prints them: the best nanoseconds of each side and the ratio of the first two,
//! then the geometric mean of the ratios and the worst row.

use crate::measure::Times;

const VISITS: usize = 6;

/// A row's name, how many tags its unit or message has, and how many octets of data.
pub struct Label {
    pub name: String,
    pub tags: usize,
    pub octets: usize,
}

impl Label {
    /// As columns of the table.
    fn words(&self) -> String {
        columns(&self.name, &self.tags.to_string(), &self.octets.to_string())
    }
}

fn columns(name: &str, tags: &str, octets: &str) -> String {
    format!("{name:<46}{tags:>5}{octets:>7}")
}

pub trait Row {
    fn label(&self) -> &Label;
}

/// A table: the names of its sides, its rows, and how a row is measured in one visit.
pub struct Table<One> {
    pub sides: Vec<&'static str>,
    pub rows: Vec<One>,
    pub measure: fn(&One) -> Result<Times, String>,
}

impl<One: Row> Table<One> {
    /// Measures and prints the rows whose name holds the word, if there are any: gives their number.
    pub fn run(mut self, word: &str) -> Result<usize, String> {
        self.rows.retain(|row| row.label().name.contains(word));
        if !self.rows.is_empty() {
            let times = self.times()?;
            self.print(&times);
        }
        Ok(self.rows.len())
    }

    fn times(&self) -> Result<Vec<Times>, String> {
        let mut times = vec![Times::NONE; self.rows.len()];
        for _ in 0..VISITS {
            for (row, best) in self.rows.iter().zip(&mut times) {
                let visit = (self.measure)(row);
                *best = best.best(visit.map_err(|why| format!("{}: {why}", row.label().words()))?);
            }
        }
        Ok(times)
    }

    fn print(&self, times: &[Times]) {
        let title = columns("row", "tags", "octets");
        let [first, second, beside @ ..] = &self.sides[..] else {
            return;
        };
        let beside: String = beside.iter().map(|side| format!("{side:>15}")).collect();
        println!("{title}{first:>15}{second:>15}{:>8}{beside}", "ratio");
        for (row, times) in self.rows.iter().zip(times) {
            let Times([first, second, third]) = times;
            let third = match third.is_finite() {
                true => format!("{third:>12.1} ns"),
                false => String::new(),
            };
            println!(
                "{}{first:>12.1} ns{second:>12.1} ns{:>8.2}{third}",
                row.label().words(),
                times.ratio()
            );
        }
        self.print_summary(times);
    }

    /// The geometric mean of the ratios and the row with the greatest.
    fn print_summary(&self, times: &[Times]) {
        let logarithms: f64 = times.iter().map(|times| times.ratio().ln()).sum();
        let mean = (logarithms / times.len() as f64).exp();
        println!("geometric mean {mean:.2} of {} rows", times.len());
        let pairs = self.rows.iter().zip(times.iter().map(Times::ratio));
        if let Some((row, ratio)) = pairs.max_by(|one, other| one.1.total_cmp(&other.1)) {
            let Label { name, tags, octets } = row.label();
            println!("worst row {ratio:.2}: {name}, tags {tags}, octets {octets}");
        }
    }
}
