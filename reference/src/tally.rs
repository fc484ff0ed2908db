//! Counts how often each number came up for each kind of event, and says which the bench can
//! reach.

use std::fmt;

use crate::answers::{number, Answer, NUMBERS};
use crate::bench::Subject;
use crate::records::Event;

/// The rows: the kinds of events, and what stops the bench.
pub const ROWS: [&str; 9] = [
    "start",
    "call",
    "release",
    "commit",
    "rollback",
    "first record",
    "bad record",
    "end record",
    "second fresh",
];

/// Per row the numbers that the bench can print, from the orders of refusal; a bad record, an end
/// record and a second fresh print their line with 12.
pub const REACHABLE: [&[usize]; ROWS.len()] = [
    &[0, 1, 2, 3, 4],
    &[0, 1, 2, 5, 6, 7, 8, 9, 10],
    &[0, 1, 2, 5, 6, 8, 10],
    &[0, 1, 5, 9, 10],
    &[0, 1, 5, 10],
    &[12],
    &[12],
    &[12],
    &[12],
];

/// What the orders of refusal name and the bench cannot print, with the reason.
pub const UNREACHABLE: [(&str, usize, &str); 3] = [
    (
        "start",
        3,
        "for an odd list: a record's n counts pairs (3 itself is reached by other lists)",
    ),
    (
        "commit",
        11,
        "the buffer has 130 bytes and an end record at most 130",
    ),
    (
        "rollback",
        11,
        "the buffer has 130 bytes and an end record at most 130",
    ),
];

/// The row of a line.
pub fn row(subject: Subject) -> usize {
    match subject {
        Subject::Event(Event::Start { .. }) => 0,
        Subject::Event(Event::Call { .. }) => 1,
        Subject::Event(Event::Release { .. }) => 2,
        Subject::Event(Event::Commit { .. }) => 3,
        Subject::Event(Event::Rollback { .. }) => 4,
        Subject::NoFresh => 5,
        Subject::Bad(_) => 6,
        Subject::End => 7,
        Subject::SecondFresh => 8,
    }
}

/// The counts.
#[derive(Clone, Debug, Default)]
pub struct Tally([[u64; NUMBERS]; ROWS.len()]);

impl Tally {
    /// Counts a line.
    pub fn count(&mut self, subject: Subject, answer: Answer) {
        self.0[row(subject)][number(answer)] += 1;
    }

    /// Adds the counts of another.
    pub fn add(&mut self, other: &Tally) {
        let counts = self.0.iter_mut().flatten();
        for (count, more) in counts.zip(other.0.iter().flatten()) {
            *count += more;
        }
    }

    /// All lines counted.
    pub fn lines(&self) -> u64 {
        self.0.iter().flatten().sum()
    }

    /// What the bench can reach and no line had.
    pub fn missing(&self) -> Vec<String> {
        let mut missing = Vec::new();
        for ((name, counts), numbers) in ROWS.iter().zip(&self.0).zip(REACHABLE) {
            for number in numbers {
                if counts[*number] == 0 {
                    missing.push(format!("{name} {number}"));
                }
            }
        }
        missing
    }

    /// What a line had although the bench cannot reach it.
    pub fn unexpected(&self) -> Vec<String> {
        let mut unexpected = Vec::new();
        for ((name, counts), numbers) in ROWS.iter().zip(&self.0).zip(REACHABLE) {
            for (number, count) in counts.iter().enumerate() {
                if *count != 0 && !numbers.contains(&number) {
                    unexpected.push(format!("{name} {number}"));
                }
            }
        }
        unexpected
    }
}

impl fmt::Display for Tally {
    fn fmt(&self, formatter: &mut fmt::Formatter<'_>) -> fmt::Result {
        write!(formatter, "{:<14}", "number")?;
        for number in 0..NUMBERS {
            write!(formatter, "{number:>8}")?;
        }
        for ((name, counts), numbers) in ROWS.iter().zip(&self.0).zip(REACHABLE) {
            write!(formatter, "\n{name:<14}")?;
            for (number, count) in counts.iter().enumerate() {
                if numbers.contains(&number) || *count != 0 {
                    write!(formatter, "{count:>8}")?;
                } else {
                    write!(formatter, "{:>8}", "-")?;
                }
            }
        }
        Ok(())
    }
}
