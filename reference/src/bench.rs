//! The bench program.

use std::fmt;

use crate::answers::{number, value, Answer, Refusal};
use crate::records::{examine, Event, Fault, Record, HEADER, LONGEST_BODY};
use crate::tables::Tables;

/// Its buffer for ends has 130 bytes: the longest record.
pub const BUFFER: usize = HEADER + LONGEST_BODY;

/// What a line is about.
#[derive(Clone, Copy, Debug, PartialEq, Eq)]
pub enum Subject<'input> {
    /// The first record must be fresh; it is not, or input is empty.
    NoFresh,
    Event(Event<'input>),
    /// A bad record
    Bad(Fault),
    /// An end record
    End,
    /// a second fresh
    SecondFresh,
}

/// Per event one line: the event's number from 1, the number from the table, the value
#[derive(Clone, Copy, Debug)]
pub struct Line<'input> {
    pub event: u64,
    pub subject: Subject<'input>,
    pub answer: Answer,
}

impl fmt::Display for Line<'_> {
    fn fmt(&self, formatter: &mut fmt::Formatter<'_>) -> fmt::Result {
        let (number, value) = (number(self.answer), value(self.answer));
        write!(formatter, "{} {} {}", self.event, number, value)
    }
}

/// A run of the bench over an input; each line comes from [`Iterator::next`].
pub struct Bench<'input> {
    rest: &'input [u8],
    /// None before the first record, and where it is not fresh.
    tables: Option<Tables>,
    /// The number of the last event.
    event: u64,
    stopped: bool,
}

impl<'input> Bench<'input> {
    /// Reads the first record, which must be fresh and prints nothing.
    pub fn new(input: &'input [u8]) -> Self {
        let mut bench = Bench {
            rest: input,
            tables: None,
            event: 0,
            stopped: false,
        };
        if let Ok(Record::Fresh { first, words }) = bench.record() {
            bench.tables = Some(Tables::fresh(first, words));
        }
        bench
    }

    /// The tables after the last event; none where the first record was not fresh.
    pub fn tables(&self) -> Option<&Tables> {
        self.tables.as_ref()
    }

    /// The next record; the input goes on behind it.
    fn record(&mut self) -> Result<Record<'input>, Fault> {
        let (reading, body) = examine(self.rest);
        if reading.is_ok() {
            self.rest = &self.rest[HEADER + body.len()..];
        }
        reading
    }

    /// A bad record, an end record or a second fresh prints its line with 12 and stops the
    /// program.
    fn stop(&mut self, subject: Subject<'input>) -> Line<'input> {
        self.stopped = true;
        Line {
            event: self.event,
            subject,
            answer: Err(Refusal::BadRecord),
        }
    }
}

impl<'input> Iterator for Bench<'input> {
    type Item = Line<'input>;

    fn next(&mut self) -> Option<Line<'input>> {
        if self.stopped {
            return None;
        }
        if self.tables.is_none() {
            return Some(self.stop(Subject::NoFresh));
        }
        if self.rest.is_empty() {
            return None;
        }
        self.event += 1;
        let reading = self.record();
        match (reading, &mut self.tables) {
            (Ok(Record::Event(event)), Some(tables)) => Some(Line {
                event: self.event,
                subject: Subject::Event(event),
                answer: tables.step(event, &mut [0; BUFFER]),
            }),
            (Ok(Record::End(_)), _) => Some(self.stop(Subject::End)),
            (Err(fault), _) => Some(self.stop(Subject::Bad(fault))),
            (Ok(_), _) => Some(self.stop(Subject::SecondFresh)),
        }
    }
}

/// Everything the program prints for an input.
pub fn output(input: &[u8]) -> String {
    Bench::new(input).map(|line| format!("{line}\n")).collect()
}
