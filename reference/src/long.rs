//! Situations of long sessions: those in which a fault of a program's buffers would show.

use crate::delivery::Delivery;
use crate::records::{examine, HEADER};

/// The bytes that each buffer of the bench holds.
const BUFFERED: usize = 65_536;

/// The least bytes of a long session's input, and of what is printed for it.
pub const LONG: usize = 200_000;

/// A session with where its records and its lines end, and its delivery.
pub struct Passage {
    record_ends: Vec<usize>,
    line_ends: Vec<usize>,
    delivery: Delivery,
}

/// A situation's name, and whether a session is one.
pub type LongSituation = (&'static str, fn(&Passage) -> bool);

/// All situations of long sessions.
pub const LONG_SITUATIONS: [LongSituation; 14] = [
    ("record across byte 65536", |p| p.record_across(1)),
    ("record across byte 131072", |p| p.record_across(2)),
    ("record across byte 196608", |p| p.record_across(3)),
    ("line across byte 65536", |p| p.line_across(1)),
    ("line across byte 131072", |p| p.line_across(2)),
    ("line across byte 196608", |p| p.line_across(3)),
    ("long session whole", |p| p.comes(Delivery::Whole)),
    ("long session a byte at a time", |p| p.in_pieces(1)),
    ("long session in pieces of 7 bytes", |p| p.in_pieces(7)),
    ("long session in pieces of 129 bytes", |p| p.in_pieces(129)),
    ("long session in pieces of 131 bytes", |p| p.in_pieces(131)),
    ("long session in pieces of 4099 bytes", |p| {
        p.in_pieces(4_099)
    }),
    ("long session in pieces of 65535 bytes", |p| {
        p.in_pieces(65_535)
    }),
    ("long session in pieces of 65537 bytes", |p| {
        p.in_pieces(65_537)
    }),
];

impl Passage {
    pub fn new(input: &[u8], output: &[u8], delivery: Delivery) -> Passage {
        let mut record_ends = Vec::new();
        let mut end = 0;
        while let (Ok(_), body) = examine(&input[end..]) {
            end += HEADER + body.len();
            record_ends.push(end);
        }
        let lines = output
            .iter()
            .enumerate()
            .filter(|(_, byte)| **byte == b'\n');
        Passage {
            record_ends,
            line_ends: lines.map(|(place, _)| place + 1).collect(),
            delivery,
        }
    }

    /// Whether a record and a line lie across each end of a buffer.
    pub fn crosses(&self) -> bool {
        (1..=3).all(|buffers| self.record_across(buffers) && self.line_across(buffers))
    }

    fn record_across(&self, buffers: usize) -> bool {
        across(&self.record_ends, buffers)
    }

    fn line_across(&self, buffers: usize) -> bool {
        across(&self.line_ends, buffers)
    }

    /// A long session in a delivery.
    fn comes(&self, delivery: Delivery) -> bool {
        let long = |ends: &[usize]| ends.last().is_some_and(|end| *end >= LONG);
        self.delivery == delivery && long(&self.record_ends) && long(&self.line_ends)
    }

    fn in_pieces(&self, size: usize) -> bool {
        self.comes(Delivery::Pieces(size))
    }
}

/// Whether one of the pieces that end at these places lies across the end of so many buffers.
fn across(ends: &[usize], buffers: usize) -> bool {
    let place = buffers * BUFFERED;
    ends.last().is_some_and(|last| *last > place) && ends.binary_search(&place).is_err()
}
