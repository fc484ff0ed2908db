//! How the input of a session comes to another program.

use std::fs::File;
use std::io::{Read, Seek, Write};
use std::process::ChildStdin;
use std::thread;
use std::time::Duration;

/// How an input comes.
#[derive(Clone, Copy, Debug, PartialEq, Eq)]
pub enum Delivery {
    /// As fast as it is taken.
    Whole,
    /// In two pieces with a pause between, so that a program that takes a short read for the end
    /// of input is found.
    InTwo,
    /// In pieces of so many bytes, each of which the program has taken before the next one comes.
    Pieces(usize),
}

/// The deliveries of long sessions: whole, a byte at a time, and pieces around the sizes of records
/// and of the bench's buffers.
pub const OF_LONG: [Delivery; 8] = [
    Delivery::Whole,
    Delivery::Pieces(1),
    Delivery::Pieces(7),
    Delivery::Pieces(129),
    Delivery::Pieces(131),
    Delivery::Pieces(4_099),
    Delivery::Pieces(65_535),
    Delivery::Pieces(65_537),
];

/// Every so many sessions one is long.
const LONG_EVERY: u64 = 375;

/// Every so many of the others come in two pieces.
const IN_TWO_EVERY: u64 = 16;

/// The pause; longer than a program takes to start and read what is there.
const PAUSE: Duration = Duration::from_millis(25);

/// Whether a session is long by its number.
pub fn is_long(number: u64) -> bool {
    number % LONG_EVERY == LONG_EVERY - 1
}

impl Delivery {
    /// The delivery of a session by its number; long ones go through all of theirs.
    pub fn of(number: u64) -> Delivery {
        if is_long(number) {
            return OF_LONG[(number / LONG_EVERY) as usize % OF_LONG.len()];
        }
        match number % IN_TWO_EVERY {
            0 => Delivery::InTwo,
            _ => Delivery::Whole,
        }
    }

    /// Writes the input to a program. One that stops at a bad record need not read the rest, so
    /// that a closed pipe is no fault.
    pub fn feed(self, mut stdin: ChildStdin, input: &[u8], program: u32) {
        let size = match self {
            Delivery::Whole => input.len(),
            Delivery::InTwo => input.len() / 2 + 1,
            Delivery::Pieces(size) => size,
        };
        let mut state = File::open(format!("/proc/{program}/stat")).ok();
        for (place, piece) in input.chunks(size.max(1)).enumerate() {
            match self {
                Delivery::InTwo if place > 0 => thread::sleep(PAUSE),
                Delivery::Pieces(_) => {
                    while works(&mut state) {
                        thread::yield_now();
                    }
                }
                _ => {}
            }
            if stdin.write_all(piece).is_err() {
                return;
            }
        }
    }
}

/// Whether a process has still to do before it waits for input: it runs, or waits for a disk.
/// Writing to a pipe wakes its reader before the write ends, so that one that sleeps has taken all.
fn works(state: &mut Option<File>) -> bool {
    let mut text = [0; 128];
    let Some(file) = state else { return false };
    let length = file.rewind().and_then(|()| file.read(&mut text));
    let text = &text[..length.unwrap_or(0)];
    let name_end = text.iter().rposition(|byte| *byte == b')');
    let letter = name_end.and_then(|end| text.get(end + 2));
    matches!(letter, Some(b'R' | b'D'))
}
