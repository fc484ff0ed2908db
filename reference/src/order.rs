//! Which came first.

use crate::answers::Refusal;
use crate::counters::Version;
use crate::records::{read, End, Entry, Record};

/// The answers; they have names and no numbers.
#[derive(Clone, Copy, Debug, PartialEq, Eq)]
pub enum CameFirst {
    A,
    B,
    Same,
    Far,
    Unrelated,
}

/// Half of the versions: e = 2147483648: Far.
const FAR: u32 = 1 << 31;

/// Given two end records A and B, take the smallest object that both list. Bytes that don't
/// read as an end record give BadRecord, A's before B's.
pub fn which_came_first(a: &[u8], b: &[u8]) -> Result<CameFirst, Refusal> {
    let a = read_end(a)?;
    let b = read_end(b)?;
    Ok(match common(&a.entries, &b.entries) {
        Some((a, b)) => compare(a, b),
        None => CameFirst::Unrelated,
    })
}

/// An end record; an event or a fresh gives BadRecord too.
fn read_end(bytes: &[u8]) -> Result<End, Refusal> {
    match read(bytes).0? {
        Record::End(end) => Ok(end),
        _ => Err(Refusal::BadRecord),
    }
}

/// Both versions at the smallest object that both list, found by a walk of one list inside a walk
/// of the other, left at the first hit. Both lists rise, so the first hit is the smallest.
fn common(a: &[Entry], b: &[Entry]) -> Option<(Version, Version)> {
    for outer in a {
        for inner in b {
            if outer.object == inner.object {
                return Some((outer.version, inner.version));
            }
        }
    }
    None
}

/// Let e be B's version minus A's. e = 0: Same. e from 1 to 2147483647: A. e = 2147483648: Far.
/// Above: B.
fn compare(a: Version, b: Version) -> CameFirst {
    match b.minus(a) {
        0 => CameFirst::Same,
        1..FAR => CameFirst::A,
        FAR => CameFirst::Far,
        _ => CameFirst::B,
    }
}
