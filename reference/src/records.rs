//! Records: their kinds, their fields, and reading with its refusals in order.

use crate::answers::Refusal;
use crate::counters::{ObjectNumber, SlotNumber, Version, OBJECTS};

/// Length u16 (bytes of the body only), kind u16
pub const HEADER: usize = 4;

/// A body has at most 126 bytes.
pub const LONGEST_BODY: usize = 126;

pub const FRESH: u16 = 0x0100;
pub const START: u16 = 0x0101;
pub const CALL: u16 = 0x0102;
pub const RELEASE: u16 = 0x0103;
pub const COMMIT: u16 = 0x0104;
pub const ROLLBACK: u16 = 0x0105;
pub const COMMITTED: u16 = 0x0201;
pub const ROLLED_BACK: u16 = 0x0202;

/// All kinds there are.
pub const KINDS: [u16; 8] = [
    FRESH,
    START,
    CALL,
    RELEASE,
    COMMIT,
    ROLLBACK,
    COMMITTED,
    ROLLED_BACK,
];

/// An event by its fields. Events' slots and objects are left to the steps, and so is a start's
/// list.
#[derive(Clone, Copy, Debug, PartialEq, Eq)]
pub enum Event<'bytes> {
    Start {
        slot: u8,
        /// n pairs (object u8, supremum u8)
        list: &'bytes [u8],
    },
    Call {
        slot: u8,
        object: u8,
        kind: u8,
        argument: u32,
    },
    Release {
        slot: u8,
        object: u8,
    },
    Commit {
        slot: u8,
        tick: u32,
    },
    Rollback {
        slot: u8,
        tick: u32,
    },
}

/// How a transaction ended.
#[derive(Clone, Copy, Debug, PartialEq, Eq)]
pub enum EndKind {
    Committed = COMMITTED as isize,
    RolledBack = ROLLED_BACK as isize,
}

/// n entries (object u8, private version u32)
#[derive(Clone, Copy, Debug, Default, PartialEq, Eq)]
pub struct Entry {
    pub object: u8,
    pub version: Version,
}

/// Bytes of an entry.
const ENTRY: usize = 5;

/// An end record by its fields.
#[derive(Clone, Debug, PartialEq, Eq)]
pub struct End {
    pub kind: EndKind,
    pub tick: u32,
    pub slot: u8,
    pub entries: Vec<Entry>,
}

/// A record by its fields.
#[derive(Clone, Debug, PartialEq, Eq)]
pub enum Record<'bytes> {
    Fresh {
        first: Version,
        words: [u32; OBJECTS],
    },
    Event(Event<'bytes>),
    End(End),
}

/// Why bytes are no record, in this order. Each is refusal 12.
#[derive(Clone, Copy, Debug, PartialEq, Eq)]
pub enum Fault {
    /// Under 4 bytes
    UnderFourBytes,
    /// Length over 126
    LengthOver,
    /// Body not all there
    BodyNotAllThere,
    /// Unknown kind
    UnknownKind,
    /// Length wrong for kind and n
    LengthWrong,
    /// Content
    Content,
}

/// A reading is either the fields or the refusal. The body of the first record is handed back as
/// that part of the caller's bytes; where the frame (the first three checks) fails, an empty part
/// is. Bytes behind the record don't matter.
pub fn read(bytes: &[u8]) -> (Result<Record<'_>, Refusal>, &[u8]) {
    let (reading, body) = examine(bytes);
    (reading.map_err(|_| Refusal::BadRecord), body)
}

/// The same, with the fault in place of the refusal.
pub fn examine(bytes: &[u8]) -> (Result<Record<'_>, Fault>, &[u8]) {
    match frame(bytes) {
        Ok((kind, body)) => (fields(kind, body), body),
        Err(fault) => (Err(fault), &bytes[..0]),
    }
}

/// The frame (the first three checks): kind and body.
fn frame(bytes: &[u8]) -> Result<(u16, &[u8]), Fault> {
    let &[length_low, length_high, kind_low, kind_high, ref behind @ ..] = bytes else {
        return Err(Fault::UnderFourBytes);
    };
    let length = usize::from(u16::from_le_bytes([length_low, length_high]));
    if length > LONGEST_BODY {
        return Err(Fault::LengthOver);
    }
    match behind.get(..length) {
        Some(body) => Ok((u16::from_le_bytes([kind_low, kind_high]), body)),
        None => Err(Fault::BodyNotAllThere),
    }
}

/// Unknown kind, length wrong for kind and n, content
fn fields(kind: u16, body: &[u8]) -> Result<Record<'_>, Fault> {
    match kind {
        FRESH => fresh(body),
        START => start(body).map(Record::Event),
        CALL => call(body).map(Record::Event),
        RELEASE => release(body).map(Record::Event),
        COMMIT => {
            slot_and_tick(body).map(|(slot, tick)| Record::Event(Event::Commit { slot, tick }))
        }
        ROLLBACK => {
            slot_and_tick(body).map(|(slot, tick)| Record::Event(Event::Rollback { slot, tick }))
        }
        COMMITTED => end(EndKind::Committed, body).map(Record::End),
        ROLLED_BACK => end(EndKind::RolledBack, body).map(Record::End),
        _ => Err(Fault::UnknownKind),
    }
}

/// First version u32, 24 words u32 (100 bytes)
fn fresh(body: &[u8]) -> Result<Record<'_>, Fault> {
    if body.len() != 4 + 4 * OBJECTS {
        return Err(Fault::LengthWrong);
    }
    let mut words = [0; OBJECTS];
    for (word, bytes) in words.iter_mut().zip(body[4..].chunks_exact(4)) {
        *word = number(bytes);
    }
    let first = Version(number(&body[..4]));
    Ok(Record::Fresh { first, words })
}

/// Slot u8, n u8, n pairs (object u8, supremum u8)
fn start(body: &[u8]) -> Result<Event<'_>, Fault> {
    match body {
        [slot, n, list @ ..] if list.len() == 2 * usize::from(*n) => {
            Ok(Event::Start { slot: *slot, list })
        }
        _ => Err(Fault::LengthWrong),
    }
}

/// Slot u8, object u8, kind u8, zero u8, argument u32; a content fault is the zero byte not
/// zero.
fn call(body: &[u8]) -> Result<Event<'_>, Fault> {
    let &[slot, object, kind, zero, ref argument @ ..] = body else {
        return Err(Fault::LengthWrong);
    };
    if argument.len() != 4 {
        return Err(Fault::LengthWrong);
    }
    if zero != 0 {
        return Err(Fault::Content);
    }
    Ok(Event::Call {
        slot,
        object,
        kind,
        argument: number(argument),
    })
}

/// Slot u8, object u8
fn release(body: &[u8]) -> Result<Event<'_>, Fault> {
    match *body {
        [slot, object] => Ok(Event::Release { slot, object }),
        _ => Err(Fault::LengthWrong),
    }
}

/// Slot u8, tick u32
fn slot_and_tick(body: &[u8]) -> Result<(u8, u32), Fault> {
    match body {
        [slot, tick @ ..] if tick.len() == 4 => Ok((*slot, number(tick))),
        _ => Err(Fault::LengthWrong),
    }
}

/// Tick u32, slot u8, n u8, n entries (object u8, private version u32)
fn end(kind: EndKind, body: &[u8]) -> Result<End, Fault> {
    let [tick0, tick1, tick2, tick3, slot, n, list @ ..] = body else {
        return Err(Fault::LengthWrong);
    };
    if list.len() != ENTRY * usize::from(*n) {
        return Err(Fault::LengthWrong);
    }
    let entry = |bytes: &[u8]| Entry {
        object: bytes[0],
        version: Version(number(&bytes[1..])),
    };
    let entries: Vec<Entry> = list.chunks_exact(ENTRY).map(entry).collect();
    if !end_content(*slot, &entries) {
        return Err(Fault::Content);
    }
    Ok(End {
        kind,
        tick: u32::from_le_bytes([*tick0, *tick1, *tick2, *tick3]),
        slot: *slot,
        entries,
    })
}

/// Whether none of these is there: in end records slot over 15, n = 0, object over 23, objects
/// not rising.
pub fn end_content(slot: u8, entries: &[Entry]) -> bool {
    SlotNumber::new(slot).is_ok()
        && !entries.is_empty()
        && entries
            .iter()
            .all(|entry| ObjectNumber::new(entry.object).is_ok())
        && entries.windows(2).all(|two| two[0].object < two[1].object)
}

/// Little-endian
fn number(bytes: &[u8]) -> u32 {
    bytes
        .iter()
        .rev()
        .fold(0, |number, byte| number << 8 | u32::from(*byte))
}
