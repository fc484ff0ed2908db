//! Every kind can also be written from its fields: fields that make no readable record (for a
//! start, also an odd list) give 12, then a short buffer gives 11, else the record stands at the
//! buffer's first byte, the rest stays and the value is the bytes written.

use crate::answers::{Answer, Refusal};
use crate::counters::{Version, OBJECTS};
use crate::records::{
    end_content, EndKind, Entry, Event, Record, CALL, COMMIT, FRESH, HEADER, LONGEST_BODY, RELEASE,
    ROLLBACK, START,
};

/// A body under way.
struct Body {
    bytes: [u8; LONGEST_BODY],
    length: usize,
}

impl Body {
    fn new() -> Body {
        Body {
            bytes: [0; LONGEST_BODY],
            length: 0,
        }
    }

    /// A body has at most 126 bytes: a longer one makes no readable record.
    fn append(&mut self, part: &[u8]) -> Result<(), Refusal> {
        let end = self.length + part.len();
        let place = self.bytes.get_mut(self.length..end);
        place.ok_or(Refusal::BadRecord)?.copy_from_slice(part);
        self.length = end;
        Ok(())
    }

    /// NoRoom: buffer shorter than the record to be written
    fn put(&self, kind: u16, buffer: &mut [u8]) -> Answer {
        let written = HEADER + self.length;
        let record = buffer.get_mut(..written).ok_or(Refusal::NoRoom)?;
        record[..2].copy_from_slice(&(self.length as u16).to_le_bytes());
        record[2..HEADER].copy_from_slice(&kind.to_le_bytes());
        record[HEADER..].copy_from_slice(&self.bytes[..self.length]);
        Ok(written as u32)
    }
}

/// A list's n as its byte; a list whose n fits no byte makes no readable record.
fn n(length: usize) -> Result<u8, Refusal> {
    u8::try_from(length).map_err(|_| Refusal::BadRecord)
}

/// Any record from its fields.
pub fn write(record: &Record, buffer: &mut [u8]) -> Answer {
    match record {
        Record::Fresh { first, words } => write_fresh(*first, words, buffer),
        Record::Event(event) => write_event(*event, buffer),
        Record::End(end) => write_end(end.kind, end.tick, end.slot, &end.entries, buffer),
    }
}

/// Any event from its fields.
pub fn write_event(event: Event, buffer: &mut [u8]) -> Answer {
    match event {
        Event::Start { slot, list } => write_start(slot, list, buffer),
        Event::Call {
            slot,
            object,
            kind,
            argument,
        } => write_call(slot, object, kind, argument, buffer),
        Event::Release { slot, object } => write_release(slot, object, buffer),
        Event::Commit { slot, tick } => write_slot_and_tick(COMMIT, slot, tick, buffer),
        Event::Rollback { slot, tick } => write_slot_and_tick(ROLLBACK, slot, tick, buffer),
    }
}

/// First version u32, 24 words u32 (100 bytes); another number of words makes no readable
/// record.
pub fn write_fresh(first: Version, words: &[u32], buffer: &mut [u8]) -> Answer {
    if words.len() != OBJECTS {
        return Err(Refusal::BadRecord);
    }
    let mut body = Body::new();
    body.append(&first.0.to_le_bytes())?;
    for word in words {
        body.append(&word.to_le_bytes())?;
    }
    body.put(FRESH, buffer)
}

/// Slot u8, n u8, n pairs (object u8, supremum u8); for a start, also an odd list gives 12.
pub fn write_start(slot: u8, list: &[u8], buffer: &mut [u8]) -> Answer {
    if list.len() % 2 == 1 {
        return Err(Refusal::BadRecord);
    }
    let mut body = Body::new();
    body.append(&[slot, n(list.len() / 2)?])?;
    body.append(list)?;
    body.put(START, buffer)
}

/// Slot u8, object u8, kind u8, zero u8, argument u32
pub fn write_call(slot: u8, object: u8, kind: u8, argument: u32, buffer: &mut [u8]) -> Answer {
    let mut body = Body::new();
    body.append(&[slot, object, kind, 0])?;
    body.append(&argument.to_le_bytes())?;
    body.put(CALL, buffer)
}

/// Slot u8, object u8
pub fn write_release(slot: u8, object: u8, buffer: &mut [u8]) -> Answer {
    let mut body = Body::new();
    body.append(&[slot, object])?;
    body.put(RELEASE, buffer)
}

/// 0x0104 commit, 0x0105 rollback: slot u8, tick u32
fn write_slot_and_tick(kind: u16, slot: u8, tick: u32, buffer: &mut [u8]) -> Answer {
    let mut body = Body::new();
    body.append(&[slot])?;
    body.append(&tick.to_le_bytes())?;
    body.put(kind, buffer)
}

/// 0x0201 committed, 0x0202 rolled back, refused with 12 where it would not read back.
pub fn write_end(
    kind: EndKind,
    tick: u32,
    slot: u8,
    entries: &[Entry],
    buffer: &mut [u8],
) -> Answer {
    if !end_content(slot, entries) {
        return Err(Refusal::BadRecord);
    }
    put_end(kind, tick, slot, entries, buffer)
}

/// A successful end writes its record at the buffer's first byte, its value is the bytes written,
/// and the rest of the buffer stays. The content is not tested: the read-back of an end record
/// is claimed for tables reached from fresh, and a live slot that declares nothing, which no run
/// from fresh has, ends with n = 0.
pub fn put_end(kind: EndKind, tick: u32, slot: u8, entries: &[Entry], buffer: &mut [u8]) -> Answer {
    let mut body = Body::new();
    body.append(&tick.to_le_bytes())?;
    body.append(&[slot, n(entries.len())?])?;
    for entry in entries {
        body.append(&[entry.object])?;
        body.append(&entry.version.0.to_le_bytes())?;
    }
    body.put(kind as u16, buffer)
}
