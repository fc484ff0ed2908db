//! Broken input: records that stop the bench, first records that are not fresh, and input cut or
//! changed anywhere.

use crate::counters::{Version, OBJECTS};
use crate::maker::{event_bytes, record_bytes, Maker};
use crate::random::Random;
use crate::records::{
    examine, End, EndKind, Entry, Event, Record, CALL, COMMITTED, FRESH, HEADER, KINDS,
    LONGEST_BODY, ROLLED_BACK, START,
};

/// Header and body, whether they make a record or not; the length is the body's.
fn framed(kind: u16, body: &[u8]) -> Vec<u8> {
    let mut bytes = (body.len() as u16).to_le_bytes().to_vec();
    bytes.extend(kind.to_le_bytes());
    bytes.extend(body);
    bytes
}

impl Maker {
    /// The session's first record.
    fn fresh_record(&self) -> Vec<u8> {
        let (_, body) = examine(&self.bytes);
        self.bytes[..HEADER + body.len()].to_vec()
    }

    /// A record that prints its line with 12 and stops the program.
    pub fn stopping_record(&mut self) -> Vec<u8> {
        let random = &mut self.random;
        match random.below(9) {
            0 => unknown_kind(random),
            1 => {
                let good = self.hostile_event();
                other_length(&mut self.random, &good)
            }
            2 => other_n(random),
            3 => too_long(random),
            4 => zero_byte(random),
            5 => end_record(random),
            6 => bad_end_record(random),
            7 => second_fresh(random),
            _ => {
                // Header and body of an event with length and kind in the other byte order.
                let mut record = self.hostile_event();
                record.swap(0, 1);
                record.swap(2, 3);
                record
            }
        }
    }
}

/// Unknown kind, also one whose body would suit a kind beside it.
fn unknown_kind(random: &mut Random) -> Vec<u8> {
    let near = [0, 1, 0xFF, 0x0106, 0x01FF, 0x0200, 0x0203, 0x0301, 0x8101];
    let kind = match random.below(2) {
        0 => random.pick(&near),
        _ => random.word() as u16,
    };
    let length = match random.below(2) {
        0 => random.pick(&[0, 2, 4, 5, 8, 100, 126]),
        _ => random.between(0, LONGEST_BODY),
    };
    let body = random.bytes(length);
    if KINDS.contains(&kind) {
        return framed(0, &body);
    }
    framed(kind, &body)
}

/// Length wrong for kind and n: a good record's body with bytes more or less.
fn other_length(random: &mut Random, good: &[u8]) -> Vec<u8> {
    let kind = u16::from_le_bytes([good[2], good[3]]);
    let mut body = good[HEADER..].to_vec();
    match random.below(4) {
        0 => body.truncate(body.len() - 1),
        1 => body.push(0),
        2 => body.truncate(random.below(body.len())),
        _ => body.resize(random.between(body.len() + 1, LONGEST_BODY + 1), 0),
    }
    framed(kind, &body)
}

/// A start whose n is not the number of its pairs.
fn other_n(random: &mut Random) -> Vec<u8> {
    let pairs = random.between(0, 62);
    let mut body = random.bytes(2 + 2 * pairs);
    body[1] = match random.below(4) {
        0 => pairs as u8 + 1,
        1 => (pairs as u8).wrapping_sub(1),
        2 => pairs as u8 | 0x80,
        _ => 2 * (pairs as u8 + 1),
    };
    framed(START, &body)
}

/// Length over 126, with all of the body there or not.
fn too_long(random: &mut Random) -> Vec<u8> {
    if random.chance(50) {
        return too_long_start(random);
    }
    let length = match random.below(3) {
        0 => LONGEST_BODY + 1,
        1 => random.pick(&[128, 256, 258, 264, 0x0200, 0x8000, 0xFFFF]),
        _ => random.between(LONGEST_BODY + 1, 300),
    };
    let mut bytes = framed(random.pick(&KINDS), &random.bytes(length));
    bytes.truncate(HEADER + 300);
    bytes
}

/// A start that is too long and else as the layout says, n included.
fn too_long_start(random: &mut Random) -> Vec<u8> {
    let pairs = random.pick(&[63, 63, 64, 127, 255]);
    let mut body = vec![random.byte(0, 15), pairs as u8];
    body.extend(random.bytes(2 * pairs));
    framed(START, &body)
}

/// The zero byte not zero
fn zero_byte(random: &mut Random) -> Vec<u8> {
    let mut body = [random.byte(0, 17), random.byte(0, 25), random.byte(0, 4), 0].to_vec();
    body[3] = match random.below(2) {
        0 => 1 << random.below(8),
        _ => random.byte(1, u8::MAX),
    };
    body.extend(random.bytes(4));
    framed(CALL, &body)
}

/// An end record that reads well.
pub fn end_record(random: &mut Random) -> Vec<u8> {
    let n = random.between(1, OBJECTS);
    let mut objects: Vec<u8> = (0..OBJECTS as u8).collect();
    random.shuffle(&mut objects);
    objects.truncate(n);
    objects.sort_unstable();
    let mut entry = |object| Entry {
        object,
        version: Version(random.word()),
    };
    let entries = objects.into_iter().map(&mut entry).collect();
    record_bytes(&Record::End(End {
        kind: random.pick(&[EndKind::Committed, EndKind::RolledBack]),
        tick: random.word(),
        slot: random.byte(0, 15),
        entries,
    }))
}

/// An end record with wrong content or a wrong n.
fn bad_end_record(random: &mut Random) -> Vec<u8> {
    let mut record = end_record(random);
    match random.below(5) {
        0 => record[HEADER + 4] = random.byte(16, u8::MAX),
        1 => record[HEADER + 6] = random.byte(24, u8::MAX),
        2 => record[HEADER + 5] = random.byte(0, u8::MAX),
        3 => {
            let kind = random.pick(&[COMMITTED, ROLLED_BACK]);
            record = framed(kind, &[0; 6]);
        }
        _ => {
            let last = record[HEADER + 6..].to_vec();
            record.extend(last);
            record[0] = (record.len() - HEADER) as u8;
            record[HEADER + 5] *= 2;
        }
    }
    record
}

/// A fresh that reads well, or one with bytes more or less.
fn second_fresh(random: &mut Random) -> Vec<u8> {
    let length = random.pick(&[100, 100, 99, 101, 96, 104]);
    framed(FRESH, &random.bytes(length))
}

/// An input whose first record is not a fresh.
pub fn no_fresh(mut maker: Maker) -> Vec<u8> {
    let whole = maker.bytes.clone();
    let record = match maker.random.below(6) {
        0 => {
            let good = maker.fresh_record();
            good[..maker.random.below(good.len())].to_vec()
        }
        1 => maker.hostile_event(),
        2 => end_record(&mut maker.random),
        3 => {
            let good = maker.fresh_record();
            other_length(&mut maker.random, &good)
        }
        4 => maker.stopping_record(),
        _ => {
            let length = maker.random.between(1, 40);
            maker.random.bytes(length)
        }
    };
    maker.bytes.clear();
    if record.len() >= HEADER && maker.random.chance(50) {
        maker.bytes.extend(&record);
        maker.bytes.extend(&whole);
        maker
            .bytes
            .extend(event_bytes(Event::Release { slot: 0, object: 0 }));
        return maker.bytes;
    }
    record
}

/// Torn tails: the input cut at any byte.
pub fn torn(mut maker: Maker) -> Vec<u8> {
    let length = maker.random.between(0, maker.bytes.len());
    maker.bytes.truncate(length);
    maker.bytes
}

/// The input with one byte changed.
pub fn changed(mut maker: Maker) -> Vec<u8> {
    let place = maker.random.below(maker.bytes.len());
    if maker.random.chance(50) {
        maker.bytes[place] ^= 1 << maker.random.below(8);
    } else {
        maker.bytes[place] = maker.random.byte(0, u8::MAX);
    }
    maker.bytes
}
