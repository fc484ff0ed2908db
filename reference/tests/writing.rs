//! Writing every kind from its fields, and that writing and reading undo each other.

mod common;

use common::UNTOUCHED;
use reference::answers::Refusal;
use reference::bench::BUFFER;
use reference::counters::{Version, OBJECTS};
use reference::random::Random;
use reference::records::{read, End, EndKind, Entry, Event, Record, HEADER};
use reference::sessions::{call, session, start};
use reference::writing::{write, write_end, write_fresh, write_start};

/// The record is written, read back, and refused where the buffer is one byte short.
#[track_caller]
fn round_trip(record: Record, length: usize) {
    let mut buffer = [UNTOUCHED; 200];
    assert_eq!(write(&record, &mut buffer), Ok(length as u32));
    assert!(buffer[length..].iter().all(|byte| *byte == UNTOUCHED));
    assert_eq!(read(&buffer).0, Ok(record.clone()));
    assert_eq!(write(&record, &mut vec![0; length]), Ok(length as u32));
    let mut short = vec![UNTOUCHED; length - 1];
    assert_eq!(write(&record, &mut short), Err(Refusal::NoRoom));
    assert!(short.iter().all(|byte| *byte == UNTOUCHED));
}

fn entries(objects: &[u8]) -> Vec<Entry> {
    let entry = |object: &u8| Entry {
        object: *object,
        version: Version(u32::MAX - u32::from(*object)),
    };
    objects.iter().map(entry).collect()
}

#[test]
fn every_kind_reads_back() {
    let first = Version(0x01020304);
    let words = [0xA0B0C0D0; OBJECTS];
    round_trip(Record::Fresh { first, words }, 104);
    round_trip(Record::Event(start(200, &[99, 3])), 8);
    round_trip(Record::Event(call(1, 2, 3, 0xFFFF_0000)), 12);
    round_trip(Record::Event(Event::Release { slot: 1, object: 2 }), 6);
    round_trip(Record::Event(Event::Commit { slot: 1, tick: 2 }), 9);
    round_trip(Record::Event(Event::Rollback { slot: 1, tick: 2 }), 9);
}

#[test]
fn ends_of_1_and_of_24_entries_read_back() {
    let all: Vec<u8> = (0..24).collect();
    for kind in [EndKind::Committed, EndKind::RolledBack] {
        for (objects, length) in [(&[23][..], 15), (&[0, 23], 20), (&all, BUFFER)] {
            let end = End {
                kind,
                tick: 5,
                slot: 15,
                entries: entries(objects),
            };
            round_trip(Record::End(end), length);
        }
    }
}

#[test]
fn start_lists_of_0_and_of_62_pairs_read_back() {
    round_trip(Record::Event(start(0, &[])), 6);
    round_trip(Record::Event(start(0, &[7; 124])), BUFFER);
}

#[test]
fn a_start_list_odd_or_too_long_gives_12() {
    for length in [1, 3, 47, 123, 125, 126, 128, 510, 512, 514] {
        let answer = write_start(0, &vec![0; length], &mut [0; 600]);
        assert_eq!(answer, Err(Refusal::BadRecord), "{length}");
    }
}

#[test]
fn another_number_of_words_gives_12() {
    for words in [0, 23, 25, 30] {
        let answer = write_fresh(Version(0), &vec![0; words], &mut [0; 200]);
        assert_eq!(answer, Err(Refusal::BadRecord));
    }
}

#[test]
fn ends_that_would_not_read_give_12() {
    let too_many: Vec<u8> = (0..25).collect();
    for (slot, objects) in [
        (16, &[3][..]),
        (0, &[]),
        (0, &[24]),
        (0, &[3, 3]),
        (0, &[4, 3]),
        (0, &too_many),
    ] {
        let answer = write_end(
            EndKind::Committed,
            0,
            slot,
            &entries(objects),
            &mut [0; 200],
        );
        assert_eq!(answer, Err(Refusal::BadRecord));
    }
}

#[test]
fn twelve_comes_before_eleven() {
    assert_eq!(write_start(0, &[1], &mut []), Err(Refusal::BadRecord));
    assert_eq!(
        write_fresh(Version(0), &[], &mut []),
        Err(Refusal::BadRecord)
    );
    let answer = write_end(EndKind::Committed, 0, 16, &entries(&[3]), &mut []);
    assert_eq!(answer, Err(Refusal::BadRecord));
}

#[test]
fn a_refused_writing_touches_nothing() {
    let mut buffer = [UNTOUCHED; 40];
    let answer = write_end(EndKind::Committed, 0, 0, &entries(&[3, 2]), &mut buffer);
    assert_eq!(answer, Err(Refusal::BadRecord));
    assert_eq!(
        write_start(0, &[0; 5], &mut buffer),
        Err(Refusal::BadRecord)
    );
    assert_eq!(write_start(0, &[0; 48], &mut buffer), Err(Refusal::NoRoom));
    assert_eq!(buffer, [UNTOUCHED; 40]);
}

#[test]
fn whatever_reads_is_written_with_the_same_bytes() {
    for number in 0..400 {
        let session = session(5, number);
        let mut rest = &session[..];
        while let (Ok(record), body) = read(rest) {
            let length = HEADER + body.len();
            let mut buffer = [0; BUFFER];
            assert_eq!(write(&record, &mut buffer), Ok(length as u32));
            assert_eq!(buffer[..length], rest[..length]);
            rest = &rest[length..];
        }
    }
}

#[test]
fn random_bodies_of_each_kind_that_read_are_written_with_the_same_bytes() {
    let mut random = Random::new(6, 0);
    let mut read_well = 0;
    for _ in 0..100_000 {
        let length = random.between(0, 21);
        let mut bytes = vec![length as u8, 0, random.byte(0, 6), random.byte(1, 2)];
        bytes.extend((0..length).map(|_| random.byte(0, 3)));
        if let Ok(record) = read(&bytes).0 {
            read_well += 1;
            let mut buffer = [0; BUFFER];
            assert_eq!(write(&record, &mut buffer), Ok(bytes.len() as u32));
            assert_eq!(buffer[..bytes.len()], bytes);
        }
    }
    assert!(read_well > 1000);
}
