//! Reading: the fields, the refusals in order, and the body that is handed back.

mod common;

use reference::answers::Refusal;
use reference::counters::{Version, OBJECTS};
use reference::records::{examine, read, End, EndKind, Entry, Event, Fault, Record};
use reference::sessions::{call, start};

#[track_caller]
fn reads(bytes: &[u8], record: Record) {
    let (reading, body) = read(bytes);
    assert_eq!(reading, Ok(record));
    assert_eq!(body, &bytes[4..4 + usize::from(bytes[0])]);
}

#[track_caller]
fn fails(bytes: &[u8], fault: Fault) {
    assert_eq!(examine(bytes).0, Err(fault));
    let (reading, body) = read(bytes);
    assert_eq!(reading, Err(Refusal::BadRecord));
    let framed = matches!(
        fault,
        Fault::UnknownKind | Fault::LengthWrong | Fault::Content
    );
    if framed {
        assert_eq!(body, &bytes[4..4 + usize::from(bytes[0])]);
    } else {
        assert!(body.is_empty());
    }
}

#[test]
fn each_event() {
    reads(
        &[6, 0, 1, 1, 3, 2, 4, 5, 6, 7],
        Record::Event(start(3, &[4, 5, 6, 7])),
    );
    let bytes = [8, 0, 2, 1, 3, 4, 2, 0, 0x78, 0x56, 0x34, 0x12];
    reads(&bytes, Record::Event(call(3, 4, 2, 0x12345678)));
    reads(
        &[2, 0, 3, 1, 3, 4],
        Record::Event(Event::Release { slot: 3, object: 4 }),
    );
    let tick = 0x04030201;
    reads(
        &[5, 0, 4, 1, 9, 1, 2, 3, 4],
        Record::Event(Event::Commit { slot: 9, tick }),
    );
    reads(
        &[5, 0, 5, 1, 9, 1, 2, 3, 4],
        Record::Event(Event::Rollback { slot: 9, tick }),
    );
}

#[test]
fn a_fresh() {
    let mut bytes = vec![100, 0, 0, 1, 0xFF, 0xFF, 0xFF, 0xFE];
    let mut words = [0; OBJECTS];
    for (number, word) in words.iter_mut().enumerate() {
        *word = 1000 * number as u32;
        bytes.extend(word.to_le_bytes());
    }
    let first = Version(0xFEFFFFFF);
    reads(&bytes, Record::Fresh { first, words });
    bytes[0] = 99;
    fails(&bytes, Fault::LengthWrong);
    bytes[0] = 101;
    fails(&bytes, Fault::BodyNotAllThere);
    bytes.push(0);
    fails(&bytes, Fault::LengthWrong);
}

#[test]
fn an_end() {
    let bytes = [
        16, 0, 1, 2, 7, 0, 0, 0, 15, 2, 3, 1, 0, 0, 0, 23, 2, 0, 0, 0x80, 99,
    ];
    let entry = |object, version| Entry {
        object,
        version: Version(version),
    };
    reads(
        &bytes,
        Record::End(End {
            kind: EndKind::Committed,
            tick: 7,
            slot: 15,
            entries: vec![entry(3, 1), entry(23, 0x80000002)],
        }),
    );
}

#[test]
fn bytes_behind_the_record_do_not_matter() {
    let event = Event::Release { slot: 3, object: 4 };
    reads(&[2, 0, 3, 1, 3, 4, 0xFF, 0xFF], Record::Event(event));
}

#[test]
fn slots_and_objects_of_events_are_left_to_the_steps() {
    reads(&[2, 0, 1, 1, 200, 0], Record::Event(start(200, &[])));
    reads(
        &[6, 0, 1, 1, 0, 2, 99, 0, 5, 0],
        Record::Event(start(0, &[99, 0, 5, 0])),
    );
    let bytes = [8, 0, 2, 1, 200, 201, 202, 0, 0, 0, 0, 0];
    reads(&bytes, Record::Event(call(200, 201, 202, 0)));
}

#[test]
fn under_4_bytes_first() {
    fails(&[], Fault::UnderFourBytes);
    fails(&[200], Fault::UnderFourBytes);
    fails(&[2, 0, 3], Fault::UnderFourBytes);
}

#[test]
fn length_over_126_before_the_body() {
    fails(&[127, 0, 3, 1], Fault::LengthOver);
    fails(&[0, 1, 3, 1], Fault::LengthOver);
    let mut bytes = vec![127, 0, 9, 9];
    bytes.resize(4 + 127, 0);
    fails(&bytes, Fault::LengthOver);
}

#[test]
fn body_not_all_there_before_the_kind() {
    fails(&[2, 0, 9, 9, 0], Fault::BodyNotAllThere);
    fails(&[126, 0, 3, 1], Fault::BodyNotAllThere);
}

#[test]
fn unknown_kind_before_its_length() {
    for kind in [[0, 0], [6, 1], [0xFF, 0], [0, 2], [3, 2], [1, 3], [1, 0x81]] {
        fails(&[2, 0, kind[0], kind[1], 0, 0], Fault::UnknownKind);
        fails(&[0, 0, kind[0], kind[1]], Fault::UnknownKind);
    }
}

#[test]
fn length_wrong_for_kind() {
    for kind in 1..=5 {
        fails(&[0, 0, kind, 1], Fault::LengthWrong);
        fails(&[1, 0, kind, 1, 0], Fault::LengthWrong);
        fails(&[3, 0, kind, 1, 0, 0, 0], Fault::LengthWrong);
        fails(&[7, 0, kind, 1, 0, 0, 0, 0, 0, 0, 0], Fault::LengthWrong);
    }
}

#[test]
fn length_wrong_for_n() {
    fails(&[4, 0, 1, 1, 0, 2, 0, 0], Fault::LengthWrong);
    fails(&[4, 0, 1, 1, 0, 0, 0, 0], Fault::LengthWrong);
    fails(&[4, 0, 1, 1, 0, 129, 0, 0], Fault::LengthWrong);
    fails(&[6, 0, 1, 2, 0, 0, 0, 0, 0, 1], Fault::LengthWrong);
    fails(&[5, 0, 2, 2, 0, 0, 0, 0, 0], Fault::LengthWrong);
}

#[test]
fn length_wrong_before_content() {
    fails(&[7, 0, 2, 1, 0, 0, 0, 1, 0, 0, 0], Fault::LengthWrong);
    fails(&[6, 0, 1, 2, 0, 0, 0, 0, 99, 1], Fault::LengthWrong);
}

#[test]
fn the_zero_byte_not_zero() {
    for zero in [1, 0x80, 0xFF] {
        fails(&[8, 0, 2, 1, 0, 0, 0, zero, 0, 0, 0, 0], Fault::Content);
    }
}

#[test]
fn content_of_ends() {
    for kind in [1, 2] {
        let end = |slot, first, second| {
            [
                16, 0, kind, 2, 0, 0, 0, 0, slot, 2, first, 0, 0, 0, 0, second, 0, 0, 0, 0,
            ]
        };
        assert!(read(&end(15, 22, 23)).0.is_ok());
        fails(&end(16, 22, 23), Fault::Content);
        fails(&end(15, 22, 24), Fault::Content);
        fails(&end(15, 24, 25), Fault::Content);
        fails(&end(15, 5, 5), Fault::Content);
        fails(&end(15, 6, 5), Fault::Content);
        fails(&[6, 0, kind, 2, 0, 0, 0, 0, 0, 0], Fault::Content);
    }
}

#[test]
fn the_longest_start_reads() {
    let mut bytes = vec![126, 0, 1, 1, 0, 62];
    bytes.resize(4 + 126, 0);
    assert!(matches!(
        read(&bytes).0,
        Ok(Record::Event(Event::Start { list, .. })) if list.len() == 124
    ));
}
