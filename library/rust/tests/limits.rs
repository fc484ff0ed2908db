//! Both sides of the limits, through the wrapper; a refusal leaves tables and buffer as they were.

use gustlantern::{came_first, marks_hold, Kind, Order, Refusal, Tables};
use gustlantern::{END_BYTES, MARKS, OBJECTS};

const GUARD: u8 = 0xA5;

fn fresh() -> Tables {
    let mut words = [0; OBJECTS];
    words[3] = 100;
    Tables::fresh(u32::MAX, &words)
}

/// An end record of one object.
fn end(object: u8, version: u32) -> Vec<u8> {
    let mut record = vec![11, 0, 1, 2, 7, 0, 0, 0, 0, 1, object];
    record.extend(version.to_le_bytes());
    record
}

#[test]
fn new_tables_are_fresh_ones_of_zeros() {
    assert_eq!(Tables::new(), Tables::fresh(0, &[0; OBJECTS]));
    assert_ne!(Tables::new(), fresh());
}

#[test]
fn lists_of_both_sides() {
    let list: Vec<u8> = (0..25).flat_map(|object| [object, 1]).collect();
    for length in [0, 1, 47, 49, 50] {
        let mut tables = fresh();
        assert_eq!(tables.start(0, &list[..length]), Err(Refusal::BadList));
        assert_eq!(tables, fresh());
    }
    assert_eq!(fresh().start(0, &list[..48]), Ok(()));
    assert_eq!(fresh().start(0, &[24, 1]), Err(Refusal::BadObject));
}

#[test]
fn slots_objects_and_kinds_of_both_sides() {
    for (slot, refusal) in [
        (15, None),
        (16, Some(Refusal::BadSlot)),
        (255, Some(Refusal::BadSlot)),
    ] {
        let mut tables = fresh();
        assert_eq!(tables.start(slot, &[3, 0]).err(), refusal);
        assert_eq!(tables.call(slot, 3, Kind::Read, 0).err(), refusal);
        assert_eq!(tables.release(slot, 3).err(), refusal);
        assert_eq!(tables.pair(slot, 23).err(), refusal);
        assert_eq!(tables.rollback(slot, 0, &mut [0; END_BYTES]).err(), refusal);
    }
    let mut tables = fresh();
    tables.start(0, &[3, 0, 23, 0]).unwrap();
    let started = tables.clone();
    assert_eq!(tables.call(0, 3, 4, 0), Err(Refusal::BadCall));
    assert_eq!(tables.call(0, 3, 255, 0), Err(Refusal::BadCall));
    assert_eq!(tables.call(0, 24, Kind::Read, 0), Err(Refusal::BadObject));
    assert_eq!(tables.release(0, 255), Err(Refusal::BadObject));
    assert_eq!(tables.object(24), Err(Refusal::BadObject));
    assert_eq!(tables.pair(0, 24), Err(Refusal::BadObject));
    assert_eq!(tables, started);
    assert_eq!(tables.call(0, 3, Kind::Spend, 40), Ok(1));
    assert_eq!(tables.call(0, 23, Kind::Write, 9), Ok(0));
    assert_eq!(tables.object(23).map(|object| object.word), Ok(9));
    let pair = tables.pair(0, 3).unwrap();
    assert!(pair.live && pair.declared && pair.called && !pair.spoiled);
    assert_eq!(
        (pair.supremum, pair.count, pair.private, pair.saved),
        (0, 0, 0, 100)
    );
}

#[test]
fn rooms_of_both_sides() {
    for end in [Tables::commit, Tables::rollback] {
        let mut tables = fresh();
        tables.start(0, &[3, 2]).unwrap();
        let (mut ends, started) = ([GUARD; END_BYTES], tables.clone());
        assert_eq!(end(&mut tables, 0, 7, &mut []), Err(Refusal::NoRoom));
        assert_eq!(
            end(&mut tables, 0, 7, &mut ends[..14]),
            Err(Refusal::NoRoom)
        );
        assert_eq!((&tables, ends), (&started, [GUARD; END_BYTES]));
        assert_eq!(end(&mut tables, 0, 7, &mut ends[..15]), Ok(15));
        assert_eq!(ends[4..15], [7, 0, 0, 0, 0, 1, 3, 0, 0, 0, 0]);
        assert_eq!(ends[15..], [GUARD; END_BYTES - 15]);
    }
}

#[test]
fn every_order() {
    let of = |a, b| came_first(&end(3, a), &end(3, b));
    assert_eq!(of(u32::MAX, 0), Ok(Order::A));
    assert_eq!(of(0, u32::MAX), Ok(Order::B));
    assert_eq!(of(8, 8), Ok(Order::Same));
    assert_eq!(of(1, 1 + 0x7FFF_FFFF), Ok(Order::A));
    assert_eq!(of(1, 1 + 0x8000_0000), Ok(Order::Far));
    assert_eq!(came_first(&end(3, 1), &end(4, 1)), Ok(Order::Unrelated));
    assert_eq!(came_first(&end(24, 1), &end(4, 1)), Err(Refusal::BadRecord));
    assert_eq!(came_first(&end(3, 1), &[]), Err(Refusal::BadRecord));
}

#[test]
fn marks_of_both_sides() {
    for place in [0, MARKS / 2, MARKS - 1] {
        for (mark, holds) in [(0, true), (1, true), (2, false), (255, false)] {
            let mut marks = [0; MARKS];
            marks[place] = mark;
            assert_eq!(marks_hold(&marks), holds);
        }
    }
}

#[test]
fn refusals_keep_their_numbers() {
    assert_eq!(Refusal::BadSlot.number(), 1);
    assert_eq!(Refusal::BadRecord.number(), 12);
    assert_eq!(fresh().step(&[], &mut []), Err(Refusal::BadRecord));
}
