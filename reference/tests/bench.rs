//! What the bench program prints around the steps.

mod common;

use reference::bench::output;
use reference::counters::{Version, OBJECTS};
use reference::maker::{event_bytes, record_bytes};
use reference::records::{Event, Record};
use reference::sessions::{call, session_w, start};

fn fresh_record() -> Vec<u8> {
    record_bytes(&Record::Fresh {
        first: Version(1),
        words: [0; OBJECTS],
    })
}

/// A fresh, one start, and these bytes.
fn with(behind: &[u8]) -> Vec<u8> {
    let mut input = fresh_record();
    input.extend(event_bytes(start(0, &[4, 0])));
    input.extend(behind);
    input
}

const END: [u8; 15] = [11, 0, 1, 2, 7, 0, 0, 0, 0, 1, 3, 0, 0, 0, 0];

#[test]
fn empty_input() {
    assert_eq!(output(&[]), "0 12 0\n");
}

#[test]
fn the_first_record_is_not_fresh() {
    let event = event_bytes(start(0, &[4, 0]));
    assert_eq!(output(&event), "0 12 0\n");
    assert_eq!(output(&END), "0 12 0\n");
    assert_eq!(output(&[1, 2, 3]), "0 12 0\n");
    let mut input = event;
    input.extend(fresh_record());
    assert_eq!(output(&input), "0 12 0\n");
}

#[test]
fn a_fresh_cut_anywhere_is_no_fresh() {
    let whole = fresh_record();
    for length in 0..whole.len() {
        assert_eq!(output(&whole[..length]), "0 12 0\n");
    }
    assert_eq!(output(&whole), "");
}

#[test]
fn a_bad_record_stops() {
    let mut bad = vec![8, 0, 2, 1, 0, 4, 0, 1, 0, 0, 0, 0];
    bad.extend(event_bytes(call(0, 4, 0, 0)));
    assert_eq!(output(&with(&bad)), "1 0 0\n2 12 0\n");
}

#[test]
fn an_end_record_stops() {
    let mut behind = END.to_vec();
    behind.extend(event_bytes(call(0, 4, 0, 0)));
    assert_eq!(output(&with(&behind)), "1 0 0\n2 12 0\n");
}

#[test]
fn a_second_fresh_stops() {
    let mut behind = fresh_record();
    behind.extend(event_bytes(call(0, 4, 0, 0)));
    assert_eq!(output(&with(&behind)), "1 0 0\n2 12 0\n");
}

#[test]
fn a_refusal_goes_on() {
    let behind = [
        event_bytes(start(16, &[])),
        event_bytes(call(0, 4, 2, 9)),
        event_bytes(Event::Commit { slot: 0, tick: 1 }),
    ];
    assert_eq!(
        output(&with(&behind.concat())),
        "1 0 0\n2 1 0\n3 0 9\n4 0 15\n"
    );
}

#[test]
fn a_torn_record_prints_its_line() {
    let event = event_bytes(call(0, 4, 0, 0));
    assert_eq!(output(&with(&[])), "1 0 0\n");
    for length in 1..event.len() {
        assert_eq!(output(&with(&event[..length])), "1 0 0\n2 12 0\n");
    }
    assert_eq!(output(&with(&event)), "1 0 0\n2 0 0\n");
}

#[test]
fn session_w_cut_anywhere_prints_a_part_and_at_most_one_12() {
    let input = session_w();
    let whole = output(&input);
    for length in fresh_record().len()..=input.len() {
        let printed = output(&input[..length]);
        let kept = match printed.strip_suffix(" 12 0\n") {
            Some(torn) => torn.trim_end_matches(|digit: char| digit.is_ascii_digit()),
            None => &printed,
        };
        assert!(whole.starts_with(kept), "{length}: {printed}");
    }
}

#[test]
fn an_end_of_24_objects_has_room() {
    let list: Vec<u8> = (0..24).flat_map(|object| [object, 0]).collect();
    let mut input = fresh_record();
    for slot in [3, 4] {
        input.extend(event_bytes(start(slot, &list)));
        input.extend(event_bytes(Event::Commit { slot, tick: 1 }));
    }
    assert_eq!(output(&input), "1 0 0\n2 0 130\n3 0 0\n4 0 130\n");
}
