//! Session W, line by line and as a whole.

mod common;

use common::{pair, word, UNTOUCHED};
use reference::bench::{output, BUFFER};
use reference::counters::Version;
use reference::sessions::{session, session_w, session_w_fresh, SESSION_W};
use reference::tables::Tables;

const OUTPUT: &str = "\
1 0 0
2 0 0
3 10 0
4 0 1
5 0 65
6 8 0
7 0 65
8 10 0
9 0 0
10 0 15
11 9 0
12 0 20
";

/// The tables after so many events, and the buffer of the last one.
fn after(events: usize) -> (Tables, [u8; BUFFER]) {
    let (first, words) = session_w_fresh();
    let mut tables = Tables::fresh(first, words);
    let mut buffer = [UNTOUCHED; BUFFER];
    for event in &SESSION_W[..events] {
        buffer = [UNTOUCHED; BUFFER];
        let _ = tables.step(*event, &mut buffer);
    }
    (tables, buffer)
}

#[test]
fn the_bench_prints_the_whole_output() {
    assert_eq!(output(&session_w()), OUTPUT);
}

#[test]
fn it_is_the_first_session_of_every_seed() {
    assert_eq!(session(1, 0), session_w());
    assert_eq!(session(77, 0), session_w());
}

#[test]
fn each_step_answers_its_line() {
    for (number, line) in OUTPUT.lines().enumerate() {
        let (mut tables, _) = after(number);
        let answer = tables.step(SESSION_W[number], &mut [0; BUFFER]);
        let refusal = answer.map_or_else(|refusal| refusal as u32, |_| 0);
        let value = answer.unwrap_or(0);
        assert_eq!(format!("{} {refusal} {value}", number + 1), line);
    }
}

#[test]
fn private_versions() {
    let (tables, _) = after(2);
    assert_eq!(pair(&tables, 0, 3).private, Version(0));
    assert_eq!(pair(&tables, 1, 3).private, Version(1));
    assert_eq!(pair(&tables, 1, 5).private, Version(0));
}

#[test]
fn event_10_writes_its_bytes_and_leaves_the_rest() {
    let (_, buffer) = after(10);
    let record = [
        0x0B, 0x00, 0x02, 0x02, 0x07, 0x00, 0x00, 0x00, 0x00, 0x01, 0x03, 0x00, 0x00, 0x00, 0x00,
    ];
    assert_eq!(buffer[..15], record);
    assert!(buffer[15..].iter().all(|byte| *byte == UNTOUCHED));
}

#[test]
fn word_3() {
    assert_eq!(word(&after(3).0, 3), 100);
    assert_eq!(word(&after(4).0, 3), 60);
    assert_eq!(word(&after(9).0, 3), 65);
    assert_eq!(word(&after(10).0, 3), 100);
    assert_eq!(word(&after(12).0, 3), 100);
}

#[test]
fn event_10_spoils_slot_1_on_object_3_only() {
    let (tables, _) = after(10);
    assert!(pair(&tables, 1, 3).spoiled);
    assert!(!pair(&tables, 1, 5).spoiled);
}

#[test]
fn afterwards_nothing_is_live_and_versions_are_even() {
    let (tables, _) = after(12);
    assert_eq!(tables.live().count(), 0);
    for object in &tables.objects {
        assert_eq!(object.global, object.terminal);
        assert_eq!(object.global, object.local);
    }
    assert_eq!(tables.objects[3].global, Version(1));
    assert_eq!(tables.objects[5].global, Version(0));
}
