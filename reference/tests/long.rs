//! Long sessions and how they come.

use reference::bench::output;
use reference::delivery::{is_long, Delivery, OF_LONG};
use reference::long::{Passage, LONG, LONG_SITUATIONS};
use reference::sessions::session;

/// The numbers of the first long sessions, one for each delivery.
fn long_ones() -> Vec<u64> {
    (0..).filter(|n| is_long(*n)).take(OF_LONG.len()).collect()
}

#[test]
fn long_sessions_reach_past_every_end_of_a_buffer() {
    for seed in 1..4 {
        for number in long_ones() {
            let input = session(seed, number);
            let lines = output(&input);
            assert!(input.len() >= LONG && lines.len() >= LONG);
            let passage = Passage::new(&input, lines.as_bytes(), Delivery::of(number));
            assert!(passage.crosses(), "session {number} of seed {seed}");
        }
    }
}

#[test]
fn long_sessions_come_in_every_delivery() {
    let deliveries: Vec<Delivery> = long_ones().into_iter().map(Delivery::of).collect();
    assert_eq!(deliveries, OF_LONG);
}

#[test]
fn records_and_lines_that_end_with_a_buffer_are_not_across_it() {
    // A release has 6 bytes and a line here 8, so that 65536 is the end of a line and of no record.
    let release = [2, 0, 3, 1, 0, 0];
    let input = release.repeat(LONG / 6 + 1);
    let lines = b"1 1 1 1\n".repeat(LONG / 8);
    let passage = Passage::new(&input, &lines, Delivery::Whole);
    let held = LONG_SITUATIONS.iter().filter(|(_, holds)| holds(&passage));
    let names: Vec<&str> = held.map(|(name, _)| *name).collect();
    let expected = [
        "record across byte 65536",
        "record across byte 131072",
        "long session whole",
    ];
    assert_eq!(names, expected);
}

#[test]
fn a_short_session_is_no_long_situation() {
    let input = session(1, 0);
    for delivery in OF_LONG {
        let passage = Passage::new(&input, output(&input).as_bytes(), delivery);
        assert!(!LONG_SITUATIONS.iter().any(|(_, holds)| holds(&passage)));
    }
}
