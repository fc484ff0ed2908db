//! What several tests use.
#![allow(dead_code)]

use reference::answers::{Answer, Refusal};
use reference::bench::BUFFER;
use reference::counters::{ObjectNumber, SlotNumber, Version, OBJECTS};
use reference::records::Event;
use reference::tables::{Pair, Tables};

pub const READ: u8 = 0;
pub const WRITE: u8 = 1;
pub const ADD: u8 = 2;
pub const SPEND: u8 = 3;

/// A byte that buffers hold before a step, to see which bytes it touches.
pub const UNTOUCHED: u8 = 0xA5;

/// Fresh tables with all words 0.
pub fn fresh(first: u32) -> Tables {
    Tables::fresh(Version(first), [0; OBJECTS])
}

/// Fresh tables in which each slot of `slots` has started with `list`, in this order.
pub fn started(first: u32, slots: &[u8], list: &[u8]) -> Tables {
    let mut tables = fresh(first);
    for slot in slots {
        assert_eq!(tables.start(*slot, list), Ok(0));
    }
    tables
}

pub fn slot(number: u8) -> SlotNumber {
    SlotNumber::new(number).expect("a slot there is")
}

pub fn object(number: u8) -> ObjectNumber {
    ObjectNumber::new(number).expect("an object there is")
}

pub fn pair(tables: &Tables, of_slot: u8, of_object: u8) -> &Pair {
    tables.pair(slot(of_slot), object(of_object))
}

pub fn word(tables: &Tables, of_object: u8) -> u32 {
    tables.object(object(of_object)).word
}

/// Commits with enough room.
pub fn commit(tables: &mut Tables, slot: u8) -> Answer {
    tables.commit(slot, 0, &mut [0; BUFFER])
}

/// Rolls back with enough room.
pub fn rollback(tables: &mut Tables, slot: u8) -> Answer {
    tables.rollback(slot, 0, &mut [0; BUFFER])
}

/// The event is refused so, returns the tables as they came and touches no byte of any buffer.
#[track_caller]
pub fn refuses(tables: &Tables, event: Event, room: usize, refusal: Refusal) {
    let mut after = tables.clone();
    let mut buffer = vec![UNTOUCHED; room];
    assert_eq!(after.step(event, &mut buffer), Err(refusal), "{event:?}");
    assert_eq!(&after, tables, "{event:?}");
    assert!(buffer.iter().all(|byte| *byte == UNTOUCHED), "{event:?}");
}
