//! The symbols of the library, in the order of the C header.
//!
//! References say what the library asks of its caller: not null, aligned, as long as the array, and never two that
//! overlap where one can write. A slice is handed over as its first place and its length, 64 bits on every processor.

use crate::{BYTES, MARKS, OBJECTS, WORDS};

extern "C" {
    pub fn gustlantern_raw_fresh(
        words: &mut [u32; WORDS],
        bytes: &mut [u8; BYTES],
        marks: &mut [bool; MARKS],
        first: u32,
        given: &[u32; OBJECTS],
    );
    pub fn gustlantern_raw_start(
        words: &mut [u32; WORDS],
        bytes: &mut [u8; BYTES],
        marks: &mut [bool; MARKS],
        slot: u8,
        list: *const u8,
        length: u64,
    ) -> u32;
    pub fn gustlantern_raw_call(
        words: &mut [u32; WORDS],
        bytes: &mut [u8; BYTES],
        marks: &mut [bool; MARKS],
        slot: u8,
        object: u8,
        kind: u8,
        argument: u32,
        value: &mut u32,
    ) -> u32;
    pub fn gustlantern_raw_release(
        words: &mut [u32; WORDS],
        bytes: &mut [u8; BYTES],
        marks: &mut [bool; MARKS],
        slot: u8,
        object: u8,
    ) -> u32;
    pub fn gustlantern_raw_commit(
        words: &mut [u32; WORDS],
        bytes: &mut [u8; BYTES],
        marks: &mut [bool; MARKS],
        slot: u8,
        tick: u32,
        ends: *mut u8,
        room: u64,
        value: &mut u32,
    ) -> u32;
    pub fn gustlantern_raw_rollback(
        words: &mut [u32; WORDS],
        bytes: &mut [u8; BYTES],
        marks: &mut [bool; MARKS],
        slot: u8,
        tick: u32,
        ends: *mut u8,
        room: u64,
        value: &mut u32,
    ) -> u32;
    pub fn gustlantern_raw_step(
        words: &mut [u32; WORDS],
        bytes: &mut [u8; BYTES],
        marks: &mut [bool; MARKS],
        given: *const u8,
        length: u64,
        ends: *mut u8,
        room: u64,
        value: &mut u32,
    ) -> u32;
    pub fn gustlantern_raw_came_first(
        a: *const u8,
        a_length: u64,
        b: *const u8,
        b_length: u64,
        order: &mut u32,
    ) -> u32;
    pub fn gustlantern_raw_object(words: &[u32; WORDS], object: u8, seen: &mut [u32; 4]) -> u32;
    pub fn gustlantern_raw_pair(
        words: &[u32; WORDS],
        bytes: &[u8; BYTES],
        marks: &[bool; MARKS],
        slot: u8,
        object: u8,
        seen: &mut [u32; 8],
    ) -> u32;
    pub fn gustlantern_raw_marks_hold(marks: &[u8; MARKS]) -> u32;
}
