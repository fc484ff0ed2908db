//! Both sides of each limit.

mod common;

use common::{commit, fresh, pair, started, UNTOUCHED, WRITE};
use reference::answers::Refusal;
use reference::bench::BUFFER;
use reference::counters::{turn, Turn, Version};
use reference::sessions::{session_w_fresh, SESSION_W};
use reference::tables::Tables;

/// A list of so many pairs, rising from object 0.
fn list(pairs: u8) -> Vec<u8> {
    (0..pairs).flat_map(|object| [object, 0]).collect()
}

#[test]
fn slot_15_and_16() {
    let mut tables = fresh(7);
    assert_eq!(tables.start(15, &[0, 0]), Ok(0));
    assert_eq!(tables.start(16, &[0, 0]), Err(Refusal::BadSlot));
}

#[test]
fn object_23_and_24_in_a_list() {
    assert_eq!(fresh(7).start(0, &[23, 0]), Ok(0));
    assert_eq!(fresh(7).start(0, &[24, 0]), Err(Refusal::BadObject));
}

#[test]
fn object_23_and_24_in_call_and_release() {
    let mut tables = started(7, &[0], &[23, 0]);
    assert_eq!(tables.call(0, 23, WRITE, 1), Ok(0));
    assert_eq!(tables.call(0, 24, WRITE, 1), Err(Refusal::BadObject));
    assert_eq!(tables.release(0, 24), Err(Refusal::BadObject));
    assert_eq!(tables.release(0, 23), Ok(0));
}

#[test]
fn list_of_48_bytes_and_of_50() {
    assert_eq!(fresh(7).start(0, &list(24)), Ok(0));
    assert_eq!(fresh(7).start(0, &list(25)), Err(Refusal::BadList));
}

#[test]
fn list_of_0_1_2_47_and_49_bytes() {
    assert_eq!(fresh(7).start(0, &[]), Err(Refusal::BadList));
    assert_eq!(fresh(7).start(0, &[0]), Err(Refusal::BadList));
    assert_eq!(fresh(7).start(0, &[0, 0]), Ok(0));
    assert_eq!(fresh(7).start(0, &list(24)[..47]), Err(Refusal::BadList));
    assert_eq!(fresh(7).start(0, &list(25)[..49]), Err(Refusal::BadList));
}

#[test]
fn event_10_with_room_15_and_14() {
    let (first, words) = session_w_fresh();
    let mut tables = Tables::fresh(first, words);
    for event in &SESSION_W[..9] {
        let _ = tables.step(*event, &mut []);
    }
    let mut short = [UNTOUCHED; 14];
    let before = tables.clone();
    assert_eq!(tables.step(SESSION_W[9], &mut short), Err(Refusal::NoRoom));
    assert_eq!(tables, before);
    assert_eq!(short, [UNTOUCHED; 14]);
    assert_eq!(tables.step(SESSION_W[9], &mut [0; 15]), Ok(15));
}

#[test]
fn commit_of_24_objects_with_room_130_and_129() {
    let mut tables = started(7, &[0], &list(24));
    let answer = tables.commit(0, 0, &mut [0; BUFFER - 1]);
    assert_eq!(answer, Err(Refusal::NoRoom));
    assert_eq!(tables.commit(0, 0, &mut [0; BUFFER]), Ok(130));
}

#[test]
fn d_of_0_1_2_16_and_17() {
    for local in [0, 1, u32::MAX, u32::MAX - 8, 1 << 31] {
        let at = |d: u32| turn(Version(local.wrapping_add(d)), Version(local));
        assert_eq!(at(0), Turn::Released);
        assert_eq!(at(1), Turn::Now);
        assert_eq!(at(2), Turn::Wait);
        assert_eq!(at(16), Turn::Wait);
        assert_eq!(at(17), Turn::Released);
        assert_eq!(at(1 << 31), Turn::Released);
        assert_eq!(at(u32::MAX), Turn::Released);
    }
}

#[test]
fn the_sixteenth_transaction_of_an_object_waits() {
    let slots: Vec<u8> = (0..16).collect();
    for first in [7, u32::MAX, u32::MAX - 8] {
        let mut tables = started(first, &slots, &[4, 0]);
        assert_eq!(tables.call(0, 4, WRITE, 1), Ok(0));
        for slot in 1..16 {
            assert_eq!(tables.call(slot, 4, WRITE, 1), Err(Refusal::Wait));
            assert_eq!(tables.release(slot, 4), Err(Refusal::Wait));
        }
    }
}

#[test]
fn kind_3_and_4() {
    let mut tables = started(7, &[0], &[4, 0]);
    assert_eq!(tables.call(0, 4, 3, 0), Ok(1));
    assert_eq!(tables.call(0, 4, 4, 0), Err(Refusal::BadCall));
}

#[test]
fn supremum_255_and_no_bound() {
    let mut tables = started(7, &[0], &[4, 255, 5, 0]);
    for _ in 0..255 {
        assert!(tables.call(0, 4, WRITE, 1).is_ok());
    }
    assert_eq!(tables.call(0, 4, WRITE, 1), Err(Refusal::Released));
    for _ in 0..600 {
        assert!(tables.call(0, 5, WRITE, 1).is_ok());
    }
    assert_eq!(pair(&tables, 0, 5).count.0, 0);
}

#[test]
fn versions_turn_over_without_a_gap() {
    let mut tables = fresh(u32::MAX - 1);
    for private in [u32::MAX, 0, 1] {
        assert_eq!(tables.start(0, &[4, 0]), Ok(0));
        assert_eq!(pair(&tables, 0, 4).private, Version(private));
        assert_eq!(tables.call(0, 4, WRITE, 1), Ok(0));
        assert_eq!(commit(&mut tables, 0), Ok(15));
    }
}
