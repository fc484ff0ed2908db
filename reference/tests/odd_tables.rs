//! Tables that no run from fresh reaches: the sentences to the letter.

mod common;

use common::{commit, fresh, pair, rollback, started, word, UNTOUCHED, WRITE};
use reference::answers::Refusal;
use reference::bench::BUFFER;
use reference::counters::{CallCount, Version};
use reference::records::{examine, Fault};

/// Needs terminal + 1 = private on every declared object: met where none is declared; the
/// read-back of an end record is claimed for tables reached from fresh.
#[test]
fn a_live_slot_that_declares_nothing_ends_with_n_0() {
    let mut tables = fresh(9);
    tables.slots[2].live = true;
    let mut buffer = [UNTOUCHED; BUFFER];
    assert_eq!(tables.clone().rollback(2, 7, &mut buffer), Ok(10));
    assert_eq!(buffer[..11], [6, 0, 2, 2, 7, 0, 0, 0, 2, 0, UNTOUCHED]);
    assert_eq!(examine(&buffer).0, Err(Fault::Content));
    assert_eq!(
        tables.clone().commit(2, 7, &mut [0; 9]),
        Err(Refusal::NoRoom)
    );
    assert_eq!(commit(&mut tables, 2), Ok(10));
    assert_eq!(tables, fresh(9));
}

/// Each declared object whose d is not 'Released' gets local = private: d that says Wait too.
#[test]
fn an_end_lets_go_where_d_says_wait() {
    let mut tables = started(9, &[0], &[4, 0]);
    tables.objects[4].local = Version(8);
    assert_eq!(commit(&mut tables, 0), Ok(15));
    assert_eq!(tables.objects[4].local, Version(10));
}

/// Every other live slot that has called this object: declared or not; one not live stays.
#[test]
fn the_called_mark_and_live_decide_who_is_spoiled() {
    let mut tables = started(9, &[0, 1, 2], &[4, 0]);
    assert_eq!(tables.call(0, 4, WRITE, 1), Ok(0));
    tables.slots[1].pairs[4].called = true;
    tables.slots[1].pairs[4].declared = false;
    tables.slots[3].pairs[4].called = true;
    assert_eq!(rollback(&mut tables, 0), Ok(15));
    assert!(pair(&tables, 1, 4).spoiled);
    assert!(!pair(&tables, 2, 4).spoiled);
    assert!(!pair(&tables, 3, 4).spoiled);
}

/// For each declared object that was called: one called and not declared stays.
#[test]
fn a_pair_not_declared_is_not_restored() {
    let mut tables = started(9, &[0], &[4, 0]);
    tables.slots[0].pairs[5].called = true;
    tables.slots[0].pairs[5].saved = 77;
    assert_eq!(rollback(&mut tables, 0), Ok(15));
    assert_eq!(word(&tables, 5), 0);
}

/// A transaction is doomed if its slot is spoiled on any object, declared or not.
#[test]
fn spoiled_on_an_object_not_declared() {
    let mut tables = started(9, &[0], &[4, 0]);
    tables.slots[0].pairs[20].spoiled = true;
    assert_eq!(tables.call(0, 4, WRITE, 1), Err(Refusal::Doomed));
    assert_eq!(commit(&mut tables, 0), Err(Refusal::Doomed));
    assert_eq!(rollback(&mut tables, 0), Ok(15));
}

/// The count rises by one (modulo 256); if it then equals the supremum: a count past the supremum
/// goes on until it comes round.
#[test]
fn a_count_past_its_supremum_comes_round() {
    let mut tables = started(9, &[0], &[4, 2]);
    tables.slots[0].pairs[4].count = CallCount(2);
    for _ in 0..255 {
        assert_eq!(tables.call(0, 4, WRITE, 1), Ok(0));
        assert_eq!(tables.objects[4].local, Version(9));
    }
    assert_eq!(tables.call(0, 4, WRITE, 1), Ok(0));
    assert_eq!(tables.objects[4].local, Version(10));
}

/// The slot becomes live and all its other entries zero.
#[test]
fn a_start_rewrites_the_whole_slot() {
    let mut tables = fresh(9);
    for pair in &mut tables.slots[0].pairs {
        pair.declared = true;
        pair.spoiled = true;
        pair.called = true;
        pair.saved = 5;
    }
    let mut clean = fresh(9);
    assert_eq!(tables.start(0, &[4, 2]), Ok(0));
    assert_eq!(clean.start(0, &[4, 2]), Ok(0));
    assert_eq!(tables, clean);
}
