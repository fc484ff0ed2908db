//! The sessions of a seed: session W first, then plausible and hostile ones, and some long ones.

use crate::bench::output;
use crate::breakage::{changed, no_fresh, torn};
use crate::counters::{Version, OBJECTS};
use crate::delivery::{is_long, Delivery};
use crate::habits::Habit;
use crate::long::{Passage, LONG};
use crate::maker::{event_bytes, record_bytes, Maker};
use crate::random::Random;
use crate::records::{Event, Record};

/// The events of session W.
pub const SESSION_W: [Event<'static>; 12] = [
    start(0, &[3, 2]),
    start(1, &[3, 1, 5, 0]),
    call(1, 3, 0, 0),
    call(0, 3, 3, 40),
    call(0, 3, 2, 5),
    call(0, 3, 0, 0),
    call(1, 3, 0, 0),
    Event::Commit { slot: 1, tick: 8 },
    Event::Release { slot: 1, object: 5 },
    Event::Rollback { slot: 0, tick: 7 },
    Event::Commit { slot: 1, tick: 8 },
    Event::Rollback { slot: 1, tick: 9 },
];

/// A start by its fields.
pub const fn start(slot: u8, list: &[u8]) -> Event<'_> {
    Event::Start { slot, list }
}

/// A call by its fields.
pub const fn call(slot: u8, object: u8, kind: u8, argument: u32) -> Event<'static> {
    Event::Call {
        slot,
        object,
        kind,
        argument,
    }
}

/// First version 4294967295, word 3 is 100, the others 0
pub fn session_w_fresh() -> (Version, [u32; OBJECTS]) {
    let mut words = [0; OBJECTS];
    words[3] = 100;
    (Version(4294967295), words)
}

/// The bytes of session W.
pub fn session_w() -> Vec<u8> {
    let (first, words) = session_w_fresh();
    let mut bytes = record_bytes(&Record::Fresh { first, words });
    for event in SESSION_W {
        bytes.extend(event_bytes(event));
    }
    bytes
}

/// The bytes of a seed's session by its number; number 0 is session W.
pub fn session(seed: u64, number: u64) -> Vec<u8> {
    if number == 0 {
        return session_w();
    }
    let mut random = Random::new(seed, number);
    if is_long(number) {
        return long(random);
    }
    match random.weighted(&[58, 4, 38]) {
        0 => plausible(random),
        1 => lasting(random),
        _ => hostile(random),
    }
}

/// From a few to a few hundred events.
fn events(random: &mut Random) -> usize {
    let (fewest, most) = random.pick(&[(1, 12), (12, 60), (60, 150), (150, 400)]);
    random.between(fewest, most)
}

/// Begins a session by a random habit.
fn begin(mut random: Random) -> Maker {
    let habit = Habit::choose(&mut random);
    let mut maker = Maker::new(random, habit);
    maker.gather();
    maker
}

/// The session that measuring runs: a thousand events by a fixed seed, half of the slots and
/// objects in use, and the end of all that is live.
pub fn measured() -> Vec<u8> {
    let habit = Habit {
        slots: (0..8).collect(),
        objects: (0..12).collect(),
        pairs: 4,
        suprema: &[0, 1, 2, 3, 4],
        weights: [15, 50, 12, 15, 8],
        heed: 80,
        gather: false,
    };
    let mut maker = Maker::new(Random::new(1, 1), habit);
    maker.go_on(1000);
    maker.close();
    maker.bytes
}

/// A session of mostly sensible events.
pub fn plausible(random: Random) -> Vec<u8> {
    let mut maker = begin(random);
    let events = events(&mut maker.random);
    maker.go_on(events);
    if maker.random.chance(60) {
        maker.close();
    }
    maker.bytes
}

/// A session with one transaction whose calls on one object are as many as a count can tell apart
/// and more: supremum 0 means no bound, and 255 is the highest bound.
pub fn lasting(mut random: Random) -> Vec<u8> {
    let habit = Habit::choose(&mut random);
    let mut maker = Maker::new(random, habit);
    let supremum = maker.random.pick(&[0, 0, 128, 254, 255]);
    let object = maker.random.byte(0, OBJECTS as u8 - 1);
    maker.add_event(start(0, &[object, supremum]));
    maker.add_event(start(1, &[object, 1]));
    let calls = maker.random.between(250, 300);
    for _ in 0..calls {
        let kind = maker.random.pick(&[0, 2, 2, 3]);
        maker.add_event(call(0, object, kind, 1));
        if maker.random.chance(5) {
            maker.add_event(call(1, object, 0, 0));
        }
    }
    maker.add_event(call(1, object, 0, 0));
    maker.close();
    maker.bytes
}

/// A session of more bytes than the bench's buffers hold, of input and of output, with a record and
/// a line across each of their ends.
pub fn long(mut random: Random) -> Vec<u8> {
    loop {
        let mut maker = begin(random);
        let percent = maker.random.pick(&[0, 5, 30]);
        while maker.bytes.len() <= LONG || output(&maker.bytes).len() <= LONG {
            maker.go_on_hostile(1000, percent);
        }
        let lines = output(&maker.bytes);
        if Passage::new(&maker.bytes, lines.as_bytes(), Delivery::Whole).crosses() {
            return ended(maker);
        }
        random = maker.random;
    }
}

/// The records with an end: all read at last, a record that stops the bench, or a torn one.
fn ended(mut maker: Maker) -> Vec<u8> {
    match maker.random.below(3) {
        0 => maker.close(),
        1 => {
            let record = maker.stopping_record();
            maker.add(&record);
            maker.go_on(3);
        }
        _ => maker.bytes.truncate(maker.bytes.len() - 1),
    }
    maker.bytes
}

/// A session with hostile events, broken records or a broken input.
pub fn hostile(random: Random) -> Vec<u8> {
    let mut maker = begin(random);
    let choice = maker.random.weighted(&[1, 9, 45, 25, 10, 10]);
    if choice == 0 {
        return Vec::new();
    }
    if choice == 1 {
        return no_fresh(maker);
    }
    let percent = maker.random.pick(&[5, 30, 80]);
    let events = events(&mut maker.random);
    maker.go_on_hostile(events, percent);
    match choice {
        2 => maker.bytes,
        3 => {
            let record = maker.stopping_record();
            maker.add(&record);
            maker.go_on(3);
            maker.bytes
        }
        4 => torn(maker),
        _ => changed(maker),
    }
}
