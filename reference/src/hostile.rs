//! Hostile events: records that read well and whose fields are wrong in one or several places.

use crate::counters::{OBJECTS, SLOTS};
use crate::habits::argument;
use crate::maker::{event_bytes, Maker};
use crate::records::Event;

/// The most pairs that a start record can carry in its 126 bytes, slot and n aside.
const MOST_PAIRS: usize = 62;

impl Maker {
    /// Appends so many events, of which so many of a hundred are hostile.
    pub fn go_on_hostile(&mut self, events: usize, percent: usize) {
        for _ in 0..events {
            if self.random.chance(percent) {
                let event = self.hostile_event();
                self.add(&event);
            } else {
                self.go_on(1);
            }
        }
    }

    /// An event of any kind whose fields may each be wrong, so that the refusals' order shows.
    pub fn hostile_event(&mut self) -> Vec<u8> {
        let slot = self.hostile_slot();
        let tick = self.random.word();
        match self.random.below(5) {
            0 => {
                let list = self.hostile_list();
                event_bytes(Event::Start { slot, list: &list })
            }
            1 => event_bytes(Event::Call {
                slot,
                object: self.hostile_object(slot),
                kind: self.hostile_kind(),
                argument: argument(&mut self.random),
            }),
            2 => event_bytes(Event::Release {
                slot,
                object: self.hostile_object(slot),
            }),
            3 => event_bytes(Event::Commit { slot, tick }),
            _ => event_bytes(Event::Rollback { slot, tick }),
        }
    }

    /// Slot 15 and 16
    fn hostile_slot(&mut self) -> u8 {
        match self.random.weighted(&[45, 20, 10, 15, 10]) {
            0 => self.live_slot(),
            1 => self.idle_slot(),
            2 => self.random.byte(0, SLOTS as u8 - 1),
            3 => self.random.pick(&[16, 17, 31, 32, 48, 128, 240, 255]),
            _ => self.random.byte(SLOTS as u8, u8::MAX),
        }
    }

    /// Object 23 and 24
    fn hostile_object(&mut self, slot: u8) -> u8 {
        match self.random.weighted(&[60, 15, 15, 10]) {
            0 => self.declared_object(slot),
            1 => self.random.byte(0, OBJECTS as u8 - 1),
            2 => self.random.pick(&[24, 25, 31, 32, 56, 128, 255]),
            _ => self.random.byte(OBJECTS as u8, u8::MAX),
        }
    }

    /// Kind 4 or more
    fn hostile_kind(&mut self) -> u8 {
        match self.random.weighted(&[60, 25, 15]) {
            0 => self.random.byte(0, 3),
            1 => self.random.pick(&[4, 5, 7, 8, 128, 255]),
            _ => self.random.byte(4, u8::MAX),
        }
    }

    /// Lists empty, too long, not rising, with an object too large, or several of these.
    fn hostile_list(&mut self) -> Vec<u8> {
        match self.random.weighted(&[10, 20, 10, 20, 20, 10, 10]) {
            0 => Vec::new(),
            1 => self.long_list(),
            2 => self.full_list(OBJECTS),
            3 => self.falling_list(),
            4 => self.large_list(),
            5 => {
                let pairs = self.random.between(1, MOST_PAIRS);
                self.random.bytes(2 * pairs)
            }
            _ => self.list(),
        }
    }

    /// The first objects from 0, rising, each with a supremum.
    fn full_list(&mut self, pairs: usize) -> Vec<u8> {
        (0..pairs as u8)
            .flat_map(|object| [object, self.random.byte(0, 3)])
            .collect()
    }

    /// List of 48 bytes and of 50: too long, with or without other faults.
    fn long_list(&mut self) -> Vec<u8> {
        let pairs = match self.random.below(3) {
            0 => OBJECTS + 1,
            1 => MOST_PAIRS,
            _ => self.random.between(OBJECTS + 1, MOST_PAIRS),
        };
        let mut list = self.full_list(pairs);
        if self.random.chance(50) {
            // Every object is one there is, so that the length is the first fault of all.
            for pair in list.chunks_exact_mut(2) {
                pair[0] %= OBJECTS as u8;
            }
        }
        list
    }

    /// A list in which a pair stands twice or two pairs are exchanged.
    fn falling_list(&mut self) -> Vec<u8> {
        let pairs = self.random.between(2, OBJECTS);
        let mut list = self.full_list(pairs);
        let place = 2 * self.random.below(pairs - 1);
        if self.random.chance(50) {
            list[place + 2] = list[place];
        } else {
            list.swap(place, place + 2);
        }
        list
    }

    /// A list in which one object is too large and, at times, others do not rise.
    fn large_list(&mut self) -> Vec<u8> {
        let mut list = match self.random.below(3) {
            0 => self.list(),
            1 => self.falling_list(),
            _ => {
                let pairs = self.random.between(1, OBJECTS);
                self.full_list(pairs)
            }
        };
        let place = 2 * self.random.below(list.len() / 2);
        list[place] = self.random.pick(&[24, 25, 32, 128, 255]);
        list
    }
}
