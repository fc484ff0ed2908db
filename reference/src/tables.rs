//! Tables: what the machine keeps per object, per slot, and per slot and object.

use crate::counters::{CallCount, ObjectNumber, SlotNumber, Version, OBJECTS, SLOTS};

/// Per object: a word (u32) and three versions.
#[derive(Clone, Copy, Debug, Default, PartialEq, Eq)]
pub struct Object {
    pub word: u32,
    /// Last given out
    pub global: Version,
    /// Last let go
    pub local: Version,
    /// Last ended
    pub terminal: Version,
}

/// Per slot and object: declared, supremum (0 to 255), private version, call count, called,
/// spoiled, saved word.
#[derive(Clone, Copy, Debug, Default, PartialEq, Eq)]
pub struct Pair {
    pub declared: bool,
    pub supremum: CallCount,
    pub private: Version,
    pub count: CallCount,
    pub called: bool,
    pub spoiled: bool,
    pub saved: u32,
}

/// Per slot: live or not, and the slot's pairs. The default is not live with entries all zero.
#[derive(Clone, Copy, Debug, Default, PartialEq, Eq)]
pub struct Slot {
    pub live: bool,
    pub pairs: [Pair; OBJECTS],
}

impl Slot {
    /// A transaction is doomed if its slot is spoiled on any object, declared or not.
    pub fn doomed(&self) -> bool {
        self.pairs.iter().any(|pair| pair.spoiled)
    }
}

/// All tables.
#[derive(Clone, Debug, PartialEq, Eq)]
pub struct Tables {
    pub objects: [Object; OBJECTS],
    pub slots: [Slot; SLOTS],
}

impl Tables {
    /// Fresh: given 24 words and a first version, all three versions of every object are that
    /// version and no slot is live. Entries of a slot that is not live are all zero.
    pub fn fresh(first: Version, words: [u32; OBJECTS]) -> Tables {
        let object = |word| Object {
            word,
            global: first,
            local: first,
            terminal: first,
        };
        Tables {
            objects: words.map(object),
            slots: [Slot::default(); SLOTS],
        }
    }

    pub fn object(&self, object: ObjectNumber) -> &Object {
        &self.objects[object.index()]
    }

    pub fn object_mut(&mut self, object: ObjectNumber) -> &mut Object {
        &mut self.objects[object.index()]
    }

    pub fn slot(&self, slot: SlotNumber) -> &Slot {
        &self.slots[slot.index()]
    }

    pub fn slot_mut(&mut self, slot: SlotNumber) -> &mut Slot {
        &mut self.slots[slot.index()]
    }

    pub fn pair(&self, slot: SlotNumber, object: ObjectNumber) -> &Pair {
        &self.slot(slot).pairs[object.index()]
    }

    pub fn pair_mut(&mut self, slot: SlotNumber, object: ObjectNumber) -> &mut Pair {
        &mut self.slot_mut(slot).pairs[object.index()]
    }

    /// The slot's declared objects, rising.
    pub fn declared(&self, slot: SlotNumber) -> impl Iterator<Item = ObjectNumber> + '_ {
        ObjectNumber::all().filter(move |object| self.pair(slot, *object).declared)
    }

    /// The live slots, rising.
    pub fn live(&self) -> impl Iterator<Item = SlotNumber> + '_ {
        SlotNumber::all().filter(|slot| self.slot(*slot).live)
    }
}
