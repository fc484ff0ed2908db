//! Slot numbers, object numbers, versions and call counts are kept apart: a version and a call
//! count never meet in one sum. Each has a type of its own.

use crate::answers::Refusal;

/// 16 transaction slots (0 to 15)
pub const SLOTS: usize = 16;

/// 24 objects (0 to 23)
pub const OBJECTS: usize = 24;

/// The last difference that means Wait: d from 2 to 16.
pub const LAST_WAIT: u32 = SLOTS as u32;

/// The number of a slot there is.
#[derive(Clone, Copy, Debug, PartialEq, Eq)]
pub struct SlotNumber(u8);

impl SlotNumber {
    /// BadSlot: slot 16 or more
    pub fn new(number: u8) -> Result<Self, Refusal> {
        if usize::from(number) < SLOTS {
            Ok(SlotNumber(number))
        } else {
            Err(Refusal::BadSlot)
        }
    }

    /// All slots, rising.
    pub fn all() -> impl Iterator<Item = SlotNumber> {
        (0..SLOTS as u8).map(SlotNumber)
    }

    /// The number as records carry it.
    pub fn number(self) -> u8 {
        self.0
    }

    /// The place in the table of slots.
    pub fn index(self) -> usize {
        usize::from(self.0)
    }
}

/// The number of an object there is.
#[derive(Clone, Copy, Debug, PartialEq, Eq, PartialOrd, Ord)]
pub struct ObjectNumber(u8);

impl ObjectNumber {
    /// BadObject: object 24 or more
    pub fn new(number: u8) -> Result<Self, Refusal> {
        if usize::from(number) < OBJECTS {
            Ok(ObjectNumber(number))
        } else {
            Err(Refusal::BadObject)
        }
    }

    /// All objects, rising.
    pub fn all() -> impl Iterator<Item = ObjectNumber> {
        (0..OBJECTS as u8).map(ObjectNumber)
    }

    /// The number as records carry it.
    pub fn number(self) -> u8 {
        self.0
    }

    /// The place in the table of objects and in a slot's pairs.
    pub fn index(self) -> usize {
        usize::from(self.0)
    }
}

/// All versions are 32 bits and all sums and differences of versions are taken modulo 2^32.
#[derive(Clone, Copy, Debug, Default, PartialEq, Eq)]
pub struct Version(pub u32);

impl Version {
    /// This version plus one, modulo 2^32.
    pub fn next(self) -> Version {
        Version(self.0.wrapping_add(1))
    }

    /// This version minus another, modulo 2^32.
    pub fn minus(self, other: Version) -> u32 {
        self.0.wrapping_sub(other.0)
    }
}

/// What the difference d of private and local version says.
#[derive(Clone, Copy, Debug, PartialEq, Eq)]
pub enum Turn {
    /// d = 1: it is the transaction's turn.
    Now,
    /// d from 2 to 16: Wait.
    Wait,
    /// Any other d: Released.
    Released,
}

/// Let d be private version minus local version.
pub fn turn(private: Version, local: Version) -> Turn {
    match private.minus(local) {
        1 => Turn::Now,
        2..=LAST_WAIT => Turn::Wait,
        _ => Turn::Released,
    }
}

/// How many calls a pair counts; its supremum is a count too. 0 as a supremum means no bound.
#[derive(Clone, Copy, Debug, Default, PartialEq, Eq)]
pub struct CallCount(pub u8);

impl CallCount {
    /// The count rises by one (modulo 256)
    pub fn next(self) -> CallCount {
        CallCount(self.0.wrapping_add(1))
    }
}
