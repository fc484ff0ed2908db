//! What the library can answer.

use core::fmt;

/// Why an event was refused; it changed nothing.
#[derive(Clone, Copy, Debug, PartialEq, Eq, Hash)]
#[repr(u32)]
pub enum Refusal {
    /// The slot is 16 or more.
    BadSlot = 1,
    /// The object is 24 or more.
    BadObject = 2,
    /// The list is empty, of odd length, too long, or does not rise.
    BadList = 3,
    /// A start in a live slot.
    Busy = 4,
    /// Another event in a slot that is not live.
    Idle = 5,
    /// The object is not in the transaction's list.
    NotDeclared = 6,
    /// The kind is 4 or more.
    BadCall = 7,
    /// The object was let go.
    Released = 8,
    /// A word that the transaction has seen was put back: it has to roll back.
    Doomed = 9,
    /// Not yet: the task asks again.
    Wait = 10,
    /// The buffer is shorter than the end record.
    NoRoom = 11,
    /// The bytes are no record that belongs there.
    BadRecord = 12,
}

impl Refusal {
    /// The number by which tasks and lines know it.
    pub const fn number(self) -> u32 {
        self as u32
    }
}

impl fmt::Display for Refusal {
    fn fmt(&self, formatter: &mut fmt::Formatter<'_>) -> fmt::Result {
        fmt::Debug::fmt(self, formatter)
    }
}

impl core::error::Error for Refusal {}

/// The value of an accepted event, or the refusal of a number. The library answers 0 to 12 and nothing else.
pub(crate) fn answer(number: u32, value: u32) -> Result<u32, Refusal> {
    Err(match number {
        0 => return Ok(value),
        1 => Refusal::BadSlot,
        2 => Refusal::BadObject,
        3 => Refusal::BadList,
        4 => Refusal::Busy,
        5 => Refusal::Idle,
        6 => Refusal::NotDeclared,
        7 => Refusal::BadCall,
        8 => Refusal::Released,
        9 => Refusal::Doomed,
        10 => Refusal::Wait,
        11 => Refusal::NoRoom,
        _ => Refusal::BadRecord,
    })
}

/// What a call does to its word.
#[derive(Clone, Copy, Debug, PartialEq, Eq, Hash)]
#[repr(u8)]
pub enum Kind {
    /// Answers the word.
    Read = 0,
    /// The word becomes the argument; answers 0.
    Write = 1,
    /// Adds the argument, modulo 2^32; answers the new word.
    Add = 2,
    /// Subtracts the argument and answers 1 if the word is at least that; else answers 0.
    Spend = 3,
}

impl From<Kind> for u8 {
    fn from(kind: Kind) -> u8 {
        kind as u8
    }
}

/// Which of two transactions started first, by their end records.
#[derive(Clone, Copy, Debug, PartialEq, Eq, Hash)]
#[repr(u32)]
pub enum Order {
    /// The one of the first record.
    A = 1,
    /// The one of the second record.
    B = 2,
    /// Both have one version.
    Same = 3,
    /// Their versions lie half the turnover apart.
    Far = 4,
    /// They have no object in common.
    Unrelated = 5,
}
