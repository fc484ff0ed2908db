//! The numbers a task can get back.

/// A refusal by its name; its number is the one it stands for in a line.
#[derive(Clone, Copy, Debug, PartialEq, Eq)]
pub enum Refusal {
    /// Slot 16 or more
    BadSlot = 1,
    /// Object 24 or more
    BadObject = 2,
    /// Start list empty, of odd length, over 48 bytes, or not strictly rising
    BadList = 3,
    /// Start in a live slot
    Busy = 4,
    /// Other event in a slot not live
    Idle = 5,
    /// Object not in this transaction's list
    NotDeclared = 6,
    /// Kind 4 or more
    BadCall = 7,
    /// d says so
    Released = 8,
    /// Call or commit by a doomed transaction
    Doomed = 9,
    /// Turn or terminal need not met
    Wait = 10,
    /// Buffer shorter than the record to be written
    NoRoom = 11,
    /// Bytes are no record by the layout, or a writer's fields make none
    BadRecord = 12,
}

/// How many numbers there are: 0 is accepted, and the refusals 1 to 12.
pub const NUMBERS: usize = Refusal::BadRecord as usize + 1;

/// What comes back: the value where accepted, else the refusal.
pub type Answer = Result<u32, Refusal>;

/// 0 is accepted, else the refusal's number.
pub fn number(answer: Answer) -> usize {
    match answer {
        Ok(_) => 0,
        Err(refusal) => refusal as usize,
    }
}

/// Every refusal has value 0.
pub fn value(answer: Answer) -> u32 {
    answer.unwrap_or(0)
}
