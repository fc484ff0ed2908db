//! Supremum versioning for the tasks of a pump: a safe wrapper over the proved library `libgustlantern.a`.
//!
//! Sixteen slots share twenty-four words. A task declares its objects at [`Tables::start`], takes its turn by version
//! at each [`Tables::call`], and ends by [`Tables::commit`] or [`Tables::rollback`]. A refusal changes nothing; the
//! numbers at each method are those of its refusals, in the order in which they are tried.
//!
//! ```
//! use gustlantern::{Kind, Refusal, Tables, END_BYTES, OBJECTS};
//!
//! const RESERVOIR: u8 = 1;
//! let mut words = [0; OBJECTS];
//! words[usize::from(RESERVOIR)] = 500;
//! let (mut tables, mut ends) = (Tables::fresh(0, &words), [0; END_BYTES]);
//! tables.start(0, &[RESERVOIR, 1])?;
//! tables.start(1, &[RESERVOIR, 1])?;
//! assert_eq!(tables.call(1, RESERVOIR, Kind::Read, 0), Err(Refusal::Wait));
//! assert_eq!(tables.call(0, RESERVOIR, Kind::Spend, 30), Ok(1));
//! assert_eq!(tables.call(1, RESERVOIR, Kind::Read, 0), Ok(470));
//! assert_eq!(tables.commit(0, 7, &mut ends), Ok(15));
//! # Ok::<(), Refusal>(())
//! ```
#![no_std]
#![warn(missing_docs)]

mod answers;
mod raw;
mod tables;

pub use answers::{Kind, Order, Refusal};
pub use tables::{Object, Pair, Tables};

/// How many transactions can be live at once.
pub const SLOTS: usize = 16;
/// How many words there are.
pub const OBJECTS: usize = 24;
/// The longest record of an end: a buffer of this length always has room.
pub const END_BYTES: usize = 130;
/// The words of the tables: those of the objects, their versions, and two for each pair.
pub const WORDS: usize = 4 * OBJECTS + 2 * SLOTS * OBJECTS;
/// The bytes of the tables.
pub const BYTES: usize = 2 * SLOTS * OBJECTS;
/// The marks of the tables.
pub const MARKS: usize = SLOTS + 3 * SLOTS * OBJECTS;

/// Which of two end records came first. 12, where one of them is none.
pub fn came_first(a: &[u8], b: &[u8]) -> Result<Order, Refusal> {
    let mut order = 0;
    // SAFETY: both slices are only read, within their lengths.
    let number = unsafe {
        raw::gustlantern_raw_came_first(
            a.as_ptr(),
            a.len() as u64,
            b.as_ptr(),
            b.len() as u64,
            &mut order,
        )
    };
    answers::answer(number, order).map(|order| match order {
        1 => Order::A,
        2 => Order::B,
        3 => Order::Same,
        4 => Order::Far,
        _ => Order::Unrelated,
    })
}

/// Whether bytes could be the marks of tables: every one is 0 or 1. It is for tables that C kept; those here always are.
pub fn marks_hold(marks: &[u8; MARKS]) -> bool {
    // SAFETY: the bytes are only read, and any byte may stand there.
    unsafe { raw::gustlantern_raw_marks_hold(marks) != 0 }
}
