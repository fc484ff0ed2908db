//! The tables, and the events that change them.

use crate::answers::{answer, Refusal};
use crate::raw;
use crate::{BYTES, MARKS, OBJECTS, WORDS};

/// All of the machine's tables, laid out as `struct gustlantern_tables` of the C header.
///
/// # Why the calls into the library are sound
///
/// The library asks for pointers that are aligned, not null and do not overlap, for marks of 0 or 1, and for one
/// caller at a time. `&mut self` lends the three arrays to one caller, and no slice given beside it can overlap them;
/// a mark is a `bool`, so it is 0 or 1, and the library, whose marks are of that type too, stores no other byte. It
/// keeps no pointer, never unwinds, and is proved to stay within the arrays and lengths that it is given.
#[derive(Clone, Debug, PartialEq, Eq)]
#[repr(C)]
pub struct Tables {
    words: [u32; WORDS],
    bytes: [u8; BYTES],
    marks: [bool; MARKS],
}

/// An object: its word and its versions.
#[derive(Clone, Copy, Debug, PartialEq, Eq)]
pub struct Object {
    /// What its tasks share.
    pub word: u32,
    /// The version last given out.
    pub global: u32,
    /// The version last let go.
    pub local: u32,
    /// The version last ended.
    pub terminal: u32,
}

/// A slot and an object.
#[derive(Clone, Copy, Debug, PartialEq, Eq)]
pub struct Pair {
    /// The slot has a transaction.
    pub live: bool,
    /// The object is in its list.
    pub declared: bool,
    /// The calls after which the object is let go; 0 is no bound.
    pub supremum: u8,
    /// The version that the start gave out.
    pub private: u32,
    /// The calls so far, where there is a bound.
    pub count: u8,
    /// There was a call.
    pub called: bool,
    /// A word that was seen here was put back.
    pub spoiled: bool,
    /// The word before the first call.
    pub saved: u32,
}

impl Tables {
    /// Fresh tables whose first version and words are all 0; a `static` can begin with them.
    pub const fn new() -> Self {
        Tables {
            words: [0; WORDS],
            bytes: [0; BYTES],
            marks: [false; MARKS],
        }
    }

    /// Fresh tables: a word for each object, all versions the first one, no slot live.
    pub fn fresh(first: u32, words: &[u32; OBJECTS]) -> Self {
        let mut tables = Tables::new();
        let (places, bytes, marks) = tables.parts();
        // SAFETY: as the type says.
        unsafe { raw::gustlantern_raw_fresh(places, bytes, marks, first, words) };
        tables
    }

    fn parts(&mut self) -> (&mut [u32; WORDS], &mut [u8; BYTES], &mut [bool; MARKS]) {
        (&mut self.words, &mut self.bytes, &mut self.marks)
    }

    /// A transaction begins; the list holds pairs of bytes, object and supremum, objects rising. 1, 4, 3 for
    /// its length, then pair by pair 2, 3.
    pub fn start(&mut self, slot: u8, list: &[u8]) -> Result<(), Refusal> {
        let (words, bytes, marks) = self.parts();
        // SAFETY: as the type says; the list is read within its length.
        let number = unsafe {
            raw::gustlantern_raw_start(words, bytes, marks, slot, list.as_ptr(), list.len() as u64)
        };
        answer(number, 0).map(|_| ())
    }

    /// A call on a declared object, of a [`Kind`](crate::Kind) or its number. 1, 5, 2, 6, 7, 9, 8, 10.
    pub fn call(
        &mut self,
        slot: u8,
        object: u8,
        kind: impl Into<u8>,
        argument: u32,
    ) -> Result<u32, Refusal> {
        let (words, bytes, marks) = self.parts();
        let (kind, mut value) = (kind.into(), 0);
        // SAFETY: as the type says.
        let number = unsafe {
            raw::gustlantern_raw_call(
                words, bytes, marks, slot, object, kind, argument, &mut value,
            )
        };
        answer(number, value)
    }

    /// The object is let go before its supremum is reached. 1, 5, 2, 6, 8, 10.
    pub fn release(&mut self, slot: u8, object: u8) -> Result<(), Refusal> {
        let (words, bytes, marks) = self.parts();
        // SAFETY: as the type says.
        let number = unsafe { raw::gustlantern_raw_release(words, bytes, marks, slot, object) };
        answer(number, 0).map(|_| ())
    }

    /// The transaction ends; its record stands at the buffer's first byte, and its length comes back. 1, 5, 9, 10, 11.
    pub fn commit(&mut self, slot: u8, tick: u32, ends: &mut [u8]) -> Result<u32, Refusal> {
        let (words, bytes, marks) = self.parts();
        let (place, room, mut value) = (ends.as_mut_ptr(), ends.len() as u64, 0);
        // SAFETY: as the type says; the buffer is written within its length.
        let number = unsafe {
            raw::gustlantern_raw_commit(words, bytes, marks, slot, tick, place, room, &mut value)
        };
        answer(number, value)
    }

    /// The same, and the words that it changed are put back. 1, 5, 10, 11.
    pub fn rollback(&mut self, slot: u8, tick: u32, ends: &mut [u8]) -> Result<u32, Refusal> {
        let (words, bytes, marks) = self.parts();
        let (place, room, mut value) = (ends.as_mut_ptr(), ends.len() as u64, 0);
        // SAFETY: as the type says; the buffer is written within its length.
        let number = unsafe {
            raw::gustlantern_raw_rollback(words, bytes, marks, slot, tick, place, room, &mut value)
        };
        answer(number, value)
    }

    /// The event whose record the bytes begin with; bytes behind it don't matter. 12, or as the event's method.
    pub fn step(&mut self, record: &[u8], ends: &mut [u8]) -> Result<u32, Refusal> {
        let (words, bytes, marks) = self.parts();
        let (given, length) = (record.as_ptr(), record.len() as u64);
        let (place, room, mut value) = (ends.as_mut_ptr(), ends.len() as u64, 0);
        // SAFETY: as the type says; both slices are used within their lengths, and one that is lent for writing
        // overlaps no other.
        let number = unsafe {
            raw::gustlantern_raw_step(words, bytes, marks, given, length, place, room, &mut value)
        };
        answer(number, value)
    }

    /// A look at an object. 2.
    pub fn object(&self, object: u8) -> Result<Object, Refusal> {
        let mut seen = [0; 4];
        // SAFETY: as the type says.
        let number = unsafe { raw::gustlantern_raw_object(&self.words, object, &mut seen) };
        let [word, global, local, terminal] = seen;
        answer(number, 0).map(|_| Object {
            word,
            global,
            local,
            terminal,
        })
    }

    /// A look at a slot's pair on an object. 1, 2.
    pub fn pair(&self, slot: u8, object: u8) -> Result<Pair, Refusal> {
        let (words, bytes, marks) = (&self.words, &self.bytes, &self.marks);
        let mut seen = [0; 8];
        // SAFETY: as the type says.
        let number =
            unsafe { raw::gustlantern_raw_pair(words, bytes, marks, slot, object, &mut seen) };
        let [live, declared, supremum, private, count, called, spoiled, saved] = seen;
        answer(number, 0).map(|_| Pair {
            live: live != 0,
            declared: declared != 0,
            supremum: supremum as u8,
            private,
            count: count as u8,
            called: called != 0,
            spoiled: spoiled != 0,
            saved,
        })
    }
}

impl Default for Tables {
    fn default() -> Self {
        Tables::new()
    }
}
