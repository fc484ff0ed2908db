//! Steps: start, call, release, commit and rollback, on tables changed in place. Every refusal
//! is found before the first change, so that it leaves the tables as they came and touches no
//! byte of any buffer.

use crate::answers::{Answer, Refusal};
use crate::counters::{turn, CallCount, ObjectNumber, SlotNumber, Turn, OBJECTS};
use crate::records::{EndKind, Entry, Event};
use crate::tables::{Pair, Slot, Tables};
use crate::writing::put_end;

/// The longest start list: a pair of bytes for each object, over 48 bytes is too long.
pub const LONGEST_LIST: usize = 2 * OBJECTS;

/// What a call does: the table of kinds.
#[derive(Clone, Copy, Debug, PartialEq, Eq)]
enum Act {
    Read,
    Write,
    Add,
    Spend,
}

impl Act {
    /// BadCall: kind 4 or more
    fn new(kind: u8) -> Result<Act, Refusal> {
        match kind {
            0 => Ok(Act::Read),
            1 => Ok(Act::Write),
            2 => Ok(Act::Add),
            3 => Ok(Act::Spend),
            _ => Err(Refusal::BadCall),
        }
    }

    /// The columns "act" and "answer" of the table of kinds.
    fn act(self, word: &mut u32, argument: u32) -> u32 {
        match self {
            Act::Read => *word,
            Act::Write => {
                *word = argument;
                0
            }
            Act::Add => {
                *word = word.wrapping_add(argument);
                *word
            }
            Act::Spend if *word >= argument => {
                *word -= argument;
                1
            }
            Act::Spend => 0,
        }
    }
}

impl Tables {
    /// One event by its fields; `buffer` is for the end record of a commit or rollback.
    pub fn step(&mut self, event: Event, buffer: &mut [u8]) -> Answer {
        match event {
            Event::Start { slot, list } => self.start(slot, list),
            Event::Call {
                slot,
                object,
                kind,
                argument,
            } => self.call(slot, object, kind, argument),
            Event::Release { slot, object } => self.release(slot, object),
            Event::Commit { slot, tick } => self.commit(slot, tick, buffer),
            Event::Rollback { slot, tick } => self.rollback(slot, tick, buffer),
        }
    }

    /// Start: 1, 4, then the list's length (3), then its pairs.
    ///
    /// For each listed object the global version rises by one and becomes the private version;
    /// the pair is declared with count 0, not called, not spoiled. The slot becomes live and all
    /// its other entries zero.
    pub fn start(&mut self, slot: u8, list: &[u8]) -> Answer {
        let slot = SlotNumber::new(slot)?;
        if self.slot(slot).live {
            return Err(Refusal::Busy);
        }
        check_list(list)?;
        *self.slot_mut(slot) = Slot {
            live: true,
            ..Slot::default()
        };
        for pair in list.chunks_exact(2) {
            let object = ObjectNumber::new(pair[0])?;
            let global = self.object(object).global.next();
            self.object_mut(object).global = global;
            *self.pair_mut(slot, object) = Pair {
                declared: true,
                supremum: CallCount(pair[1]),
                private: global,
                ..Pair::default()
            };
        }
        Ok(0)
    }

    /// Call: 1, 5, 2, 6, 7, 9, 8, 10.
    ///
    /// On the first call the word is saved and the pair is called. The kind then acts. Unless the
    /// supremum is 0 the count rises by one (modulo 256); if it then equals the supremum, the
    /// local version becomes the private version.
    pub fn call(&mut self, slot: u8, object: u8, kind: u8, argument: u32) -> Answer {
        let slot = self.live_slot(slot)?;
        let object = self.declared_object(slot, object)?;
        let act = Act::new(kind)?;
        self.need_not_doomed(slot)?;
        self.need_turn(slot, object)?;
        let word = self.object(object).word;
        let pair = self.pair_mut(slot, object);
        if !pair.called {
            pair.saved = word;
            pair.called = true;
        }
        let value = act.act(&mut self.object_mut(object).word, argument);
        let pair = self.pair_mut(slot, object);
        if pair.supremum != CallCount(0) {
            pair.count = pair.count.next();
            if pair.count == pair.supremum {
                self.let_go(slot, object);
            }
        }
        Ok(value)
    }

    /// Release: 1, 5, 2, 6, 8, 10. The local version becomes the private version. A doomed
    /// transaction may do this too.
    pub fn release(&mut self, slot: u8, object: u8) -> Answer {
        let slot = self.live_slot(slot)?;
        let object = self.declared_object(slot, object)?;
        self.need_turn(slot, object)?;
        self.let_go(slot, object);
        Ok(0)
    }

    /// Commit: 1, 5, 9, 10, 11.
    pub fn commit(&mut self, slot: u8, tick: u32, buffer: &mut [u8]) -> Answer {
        let slot = self.live_slot(slot)?;
        self.need_not_doomed(slot)?;
        self.need_terminal(slot)?;
        let written = self.write_end(EndKind::Committed, slot, tick, buffer)?;
        self.end(slot);
        Ok(written)
    }

    /// Rollback: 1, 5, 10, 11. The same need and the same versions. Before that the words are
    /// restored.
    pub fn rollback(&mut self, slot: u8, tick: u32, buffer: &mut [u8]) -> Answer {
        let slot = self.live_slot(slot)?;
        self.need_terminal(slot)?;
        let written = self.write_end(EndKind::RolledBack, slot, tick, buffer)?;
        self.restore(slot);
        self.end(slot);
        Ok(written)
    }

    /// Refusals 1 and 5.
    fn live_slot(&self, slot: u8) -> Result<SlotNumber, Refusal> {
        let slot = SlotNumber::new(slot)?;
        if self.slot(slot).live {
            Ok(slot)
        } else {
            Err(Refusal::Idle)
        }
    }

    /// Refusals 2 and 6.
    fn declared_object(&self, slot: SlotNumber, object: u8) -> Result<ObjectNumber, Refusal> {
        let object = ObjectNumber::new(object)?;
        if self.pair(slot, object).declared {
            Ok(object)
        } else {
            Err(Refusal::NotDeclared)
        }
    }

    /// Refusal 9.
    fn need_not_doomed(&self, slot: SlotNumber) -> Result<(), Refusal> {
        if self.slot(slot).doomed() {
            Err(Refusal::Doomed)
        } else {
            Ok(())
        }
    }

    /// What d says for this slot and object.
    pub fn turn(&self, slot: SlotNumber, object: ObjectNumber) -> Turn {
        turn(self.pair(slot, object).private, self.object(object).local)
    }

    /// Refusals 8 and 10 of call and release.
    fn need_turn(&self, slot: SlotNumber, object: ObjectNumber) -> Result<(), Refusal> {
        match self.turn(slot, object) {
            Turn::Now => Ok(()),
            Turn::Wait => Err(Refusal::Wait),
            Turn::Released => Err(Refusal::Released),
        }
    }

    /// Refusal 10 of commit and rollback: it needs terminal + 1 = private on every declared object.
    fn need_terminal(&self, slot: SlotNumber) -> Result<(), Refusal> {
        let met = |object| self.object(object).terminal.next() == self.pair(slot, object).private;
        if self.declared(slot).all(met) {
            Ok(())
        } else {
            Err(Refusal::Wait)
        }
    }

    /// The local version becomes the private version.
    fn let_go(&mut self, slot: SlotNumber, object: ObjectNumber) {
        self.object_mut(object).local = self.pair(slot, object).private;
    }

    /// The end record is written; end records list all declared objects, rising. Refusal 11.
    fn write_end(&self, kind: EndKind, slot: SlotNumber, tick: u32, buffer: &mut [u8]) -> Answer {
        let mut entries = [Entry::default(); OBJECTS];
        let mut length = 0;
        for object in self.declared(slot) {
            entries[length] = Entry {
                object: object.number(),
                version: self.pair(slot, object).private,
            };
            length += 1;
        }
        put_end(kind, tick, slot.number(), &entries[..length], buffer)
    }

    /// For each declared object that was called and is not spoiled, the word becomes the saved
    /// word, and every other live slot that has called this object becomes spoiled on it.
    fn restore(&mut self, slot: SlotNumber) {
        for object in ObjectNumber::all() {
            let pair = *self.pair(slot, object);
            if pair.declared && pair.called && !pair.spoiled {
                self.object_mut(object).word = pair.saved;
                self.spoil_other_callers(slot, object);
            }
        }
    }

    /// Every other live slot that has called this object becomes spoiled on it
    fn spoil_other_callers(&mut self, slot: SlotNumber, object: ObjectNumber) {
        for other in SlotNumber::all() {
            if other != slot && self.slot(other).live && self.pair(other, object).called {
                self.pair_mut(other, object).spoiled = true;
            }
        }
    }

    /// Each declared object whose d is not Released gets local = private; every declared object
    /// gets terminal = private. The end record is written and the slot cleared.
    fn end(&mut self, slot: SlotNumber) {
        for object in ObjectNumber::all() {
            let pair = *self.pair(slot, object);
            if pair.declared {
                if self.turn(slot, object) != Turn::Released {
                    self.let_go(slot, object);
                }
                self.object_mut(object).terminal = pair.private;
            }
        }
        *self.slot_mut(slot) = Slot::default();
    }
}

/// The list's length (3), then its pairs from the first: object too large (2), not above the one
/// before (3)
fn check_list(list: &[u8]) -> Result<(), Refusal> {
    if list.is_empty() || list.len() % 2 == 1 || list.len() > LONGEST_LIST {
        return Err(Refusal::BadList);
    }
    let mut before = None;
    for pair in list.chunks_exact(2) {
        let object = ObjectNumber::new(pair[0])?;
        if before.is_some_and(|before| object <= before) {
            return Err(Refusal::BadList);
        }
        before = Some(object);
    }
    Ok(())
}
