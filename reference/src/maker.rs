//! Makes plausible sessions: follows the machine's tables, so as to choose a sensible next event
//! with good probability.

use crate::bench::BUFFER;
use crate::counters::{ObjectNumber, SlotNumber, OBJECTS};
use crate::habits::{argument, first_version, first_words, Habit};
use crate::random::Random;
use crate::records::{examine, Event, Record};
use crate::tables::Tables;
use crate::writing::{write, write_event};

/// How often another event is tried in place of one that would be refused.
const TRIES: usize = 6;

/// A session under way.
pub struct Maker {
    pub random: Random,
    pub habit: Habit,
    /// The tables after the events so far.
    pub tables: Tables,
    /// The records so far.
    pub bytes: Vec<u8>,
}

impl Maker {
    /// Begins a session with its fresh record.
    pub fn new(mut random: Random, habit: Habit) -> Maker {
        let first = first_version(&mut random);
        let words = first_words(&mut random);
        Maker {
            random,
            habit,
            tables: Tables::fresh(first, words),
            bytes: record_bytes(&Record::Fresh { first, words }),
        }
    }

    /// Appends a record and, if it is an event, makes the step.
    pub fn add(&mut self, record: &[u8]) {
        self.bytes.extend_from_slice(record);
        if let (Ok(Record::Event(event)), _) = examine(record) {
            let _ = self.tables.step(event, &mut [0; BUFFER]);
        }
    }

    /// Appends an event.
    pub fn add_event(&mut self, event: Event) {
        self.add(&event_bytes(event));
    }

    /// A start in every slot, where the habit wants it.
    pub fn gather(&mut self) {
        if self.habit.gather {
            for slot in self.habit.slots.clone() {
                let list = self.list();
                self.add_event(Event::Start { slot, list: &list });
            }
        }
    }

    /// Appends so many events by the habit.
    pub fn go_on(&mut self, events: usize) {
        for _ in 0..events {
            let event = self.sensible();
            self.add(&event);
        }
    }

    /// An event that is mostly, by the habit's heed, one that is accepted.
    fn sensible(&mut self) -> Vec<u8> {
        let mut event = self.candidate();
        for _ in 0..TRIES {
            if self.accepts(&event) || !self.random.chance(self.habit.heed) {
                break;
            }
            event = self.candidate();
        }
        event
    }

    /// Whether the machine accepts an event now.
    fn accepts(&self, record: &[u8]) -> bool {
        match examine(record).0 {
            Ok(Record::Event(event)) => {
                let answer = self.tables.clone().step(event, &mut [0; BUFFER]);
                answer.is_ok()
            }
            _ => false,
        }
    }

    /// An event by the habit's weights; where no slot is left for a start, mostly a call instead.
    fn candidate(&mut self) -> Vec<u8> {
        let choice = self.random.weighted(&self.habit.weights);
        let full = self.tables.live().count() >= self.habit.slots.len();
        if choice == 0 && (!full || self.random.chance(10)) {
            let (slot, list) = (self.idle_slot(), self.list());
            return event_bytes(Event::Start { slot, list: &list });
        }
        let slot = self.live_slot();
        let tick = self.random.word();
        event_bytes(match choice {
            0 | 1 => Event::Call {
                slot,
                object: self.declared_object(slot),
                kind: self.random.byte(0, 3),
                argument: argument(&mut self.random),
            },
            2 => Event::Release {
                slot,
                object: self.declared_object(slot),
            },
            3 => Event::Commit { slot, tick },
            _ => Event::Rollback { slot, tick },
        })
    }

    /// Mostly one of the habit's slots that is not live.
    pub fn idle_slot(&mut self) -> u8 {
        let live = |slot: &u8| self.tables.slots[usize::from(*slot)].live;
        let slots = &self.habit.slots;
        let idle: Vec<u8> = slots.iter().copied().filter(|slot| !live(slot)).collect();
        if idle.is_empty() || self.random.chance(5) {
            return self.random.pick(&self.habit.slots);
        }
        self.random.pick(&idle)
    }

    /// Mostly a live slot.
    pub fn live_slot(&mut self) -> u8 {
        let live: Vec<u8> = self.tables.live().map(SlotNumber::number).collect();
        if live.is_empty() || self.random.chance(2) {
            return self.random.pick(&self.habit.slots);
        }
        self.random.pick(&live)
    }

    /// Mostly an object that the slot declares.
    pub fn declared_object(&mut self, slot: u8) -> u8 {
        let declared: Vec<u8> = match SlotNumber::new(slot) {
            Ok(slot) => self
                .tables
                .declared(slot)
                .map(ObjectNumber::number)
                .collect(),
            Err(_) => Vec::new(),
        };
        if declared.is_empty() || self.random.chance(3) {
            return self.random.pick(&self.habit.objects);
        }
        self.random.pick(&declared)
    }

    /// A start's list: some of the habit's objects, rising, each with a supremum.
    pub fn list(&mut self) -> Vec<u8> {
        let most = self.habit.pairs.min(self.habit.objects.len());
        let mut objects = self.habit.objects.clone();
        self.random.shuffle(&mut objects);
        objects.truncate(self.random.between(1, most));
        objects.sort_unstable();
        let mut list = Vec::new();
        for object in objects {
            list.extend([object, self.random.pick(self.habit.suprema)]);
        }
        list
    }

    /// Ends every live transaction, then reads all words in one transaction over all objects, so
    /// that nothing that the tables hold stays unseen.
    pub fn close(&mut self) {
        while let Some(slot) = self.first_to_end() {
            let tick = self.random.word();
            if self.tables.slot(slot).doomed() || self.random.chance(30) {
                let slot = slot.number();
                self.add_event(Event::Rollback { slot, tick });
            } else {
                let slot = slot.number();
                self.add_event(Event::Commit { slot, tick });
            }
        }
        self.read_all();
    }

    /// A live slot that meets the terminal need.
    fn first_to_end(&self) -> Option<SlotNumber> {
        let slots: Vec<SlotNumber> = self.tables.live().collect();
        slots.into_iter().find(|slot| {
            let slot = slot.number();
            self.accepts(&event_bytes(Event::Rollback { slot, tick: 0 }))
        })
    }

    /// One transaction that reads every object.
    fn read_all(&mut self) {
        let slot = self.random.pick(&self.habit.slots);
        let supremum = self.random.byte(0, 2);
        let objects = 0..OBJECTS as u8;
        let list: Vec<u8> = objects
            .clone()
            .flat_map(|object| [object, supremum])
            .collect();
        self.add_event(Event::Start { slot, list: &list });
        for object in objects {
            self.add_event(Event::Call {
                slot,
                object,
                kind: 0,
                argument: 0,
            });
        }
        self.add_event(Event::Commit { slot, tick: 0 });
    }
}

/// A record's bytes. The fields given here always make one.
pub fn record_bytes(record: &Record) -> Vec<u8> {
    let mut buffer = [0; BUFFER];
    let written = write(record, &mut buffer).expect("the fields make a record");
    buffer[..written as usize].to_vec()
}

/// An event's bytes. The fields given here always make a record.
pub fn event_bytes(event: Event) -> Vec<u8> {
    let mut buffer = [0; BUFFER];
    let written = write_event(event, &mut buffer).expect("the fields make a record");
    buffer[..written as usize].to_vec()
}
