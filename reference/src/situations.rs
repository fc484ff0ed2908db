//! Situations that a run of sessions has to meet, beyond the numbers: those in which a wrong rule
//! would show.

use crate::answers::{Answer, Refusal};
use crate::bench::{Subject, BUFFER};
use crate::counters::{ObjectNumber, SlotNumber, Turn, LAST_WAIT, SLOTS};
use crate::machine::LONGEST_LIST;
use crate::records::{Event, Fault};
use crate::tables::{Pair, Slot, Tables};

/// One line of a session, with the tables before and after its event.
pub struct Moment<'run> {
    pub before: &'run Tables,
    pub subject: Subject<'run>,
    pub answer: Answer,
    pub after: &'run Tables,
}

/// A situation's name, and whether a moment is one.
pub type Situation = (&'static str, fn(&Moment) -> bool);

/// All situations.
pub const SITUATIONS: [Situation; 29] = [
    ("wait at d = 16", |m| m.waits_at(LAST_WAIT)),
    ("wait at d = 2", |m| m.waits_at(2)),
    ("wait across the turnover", |m| {
        m.refused(Refusal::Wait) && m.across_turnover()
    }),
    ("call accepted at private version 0", |m| {
        m.calls() && m.answer.is_ok() && m.pair_before().is_some_and(|pair| pair.private.0 == 0)
    }),
    ("released across the turnover", |m| {
        m.refused(Refusal::Released) && m.released_across_turnover()
    }),
    ("all slots live", |m| m.after.live().count() == SLOTS),
    ("supremum reached, object let go", |m| {
        m.calls() && m.answer.is_ok() && m.turn_after() == Some(Turn::Released)
    }),
    ("count over 250 at supremum 255", |m| {
        m.pair_before()
            .is_some_and(|pair| pair.supremum.0 == 255 && pair.count.0 > 250)
    }),
    ("release by a doomed transaction", |m| {
        m.releases() && m.answer.is_ok() && m.doomed()
    }),
    ("call refused as doomed, else accepted", |m| {
        m.calls() && m.refused(Refusal::Doomed) && m.turn_before() == Some(Turn::Now)
    }),
    ("call refused as doomed, else released", |m| {
        m.calls() && m.refused(Refusal::Doomed) && m.turn_before() == Some(Turn::Released)
    }),
    ("call refused as doomed, else told to wait", |m| {
        m.calls() && m.refused(Refusal::Doomed) && m.turn_before() == Some(Turn::Wait)
    }),
    (
        "commit waits with every object at its turn or let go",
        |m| m.commits() && m.refused(Refusal::Wait) && m.nothing_waited_for(),
    ),
    ("rollback that spoils one", |m| m.newly_doomed() == 1),
    ("rollback that spoils three or more", |m| {
        m.newly_doomed() >= 3
    }),
    ("rollback of a doomed transaction", |m| {
        m.rolls_back() && m.doomed()
    }),
    ("rollback of one of three or more doomed", |m| {
        m.rolls_back() && m.doomed() && m.before.slots.iter().filter(|s| s.doomed()).count() >= 3
    }),
    ("rollback of a spoiled pair whose word stays", |m| {
        m.rolls_back() && m.keeps_a_word()
    }),
    ("end after a later one was let go", |m| {
        m.ends() && m.let_go_beyond()
    }),
    ("end record of 130 bytes", |m| m.answer == Ok(BUFFER as u32)),
    ("start list of 48 bytes accepted", |m| {
        m.answer.is_ok() && m.list_length() == Some(LONGEST_LIST)
    }),
    ("start list of 50 bytes refused", |m| {
        m.refused(Refusal::BadList) && m.list_length() == Some(LONGEST_LIST + 2)
    }),
    ("start list empty", |m| {
        m.refused(Refusal::BadList) && m.list_length() == Some(0)
    }),
    ("record under 4 bytes", |m| m.fault(Fault::UnderFourBytes)),
    ("record's length over 126", |m| m.fault(Fault::LengthOver)),
    ("record's body not all there", |m| {
        m.fault(Fault::BodyNotAllThere)
    }),
    ("record's kind unknown", |m| m.fault(Fault::UnknownKind)),
    ("record's length wrong", |m| m.fault(Fault::LengthWrong)),
    ("record's content wrong", |m| m.fault(Fault::Content)),
];

impl Moment<'_> {
    fn refused(&self, refusal: Refusal) -> bool {
        self.answer == Err(refusal)
    }

    fn fault(&self, fault: Fault) -> bool {
        self.subject == Subject::Bad(fault)
    }

    fn calls(&self) -> bool {
        matches!(self.subject, Subject::Event(Event::Call { .. }))
    }

    fn releases(&self) -> bool {
        matches!(self.subject, Subject::Event(Event::Release { .. }))
    }

    fn commits(&self) -> bool {
        matches!(self.subject, Subject::Event(Event::Commit { .. }))
    }

    /// An accepted rollback.
    fn rolls_back(&self) -> bool {
        matches!(self.subject, Subject::Event(Event::Rollback { .. })) && self.answer.is_ok()
    }

    /// An accepted commit or rollback.
    fn ends(&self) -> bool {
        self.rolls_back() || self.commits() && self.answer.is_ok()
    }

    fn list_length(&self) -> Option<usize> {
        match self.subject {
            Subject::Event(Event::Start { list, .. }) => Some(list.len()),
            _ => None,
        }
    }

    /// The event's slot, if it is one there is.
    fn slot(&self) -> Option<SlotNumber> {
        let Subject::Event(event) = self.subject else {
            return None;
        };
        match event {
            Event::Start { slot, .. }
            | Event::Call { slot, .. }
            | Event::Release { slot, .. }
            | Event::Commit { slot, .. }
            | Event::Rollback { slot, .. } => SlotNumber::new(slot).ok(),
        }
    }

    /// Slot and object of a call or release.
    fn place(&self) -> Option<(SlotNumber, ObjectNumber)> {
        match self.subject {
            Subject::Event(Event::Call { object, .. } | Event::Release { object, .. }) => {
                Some((self.slot()?, ObjectNumber::new(object).ok()?))
            }
            _ => None,
        }
    }

    fn pair_before(&self) -> Option<&Pair> {
        let (slot, object) = self.place()?;
        Some(self.before.pair(slot, object))
    }

    fn turn_before(&self) -> Option<Turn> {
        let (slot, object) = self.place()?;
        Some(self.before.turn(slot, object))
    }

    fn turn_after(&self) -> Option<Turn> {
        let (slot, object) = self.place()?;
        Some(self.after.turn(slot, object))
    }

    /// A call or release told to wait at this difference.
    fn waits_at(&self, difference: u32) -> bool {
        self.refused(Refusal::Wait)
            && self.place().is_some_and(|(slot, object)| {
                let private = self.before.pair(slot, object).private;
                private.minus(self.before.object(object).local) == difference
            })
    }

    /// The private version is ahead of the local one and, as a plain number, below it.
    fn across_turnover(&self) -> bool {
        self.place().is_some_and(|(slot, object)| {
            self.before.pair(slot, object).private.0 < self.before.object(object).local.0
        })
    }

    /// The private version is behind the local one and, as a plain number, above it.
    fn released_across_turnover(&self) -> bool {
        self.place().is_some_and(|(slot, object)| {
            self.before.pair(slot, object).private.0 > self.before.object(object).local.0
        })
    }

    fn doomed(&self) -> bool {
        self.slot()
            .is_some_and(|slot| self.before.slot(slot).doomed())
    }

    /// How many slots are doomed by the event.
    fn newly_doomed(&self) -> usize {
        let slots = self.before.slots.iter().zip(&self.after.slots);
        let newly = |(before, after): &(&Slot, &Slot)| !before.doomed() && after.doomed();
        slots.filter(newly).count()
    }

    /// No declared object has its turn still to come.
    fn nothing_waited_for(&self) -> bool {
        self.slot().is_some_and(|slot| {
            let mut objects = self.before.declared(slot);
            objects.all(|object| self.before.turn(slot, object) != Turn::Wait)
        })
    }

    /// A spoiled pair's saved word is not the word.
    fn keeps_a_word(&self) -> bool {
        self.slot().is_some_and(|slot| {
            let mut objects = self.before.declared(slot);
            objects.any(|object| {
                let pair = self.before.pair(slot, object);
                pair.spoiled && pair.saved != self.before.object(object).word
            })
        })
    }

    /// A declared object's local version has gone beyond the private one.
    fn let_go_beyond(&self) -> bool {
        self.slot().is_some_and(|slot| {
            let mut objects = self.before.declared(slot);
            objects.any(|object| {
                let private = self.before.pair(slot, object).private;
                let beyond = self.before.object(object).local.minus(private);
                (1..LAST_WAIT).contains(&beyond)
            })
        })
    }
}
