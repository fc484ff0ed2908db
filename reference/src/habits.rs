//! How the transactions of a plausible session behave: which slots and objects they use, what
//! they declare, and which events they prefer.

use crate::counters::{Version, OBJECTS, SLOTS};
use crate::random::Random;

/// What a session's transactions do.
#[derive(Clone, Debug)]
pub struct Habit {
    /// The slots in use, in random order.
    pub slots: Vec<u8>,
    /// The objects in use, rising.
    pub objects: Vec<u8>,
    /// The most pairs in a start's list.
    pub pairs: usize,
    /// The suprema that starts choose from; 0 means no bound.
    pub suprema: &'static [u8],
    /// How often start, call, release, commit and rollback are tried.
    pub weights: [usize; 5],
    /// In how many of a hundred cases an event that would be refused is thrown away.
    pub heed: usize,
    /// Whether the session begins with a start in every slot, before anything is let go.
    pub gather: bool,
}

impl Habit {
    /// A habit for a session.
    pub fn choose(random: &mut Random) -> Habit {
        match random.weighted(&[30, 20, 25, 10, 15]) {
            0 => Habit::mixed(random),
            1 => Habit::crowded(random),
            2 => Habit::cascading(random),
            3 => Habit::wide(random),
            _ => Habit::brisk(random),
        }
    }

    /// Some of everything.
    fn mixed(random: &mut Random) -> Habit {
        Habit {
            slots: some_slots(random, 4),
            objects: some_objects(random, 2, 8),
            pairs: 4,
            suprema: &[0, 0, 1, 2, 2, 3, 4],
            weights: [15, 50, 12, 15, 8],
            heed: random.between(50, 95),
            gather: random.chance(20),
        }
    }

    /// All slots live on few objects, so that waits of every length come up, d = 16 among them.
    fn crowded(random: &mut Random) -> Habit {
        Habit {
            slots: some_slots(random, SLOTS),
            objects: some_objects(random, 1, 2),
            pairs: 2,
            suprema: &[0, 0, 1, 2],
            weights: [20, 40, 15, 8, 8],
            heed: random.between(0, 90),
            gather: true,
        }
    }

    /// Objects go on early and transactions end late and mostly by rollback, so that one rollback
    /// dooms many.
    fn cascading(random: &mut Random) -> Habit {
        Habit {
            slots: some_slots(random, 4),
            objects: some_objects(random, 1, 3),
            pairs: 2,
            suprema: &[0, 1, 1, 1, 2],
            weights: [20, 45, 20, 5, 7],
            heed: random.between(70, 97),
            gather: random.chance(60),
        }
    }

    /// Long lists, up to all objects.
    fn wide(random: &mut Random) -> Habit {
        Habit {
            slots: some_slots(random, 2),
            objects: (0..OBJECTS as u8).collect(),
            pairs: OBJECTS,
            suprema: &[0, 1, 1, 2, 254, 255],
            weights: [12, 60, 12, 12, 6],
            heed: random.between(60, 95),
            gather: random.chance(30),
        }
    }

    /// Short transactions on one or two objects, which move the versions on quickly.
    fn brisk(random: &mut Random) -> Habit {
        Habit {
            slots: some_slots(random, 2),
            objects: some_objects(random, 1, 2),
            pairs: 2,
            suprema: &[0, 1, 1, 2],
            weights: [30, 30, 10, 25, 15],
            heed: random.between(70, 97),
            gather: false,
        }
    }
}

/// At least `fewest` slots in random order.
fn some_slots(random: &mut Random, fewest: usize) -> Vec<u8> {
    let mut slots: Vec<u8> = (0..SLOTS as u8).collect();
    random.shuffle(&mut slots);
    slots.truncate(random.between(fewest, SLOTS));
    slots
}

/// From `fewest` to `most` objects, rising.
fn some_objects(random: &mut Random, fewest: usize, most: usize) -> Vec<u8> {
    let mut objects: Vec<u8> = (0..OBJECTS as u8).collect();
    random.shuffle(&mut objects);
    objects.truncate(random.between(fewest, most));
    objects.sort_unstable();
    objects
}

/// A first version: often shortly before the turnover of 32 bits or of 31, so that transactions
/// live across it.
pub fn first_version(random: &mut Random) -> Version {
    let before = random.between(0, 40) as u32;
    Version(match random.weighted(&[50, 10, 10, 30]) {
        0 => u32::MAX - before,
        1 => (1 << 31) - before,
        2 => before,
        _ => random.word(),
    })
}

/// The words of a fresh: small ones, which a spend can use up, and others.
pub fn first_words(random: &mut Random) -> [u32; OBJECTS] {
    let mut words = [0; OBJECTS];
    for word in &mut words {
        *word = argument(random);
    }
    words
}

/// A word or an argument: mostly small, at times at an end of 32 bits or anything.
pub fn argument(random: &mut Random) -> u32 {
    match random.weighted(&[70, 10, 10, 10]) {
        0 => random.between(0, 99) as u32,
        1 => 0,
        2 => u32::MAX - random.between(0, 9) as u32,
        _ => random.word(),
    }
}
