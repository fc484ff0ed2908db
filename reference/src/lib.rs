//! A reference implementation, in plain Rust and written from the rules alone (docs/RULES.md has
//! them): a step machine over tables of 16 transaction slots (0 to 15) and 24 objects (0 to 23),
//! the records that carry its events and its ends, a question that orders two end records, and a
//! bench program. It shares no code and no definition with the proved crates, so that a
//! difference between the two shows a misreading in one of them.
//!
//! The machine: [`counters`], [`answers`], [`tables`], [`machine`]. The records: [`records`]
//! (reading), [`writing`]. The question: [`order`]. The program: [`bench`]. Making sessions:
//! [`random`], [`habits`], [`maker`], [`hostile`], [`breakage`], [`sessions`]. Comparing:
//! [`compare`], [`delivery`], [`tally`], [`situations`], [`long`].
//!
//! Commands, each built with `cargo build --release --offline`:
//!
//! - `bench` is the bench program.
//! - `compare --sessions 3000 --seed 1 -- PROGRAM ARGUMENTS` feeds random sessions to PROGRAM and
//!   to the bench here and compares what both print.
//! - `speed` measures the machine's steps on a prepared session.
//! - `planted-faults`, a script beside the manifest, builds copies of the bench with one wrong
//!   rule each and shows that `compare` finds it.
//!
//! The rules are taken to the letter, on tables that no run from fresh reaches as well (a live slot
//! that declares nothing, a count past its supremum).

pub mod answers;
pub mod bench;
pub mod breakage;
pub mod compare;
pub mod counters;
pub mod delivery;
pub mod habits;
pub mod hostile;
pub mod long;
pub mod machine;
pub mod maker;
pub mod order;
pub mod random;
pub mod records;
pub mod sessions;
pub mod situations;
pub mod tables;
pub mod tally;
pub mod writing;
