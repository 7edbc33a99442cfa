//! What the tests share.
//!
//! `tell` has the seed and what a test that passed says, `scripts` the comparison of any console, `console` how one
//! meets a person, `cases` those worked out by hand, `ask` questions put one at a time. `bench` has lines for the console
//! of 1000BASE-T1, `frames` its lists of symbols, `blocks` its reports, `heard` what a test itself keeps of what it was
//! told; `numbered` is the fibre channel with numbers for toggles. From C: `layout` is the table of a record's bytes,
//! `areas` has calls on them, `upgrades` those on old records, `random_calls` any of these.

pub mod areas;
pub mod ask;
pub mod bench;
pub mod blocks;
pub mod cases;
pub mod console;
pub mod frames;
pub mod heard;
pub mod layout;
pub mod numbered;
pub mod random_calls;
pub mod scripts;
pub mod tell;
pub mod upgrades;
