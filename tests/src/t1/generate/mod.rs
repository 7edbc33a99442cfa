//! Random scripts, each made from its seed alone.

mod classes;
mod ends;
mod finder;
mod frames;
mod lines;
mod links;
mod records;
mod reports;

pub use classes::{symbols_of, words, Class, CLASSES};
pub use ends::{control_value, ends, good_limit};
pub use finder::{captures, noise, runs, without_frames, NOISES};
pub use frames::{data_bytes, frames};
pub use lines::lines;
pub use links::links;
pub use records::{about_to_end, any_call, any_good_end, damaged, wander};
pub use reports::reports;

use super::bench::{Bench, Script};
use crate::writer;

type Writer = writer::Writer<Bench>;

/// A kind of script: from a seed and about how many lines are wanted.
pub type Kind = fn(u64, usize) -> Script;

pub const KINDS: [(&str, Kind); 7] = [
    ("frames", frames),
    ("captures", captures),
    ("runs", runs),
    ("ends", ends),
    ("links", links),
    ("reports", reports),
    ("lines", lines),
];
