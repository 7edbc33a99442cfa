//! Random scripts, each made from its seed alone.

mod ends;
mod lines;
mod links;

pub use ends::{ends, good_limit};
pub use lines::lines;
pub use links::links;

use super::bench::{Bench, Script};
use crate::writer;

type Writer = writer::Writer<Bench>;

/// A kind of script: from a seed and about how many lines are wanted.
pub type Kind = fn(u64, usize) -> Script;

pub const KINDS: [(&str, Kind); 3] = [("fibre ends", ends), ("fibre links", links), ("fibre lines", lines)];
