//! The gigabit fibre channel: document 02, #109, over source document 000.
//!
//! `end` has what is sent and taken, `registers` the host side, `link` two ends joined. `bench` has the commands, on the
//! `fields` of an end too, and `generate` makes random scripts.

pub mod bench;
pub mod end;
pub mod fields;
pub mod generate;
pub mod link;
pub mod registers;
