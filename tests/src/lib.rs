//! The second implementation of documents 01 and 02: written from the pages, apart from the proved code, and held
//! against it.
//!
//! `t1` is the channel of 1000BASE-T1, `fibre` the gigabit fibre channel; neither knows the other. Beside them stands
//! what any channel needs: the answer numbers, the lines of a `console`, the `fields` of an end, a `link` of two ends,
//! `random` numbers, writers of random scripts (`writer`, `lines`), and scripts that compare it with the proved programs
//! (`script`, `proved`) and with those in C (`programs`). None of these knows a channel.

pub mod answer;
pub mod console;
pub mod fibre;
pub mod fields;
pub mod lines;
pub mod link;
pub mod programs;
pub mod proved;
pub mod random;
pub mod script;
pub mod t1;
pub mod writer;
