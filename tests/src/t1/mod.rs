//! The channel of 1000BASE-T1: document 01, with document 02's requests #101, #102, #104 to #107 and #110.
//!
//! `frame`, `finder`, `end`, `registers` and `link` follow the page's sections, `record` follows #104, #106 and #107,
//! `report` follows #110. `bench` has the commands, on the `fields` of an end too. `calls` holds the calls from C
//! against what stands here, and `generate` makes random scripts and records.

pub mod bench;
pub mod calls;
pub mod end;
pub mod fields;
pub mod finder;
pub mod frame;
pub mod generate;
pub mod link;
pub mod record;
pub mod registers;
pub mod report;
