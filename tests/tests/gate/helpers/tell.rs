//! What a test starts from, and what it tells.

use std::env;
use std::io::Write;
use std::time::Instant;

pub fn seed() -> u64 {
    match env::var("SIMHADOL_SEED") {
        Ok(text) => text.parse().expect("SIMHADOL_SEED is a decimal number"),
        Err(_) => 1,
    }
}

/// Says seed, count and time of a test that passed.
pub fn tell(name: &str, count: usize, what: &str, start: Instant) {
    say(&format!("{}: seed {}, {} {}, {:.1} s", name, seed(), count, what, start.elapsed().as_secs_f64()));
}

/// Writes to the stream itself, as the test runner keeps back what is printed.
fn say(line: &str) {
    std::io::stderr().write_all(format!("{}\n", line).as_bytes()).expect("standard error takes a line");
}
