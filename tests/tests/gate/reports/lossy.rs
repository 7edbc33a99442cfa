//! Reporting hosts on lossy lines, alone and disturbed.

use crate::helpers::scripts::compare_random;
use second::t1::generate::reports;
use std::cell::Cell;

/// What a host's step can print, and how many such lines there are at least.
const OUTCOMES: [(&[u8], usize); 7] = [
    (b"block ", 300),
    (b"part ", 20_000),
    (b"out ", 1_000),
    (b"empty", 10_000),
    (b"waits", 5_000),
    (b"idle", 1_000),
    (b"4", 1_000),
];

#[test]
fn lossy_links() {
    let seen = Cell::new([0; OUTCOMES.len()]);
    let kind = |seed, lines| {
        let script = reports(seed, lines);
        let mut counts = seen.get();
        for line in script.expected.split(|byte| *byte == b'\n') {
            for ((outcome, _), count) in OUTCOMES.iter().zip(&mut counts) {
                *count += usize::from(line.starts_with(outcome));
            }
        }
        seen.set(counts);
        script
    };
    compare_random("reports", kind, 20, 15_000);
    for ((outcome, least), count) in OUTCOMES.iter().zip(seen.get()) {
        let outcome = String::from_utf8_lossy(outcome);
        assert!(count >= *least, "{} lines began with {:?}, fewer than {}", count, outcome, least);
    }
}
