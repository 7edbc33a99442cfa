//! Random captures of every kind against the second implementation.

use crate::helpers::tell::{seed, tell};
use second::random::Random;
use second::t1::capture::compare;
use second::t1::generate::{recording, PIECES};
use std::collections::BTreeMap;
use std::time::Instant;

const COUNT: usize = 400;

/// What a line can say, and how many such lines there are at least.
const SAYINGS: [(&str, usize); 8] = [
    (" frame ", 2_000),
    (" failed crc", 500),
    (" failed marked ", 500),
    (" failed early ", 5_000),
    (" lapsed quiet from ", 30),
    (" end 0 ", 50),
    (" end 5 ", 30),
    (" end 12 ", 50),
];

#[test]
fn captures_of_every_kind() {
    let start = Instant::now();
    let mut random = Random::new(seed());
    let (mut lines, mut seen, mut kinds) = (0, [0; SAYINGS.len()], BTreeMap::<_, usize>::new());
    for number in 0..COUNT {
        let (kind, input) = recording(&mut random);
        let report = compare(&input).unwrap_or_else(|why| panic!("{}, seed {}, {}: {}", number, seed(), kind, why));
        for line in String::from_utf8_lossy(&report.text).lines() {
            for ((saying, _), count) in SAYINGS.iter().zip(&mut seen) {
                *count += usize::from(line.contains(saying));
            }
        }
        lines += report.lines();
        *kinds.entry(kind).or_default() += 1;
    }
    for ((saying, least), count) in SAYINGS.iter().zip(seen) {
        assert!(count >= *least, "{} lines have{:?}, fewer than {}", count, saying, least);
    }
    assert!(kinds.len() == PIECES.len() + 1 && kinds.values().all(|count| *count >= 10), "{:?}", kinds);
    tell("captures, random", lines, &format!("lines of {} captures", COUNT), start);
}
