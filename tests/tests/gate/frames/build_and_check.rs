//! Frames built and checked.

use crate::helpers::scripts::compare_random;
use crate::helpers::tell::{seed, tell};
use second::answer::Answer;
use second::random::Random;
use second::t1::frame::{build, check};
use second::t1::generate::{data_bytes, frames};
use std::time::Instant;

#[test]
fn random_and_damaged() {
    compare_random("frames", frames, 12, 100_000);
}

/// Demand 2 on the second implementation: what is built is accepted.
#[test]
fn built_is_accepted() {
    let start = Instant::now();
    let mut random = Random::new(seed());
    let count = 100_000;
    for _ in 0..count {
        let data = data_bytes(&mut random);
        assert_eq!(check(&build(&data)), (Answer::Done, None), "{:?}", data);
    }
    tell("frames, built is accepted", count, "frames", start);
}
