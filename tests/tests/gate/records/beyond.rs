//! No byte beyond an area is read or written: the driver's other ways to lay one.

use crate::helpers::areas::{driver, every_length};
use crate::helpers::random_calls::{every_answer_was_given, every_reason_was_given, some_random_calls};
use crate::helpers::tell::{seed, tell};
use crate::helpers::upgrades::every_pair_of_lengths;
use second::programs::under_valgrind;
use std::process::Command;
use std::time::Instant;

/// Under valgrind, which sees every byte beyond the area that is read or written.
#[test]
fn no_byte_beyond_by_valgrind() {
    hold_beyond("valgrind", || {
        let mut driver = under_valgrind("driver");
        driver.arg("heap");
        driver
    });
}

/// Between pages that can't be read or written, against one of them.
#[test]
fn no_byte_beyond_by_pages() {
    for how in ["page-before", "page-after"] {
        hold_beyond(how, || driver(how));
    }
}

/// Areas of every length, most of them refused, and random ones, on which each call gives each of its answers.
fn hold_beyond(name: &str, driver: impl Fn() -> Command) {
    let start = Instant::now();
    let (lengths, pairs, random) = (every_length(1), every_pair_of_lengths(&[92, 100, 101]), some_random_calls(20_000));
    every_answer_was_given(&random, 10);
    every_reason_was_given(&random, 1);
    let mut count = 0;
    for calls in [&lengths, &pairs, &random] {
        calls.compare(driver()).unwrap_or_else(|why| panic!("{}: seed {}, {}", name, seed(), why));
        count += calls.count();
    }
    tell(&format!("records, {}", name), count, "calls", start);
}
