//! How the bench of 1000BASE-T1 meets a person, with lines of every kind.

use crate::helpers::console;
use crate::helpers::scripts::compare_random;
use second::t1::bench::Bench;
use second::t1::generate::lines;

#[test]
fn answers_at_once() {
    console::answers_at_once::<Bench>(&[("link 1 1", "ok"), ("# nothing\nslot 3", "slot 3"), ("a present", "no")]);
}

#[test]
fn short_inputs() {
    console::short_inputs::<Bench>();
}

#[test]
fn damaged_lines() {
    compare_random("lines", lines, 10, 30_000);
}
