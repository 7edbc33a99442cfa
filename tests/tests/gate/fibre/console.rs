//! How the bench of the fibre channel meets a person, with lines of every kind.

use crate::helpers::console;
use crate::helpers::scripts::compare_random;
use second::fibre::bench::Bench;
use second::fibre::generate::lines;

#[test]
fn answers_at_once() {
    console::answers_at_once::<Bench>(&[
        ("link 1 1", "ok"),
        ("# nothing\nslot 3", "slot 3"),
        ("a read 0", "0 0000"),
        ("b read 18", "2 0000"),
    ]);
}

#[test]
fn short_inputs() {
    console::short_inputs::<Bench>();
}

#[test]
fn damaged_lines() {
    compare_random("fibre lines", lines, 5, 30_000);
}
