//! Document 02, #109, sentence by sentence: what is expected is written from its text.

use crate::helpers::cases::{cases_of, hold};
use crate::helpers::scripts::proved_prints;
use second::console;
use second::fibre::bench::Bench;

const CASES: &str = include_str!("cases.txt");
const CASES_IN_THE_FILE: usize = 17;

fn all() -> Vec<(String, String)> {
    let cases = cases_of(CASES);
    assert_eq!(cases.len(), CASES_IN_THE_FILE);
    cases
}

#[test]
fn second_keeps_them() {
    hold("second", all(), console::run::<Bench>);
}

#[test]
fn proved_keeps_them() {
    hold("proved", all(), proved_prints::<Bench>);
}
