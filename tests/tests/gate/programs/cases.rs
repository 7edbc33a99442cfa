//! Document 01, "Numbers on the bench", and other lines of the page, and document 02, #101, #102 and #105 to #107: what
//! is expected is written from the pages.

use crate::helpers::cases::{cases_of, hold};
use crate::helpers::scripts::proved_prints;
use second::console;
use second::t1::bench::Bench;

const CASES: &str = include_str!("cases.txt");
const CASES_IN_THE_FILE: usize = 59;

/// Where answer 1 begins: each field with its largest good value and the next.
const LIMITS: &[(&str, &str, &str)] = &[
    ("position", "B", "C"),
    ("count", "B", "C"),
    ("tx 0", "1FF", "200"),
    ("tx 11", "1FF", "200"),
    ("rx 0", "1FF", "200"),
    ("rx 11", "1FF", "200"),
    ("health", "3", "4"),
    ("loaded_health", "3", "4"),
    ("partner_health", "3", "4"),
    ("number", "F", "10"),
    ("rx_number", "F", "10"),
    ("presence_left", "300", "301"),
];

/// Answer 1 comes before every other, and presence says no. The count's largest value is a collection, which a marked
/// symbol breaks.
fn limit_case(field: &str, good: &str, bad: &str) -> String {
    let marked = if field == "count" { "0 marked 11" } else { "0" };
    format!(
        "a reset > 0
         a set presence_left 300 > ok
         a set {field} {bad} > ok
         a send > 1 000
         a take 000 > 1
         a take 400 > 1
         a read 2309 > 1 0000
         a read 2307 > 1 0000
         a write 2309 0 > 1
         a write 2318 0 > 1
         a write 2313 0 > 1
         a write 2308 70FB > 1
         a health 0 > 1
         a health 4 > 1
         a present > no
         a set {field} {good} > ok
         a present > yes
         a read 2309 > 0 0000
         a read 2307 > 2 0000
         a write 2309 0 > 0
         a write 2313 0 > 3
         a write 2308 70FB > 10
         a take 400 > 5
         a health 4 > 6
         a take 200 > {marked}
         a health 0 > 0"
    )
}

fn long_lists() -> String {
    let frame = "000 100 100 100 100 100 100 100 100 100 100 100";
    let odd = |count: usize| "100 ".repeat(count);
    format!(
        "find {}{frame} > 0 4084 12
         find {}{frame} > 0 4085 12
         find {}{frame} > 0 32755 12
         find {}{frame} > 0 32756 12
         find {}{frame} > 7 0 0
         find {frame} {} > 0 0 12
         find {frame} {} > 7 0 0
         find {} > 8 0 0
         find {} > 7 0 0
         find {frame} {}400 > 5 0 0
         find {frame} {}400 > 7 0 0",
        odd(4084),
        odd(4085),
        odd(32_755),
        odd(32_756),
        odd(32_757),
        odd(32_756),
        odd(32_757),
        odd(32_768),
        odd(32_769),
        odd(32_755),
        odd(32_756),
    )
}

fn all() -> Vec<(String, String)> {
    let mut cases = cases_of(CASES);
    assert_eq!(cases.len(), CASES_IN_THE_FILE);
    cases.extend(LIMITS.iter().map(|(field, good, bad)| (format!("answer 1, {field}"), limit_case(field, good, bad))));
    cases.push(("lists of 4,096, 4,097, 32,767, 32,768 and 32,769".to_string(), long_lists()));
    cases
}

#[test]
fn second_keeps_them() {
    hold("second", all(), console::run::<Bench>);
}

#[test]
fn proved_keeps_them() {
    hold("proved", all(), proved_prints::<Bench>);
}
