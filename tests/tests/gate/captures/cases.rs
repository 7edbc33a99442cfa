//! Captures whose reports were worked out by hand.

use crate::helpers::cases::cases_of;
use crate::helpers::reader::{read, same};
use crate::helpers::tell::tell;
use second::t1::capture::report;
use second::t1::generate::bytes;
use std::time::Instant;

struct Case {
    name: String,
    capture: Vec<u8>,
    report: String,
}

fn cases() -> Vec<Case> {
    let split = |(name, text): (String, String)| {
        let (capture, report) = text.split_once('\n').expect("a capture and its report");
        Case { name, capture: capture.split(' ').flat_map(word).collect(), report: format!("{}\n", report) }
    };
    cases_of(include_str!("cases.txt")).into_iter().map(split).collect()
}

fn word(word: &str) -> Vec<u8> {
    let hex = |digits| u16::from_str_radix(digits, 16).unwrap_or_else(|_| panic!("{} is no symbol", word));
    if let Some(digits) = word.strip_prefix('+') {
        return vec![u8::from_str_radix(digits, 16).expect("a byte")];
    }
    if let Some((count, digits)) = word.split_once('*') {
        return bytes(vec![hex(digits); count.parse().expect("a count")]);
    }
    bytes(match word {
        "-" => Vec::new(),
        "P1" => frame([0x100, 0x100, 0x100]),
        "P2" => frame([0x080, 0x001, 0x1A0]),
        "P3" => frame([0x080, 0x1A0, 0x001]),
        "P4" => frame([0x001, 0x0C1, 0x1C0]),
        digits => vec![hex(digits)],
    })
}

/// All frames of these cases begin alike.
fn frame(last: [u16; 3]) -> Vec<u16> {
    [&[0x000][..], &[0x100; 8], &last].concat()
}

/// As the last line of a report says.
fn status(report: &str) -> i32 {
    let last = report.lines().last().expect("a last line");
    i32::from(!last.contains(" end 0 "))
}

#[test]
fn second_prints_them() {
    for Case { name, capture, report: wanted } in cases() {
        let told = report(&capture);
        same(&name, wanted.as_bytes(), &told.text);
        assert_eq!(told.status(), status(&wanted), "{}", name);
    }
}

#[test]
fn proved_prints_them() {
    let start = Instant::now();
    let cases = cases();
    for Case { name, capture, report } in &cases {
        read(capture).reported(name, report.as_bytes(), status(report));
    }
    assert!(cases.len() > 40);
    tell("captures, cases", cases.len(), "cases", start);
}
