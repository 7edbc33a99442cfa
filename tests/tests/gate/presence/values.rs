//! What an end can have left of presence, and what it cannot: document 02, #107.

use crate::helpers::areas::{call_on, compare_when, EVERY_CALL};
use crate::helpers::bench::{left, present};
use crate::helpers::scripts::{answered, compare};
use crate::helpers::tell::{seed, tell};
use second::answer::Answer;
use second::t1::bench::Script;
use second::t1::calls::Calls;
use second::t1::record::{Call, Reply};
use std::time::Instant;

const REFUSED: Reply = (Answer::BadRecord, [0; 4]);

/// Every value of sixteen bits: up to 768 it is one less after the next symbol, and from 769 on answer 1 meets the end,
/// whose partner is not present.
#[test]
fn every_value() {
    let start = Instant::now();
    let mut script = Script::new(seed());
    for value in 0..=65_535usize {
        answered(&mut script, &format!("a set presence_left {:X}", value), "ok");
        present(&mut script, "a", 0 < value && value <= 768);
        answered(&mut script, "a take 100", if value <= 768 { "0" } else { "1" });
        present(&mut script, "a", 1 < value && value <= 768);
        if value < 4 || (764..774).contains(&value) || value % 256 < 2 || value == 65_535 {
            left(&mut script, "a", if value <= 768 { value.saturating_sub(1) } else { value });
        }
    }
    compare("presence, every value", &script);
    tell("presence, every value", script.calls, "calls", start);
}

/// At the limit every call is done or refused as ever; above it each gives 1 and leaves the end, until what is left is
/// set again.
#[test]
fn above_768_every_call_gives_1() {
    let calls = [
        ("send", "0 000", "1 000"),
        ("take 000", "0", "1"),
        ("take 3FF", "0 marked 1", "1"),
        ("take 400", "5", "1"),
        ("read 2308", "0 0000", "1 0000"),
        ("read 2307", "2 0000", "1 0000"),
        ("write 2309 1", "0", "1"),
        ("write 2318 0", "2", "1"),
        ("write 2313 0", "3", "1"),
        ("write 2308 0001", "10", "1"),
        ("health 3", "0", "1"),
        ("health 4", "6", "1"),
        ("present", "yes", "no"),
    ];
    let mut script = Script::new(seed());
    for (value, wrong) in [("2FF", false), ("300", false), ("301", true), ("3FF", true), ("8300", true), ("FFFF", true)]
    {
        answered(&mut script, "a reset", "0");
        answered(&mut script, &format!("a set presence_left {}", value), "ok");
        script.say(format_args!("a dump"));
        let before = script.last_answer().to_vec();
        assert!(before.ends_with(format!(" presence_left={}", value).as_bytes()));
        for (call, good, bad) in calls {
            answered(&mut script, &format!("a {}", call), if wrong { bad } else { good });
        }
        script.say(format_args!("a dump"));
        assert_eq!(script.last_answer() == before, wrong);
        answered(&mut script, "a set presence_left 300", "ok");
        left(&mut script, "a", 768);
    }
    compare("presence, above 768", &script);
}

/// Sixteen bits and no index. `present` is no field any more. What cannot be read changes nothing.
#[test]
fn what_set_takes() {
    let mut script = Script::new(seed());
    for (value, wanted) in [("1", 1), ("aB", 0xAB), ("300", 768), ("0000000002fF", 767), ("FFFF", 65_535), ("0", 0)] {
        answered(&mut script, &format!("a set presence_left {}", value), "ok");
        left(&mut script, "a", wanted);
        left(&mut script, "b", 0);
    }
    for wrong in
        ["presence_left 10000", "presence_left -1", "presence_left 0 1", "presence_left", "present 1", "present 0"]
    {
        script.say(format_args!("a set {}", wrong));
        assert!(script.last_answer().starts_with(b"? "), "{}", wrong);
        left(&mut script, "a", 0);
    }
    compare("presence, what set takes", &script);
}

/// A record just reset, with so much left.
fn record_with(left: u16) -> Vec<u8> {
    let mut record = vec![0; 101];
    (record[1], record[2], record[29]) = (101, 3, 1);
    (record[99], record[100]) = ((left / 256) as u8, (left % 256) as u8);
    record
}

/// The same from C, by the two bytes, the high one first: above 768 it is no record.
#[test]
fn every_value_from_c() {
    let start = Instant::now();
    let mut calls = Calls::default();
    for value in 0..=65_535u16 {
        calls.lay(0, &record_with(value));
        let done = |present: bool| (Answer::Done, [u16::from(present), 0, 0, 0]);
        let (before, taken, after) = match value {
            0..=768 => (done(value > 0), done(false), done(value > 1)),
            _ => (REFUSED, REFUSED, REFUSED),
        };
        assert_eq!(calls.call(0, Call::Present), before, "{}", value);
        let call = if value % 2 == 0 { Call::Take(0x100) } else { Call::TakeReason(0x3FF) };
        assert_eq!(calls.call(0, call), taken, "{}", value);
        let wanted = if value <= 768 { value.saturating_sub(1) } else { value };
        assert_eq!(calls.area(0), record_with(wanted));
        assert_eq!(calls.call(0, Call::Present), after, "{}", value);
        compare_when(false, "presence, every value from C", &mut calls);
    }
    compare_when(true, "presence, every value from C", &mut calls);
    tell("presence, every value from C", calls.count(), "calls", start);
}

/// Around the limit of the number, and where one byte alone would be in range: met by every call.
#[test]
fn around_the_limit_from_c() {
    let start = Instant::now();
    let mut calls = Calls::default();
    for high in [0, 1, 2, 3, 4, 0x83, 0xFF] {
        for low in [0, 1, 2, 3, 0x7F, 0x80, 0xFE, 0xFF] {
            for call in EVERY_CALL.into_iter().chain([Call::Reset]) {
                call_on(&mut calls, &record_with(256 * high + low), call);
            }
        }
    }
    compare_when(true, "presence, around the limit from C", &mut calls);
    // No record: high byte 3 with another low byte than 0, and every higher one. Reset looks at the length alone.
    let refused: usize = calls.counts.iter().filter(|((_, answer), _)| *answer == 11).map(|(_, count)| count).sum();
    assert_eq!((calls.count(), refused), (7 * 8 * 22, (7 + 3 * 8) * 21));
    tell("presence, around the limit from C", calls.count(), "calls", start);
}
