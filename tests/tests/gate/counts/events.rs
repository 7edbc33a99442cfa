//! The counts of document 02, #106, event by event: what is counted, and where it stops. Every number is spelled out.

use crate::helpers::areas::compare_when;
use crate::helpers::bench::{counted, take};
use crate::helpers::layout::{COUNTS, LENGTH};
use crate::helpers::scripts::compare;
use crate::helpers::tell::{seed, tell};
use second::answer::Answer;
use second::t1::bench::Script;
use second::t1::calls::Calls;
use second::t1::record::Call;
use std::time::Instant;

/// What makes one event, again and again.
struct Event {
    /// Taken once, before the first.
    before: &'static [u16],
    symbols: &'static [u16],
    /// What its last symbol tells: on the bench, and from C by reason and number of symbols.
    told: &'static str,
    reason: [u16; 2],
}

/// In the order of the counts: P1; P3; a mark that breaks a collection; an even symbol that breaks the one before.
const EVENTS: [Event; 4] = [
    Event {
        before: &[],
        symbols: &[0x000, 0x100, 0x100, 0x100, 0x100, 0x100, 0x100, 0x100, 0x100, 0x100, 0x100, 0x100],
        told: "0 accepted",
        reason: [1, 0],
    },
    Event {
        before: &[],
        symbols: &[0x000, 0x100, 0x100, 0x100, 0x100, 0x100, 0x100, 0x100, 0x100, 0x080, 0x1A0, 0x001],
        told: "0 crc",
        reason: [2, 0],
    },
    Event { before: &[], symbols: &[0x000, 0x300], told: "0 marked 1", reason: [3, 1] },
    Event { before: &[0x000], symbols: &[0x000], told: "0 early 1", reason: [4, 1] },
];

/// A count, and what the next four events make of it.
const RUNS: [(u16, [u16; 4]); 5] = [
    (0, [1, 2, 3, 4]),
    (254, [255, 256, 257, 258]),
    (32_766, [32_767, 32_768, 32_769, 32_770]),
    (65_278, [65_279, 65_280, 65_281, 65_282]),
    (65_533, [65_534, 65_535, 65_535, 65_535]),
];

/// The other three meanwhile.
const OTHERS: [u16; 4] = [0, 7, 65_533, 65_535];

/// Every event with every run and every value of the others.
fn every_run() -> impl Iterator<Item = (usize, (u16, [u16; 4]), u16)> {
    (0..4).flat_map(|kind| RUNS.into_iter().flat_map(move |run| OTHERS.map(|other| (kind, run, other))))
}

fn with(kind: usize, count: u16, other: u16) -> [u16; 4] {
    let mut counts = [other; 4];
    counts[kind] = count;
    counts
}

#[test]
fn each_stops_at_65535() {
    let start = Instant::now();
    let mut script = Script::new(seed());
    for (kind, (first, then), other) in every_run() {
        let event = &EVENTS[kind];
        script.say(format_args!("a reset"));
        event.before.iter().for_each(|symbol| take(&mut script, *symbol, "0"));
        for (name, count) in ["accepted", "crc", "marked", "early"].iter().zip(with(kind, first, other)) {
            script.say(format_args!("a set {}_count {:X}", name, count));
        }
        for count in then {
            let (last, symbols) = event.symbols.split_last().expect("an event has symbols");
            symbols.iter().for_each(|symbol| take(&mut script, *symbol, "0"));
            take(&mut script, *last, event.told);
            counted(&mut script, "a", with(kind, count, other));
        }
    }
    compare("counts, stops", &script);
    tell("counts, stops", script.calls, "calls", start);
}

/// As a record has them.
fn bytes(counts: [u16; 4]) -> Vec<u8> {
    counts.iter().flat_map(|count| [(count / 256) as u8, (count % 256) as u8]).collect()
}

/// The same on records, by both calls that take: the bytes are laid, and the counts read by bytes and by the call.
#[test]
fn each_stops_at_65535_from_c() {
    let start = Instant::now();
    let mut calls = Calls::default();
    let mut record = vec![0; LENGTH];
    (record[1], record[2], record[29]) = (101, 3, 1);
    for (kind, (first, then), other) in every_run() {
        let event = &EVENTS[kind];
        for (side, telling) in [false, true].into_iter().enumerate() {
            let take = |calls: &mut Calls, symbol: u16, [reason, symbols]: [u16; 2]| {
                let call = if telling { Call::TakeReason(symbol) } else { Call::Take(symbol) };
                let given = if telling { [reason, symbols, 0, 0] } else { [0; 4] };
                assert_eq!(calls.call(side, call), (Answer::Done, given), "{}", call);
            };
            record[COUNTS].copy_from_slice(&bytes(with(kind, first, other)));
            calls.lay(side, &record);
            event.before.iter().for_each(|symbol| take(&mut calls, *symbol, [0, 0]));
            for count in then {
                let (last, symbols) = event.symbols.split_last().expect("an event has symbols");
                symbols.iter().for_each(|symbol| take(&mut calls, *symbol, [0, 0]));
                take(&mut calls, *last, event.reason);
                let wanted = with(kind, count, other);
                assert_eq!(calls.area(side)[COUNTS], bytes(wanted));
                assert_eq!(calls.call(side, Call::Counts), (Answer::Done, wanted));
            }
        }
        compare_when(false, "counts, stops from C", &mut calls);
    }
    compare_when(true, "counts, stops from C", &mut calls);
    tell("counts, stops from C", calls.count(), "calls", start);
}

/// With delays 0 each frame is accepted in its twelfth slot, at both ends: 65,534 of them, then two more and one. No
/// count is set here.
#[test]
fn accepted_from_reset() {
    let start = Instant::now();
    let mut script = Script::new(seed());
    script.say(format_args!("link 0 0"));
    for _ in 0..12 {
        script.say(format_args!("slot 65534"));
    }
    for (slots, count) in [(0, 65_534), (11, 65_534), (1, 65_535), (12, 65_535), (12, 65_535)] {
        script.say(format_args!("slot {}", slots));
        counted(&mut script, "a", [count, 0, 0, 0]);
        counted(&mut script, "b", [count, 0, 0, 0]);
    }
    script.say(format_args!("link 0 0"));
    counted(&mut script, "a", [0; 4]);
    counted(&mut script, "b", [0; 4]);
    compare("counts, accepted from reset", &script);
    tell("counts, accepted from reset", 12 * 65_534 + 36, "slots", start);
}

/// Marks on the line to b, from a frame's second symbol on or later: the first breaks a collection and the others find
/// none, so each frame is one count at a and one at b.
#[test]
fn marks_on_a_line() {
    let mut script = Script::new(seed());
    script.say(format_args!("link 0 0"));
    for round in 1..=300 {
        let before = 1 + round % 11;
        script.say(format_args!("slot {}", before));
        script.say(format_args!("mark b {}", 1 + round % (12 - before)));
        script.say(format_args!("slot {}", 12 - before));
        counted(&mut script, "a", [round, 0, 0, 0]);
        counted(&mut script, "b", [0, 0, round, 0]);
    }
    compare("counts, marks on a line", &script);
}

/// Every other call, refused or done, and every refused symbol: on an end with a collection, and on a wrong one.
#[test]
fn nothing_else_counts() {
    let mut script = Script::new(seed());
    let counts = [0x0102, 0x0304, 0xFFFE, 0xFFFF];
    for wrong in [false, true] {
        for (name, count) in ["accepted", "crc", "marked", "early"].iter().zip(counts) {
            script.say(format_args!("a set {}_count {:X}", name, count));
        }
        script.say(format_args!("a set count {:X}", if wrong { 12 } else { 11 }));
        for register in 2307..=2318 {
            script.say(format_args!("a read {}", register));
            counted(&mut script, "a", counts);
            for value in [0, 0x8500, 0xFFFF] {
                script.say(format_args!("a write {} {:X}", register, value));
                counted(&mut script, "a", counts);
            }
        }
        for _ in 0..30 {
            script.say(format_args!("a send"));
            counted(&mut script, "a", counts);
        }
        for health in 0..=4 {
            script.say(format_args!("a health {:X}", health));
            counted(&mut script, "a", counts);
        }
        script.say(format_args!("a present"));
        for symbol in (0..=65535).filter(|symbol| wrong || *symbol > 1023).step_by(61) {
            take(&mut script, symbol, if wrong { "1" } else { "5" });
        }
        counted(&mut script, "a", counts);
    }
    script.say(format_args!("a reset"));
    counted(&mut script, "a", [0; 4]);
    compare("counts, nothing else", &script);
}

/// A count takes sixteen bits and no index. What cannot be read changes nothing.
#[test]
fn what_set_takes() {
    let mut script = Script::new(seed());
    for (kind, name) in ["accepted_count", "crc_count", "marked_count", "early_count"].iter().enumerate() {
        script.say(format_args!("a reset"));
        for (value, count) in [("1", 1), ("abC", 0xABC), ("FFFF", 65_535), ("0000000FFFE", 65_534), ("0", 0)] {
            script.say(format_args!("a set {} {}", name, value));
            assert_eq!(script.last_answer(), b"ok");
            counted(&mut script, "a", with(kind, count, 0));
        }
        for wrong in ["10000", "FFFFF", "100000000", "-1", "0x1", "", "0 1", "1 0"] {
            script.say(format_args!("a set {} {}", name, wrong));
            assert!(script.last_answer().starts_with(b"? "), "{} {}", name, wrong);
            counted(&mut script, "a", [0; 4]);
        }
        counted(&mut script, "b", [0; 4]);
    }
    compare("counts, what set takes", &script);
}
