//! Random areas, met by any call from C, and whether all that can be answered was.

use super::areas::{call_on, random_bytes};
use super::layout::LENGTH;
use super::tell::seed;
use super::upgrades::{any_old, upgrade_from};
use second::random::Random;
use second::t1::calls::Calls;
use second::t1::end::End;
use second::t1::generate::{about_to_end, any_call, any_good_end, damaged, wander};
use second::t1::record::{record_of, Call};
use std::collections::BTreeMap;

/// The answers that each call can give.
const ANSWERS: [(&str, &[u8]); 10] = [
    ("reset", &[0, 11]),
    ("send", &[0, 11]),
    ("take", &[0, 5, 11]),
    ("reason", &[0, 5, 11]),
    ("read", &[0, 2, 11]),
    ("write", &[0, 2, 3, 4, 10, 11]),
    ("health", &[0, 6, 11]),
    ("present", &[0, 11]),
    ("counts", &[0, 11]),
    ("upgrade", &[0, 11]),
];

/// An area and the first call on it: the record of an end that goes on from area to area, any other good one, one whose
/// collection is about to end, a damaged one, or random bytes.
fn random_area(end: &mut End, random: &mut Random) -> (Vec<u8>, Call) {
    wander(end, random);
    let (mut area, mut call) = (record_of(end), any_call(random));
    match random.below(9) {
        0 | 1 => {}
        2 | 3 => area = record_of(&any_good_end(random)),
        4 | 5 => {
            let (end, taking) = about_to_end(random);
            (area, call) = (record_of(&end), taking);
        }
        6 | 7 => area = damaged(&area, random),
        _ => {
            let length = random.of(&[LENGTH, LENGTH, LENGTH - 1, LENGTH + 1, 0]);
            area = random_bytes(random, length);
        }
    }
    (area, call)
}

/// One random area with its calls, at times one that is upgraded.
pub fn call_at_random(calls: &mut Calls, end: &mut End, random: &mut Random) {
    let (area, call) = random_area(end, random);
    if random.one_in(8) {
        let old = any_old(end, random);
        let length = random.of(&[LENGTH, LENGTH, LENGTH, area.len(), LENGTH - 1, LENGTH + 1, 0]);
        upgrade_from(calls, &old, &random_bytes(random, length));
    } else {
        call_on(calls, &area, call);
    }
    // more on the same area, as it then is
    for _ in 0..random.below(4) {
        calls.call(0, any_call(random));
    }
}

/// So many of the same, not compared yet.
pub fn some_random_calls(count: usize) -> Calls {
    let mut random = Random::new(seed());
    let mut calls = Calls::default();
    let mut end = End::reset();
    while calls.count() < count {
        call_at_random(&mut calls, &mut end, &mut random);
    }
    calls
}

/// Each call gave each of its answers, at least so many times, and no other.
pub fn every_answer_was_given(calls: &Calls, least: usize) {
    let mut given: BTreeMap<&str, Vec<u8>> = BTreeMap::new();
    for ((name, answer), count) in &calls.counts {
        assert!(*count >= least, "{} gave {} only {} times", name, answer, count);
        given.entry(name).or_default().push(*answer);
    }
    for (name, answers) in ANSWERS {
        assert_eq!(given.get(name).map_or(&[][..], Vec::as_slice), answers, "{}", name);
    }
}

/// Each reason was given at least so many times, broken collections with each number of symbols, and no other.
pub fn every_reason_was_given(calls: &Calls, least: usize) {
    let broken = [3, 4].into_iter().flat_map(|reason| (1..=11).map(move |symbols| (reason, symbols)));
    let wanted: Vec<(u16, u16)> = [(0, 0), (1, 0), (2, 0)].into_iter().chain(broken).collect();
    assert_eq!(calls.reasons.keys().copied().collect::<Vec<_>>(), wanted);
    for ((reason, symbols), count) in &calls.reasons {
        assert!(*count >= least, "reason {} with {} symbols was given only {} times", reason, symbols, count);
    }
}
