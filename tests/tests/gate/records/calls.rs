//! The calls from C on records, through `tests/c/driver.c`, against the second implementation: document 02, #104, with
//! #105's reason, #106's counts and #107's presence.
//!
//! After every call answer, value, reason or counts, and all bytes are compared; the guard bytes beside them are
//! untouched.

use crate::helpers::areas::{call_on, compare_when, every_length, EVERY_CALL};
use crate::helpers::layout::LENGTH;
use crate::helpers::random_calls::{call_at_random, every_answer_was_given, every_reason_was_given};
use crate::helpers::tell::{seed, tell};
use second::random::Random;
use second::t1::calls::Calls;
use second::t1::end::End;
use second::t1::generate::{any_good_end, wander};
use second::t1::record::{record_of, Call};
use std::time::Instant;

/// Good records and others, any call.
#[test]
fn random_calls() {
    let start = Instant::now();
    let mut random = Random::new(seed());
    let mut calls = Calls::default();
    let mut end = End::reset();
    while calls.count() < 400_000 {
        call_at_random(&mut calls, &mut end, &mut random);
        compare_when(false, "records, random", &mut calls);
    }
    compare_when(true, "records, random", &mut calls);
    every_answer_was_given(&calls, 100);
    every_reason_was_given(&calls, 100);
    tell("records, random", calls.count(), "calls", start);
}

/// Each value of each of the 101 bytes, met by each call.
#[test]
fn every_byte() {
    let start = Instant::now();
    let mut random = Random::new(seed());
    let mut end = End::reset();
    (0..200).for_each(|_| wander(&mut end, &mut random));
    let good = record_of(&end);
    let mut calls = Calls::default();
    for place in 0..LENGTH {
        for value in 0..=255 {
            let mut area = good.clone();
            area[place] = value;
            for call in EVERY_CALL {
                call_on(&mut calls, &area, call);
            }
            call_on(&mut calls, &area, Call::Reset);
            compare_when(false, "records, every byte", &mut calls);
        }
    }
    compare_when(true, "records, every byte", &mut calls);
    assert_eq!(calls.count(), 101 * 256 * 22);
    tell("records, every byte", calls.count(), "calls", start);
}

/// All lengths that the head can tell, and with them versions 0, 1, 2, 4 and 255, beside the right one.
#[test]
fn every_head() {
    let start = Instant::now();
    let mut random = Random::new(seed());
    let mut calls = Calls::default();
    for length in 0..=65535u16 {
        let mut area = record_of(&any_good_end(&mut random));
        area[..2].copy_from_slice(&length.to_be_bytes());
        area[2] = random.of(&[3, 3, 0, 1, 2, 4, 255]);
        call_on(&mut calls, &area, random.of(&EVERY_CALL));
        compare_when(false, "records, every head", &mut calls);
    }
    for version in 0..=255 {
        let mut area = record_of(&any_good_end(&mut random));
        area[2] = version;
        for call in EVERY_CALL {
            call_on(&mut calls, &area, call);
        }
    }
    compare_when(true, "records, every head", &mut calls);
    tell("records, every head", calls.count(), "calls", start);
}

#[test]
fn every_area() {
    let start = Instant::now();
    let mut calls = every_length(5);
    compare_when(true, "records, every length", &mut calls);
    tell("records, every length", calls.count(), "calls", start);
}
