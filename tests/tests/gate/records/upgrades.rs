//! Old records of every kind upgraded from C, good or not: document 02, #106 and #107.

use crate::helpers::areas::compare_when;
use crate::helpers::layout::OLD;
use crate::helpers::tell::{seed, tell};
use crate::helpers::upgrades::{answers, every_pair_of_lengths, old_record, some_end, upgrade};
use second::random::Random;
use second::t1::calls::Calls;
use second::t1::end::End;
use second::t1::generate::{any_good_end, wander};
use std::time::Instant;

/// Lengths at which something begins or ends.
const LENGTHS: [usize; 15] = [0, 1, 2, 3, 91, 92, 93, 99, 100, 101, 102, 192, 200, 202, 300];

/// Every kind of good record, each field at its least and largest too.
#[test]
fn good_records() {
    let start = Instant::now();
    let mut random = Random::new(seed());
    let mut calls = Calls::default();
    let mut end = End::reset();
    for old in OLD {
        for any in [End::reset(), End::default()] {
            upgrade(&mut calls, &old_record(&any, old, &mut random), &mut random);
        }
    }
    for turn in 0..10_000 {
        let old = OLD[turn % 2];
        wander(&mut end, &mut random);
        for any in [end.clone(), any_good_end(&mut random)] {
            upgrade(&mut calls, &old_record(&any, old, &mut random), &mut random);
        }
        compare_when(false, "upgrades, good records", &mut calls);
    }
    compare_when(true, "upgrades, good records", &mut calls);
    assert_eq!(answers(&calls), [20_004, 0]);
    tell("upgrades, good records", calls.count(), "calls", start);
}

/// Each value of each byte of either version. How many are good is counted from the page's largest values: of the head
/// 3, of 24 symbols 24 times 2 + 256, of the 8 and 8 bytes 16 times 256, and so on; of version 2's counts all.
#[test]
fn every_byte() {
    let start = Instant::now();
    let mut random = Random::new(seed());
    let mut calls = Calls::default();
    for (turn, old) in (0..2).flat_map(|turn| OLD.map(|old| (turn, old))) {
        let end = some_end(turn, &mut random);
        let good = old_record(&end, old, &mut random);
        for (place, value) in (0..old.length).flat_map(|place| (0..=255).map(move |value| (place, value))) {
            let mut bytes = good.clone();
            bytes[place] = value;
            upgrade(&mut calls, &bytes, &mut random);
            compare_when(false, "upgrades, every byte", &mut calls);
        }
    }
    compare_when(true, "upgrades, every byte", &mut calls);
    let (symbols, bytes, numbers, healths, places, bools) = (24 * (2 + 256), 16 * 256, 2 * 16, 3 * 4, 2 * 12, 18 * 2);
    let first = 3 + symbols + bytes + numbers + healths + places + bools;
    let good = 2 * (first + first + 8 * 256);
    assert_eq!(answers(&calls), [good, 2 * (92 + 100) * 256 - good]);
    tell("upgrades, every byte", calls.count(), "calls", start);
}

/// All lengths that the head can tell, and all versions: one of each is right.
#[test]
fn every_head() {
    let start = Instant::now();
    let mut random = Random::new(seed());
    let mut calls = Calls::default();
    for old in OLD {
        for length in 0..=65535u16 {
            let mut bytes = old_record(&any_good_end(&mut random), old, &mut random);
            bytes[..2].copy_from_slice(&length.to_be_bytes());
            upgrade(&mut calls, &bytes, &mut random);
            compare_when(false, "upgrades, every head", &mut calls);
        }
        for version in 0..=255 {
            let mut bytes = old_record(&any_good_end(&mut random), old, &mut random);
            bytes[2] = version;
            upgrade(&mut calls, &bytes, &mut random);
        }
    }
    compare_when(true, "upgrades, every head", &mut calls);
    assert_eq!(answers(&calls), [2 * 2, 2 * (65_536 + 256 - 2)]);
    tell("upgrades, every head", calls.count(), "calls", start);
}

#[test]
fn every_length() {
    let start = Instant::now();
    let mut calls = every_pair_of_lengths(&LENGTHS);
    compare_when(true, "upgrades, every length", &mut calls);
    // Of either version, both lengths right: twice among the pairs, as it is and with its head telling the same.
    assert_eq!(answers(&calls)[0], 2 * 4);
    tell("upgrades, every length", calls.count(), "calls", start);
}
