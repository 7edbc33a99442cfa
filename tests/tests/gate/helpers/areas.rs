//! Calls from C on areas of bytes, by the driver that lays guard bytes beside them.

use super::layout::{is_record, LENGTH};
use super::tell::{seed, tell};
use second::answer::Answer;
use second::programs::program;
use second::random::Random;
use second::t1::calls::Calls;
use second::t1::generate::{any_call, any_good_end};
use second::t1::record::{record_of, Call};
use std::ops::Range;
use std::process::Command;
use std::time::Instant;

/// The longest area of those that are gone through one by one.
pub const LONGEST: usize = 300;

/// Every call, refused or done. The last are those that answer 11 comes before.
pub const EVERY_CALL: [Call; 21] = [
    Call::Present,
    Call::Counts,
    Call::Send,
    Call::Take(0),
    Call::Take(0x100),
    Call::Take(1023),
    Call::TakeReason(0),
    Call::TakeReason(0x100),
    Call::TakeReason(1023),
    Call::Read(2308),
    Call::Read(2317),
    Call::Write(2308, 0x8504),
    Call::Write(2309, 0x2211),
    Call::SetHealth(3),
    Call::Take(1024),
    Call::TakeReason(1024),
    Call::Read(2307),
    Call::Write(2318, 0),
    Call::Write(2313, 0),
    Call::Write(2308, 0x70FB),
    Call::SetHealth(4),
];

/// The driver, with how it lays an area.
pub fn driver(how: &str) -> Command {
    let mut command = program("driver");
    command.arg(how);
    command
}

pub fn compare_when(last: bool, name: &str, calls: &mut Calls) {
    calls.compare_when(last, || driver("guards")).unwrap_or_else(|why| panic!("{}: seed {}, {}", name, seed(), why));
}

/// A call on an area laid for it. 11 is given exactly where the table says that the bytes are no record.
pub fn call_on(calls: &mut Calls, area: &[u8], call: Call) {
    calls.lay(0, area);
    let wanted = if call == Call::Reset { area.len() != LENGTH } else { !is_record(area) };
    let (answer, ..) = calls.call(0, call);
    assert_eq!(answer == Answer::BadRecord, wanted, "{} on {:02X?}", call, area);
}

pub fn random_bytes(random: &mut Random, length: usize) -> Vec<u8> {
    (0..length).map(|_| random.byte()).collect()
}

/// Areas of every length from 0 to 300, each met by every call: random bytes, a good record cut or with more behind it,
/// and the same with its head telling the area's length. No bytes are at NULL too.
pub fn every_length(rounds: usize) -> Calls {
    let mut random = Random::new(seed());
    let mut calls = Calls::default();
    for length in 0..=LONGEST {
        for _ in 0..rounds {
            let random_area = random_bytes(&mut random, length);
            let mut record = record_of(&any_good_end(&mut random));
            record.extend(random_bytes(&mut random, LONGEST - LENGTH));
            let cut = record[..length].to_vec();
            record[..2].copy_from_slice(&(length as u16).to_be_bytes());
            for area in [&random_area, &cut, &record[..length].to_vec()] {
                EVERY_CALL.iter().for_each(|call| call_on(&mut calls, area, *call));
                call_on(&mut calls, area, Call::Reset);
            }
        }
    }
    for call in EVERY_CALL.into_iter().chain([Call::Reset]) {
        calls.lay_null(1);
        assert_eq!(calls.call(1, call), (Answer::BadRecord, [0; 4]));
    }
    calls
}

/// These bytes decide nothing but what a call tells of them: two records that differ in them alone give the same
/// replies else, and stay the same elsewhere. Calls that take nothing leave these bytes.
pub fn decide_nothing_else(name: &str, bytes: Range<usize>, telling: Call) {
    let start = Instant::now();
    let mut random = Random::new(seed());
    let mut calls = Calls::default();
    for _ in 0..5_000 {
        let mut record = record_of(&any_good_end(&mut random));
        calls.lay(0, &record);
        record[bytes.clone()].copy_from_slice(&record_of(&any_good_end(&mut random))[bytes.clone()]);
        calls.lay(1, &record);
        for _ in 0..6 {
            let call = any_call(&mut random);
            let before = [0, 1].map(|side| calls.area(side)[bytes.clone()].to_vec());
            let replies = [0, 1].map(|side| calls.call(side, call));
            let after = [0, 1].map(|side| calls.area(side)[bytes.clone()].to_vec());
            assert_eq!(calls.area(0)[..bytes.start], calls.area(1)[..bytes.start], "{}", call);
            assert_eq!(calls.area(0)[bytes.end..], calls.area(1)[bytes.end..], "{}", call);
            assert!(call == telling || replies[0] == replies[1], "{}", call);
            match call {
                Call::Reset => assert!(after.concat().iter().all(|byte| *byte == 0)),
                Call::Take(_) | Call::TakeReason(_) => {}
                _ => assert_eq!(after, before, "{}", call),
            }
        }
        compare_when(false, name, &mut calls);
    }
    compare_when(true, name, &mut calls);
    tell(name, calls.count(), "calls", start);
}
