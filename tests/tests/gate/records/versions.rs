//! The three versions of a record beside one another, and ends that go on from an old one: document 02, #106 and #107.

use crate::helpers::areas::{call_on, compare_when, random_bytes, EVERY_CALL};
use crate::helpers::frames::any_frame;
use crate::helpers::heard::{Heard, Tally};
use crate::helpers::layout::{spelled_out, Old, LENGTH, OLD};
use crate::helpers::tell::{seed, tell};
use crate::helpers::upgrades::{answers, old_record, some_end, upgrade};
use second::random::Random;
use second::t1::calls::Calls;
use second::t1::end::{End, Silence};
use second::t1::generate::any_call;
use second::t1::record::Call;
use std::time::Instant;

/// Records of all versions, cut or with more behind them to the length of each, with the head of each in whole or in
/// part. Of versions 1 and 2 two are good each: as it is, and, since version 2 has but the counts more, with the length
/// and head of the other.
#[test]
fn heads_and_lengths_of_all_versions() {
    let start = Instant::now();
    let mut random = Random::new(seed());
    let mut calls = Calls::default();
    let sizes = [92, 100, 101];
    let heads: Vec<[u8; 3]> = sizes
        .iter()
        .flat_map(|size| [1, 2, 3].map(|version| [0, *size, version]))
        .chain([[92, 0, 1], [100, 0, 2]])
        .collect();
    let cuts: Vec<_> = heads.iter().flat_map(|head| sizes.map(|size| (head, usize::from(size)))).collect();
    for turn in 0..100 {
        let end = some_end(turn, &mut random);
        for old in OLD {
            let long = [old_record(&end, old, &mut random), random_bytes(&mut random, 9)].concat();
            for (head, length) in &cuts {
                upgrade(&mut calls, &[&head[..], &long[3..*length]].concat(), &mut random);
            }
        }
    }
    assert_eq!(answers(&calls), [100 * 2 * 2, 100 * 2 * (33 - 2)]);
    version_3_is_no_old_one(&mut calls, &mut random);
    compare_when(true, "versions, heads and lengths", &mut calls);
    tell("versions, heads and lengths", calls.count(), "calls", start);
}

/// With its own head, whole or cut. With the head and length of another it may be one, as the bytes then say.
fn version_3_is_no_old_one(calls: &mut Calls, random: &mut Random) {
    let [done, refused] = answers(calls);
    for turn in 0..100 {
        let record = spelled_out(&some_end(turn, random));
        [92, 100, 101].iter().for_each(|length| upgrade(calls, &record[..*length], random));
    }
    assert_eq!(answers(calls), [done, refused + 300]);
    for turn in 0..1_000 {
        let record = spelled_out(&some_end(turn, random));
        for Old { version, length } in OLD {
            upgrade(calls, &[&[0, length as u8, version], &record[3..length]].concat(), random);
        }
    }
    assert!(
        answers(calls).iter().zip([done, refused + 300]).all(|(now, then)| *now > then + 100),
        "{:?}",
        answers(calls)
    );
}

/// A record of version 1 or 2, in an area of its length or of version 3's, is answered 11 by every other call. Reset,
/// which looks at the length alone, fills the longer one.
#[test]
fn old_records_are_refused_elsewhere() {
    let start = Instant::now();
    let mut random = Random::new(seed());
    let mut calls = Calls::default();
    for (turn, old) in (0..200).flat_map(|turn| OLD.map(|old| (turn, old))) {
        let bytes = old_record(&some_end(turn, &mut random), old, &mut random);
        let longer = [&bytes[..], &[0; LENGTH][old.length..]].concat();
        let with_head = |length: usize, version: u8| [&[0, length as u8, version], &longer[3..]].concat();
        for area in [bytes, longer.clone(), with_head(LENGTH, old.version), with_head(old.length, 3)] {
            EVERY_CALL.iter().for_each(|call| call_on(&mut calls, &area, *call));
            if area.len() < LENGTH {
                call_on(&mut calls, &area, Call::Reset);
            }
        }
        compare_when(false, "versions, old ones elsewhere", &mut calls);
    }
    compare_when(true, "versions, old ones elsewhere", &mut calls);
    assert!(calls.counts.keys().all(|(_, answer)| *answer == 11), "{:?}", calls.counts);
    tell("versions, old ones elsewhere", calls.count(), "calls", start);
}

/// From an old record on, calls do what they do on its end: what they tell is counted from version 2's counts or from
/// 0, and the partner is absent until a frame is accepted, whatever `present` said.
#[test]
fn upgraded_ends_go_on() {
    let start = Instant::now();
    let mut random = Random::new(seed());
    let mut calls = Calls::default();
    let mut tally = Tally::default();
    let mut asked = [0; 2];
    for turn in 0..400 {
        let old = OLD[turn / 2 % 2];
        let mut end = some_end(turn, &mut random);
        upgrade(&mut calls, &old_record(&end, old, &mut random), &mut random);
        if old.version == 1 {
            end = End { accepted_count: 0, crc_count: 0, marked_count: 0, early_count: 0, ..end };
        }
        end.silence = Silence::of_left(0);
        tally.start_from([end.accepted_count, end.crc_count, end.marked_count, end.early_count]);
        let mut heard = Heard::default();
        for _ in 0..12 {
            let symbols = any_frame(&mut random).into_iter().map(Call::TakeReason);
            let others = (0..6).map(|_| any_call(&mut random)).filter_map(going_on);
            for call in symbols.chain(others).chain([Call::Counts, Call::Present]).collect::<Vec<_>>() {
                let reply = call.on_end(&mut end);
                calls.expect(0, call, reply, spelled_out(&end));
                tally.hear(call, reply);
                heard.hear(call, reply);
            }
            asked[usize::from(heard.is_present())] += 1;
        }
        compare_when(false, "versions, runs", &mut calls);
    }
    compare_when(true, "versions, runs", &mut calls);
    assert!(tally.ever.iter().all(|times| *times > 200), "{:?}", tally.ever);
    assert!(asked.iter().all(|times| *times > 200), "{:?}", asked);
    tell("versions, runs", calls.count(), "calls", start);
}

/// A reset would end the run; of a symbol taken the reason is wanted.
fn going_on(call: Call) -> Option<Call> {
    match call {
        Call::Reset => None,
        Call::Take(symbol) => Some(Call::TakeReason(symbol)),
        call => Some(call),
    }
}
