//! Records of versions 1 and 2 made ones of version 3, from C: document 02, #106 and #107. What must come of them is
//! worked out on the bytes, by the tables of `layout`.

use super::areas::{random_bytes, LONGEST};
use super::layout::{is_old, spelled_out, spelled_out_old, upgraded, Old, LENGTH, OLD};
use super::tell::seed;
use second::answer::Answer;
use second::random::Random;
use second::t1::calls::Calls;
use second::t1::end::End;
use second::t1::generate::{any_good_end, damaged, wander};

/// Area 0, with these bytes, is to be filled from the old ones. The driver also prints the old ones, as they were.
pub fn upgrade_from(calls: &mut Calls, old: &[u8], area: &[u8]) {
    calls.lay(0, area);
    calls.lay(1, old);
    let good = is_old(old) && area.len() == LENGTH;
    let (answer, after) = if good { (Answer::Done, upgraded(old)) } else { (Answer::BadRecord, area.to_vec()) };
    assert_eq!((calls.upgrade(0), calls.area(0)), (answer, &after[..]), "from {:02X?}", old);
}

/// The same into an area of the right length, of whatever bytes.
pub fn upgrade(calls: &mut Calls, old: &[u8], random: &mut Random) {
    upgrade_from(calls, old, &random_bytes(random, LENGTH));
}

/// A good record of a version, of this end, that says present or not.
pub fn old_record(end: &End, old: Old, random: &mut Random) -> Vec<u8> {
    spelled_out_old(end, random.bool(), old)
}

/// Mostly a good record of version 1 or 2, else a damaged one, one cut or with more behind it, one of version 3, whole
/// or cut, or random bytes.
pub fn any_old(end: &End, random: &mut Random) -> Vec<u8> {
    let any = any_good_end(random);
    let version = random.of(&OLD);
    let good = old_record(if random.bool() { end } else { &any }, version, random);
    match random.below(10) {
        0..=4 => good,
        5 | 6 => damaged(&good, random),
        7 => [good, random_bytes(random, 10)].concat()[..random.of(&[0, 1, 91, 92, 93, 99, 100, 101])].to_vec(),
        8 => spelled_out(&any)[..random.of(&[92, 100, LENGTH])].to_vec(),
        _ => random_bytes(random, version.length),
    }
}

/// An end after many calls, or any other good one.
pub fn some_end(turn: usize, random: &mut Random) -> End {
    if turn % 2 == 1 {
        return any_good_end(random);
    }
    let mut end = End::reset();
    (0..200).for_each(|_| wander(&mut end, random));
    end
}

pub fn answers(calls: &Calls) -> [usize; 2] {
    [0, 11].map(|answer| calls.counts.get(&("upgrade", answer)).copied().unwrap_or(0))
}

/// A record with more behind it, and the same with its head telling this length.
fn longer(record: Vec<u8>, length: usize, random: &mut Random) -> [Vec<u8>; 2] {
    let long = [record, random_bytes(random, LONGEST)].concat();
    let mut telling = long.clone();
    telling[..2].copy_from_slice(&(length as u16).to_be_bytes());
    [long, telling]
}

/// Every length from 0 to 300 of either area, with those of the other: good records of all versions, cut or with more
/// behind them, their heads telling the length too, and random bytes. No bytes are at NULL too.
pub fn every_pair_of_lengths(those: &[usize]) -> Calls {
    let mut random = Random::new(seed());
    let mut calls = Calls::default();
    let pairs = (0..=LONGEST).flat_map(|any| those.iter().flat_map(move |one| [(any, *one), (*one, any)]));
    for (old_length, length) in pairs {
        let end = any_good_end(&mut random);
        let mut all = longer(spelled_out(&end), old_length, &mut random).to_vec();
        for old in OLD {
            all.extend(longer(old_record(&end, old, &mut random), old_length, &mut random));
        }
        all.push(random_bytes(&mut random, LONGEST));
        for old in all {
            let area = random_bytes(&mut random, length);
            upgrade_from(&mut calls, &old[..old_length], &area);
        }
    }
    no_bytes(&mut calls, &mut random);
    calls
}

fn no_bytes(calls: &mut Calls, random: &mut Random) {
    calls.lay_null(0);
    calls.lay_null(1);
    assert_eq!(calls.upgrade(0), Answer::BadRecord);
    for old in OLD {
        calls.lay(1, &old_record(&End::reset(), old, random));
        assert_eq!(calls.upgrade(0), Answer::BadRecord);
    }
    calls.lay(0, &random_bytes(random, LENGTH));
    calls.lay_null(1);
    assert_eq!(calls.upgrade(0), Answer::BadRecord);
}
