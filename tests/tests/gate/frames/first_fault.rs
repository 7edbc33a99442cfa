//! The frame check's first fault: document 02, #105. What must be printed follows from what was done to a sound frame,
//! by the request's sentence: the lowest symbol that is marked or has wrong parity, and which of the two, marked
//! winning at the same symbol; if there is none, the CRC.

use crate::helpers::frames::{sound_frames, Harm, HARMS};
use crate::helpers::scripts::{answered_list, compare};
use crate::helpers::tell::{seed, tell};
use second::random::Random;
use second::t1::bench::Script;
use second::t1::generate::frames;
use std::time::Instant;

const PLACES: usize = 12;

/// What the check prints where this is the first fault.
fn printed(harm: Harm, place: usize) -> String {
    let word = if harm == Harm::Parity { "parity" } else { "marked" };
    format!("9 {} {}", word, place)
}

fn check(script: &mut Script, list: &[u16], wanted: &str) {
    answered_list(script, "check", list, wanted);
}

/// One symbol of a sound frame as each of the 1,024. An odd number of changed bits makes its parity wrong; an even
/// number is a burst of at most nine bits, which the CRC sees.
#[test]
fn one_symbol() {
    let start = Instant::now();
    let mut script = Script::new(seed());
    for frame in sound_frames(4, &mut Random::new(seed())) {
        for place in 0..PLACES {
            for symbol in 0..1024 {
                let changed = (symbol ^ frame[place]).count_ones();
                let wanted = match symbol {
                    512.. => format!("9 marked {}", place),
                    _ if changed % 2 == 1 => format!("9 parity {}", place),
                    _ if changed > 0 => "9 crc".to_string(),
                    _ => "0".to_string(),
                };
                let mut list = frame;
                list[place] = symbol;
                check(&mut script, &list, &wanted);
            }
        }
    }
    compare("first fault, one symbol", &script);
    tell("first fault, one symbol", script.lines, "checks", start);
}

/// Every two places, harmed in each way: the lower one is told.
#[test]
fn two_symbols() {
    let start = Instant::now();
    let mut random = Random::new(seed());
    let mut script = Script::new(seed());
    for frame in sound_frames(20, &mut random) {
        for (high, low) in (0..PLACES).flat_map(|high| (0..high).map(move |low| (high, low))) {
            for (at_low, at_high) in HARMS.iter().flat_map(|one| HARMS.map(|other| (one, other))) {
                let mut list = frame;
                list[low] = at_low.on(frame[low], random.below(9));
                list[high] = at_high.on(frame[high], random.below(9));
                check(&mut script, &list, &printed(*at_low, low));
            }
        }
    }
    assert_eq!(script.lines, 20 * 66 * 9);
    compare("first fault, two symbols", &script);
    tell("first fault, two symbols", script.lines, "checks", start);
}

/// Every set of places, each harmed in some way: the lowest is told.
#[test]
fn any_symbols() {
    let start = Instant::now();
    let mut random = Random::new(seed());
    let mut script = Script::new(seed());
    for frame in sound_frames(4, &mut random) {
        for set in 1..1usize << PLACES {
            let mut list = frame;
            let mut wanted = String::new();
            for place in (0..PLACES).rev().filter(|place| set >> place & 1 == 1) {
                let harm = random.of(&HARMS);
                list[place] = harm.on(frame[place], random.below(9));
                wanted = printed(harm, place);
            }
            check(&mut script, &list, &wanted);
        }
    }
    assert_eq!(script.lines, 4 * 4095);
    compare("first fault, any symbols", &script);
    tell("first fault, any symbols", script.lines, "checks", start);
}

/// Every two bits of each symbol wrong: its parity is right, and the CRC is told. With a symbol harmed elsewhere,
/// before or behind, that one is.
#[test]
fn the_crc_comes_last() {
    let start = Instant::now();
    let mut random = Random::new(seed());
    let mut script = Script::new(seed());
    for frame in sound_frames(4, &mut random) {
        for (place, bits) in (0..PLACES).flat_map(|place| pairs_of_bits().map(move |bits| (place, bits))) {
            let mut list = frame;
            list[place] ^= bits;
            check(&mut script, &list, "9 crc");
            for (other, harm) in (0..PLACES).filter(|other| *other != place).zip(HARMS.iter().cycle()) {
                let mut list = list;
                list[other] = harm.on(frame[other], random.below(9));
                check(&mut script, &list, &printed(*harm, other));
            }
        }
    }
    assert_eq!(script.lines, 4 * 12 * 36 * 12);
    compare("first fault, the CRC", &script);
    tell("first fault, the CRC", script.lines, "checks", start);
}

fn pairs_of_bits() -> impl Iterator<Item = u16> {
    (0..9).flat_map(|high| (0..high).map(move |low| 1 << high | 1 << low))
}

/// A refused list has no fault, whatever stands in it.
#[test]
fn refused_lists_have_none() {
    let mut random = Random::new(seed());
    let mut script = Script::new(seed());
    for frame in sound_frames(4, &mut random) {
        for place in 0..PLACES {
            for harm in HARMS {
                let mut list = [&frame[..], &frame[..2]].concat();
                list[place] = harm.on(frame[place], random.below(9));
                check(&mut script, &list[..11], "7");
                check(&mut script, &list[..13], "7");
                check(&mut script, &list, "7");
                for above in 0..PLACES {
                    let mut list = list[..12].to_vec();
                    list[above] = random.of(&[1024, 1536, 0x8000, 65535]);
                    check(&mut script, &list, "5");
                }
            }
        }
    }
    compare("first fault, refused lists", &script);
}

/// The random frames that `build_and_check` compares meet every fault at every place.
#[test]
fn random_frames_have_them_all() {
    let script = frames(seed(), 100_000);
    let places = |word: &'static str| (0..PLACES).map(move |place| format!("9 {} {}", word, place));
    for wanted in places("marked").chain(places("parity")).chain(["9 crc".to_string(), "0".to_string()]) {
        let count = script.expected.split(|byte| *byte == b'\n').filter(|line| *line == wanted.as_bytes()).count();
        assert!(count >= 500, "{:?} is printed {} times", wanted, count);
    }
}
