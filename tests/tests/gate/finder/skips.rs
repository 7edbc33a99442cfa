//! The finder behind symbols that begin no frame: damaged frames, early even symbols, marks, at every place and
//! distance. A frame can't begin less than twelve symbols before another, whose even symbol would be one of its odd
//! ones. So a frame laid behind symbols that have none is the first, and its place is how many they are.

use crate::helpers::frames::{sound_frames, HARMS};
use crate::helpers::scripts::{answered_list, compare, compare_random};
use crate::helpers::tell::{seed, tell};
use second::random::Random;
use second::t1::bench::Script;
use second::t1::frame::{build, Frame};
use second::t1::generate::{data_bytes, noise, runs, symbols_of, without_frames, words, Class, CLASSES, NOISES};
use std::time::Instant;

const FAULTS: [Class; 3] = [Class::Even, Class::MarkedEven, Class::MarkedOdd];

fn find(script: &mut Script, list: &[u16], wanted: &str) {
    answered_list(script, "find", list, wanted);
}

/// Lays a frame behind these symbols, and has it found. Gives the whole list.
fn find_behind(script: &mut Script, before: Vec<u16>, random: &mut Random) -> Vec<u16> {
    let place = before.len();
    let mut list = without_frames(before);
    list.extend(build(&data_bytes(random)));
    find(script, &list, &format!("0 {} 12", place));
    list
}

/// Frames with one symbol harmed, with two, and with two wrong bits in one symbol, which the CRC alone shows.
fn damaged_frames(random: &mut Random) -> Vec<Frame> {
    let mut all = Vec::new();
    for place in 0..12 {
        let frame = build(&data_bytes(random));
        for harm in HARMS {
            let mut one = frame;
            one[place] = harm.on(frame[place], random.below(9));
            all.push(one);
            for (lower, other) in (0..place).flat_map(|lower| HARMS.map(|other| (lower, other))) {
                let mut two = one;
                two[lower] = other.on(frame[lower], random.below(9));
                all.push(two);
            }
        }
        let mut wrong = frame;
        wrong[place] ^= random.of(&[0x003, 0x180, 0x101]);
        all.push(wrong);
    }
    all
}

/// So many symbols of each kind of noise, and any, marked ones among them.
fn fillings(length: usize, random: &mut Random) -> Vec<Vec<u16>> {
    let mut all: Vec<Vec<u16>> = NOISES.iter().map(|kind| noise(*kind, length, random)).collect();
    all.push((0..length).map(|_| random.word(1024)).collect());
    all
}

/// A sound frame that begins up to 24 symbols behind the start of a damaged one: over its end, or behind it with
/// anything between.
#[test]
fn behind_a_damaged_frame() {
    let start = Instant::now();
    let mut random = Random::new(seed());
    let mut script = Script::new(seed());
    let damaged = damaged_frames(&mut random);
    assert_eq!(damaged.len(), 12 * 3 + 66 * 9 + 12);
    for frame in damaged {
        find(&mut script, &frame, "8 0 0");
        for distance in 0..=12 {
            find_behind(&mut script, frame[..distance].to_vec(), &mut random);
        }
        for length in 1..=12 {
            for filling in fillings(length, &mut random) {
                find_behind(&mut script, [&frame[..], &filling].concat(), &mut random);
            }
        }
    }
    compare("finder, behind a damaged frame", &script);
    tell("finder, behind a damaged frame", script.lines, "lines", start);
}

/// A damaged frame behind up to 24 symbols, a sound one behind it. Its data are right, and so is the CRC.
#[test]
fn damaged_behind_others() {
    let start = Instant::now();
    let mut random = Random::new(seed());
    let mut script = Script::new(seed());
    for frame in sound_frames(3, &mut random) {
        for (place, harm) in (0..12).flat_map(|place| HARMS.map(|harm| (place, harm))) {
            let mut damaged = frame;
            damaged[place] = harm.on(frame[place], 8);
            find(&mut script, &damaged, "8 0 0");
            for length in 0..=24 {
                for filling in fillings(length, &mut random) {
                    find_behind(&mut script, [&filling[..], &damaged].concat(), &mut random);
                }
            }
        }
    }
    compare("finder, damaged behind others", &script);
    tell("finder, damaged behind others", script.lines, "lines", start);
}

/// One symbol of a frame as each of the 1,024, another frame behind it. The first is found only if nothing changed: an
/// odd number of changed bits makes the parity wrong, an even number is a burst of at most nine, which the CRC shows.
#[test]
fn every_symbol_at_every_place() {
    let start = Instant::now();
    let mut random = Random::new(seed());
    let mut script = Script::new(seed());
    for frame in sound_frames(2, &mut random) {
        for (place, symbol) in (0..12).flat_map(|place| (0..1024).map(move |symbol| (place, symbol))) {
            let mut list = [frame, build(&data_bytes(&mut random))].concat();
            list[place] = symbol;
            find(&mut script, &list, if symbol == frame[place] { "0 0 12" } else { "0 12 12" });
        }
    }
    compare("finder, every symbol", &script);
    tell("finder, every symbol", script.lines, "lines", start);
}

/// Every set of even symbols among up to twelve before a frame, the others odd, or marked.
#[test]
fn early_even_symbols() {
    let start = Instant::now();
    let mut random = Random::new(seed());
    let mut script = Script::new(seed());
    for other in [Class::Odd, Class::MarkedEven, Class::MarkedOdd] {
        for length in 1..=12 {
            for word in words(&[Class::Even, other], length) {
                let before = symbols_of(&word, &mut random);
                find_behind(&mut script, before, &mut random);
            }
        }
    }
    compare("finder, early even symbols", &script);
    tell("finder, early even symbols", script.lines, "lines", start);
}

/// Eleven even, odd or marked symbols in every order, behind a first one of any class, and up to eleven odd ones before
/// the frame.
#[test]
fn every_eleven() {
    let start = Instant::now();
    let mut random = Random::new(seed());
    let mut script = Script::new(seed());
    for word in words(&[Class::Even, Class::Odd, Class::Marked], 11) {
        let (first, odd) = (random.of(&CLASSES), vec![Class::Odd; random.below(12)]);
        let before = symbols_of(&[&[first], &word[..], &odd].concat(), &mut random);
        find_behind(&mut script, before, &mut random);
    }
    compare("finder, every eleven", &script);
    tell("finder, every eleven", script.lines, "lines", start);
}

/// Six symbols of every class behind a frame that the CRC alone shows to be wrong, then odd ones, then a frame.
#[test]
fn between_two_frames() {
    let start = Instant::now();
    let mut random = Random::new(seed());
    let mut script = Script::new(seed());
    for odd in [0, 1, 5, 6, 7, 11] {
        for word in words(&CLASSES, 6) {
            let mut wrong = build(&data_bytes(&mut random));
            wrong[11] ^= 3;
            let word = [&word[..], &vec![Class::Odd; odd]].concat();
            let before = [&wrong[..], &symbols_of(&word, &mut random)].concat();
            find_behind(&mut script, before, &mut random);
        }
    }
    compare("finder, between two frames", &script);
    tell("finder, between two frames", script.lines, "lines", start);
}

/// Three symbols of every class directly before a frame, and three directly behind it.
#[test]
fn around_a_frame() {
    let start = Instant::now();
    let mut random = Random::new(seed());
    let mut script = Script::new(seed());
    for around in words(&CLASSES, 6) {
        let (before, behind) = around.split_at(3);
        let frame = build(&data_bytes(&mut random));
        let list = [&symbols_of(before, &mut random)[..], &frame, &symbols_of(behind, &mut random)].concat();
        find(&mut script, &list, "0 3 12");
    }
    compare("finder, around a frame", &script);
    tell("finder, around a frame", script.lines, "lines", start);
}

/// What stands before a frame: the fillings, and odd symbols with one other at each place.
fn befores(length: usize, random: &mut Random) -> Vec<Vec<u16>> {
    let mut all = fillings(length, random);
    for (place, class) in (0..length).flat_map(|place| FAULTS.map(|class| (place, class))) {
        let mut word = vec![Class::Odd; length];
        word[place] = class;
        all.push(symbols_of(&word, random));
    }
    all
}

/// Lists that end behind a frame, with it, inside it or before it. The shorter list comes after the longer, so that
/// what it lacks may still stand behind its end.
#[test]
fn the_list_ends_there() {
    let start = Instant::now();
    let mut random = Random::new(seed());
    let mut script = Script::new(seed());
    for place in 0..=28 {
        for before in befores(place, &mut random) {
            let list = find_behind(&mut script, before, &mut random);
            let behind = symbols_of(&[random.of(&CLASSES); 13], &mut random);
            for more in [13, 12, 11, 2, 1, 0] {
                find(&mut script, &[&list[..], &behind[..more]].concat(), &format!("0 {} 12", place));
            }
            for length in (place..place + 12).rev() {
                find(&mut script, &list[..length], "8 0 0");
            }
        }
    }
    compare("finder, the list ends there", &script);
    tell("finder, the list ends there", script.lines, "lines", start);
}

/// Runs of odd symbols, broken by others, with frames among them.
#[test]
fn random_runs() {
    compare_random("finder, runs", runs, 3, 20_000);
}
