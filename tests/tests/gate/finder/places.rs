//! The finder: captures of every kind, and the places and lengths at the edges.

use crate::helpers::frames::LONGEST_LIST;
use crate::helpers::scripts::{answered_list, compare, compare_random};
use crate::helpers::tell::{seed, tell};
use second::random::Random;
use second::t1::bench::Script;
use second::t1::frame::build;
use second::t1::generate::{captures, data_bytes, noise, without_frames, NOISES};
use std::time::Instant;

#[test]
fn random_captures() {
    compare_random("finder", captures, 10, 20_000);
}

/// A capture without a frame, but for one at `place` where it fits.
fn with_frame(length: usize, place: usize, random: &mut Random) -> Vec<u16> {
    let mut list = noise(random.of(&NOISES), length, random);
    let frame = build(&data_bytes(random));
    list.iter_mut().skip(place).zip(frame).for_each(|(symbol, sound)| *symbol = sound);
    list
}

#[test]
fn every_place() {
    let start = Instant::now();
    let mut random = Random::new(seed());
    let mut script = Script::new(seed());
    for length in [12, 13, 24, 100, 300] {
        for place in 0..=length - 12 {
            let list = with_frame(length, place, &mut random);
            answered_list(&mut script, "find", &list, &format!("0 {} 12", place));
        }
    }
    compare("finder, every place", &script);
    tell("finder, every place", script.lines, "lines", start);
}

#[test]
fn lengths_and_values() {
    let start = Instant::now();
    let mut random = Random::new(seed());
    let mut script = Script::new(seed());
    for length in
        [0, 11, 12, 13, 4096, 4097, LONGEST_LIST - 2, LONGEST_LIST - 1, LONGEST_LIST, LONGEST_LIST + 1, 33_000]
    {
        say_length(&mut script, length, &mut random);
        for value in [1023, 1024, 65535] {
            for place in [0, length / 2, length.saturating_sub(1)] {
                let mut list = with_frame(length, 0, &mut random);
                list.iter_mut().skip(place).take(1).for_each(|symbol| *symbol = value);
                script.say_list("find", &list);
            }
        }
    }
    compare("finder, lengths", &script);
    tell("finder, lengths", script.lines, "lines", start);
}

/// No frame, one at either end, and one cut short by the end of the list.
fn say_length(script: &mut Script, length: usize, random: &mut Random) {
    let last = length.saturating_sub(12);
    for (place, fits) in [(length, false), (0, length >= 12), (last, length >= 12), (last + 1, false)] {
        let list = with_frame(length, place, random);
        let answer = match (length > LONGEST_LIST, fits) {
            (true, _) => "7 0 0".to_string(),
            (false, true) => format!("0 {} 12", place),
            (false, false) => "8 0 0".to_string(),
        };
        answered_list(script, "find", &list, &answer);
    }
}

/// Whatever comes before it: symbols of one parity, marked ones, or frames that the CRC alone shows to be wrong.
#[test]
fn the_only_frame_at_the_very_end() {
    let start = Instant::now();
    let mut random = Random::new(seed());
    let mut script = Script::new(seed());
    for (length, answer) in
        [(LONGEST_LIST - 1, "0 32755 12"), (LONGEST_LIST, "0 32756 12"), (LONGEST_LIST + 1, "7 0 0")]
    {
        for kind in NOISES {
            let mut list = noise(kind, length - 12, &mut random);
            list.extend(build(&data_bytes(&mut random)));
            answered_list(&mut script, "find", &list, answer);
            // One wrong bit in its last symbol, and there is none.
            list[length - 1] ^= 1;
            answered_list(&mut script, "find", &list, if length > LONGEST_LIST { "7 0 0" } else { "8 0 0" });
        }
    }
    compare("finder, the very end", &script);
    tell("finder, the very end", script.lines, "lines", start);
}

/// As many random symbols as are searched, none of them marked or half of them, with one frame: first, last, cut short
/// by the end of the list, or anywhere.
#[test]
fn the_only_frame_among_random_symbols() {
    let start = Instant::now();
    let mut random = Random::new(seed());
    let mut script = Script::new(seed());
    for below in [512, 1024] {
        let last = LONGEST_LIST - 12;
        let anywhere = [(); 8].map(|_| random.below(last));
        for place in [0, last, last + 1].into_iter().chain(anywhere) {
            let mut list = without_frames((0..place).map(|_| random.word(below)).collect());
            list.extend(build(&data_bytes(&mut random)));
            list.resize_with(LONGEST_LIST, || random.word(below));
            let wanted = if place > last { "8 0 0".to_string() } else { format!("0 {} 12", place) };
            answered_list(&mut script, "find", &list, &wanted);
        }
    }
    compare("finder, random symbols", &script);
    tell("finder, random symbols", script.lines, "lines", start);
}

/// A value above 1,023 refuses the whole list, also after a good frame.
#[test]
fn too_large_after_a_good_frame() {
    let mut script = Script::new(0);
    let frame = build(&[0; 10]);
    for (value, answer) in [(1023, "0 0 12"), (1024, "5 0 0"), (65535, "5 0 0")] {
        let mut list = frame.to_vec();
        list.push(value);
        answered_list(&mut script, "find", &list, answer);
    }
    compare("finder, too large", &script);
}

/// A frame that begins before another has ended is found, whatever the first lacks.
#[test]
fn overlapping_candidates() {
    let start = Instant::now();
    let mut random = Random::new(seed());
    let mut script = Script::new(seed());
    for cut in 1..12 {
        for _ in 0..50 {
            let (first, then) = (build(&data_bytes(&mut random)), build(&data_bytes(&mut random)));
            answered_list(&mut script, "find", &[&first[..cut], &then].concat(), &format!("0 {} 12", cut));
            answered_list(&mut script, "find", &[&first, &then[cut..]].concat(), "0 0 12");
        }
    }
    compare("finder, overlapping", &script);
    tell("finder, overlapping", script.lines, "lines", start);
}
