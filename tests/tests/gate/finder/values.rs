//! Numbers that are no symbols, above 1,023, and 1,023, which is a marked one: at every place of the finder's lists and
//! of the frame check's twelve. One above 1,023 anywhere is answer 5, before 0, 8 and 9 and after 7.

use crate::helpers::frames::{HARMS, LONGEST_LIST};
use crate::helpers::scripts::{answered_list, compare};
use crate::helpers::tell::{seed, tell};
use second::random::Random;
use second::t1::bench::Script;
use second::t1::frame::build;
use second::t1::generate::{data_bytes, noise, NOISES};
use std::time::Instant;

/// About 1,024 and 2,048, each higher bit alone, and those that signed numbers have below 0.
const ABOVE: [u16; 12] = [1024, 1025, 2047, 2048, 0x1000, 0x2000, 0x4000, 0x7FFF, 0x8000, 0x8001, 0xFC00, 0xFFFF];

/// A list without a frame, or with one, and where it then is: first, last, or anywhere.
fn list_of(length: usize, random: &mut Random) -> (Vec<u16>, Option<usize>) {
    let mut list = noise(random.of(&NOISES), length, random);
    if length < 12 || random.one_in(4) {
        return (list, None);
    }
    let anywhere = random.below(length - 11);
    let place = random.of(&[0, length - 12, anywhere]);
    let frame = build(&data_bytes(random));
    list[place..place + 12].copy_from_slice(&frame);
    (list, Some(place))
}

/// The finder on such a list with this number at this place.
fn find_with(script: &mut Script, length: usize, place: usize, number: u16, random: &mut Random) {
    let (mut list, frame) = list_of(length, random);
    list[place] = number;
    let wanted = match frame {
        _ if number > 1023 => "5 0 0".to_string(),
        Some(first) if !(first..first + 12).contains(&place) => format!("0 {} 12", first),
        _ => "8 0 0".to_string(),
    };
    answered_list(script, "find", &list, &wanted);
}

/// All that are above, each in a list of up to 40 and among twelve.
#[test]
fn every_number() {
    let start = Instant::now();
    let mut random = Random::new(seed());
    let mut script = Script::new(seed());
    for number in 1024..=65_535 {
        let length = 1 + random.below(40);
        find_with(&mut script, length, random.below(length), number, &mut random);
        let mut list = build(&data_bytes(&mut random));
        list[random.below(12)] = number;
        answered_list(&mut script, "check", &list, "5");
    }
    compare("finder, every number", &script);
    tell("finder, every number", script.lines, "lines", start);
}

/// In lists of up to 40, and of about the lengths that a quicker way may take at a time.
#[test]
fn every_place_of_a_list() {
    let start = Instant::now();
    let mut random = Random::new(seed());
    let mut script = Script::new(seed());
    for (length, place) in (1..=40).flat_map(|length| (0..length).map(move |place| (length, place))) {
        for number in ABOVE.into_iter().chain([1023]) {
            find_with(&mut script, length, place, number, &mut random);
        }
    }
    for length in [48, 64, 80, 96, 112, 128, 256].into_iter().flat_map(|many| [many - 1, many, many + 1]) {
        for place in 0..length {
            for number in [1023, 1024, 0x8000, random.of(&ABOVE)] {
                find_with(&mut script, length, place, number, &mut random);
            }
        }
    }
    compare("finder, every place of a list", &script);
    tell("finder, every place of a list", script.lines, "lines", start);
}

/// The first, the last and some in the middle, where the length is a multiple of 16 and where some are left over.
#[test]
fn places_of_the_longest_lists() {
    let start = Instant::now();
    let mut random = Random::new(seed());
    let mut script = Script::new(seed());
    for length in [LONGEST_LIST, LONGEST_LIST - 1, LONGEST_LIST - 15] {
        let middle = length / 2;
        for place in [0, 1, 15, 16, middle - 1, middle, middle + 1].into_iter().chain(length - 18..length) {
            find_with(&mut script, length, place, random.of(&ABOVE), &mut random);
        }
        for place in [0, middle, length - 1] {
            find_with(&mut script, length, place, 1023, &mut random);
        }
    }
    for place in [0, LONGEST_LIST / 2, LONGEST_LIST] {
        let (mut list, _) = list_of(LONGEST_LIST + 1, &mut random);
        list[place] = random.of(&ABOVE);
        answered_list(&mut script, "find", &list, "7 0 0");
    }
    compare("finder, places of the longest", &script);
    tell("finder, places of the longest", script.lines, "lines", start);
}

/// Two of them, and nothing but them in lists whose lengths a count of eight bits, or of sixteen with a sign, may lose.
#[test]
fn more_than_one_of_them() {
    let start = Instant::now();
    let mut random = Random::new(seed());
    let mut script = Script::new(seed());
    for (high, low) in (0..40).flat_map(|high| (0..high).map(move |low| (high, low))) {
        let (mut list, _) = list_of(40, &mut random);
        list[low] = random.of(&ABOVE);
        list[high] = if random.bool() { list[low] } else { random.of(&ABOVE) };
        answered_list(&mut script, "find", &list, "5 0 0");
    }
    for length in (1..=40).chain([128, 256, 512, 1024, 2048, 4096, 8192, 16_384, LONGEST_LIST]) {
        let number = random.of(&ABOVE);
        answered_list(&mut script, "find", &vec![number; length], "5 0 0");
        let any: Vec<u16> = (0..length).map(|_| random.of(&ABOVE)).collect();
        answered_list(&mut script, "find", &any, "5 0 0");
    }
    answered_list(&mut script, "find", &vec![0xFFFF; LONGEST_LIST + 1], "7 0 0");
    compare("finder, more than one", &script);
    tell("finder, more than one", script.lines, "lines", start);
}

/// Behind the end of a list they are no part of it. The longer list comes first, so that they may still stand there.
#[test]
fn behind_the_end() {
    let start = Instant::now();
    let mut random = Random::new(seed());
    let mut script = Script::new(seed());
    for length in 0..=80 {
        let behind: Vec<u16> = (0..64).map(|_| random.of(&ABOVE)).collect();
        let (list, frame) = list_of(length, &mut random);
        answered_list(&mut script, "find", &[&list[..], &behind].concat(), "5 0 0");
        let wanted = frame.map_or("8 0 0".to_string(), |place| format!("0 {} 12", place));
        answered_list(&mut script, "find", &list, &wanted);
        let sound = build(&data_bytes(&mut random));
        answered_list(&mut script, "check", &[&sound[..], &behind].concat(), "7");
        answered_list(&mut script, "check", &sound, "0");
    }
    compare("finder, behind the end", &script);
    tell("finder, behind the end", script.lines, "lines", start);
}

/// The frame check's twelve: sound, or harmed at any other place, in front of the number or behind it.
#[test]
fn every_place_of_twelve() {
    let start = Instant::now();
    let mut random = Random::new(seed());
    let mut script = Script::new(seed());
    for (place, number) in (0..12).flat_map(|place| ABOVE.map(|number| (place, number))) {
        let mut list = build(&data_bytes(&mut random));
        answered_list(&mut script, "check", &list, "0");
        list[place] = number;
        answered_list(&mut script, "check", &list, "5");
        list[place] = 1023;
        answered_list(&mut script, "check", &list, &format!("9 marked {}", place));
        for (other, harm) in (0..12).flat_map(|other| HARMS.map(|harm| (other, harm))) {
            let mut list = build(&data_bytes(&mut random));
            list[other] = harm.on(list[other], random.below(9));
            list[place] = number;
            answered_list(&mut script, "check", &list, "5");
            // not twelve
            answered_list(&mut script, "check", &list[..11], "7");
            answered_list(&mut script, "check", &[&list[..], &list[..other + 1]].concat(), "7");
        }
        for other in 0..12 {
            list[place] = number;
            list[other] = if random.bool() { number } else { random.of(&ABOVE) };
            answered_list(&mut script, "check", &list, "5");
        }
    }
    compare("finder, every place of twelve", &script);
    tell("finder, every place of twelve", script.lines, "lines", start);
}
