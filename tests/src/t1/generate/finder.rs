//! Captures for the finder.

use super::classes::{Class, CLASSES};
use super::frames::{data_bytes, flip};
use super::Writer;
use crate::random::Random;
use crate::t1::bench::Script;
use crate::t1::finder::LIMIT;
use crate::t1::frame::{build, is_acceptable, Frame, MARK, SYMBOLS};

pub fn captures(seed: u64, lines: usize) -> Script {
    let mut writer = Writer::new(seed);
    while writer.script.lines < lines {
        let capture = capture(&mut writer.random);
        writer.script.say_list("find", &capture);
    }
    writer.script
}

fn capture(random: &mut Random) -> Vec<u16> {
    let length = match random.below(1000) {
        0 => LIMIT - 20 + random.below(40),
        1..=10 => random.below(4200),
        _ => random.below(80),
    };
    // Half of them begin with noise, so that the first frame comes late, if at all.
    let mut list = Vec::new();
    if random.bool() {
        list = noise(random.of(&NOISES), random.below(length + 1), random);
    }
    while list.len() < length {
        add_stretch(&mut list, random);
    }
    if random.bool() {
        list.truncate(length);
    }
    if !list.is_empty() && random.one_in(12) {
        let place = random.below(list.len());
        list[place] = random.of(&[1023, 1024, 2047, 0x8000, 65535]);
    }
    list
}

/// A whole frame, a part of one, a damaged one, one that begins before the last has ended, or noise.
fn add_stretch(list: &mut Vec<u16>, random: &mut Random) {
    let mut frame = build(&data_bytes(random));
    match random.below(10) {
        0 => list.extend(frame),
        1 | 2 => list.extend(&frame[..random.below(SYMBOLS)]),
        3 => list.extend(&frame[random.below(SYMBOLS)..]),
        4 | 5 => {
            flip(&mut frame, 1 + random.below(4), random);
            list.extend(frame);
        }
        6 => {
            frame[random.below(SYMBOLS)] |= MARK;
            list.extend(frame);
        }
        7 => {
            list.truncate(list.len().saturating_sub(random.below(SYMBOLS)));
            list.extend(frame);
        }
        _ => list.extend((0..random.below(20)).map(|_| random.word(600))),
    }
}

/// Odd symbols, broken by others here and there, with frames laid over them and over each other.
pub fn runs(seed: u64, lines: usize) -> Script {
    let mut writer = Writer::new(seed);
    while writer.script.lines < lines {
        let list = run(&mut writer.random);
        writer.script.say_list("find", &list);
    }
    writer.script
}

fn run(random: &mut Random) -> Vec<u16> {
    let (length, rare) = (random.below(80), 1 + random.below(20));
    let mut list = noise(Noise::Odd, length, random);
    for symbol in &mut list {
        if random.one_in(rare) {
            *symbol = random.of(&CLASSES).symbol(random);
        }
    }
    for _ in 0..random.below(4) {
        let frame = if random.bool() { build(&data_bytes(random)) } else { wrong_frame(random) };
        let place = random.below(length + 1);
        list.iter_mut().skip(place).zip(frame).for_each(|(symbol, laid)| *symbol = laid);
    }
    list
}

/// Symbols among which no frame stands, however many.
#[derive(Clone, Copy, Debug)]
pub enum Noise {
    Odd,
    Even,
    Marked,
    /// Frame after frame, each with two wrong bits in one symbol: the CRC alone shows it.
    WrongFrames,
}

pub const NOISES: [Noise; 4] = [Noise::Odd, Noise::Even, Noise::Marked, Noise::WrongFrames];

pub fn noise(kind: Noise, length: usize, random: &mut Random) -> Vec<u16> {
    let mut list = Vec::new();
    while list.len() < length {
        match kind {
            Noise::Odd => list.push(Class::Odd.symbol(random)),
            Noise::Even => list.push(Class::Even.symbol(random)),
            Noise::Marked => list.push(Class::Marked.symbol(random)),
            Noise::WrongFrames => list.extend(wrong_frame(random)),
        }
    }
    list.truncate(length);
    list
}

fn wrong_frame(random: &mut Random) -> Frame {
    let mut frame = build(&data_bytes(random));
    let place = random.below(SYMBOLS);
    flip(&mut frame[place..=place], 2, random);
    frame
}

/// The list but for frames of chance, as one in 65,536 stretches of right parities is one: two wrong bits in the last
/// symbol, which the CRC shows.
pub fn without_frames(mut list: Vec<u16>) -> Vec<u16> {
    for end in SYMBOLS..=list.len() {
        let stretch = &mut list[end - SYMBOLS..end];
        if Frame::try_from(&*stretch).map_or(false, |frame| is_acceptable(&frame)) {
            stretch[SYMBOLS - 1] ^= 3;
        }
    }
    list
}
