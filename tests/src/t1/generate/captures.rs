//! Captures for the reader of document 02, #111: symbols as they are recorded, big-endian.

use super::classes::Class;
use super::finder::{noise, NOISES};
use super::frames::{data_bytes, flip};
use crate::random::Random;
use crate::t1::end::PRESENCE;
use crate::t1::frame::{build, LARGEST_SYMBOL, MARK, SYMBOLS};

/// What a recording is made of, piece after piece.
type Piece = fn(&mut Random) -> Vec<u16>;

/// A recording has pieces of one of these kinds, or of all.
pub const PIECES: [(&str, Piece); 9] = [
    ("frames", |random| (0..1 + random.below(20)).flat_map(|_| frame(random)).collect()),
    ("frames between odd symbols", between_odd),
    ("damaged frames", damaged_frame),
    ("parts of frames", part_of_frame),
    ("marked runs", |random| noise_of(Class::Marked, random)),
    ("even runs", |random| noise_of(Class::Even, random)),
    ("constant fields", constant_field),
    ("lapses", lapse),
    ("random symbols", random_symbols),
];

/// A recording, and the kind of its pieces.
pub fn recording(random: &mut Random) -> (&'static str, Vec<u8>) {
    let kind = random.below(PIECES.len() + 3);
    let (name, pieces) = match PIECES.get(kind) {
        Some((name, _)) => (*name, &PIECES[kind..=kind]),
        None => ("all kinds", &PIECES[..]),
    };
    let limit = random.of(&[1, 5, 40, 400, 3_000, 3_000]);
    let length = random.below(limit);
    (name, ended(symbols(pieces, length, random), random))
}

/// A recording of all kinds, of so many symbols.
pub fn long_recording(length: usize, random: &mut Random) -> Vec<u8> {
    let mut list = symbols(&PIECES, length, random);
    list.truncate(length);
    bytes(list)
}

fn symbols(pieces: &[(&str, Piece)], length: usize, random: &mut Random) -> Vec<u16> {
    let mut list = Vec::new();
    while list.len() < length {
        let (_, piece) = random.of(pieces);
        list.extend(piece(random));
    }
    list
}

pub fn bytes(symbols: Vec<u16>) -> Vec<u8> {
    symbols.into_iter().flat_map(u16::to_be_bytes).collect()
}

/// The bytes of the symbols, with what may end a report early: a value above 1,023, an odd last byte, or a cut.
fn ended(mut symbols: Vec<u16>, random: &mut Random) -> Vec<u8> {
    if !symbols.is_empty() && random.one_in(4) {
        let place = random.below(symbols.len());
        symbols[place] = above(random);
    }
    let mut bytes = bytes(symbols);
    match random.below(6) {
        0 => bytes.push(random.word(4) as u8),
        1 => bytes.push(4 + random.word(252) as u8),
        2 => bytes.truncate(random.below(bytes.len() + 1)),
        _ => {}
    }
    bytes
}

/// Often one that a careless look takes for a symbol.
fn above(random: &mut Random) -> u16 {
    let any = random.word(65536) | 0x400 << random.below(6);
    random.of(&[LARGEST_SYMBOL + 1, LARGEST_SYMBOL + 1, u16::MAX, 1 << 15 | 1 << 8, any])
}

fn frame(random: &mut Random) -> [u16; SYMBOLS] {
    build(&data_bytes(random))
}

fn odd(length: usize, random: &mut Random) -> Vec<u16> {
    (0..length).map(|_| Class::Odd.symbol(random)).collect()
}

fn noise_of(class: Class, random: &mut Random) -> Vec<u16> {
    (0..1 + random.below(40)).map(|_| class.symbol(random)).collect()
}

fn between_odd(random: &mut Random) -> Vec<u16> {
    let length = random.below(20);
    let mut list = odd(length, random);
    list.extend(frame(random));
    list
}

/// Wrong bits, a wrong CRC alone, a mark, an even symbol too early, or one symbol too few or too many.
fn damaged_frame(random: &mut Random) -> Vec<u16> {
    let mut list = frame(random).to_vec();
    let place = random.below(SYMBOLS);
    match random.below(7) {
        0 => {
            let count = 1 + random.below(4);
            flip(&mut list, count, random);
        }
        1 => flip(&mut list[place..=place], 2, random),
        2 => list[place] |= MARK,
        3 => list[place] = Class::Even.symbol(random),
        4 => drop(list.remove(place)),
        5 => list.insert(place, random.word(1024)),
        _ => list.swap(10, 11),
    }
    list
}

fn part_of_frame(random: &mut Random) -> Vec<u16> {
    let list = frame(random);
    let place = random.below(SYMBOLS);
    if random.bool() {
        list[..place].to_vec()
    } else {
        list[place..].to_vec()
    }
}

/// As a source without OAM sends it, at times behind a frame.
fn constant_field(random: &mut Random) -> Vec<u16> {
    let mut list = if random.one_in(3) { frame(random).to_vec() } else { Vec::new() };
    let any = random.word(1024);
    let symbol = random.of(&[0x100, 0x200, any % 512, any]);
    let limit = random.of(&[40, 1_600]);
    list.extend(vec![symbol; random.below(limit)]);
    list
}

/// A frame, then so many symbols without one that presence lapses, or nearly, and what stands there as it does: a frame
/// or a part of one, a collection that fails, or nothing in particular.
fn lapse(random: &mut Random) -> Vec<u16> {
    let mut list = frame(random).to_vec();
    let shortest = usize::from(PRESENCE) - SYMBOLS - random.of(&[1, 1, 1, SYMBOLS]);
    let length = shortest + random.below(16);
    if random.one_in(3) {
        list.extend((0..length).map(|_| random.word(1024)));
    } else {
        list.extend(noise(random.of(&NOISES), length, random));
    }
    list.extend(match random.below(5) {
        0 | 1 => frame(random).to_vec(),
        2 => damaged_frame(random),
        3 => part_of_frame(random),
        _ => Vec::new(),
    });
    list
}

fn random_symbols(random: &mut Random) -> Vec<u16> {
    let limit = random.of(&[2, 512, 1024]);
    (0..1 + random.below(200)).map(|_| random.word(limit)).collect()
}
