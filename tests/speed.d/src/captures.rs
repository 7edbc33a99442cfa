//! The captures that are searched: each has one good frame, at its very end.

use crate::plain::{build, symbol, Bitwise};
use crate::random::Random;

const SEEDS: [u64; 10] = [1, 2, 3, 4, 5, 6, 7, 8, 9, 10];
const LENGTHS: [usize; 4] = [4_096, 8_192, 16_384, LONGEST];
const LONGEST: usize = 32_768;

pub struct Kind {
    pub name: &'static str,
    /// What a capture of this kind is made of, piece after piece.
    piece: fn(&mut Random) -> Vec<u16>,
}

/// What #108 asks for: random symbols, and the same without marks.
static RANDOM: [Kind; 2] = [
    Kind { name: "below-1024", piece: |random| vec![random.below(1024)] },
    Kind { name: "below-512", piece: |random| vec![random.below(512)] },
];

static OTHERS: [Kind; 7] = [
    Kind { name: "all-marked", piece: |random| vec![512 + random.below(512)] },
    Kind { name: "all-odd", piece: |random| vec![odd(random)] },
    Kind { name: "all-even", piece: |random| vec![even(random)] },
    Kind { name: "wrong-CRC-frames", piece: |random| odd_then_wrong_frame(0, random) },
    // The most looks for a finder that skips: at eleven symbols of 13 twice, at one once.
    Kind { name: "odd-then-wrong-CRC-frame", piece: |random| odd_then_wrong_frame(1, random) },
    // Nearly as many, and where the next frame starts is random: the slowest that was found for such a finder.
    Kind { name: "1-or-2-odd-then-wrong-CRC-frame", piece: |random| odd_then_wrong_frame(1 + random.below(2), random) },
    Kind {
        name: "one-in-12-even-else-odd",
        piece: |random| vec![if random.below(12) == 0 { even(random) } else { odd(random) }],
    },
];

fn even(random: &mut Random) -> u16 {
    symbol(random.below(256) as u8, true)
}

fn odd(random: &mut Random) -> u16 {
    symbol(random.below(256) as u8, false)
}

pub fn frame(random: &mut Random) -> [u16; 12] {
    build::<Bitwise>(&random.bytes())
}

/// So many odd symbols, then a frame with two bits of its CRC changed, so that its parities are right.
fn odd_then_wrong_frame(count: u16, random: &mut Random) -> Vec<u16> {
    let mut list: Vec<u16> = (0..count).map(|_| odd(random)).collect();
    list.extend(frame(random));
    *list.last_mut().expect("a frame") ^= 3;
    list
}

pub struct Capture {
    pub kind: &'static Kind,
    pub length: usize,
    pub seed: u64,
}

/// The place of the good frame in a capture of this length.
pub fn place(length: usize) -> usize {
    length - 12
}

impl Capture {
    pub fn list(&self) -> Vec<u16> {
        let mut random = Random::new(self.seed);
        let mut list = Vec::new();
        while list.len() < place(self.length) {
            list.extend((self.kind.piece)(&mut random));
        }
        list.truncate(place(self.length));
        list.extend(frame(&mut random));
        list
    }
}

fn all_seeds(kind: &'static Kind, length: usize) -> Vec<Capture> {
    SEEDS.iter().map(|seed| Capture { kind, length, seed: *seed }).collect()
}

/// All that are timed, in groups of ten or so.
pub fn groups() -> Vec<Vec<Capture>> {
    let random = RANDOM.iter().flat_map(|kind| LENGTHS.map(|length| all_seeds(kind, length)));
    let others = OTHERS.iter().map(|kind| Capture { kind, length: LONGEST, seed: SEEDS[0] }).collect();
    random.chain([others]).collect()
}

/// The capture KIND:LENGTH:SEED, or those of all seeds for KIND:LENGTH.
pub fn by_name(name: &str) -> Option<Vec<Capture>> {
    let words: Vec<&str> = name.split(':').collect();
    let kind = RANDOM.iter().chain(&OTHERS).find(|kind| kind.name == words[0])?;
    let length = words.get(1)?.parse().ok().filter(|length| (12..=LONGEST).contains(length))?;
    match words[2..] {
        [] => Some(all_seeds(kind, length)),
        [seed] => Some(vec![Capture { kind, length, seed: seed.parse().ok()? }]),
        _ => None,
    }
}
