//! Lists of symbols: frames, sound and harmed, and symbols that complete none.

use second::random::Random;
use second::t1::frame::{build, Frame, MARK, SYMBOLS};
use second::t1::generate::{data_bytes, noise, NOISES};

/// The longest list that is searched: request #102.
pub const LONGEST_LIST: usize = 32_768;

/// What is done to a symbol.
#[derive(Clone, Copy, Debug, PartialEq, Eq)]
pub enum Harm {
    Mark,
    Parity,
    Both,
}

pub const HARMS: [Harm; 3] = [Harm::Mark, Harm::Parity, Harm::Both];

impl Harm {
    /// Wrong parity is one wrong bit of the nine.
    pub fn on(self, symbol: u16, bit: usize) -> u16 {
        match self {
            Harm::Mark => symbol + 512,
            Harm::Parity => symbol ^ 1 << bit,
            Harm::Both => (symbol ^ 1 << bit) + 512,
        }
    }
}

/// P1, which has no ones in its data, and others.
pub fn sound_frames(count: usize, random: &mut Random) -> Vec<Frame> {
    let mut frames = vec![build(&[0; 10])];
    frames.extend((1..count).map(|_| build(&data_bytes(random))));
    frames
}

/// A frame, sound or harmed, or a part of one.
pub fn any_frame(random: &mut Random) -> Vec<u16> {
    let mut list = build(&data_bytes(random)).to_vec();
    let place = random.below(SYMBOLS);
    let bit = 1 << random.below(8);
    match random.below(10) {
        0 => list[place] ^= bit,
        // Right parity, wrong CRC.
        1 => list[place] ^= bit | 0x100,
        2 => list[place] |= MARK,
        3 => list[place] ^= bit | MARK,
        4 => list[place] = random.word(1024),
        5 => list.truncate(place),
        6 => drop(list.drain(..place)),
        _ => {}
    }
    list
}

/// So many symbols of each kind that completes no frame: odd ones that are ignored, even ones of which each breaks the
/// collection before, marked ones, frames that the CRC shows to be wrong, and broken collections with all of these.
pub fn silences(length: usize, random: &mut Random) -> Vec<Vec<u16>> {
    let mut all: Vec<Vec<u16>> = NOISES.iter().map(|kind| noise(*kind, length, random)).collect();
    let mixed = [0x100, 0x3FF, 0x000, 0x100, 0x100, 0x200, 0x1FE, 0x000, 0x001, 0x003, 0x100, 0x37F];
    all.push(mixed.into_iter().cycle().take(length).collect());
    all
}
