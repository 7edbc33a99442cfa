//! Frames built and checked: sound, damaged, marked, too long, too short.

use super::Writer;
use crate::random::Random;
use crate::t1::bench::Script;
use crate::t1::frame::{build, DATA, MARK, SYMBOLS};

pub fn frames(seed: u64, lines: usize) -> Script {
    let mut writer = Writer::new(seed);
    while writer.script.lines < lines {
        match writer.random.below(10) {
            0 => writer.say_bytes("build"),
            1 => writer.say_bytes("crc"),
            _ => {
                let list = damaged_list(&mut writer.random);
                writer.script.say_list("check", &list);
            }
        }
    }
    writer.script
}

impl Writer {
    fn say_bytes(&mut self, command: &str) {
        let data = data_bytes(&mut self.random);
        let list: Vec<String> = data.iter().map(|byte| format!("{:02X}", byte)).collect();
        self.script.say(format_args!("{} {}", command, list.join(" ")));
    }
}

/// Ten bytes: any, or mostly zero, as the steps of document 01 make them.
pub fn data_bytes(random: &mut Random) -> [u8; DATA] {
    let sparse = random.bool();
    let mut data = [0; DATA];
    for byte in &mut data {
        if !sparse || random.one_in(4) {
            *byte = random.byte();
        }
    }
    data
}

fn damaged_list(random: &mut Random) -> Vec<u16> {
    let mut list = build(&data_bytes(random)).to_vec();
    let place = random.below(SYMBOLS);
    match random.below(14) {
        0 | 1 => {}
        2 | 3 => flip(&mut list, 1 + random.below(6), random),
        4 => flip(&mut list[place..=place], 1, random),
        5 => list[place] |= MARK,
        // A mark and a wrong bit, the one lower or the other, or both in one symbol.
        6 | 7 => {
            list[place] |= MARK;
            flip(&mut list, 1, random);
        }
        8 => list[place] = random.of(&[1023, 1024, 0x8000 | list[place], 0x400 | list[place], 65535]),
        9 => list[place] = random.word(2048),
        10 => list.truncate(random.below(SYMBOLS)),
        11 => (0..1 + random.below(2)).for_each(|_| list.push(random.word(1030))),
        12 => list.swap(10, 11),
        // Right parities, wrong CRC.
        _ => flip(&mut list[place..=place], 2, random),
    }
    list
}

/// Flips so many different ones of the 108 bits, or of those that the list has.
pub fn flip(list: &mut [u16], count: usize, random: &mut Random) {
    let mut flipped = Vec::new();
    while flipped.len() < count {
        let bit = random.below(9 * list.len());
        if !flipped.contains(&bit) {
            list[bit / 9] ^= 1 << (bit % 9);
            flipped.push(bit);
        }
    }
}
