//! The report of document 02, #111, as quick as was found in safe Rust: large buffers, every symbol's class worked out
//! beforehand for many at a time, collections and quiet stretches seen eight classes at a go, the CRC by ten lookups
//! that wait for none of each other, digits that are kept from line to line.

use std::fs::File;
use std::io::{stdin, stdout, ErrorKind, Read, Result, Write};
use std::os::unix::io::AsFd;

/// So many symbols at a go.
const BLOCK: usize = 1 << 16;
/// A look at eight classes may reach beyond the last symbol; they are odd there.
const BEYOND: usize = 16;

const EVEN: u8 = 1;
const MARKED: u8 = 2;
const ABOVE: u8 = 4;
/// Eight times the classes that end a quiet stretch.
const ENDS_QUIET: u64 = u64::from_le_bytes([EVEN | ABOVE; 8]);

/// `CRC[place][byte]`: what a byte at this place makes of a register that was zero, at the end of ten bytes.
static CRC: [[u16; 256]; 10] = {
    let mut tables = [[0; 256]; 10];
    let mut byte = 0;
    while byte < 256 {
        let mut register = byte as u16;
        let mut place = 10;
        while place > 0 {
            place -= 1;
            register = readers::eight_bits(register);
            tables[place][byte] = register;
        }
        byte += 1;
    }
    tables
};

/// ` XX` and a byte that the next one overwrites.
static HEX: [[u8; 4]; 256] = {
    let digits = *b"0123456789ABCDEF";
    let mut table = [[b' '; 4]; 256];
    let mut byte = 0;
    while byte < 256 {
        table[byte][1] = digits[byte / 16];
        table[byte][2] = digits[byte % 16];
        byte += 1;
    }
    table
};

/// Two digits each.
static PAIRS: [[u8; 2]; 100] = {
    let mut table = [[0; 2]; 100];
    let mut number = 0;
    while number < 100 {
        table[number] = [b'0' + (number / 10) as u8, b'0' + (number % 10) as u8];
        number += 1;
    }
    table
};

/// Odd is 0. The two bytes of a number are taken as little-endian, so that bits 9:8 come first.
fn class(pair: &[u8]) -> u8 {
    let number = u16::from_le_bytes([pair[0], pair[1]]);
    let mut ones = number >> 8 ^ number & 1;
    ones ^= ones >> 4;
    ones ^= ones >> 2;
    ones ^= ones >> 1;
    let marked = number & 2;
    let even = !ones & 1 & !(marked >> 1);
    let above = if number & 0xFC == 0 { 0 } else { u16::from(ABOVE) };
    (even | marked | above) as u8
}

/// Text that goes out in large parts.
struct Output {
    file: File,
    text: Vec<u8>,
    used: usize,
    /// The digits of a number but for its last four, and what they are of.
    digits: [u8; 16],
    length: usize,
    high: u64,
}

const TEXT: usize = 1 << 18;
/// No line is longer.
const LINE: usize = 256;

impl Output {
    fn number(&mut self, number: u64) {
        let (high, low) = (number / 10_000, (number % 10_000) as usize);
        if high != self.high {
            let digits = high.to_string();
            self.high = high;
            self.length = digits.len();
            self.digits[..self.length].copy_from_slice(digits.as_bytes());
        }
        if high == 0 {
            return self.add(low.to_string().as_bytes());
        }
        let room: &mut [u8; 24] = (&mut self.text[self.used..self.used + 24]).try_into().expect("of that length");
        room[..16].copy_from_slice(&self.digits);
        let length = self.length.min(16);
        room[length..length + 2].copy_from_slice(&PAIRS[low / 100]);
        room[length + 2..length + 4].copy_from_slice(&PAIRS[low % 100]);
        self.used += length + 4;
    }

    fn add(&mut self, text: &[u8]) {
        self.text[self.used..self.used + text.len()].copy_from_slice(text);
        self.used += text.len();
    }

    /// The rest of a line that is at most 32 bytes long.
    fn add_short(&mut self, text: &([u8; 32], usize)) {
        let room: &mut [u8; 32] = (&mut self.text[self.used..self.used + 32]).try_into().expect("of that length");
        *room = text.0;
        self.used += text.1;
    }

    fn add_bytes(&mut self, symbols: &[u8; 24]) {
        let room: &mut [u8; 38] = (&mut self.text[self.used..self.used + 38]).try_into().expect("of that length");
        room[..6].copy_from_slice(b" frame");
        for place in 0..10 {
            room[6 + 3 * place..10 + 3 * place].copy_from_slice(&HEX[usize::from(symbols[2 * place + 1])]);
        }
        room[36] = b'\n';
        self.used += 37;
    }

    fn make_room(&mut self) -> Result<()> {
        if self.used > TEXT - LINE {
            self.flush()?;
        }
        Ok(())
    }

    fn flush(&mut self) -> Result<()> {
        self.file.write_all(&self.text[..self.used])?;
        self.used = 0;
        Ok(())
    }
}

struct Reader {
    output: Output,
    /// The rest of the line of each failure, by the symbols that were collected.
    early: [([u8; 32], usize); 12],
    marked: [([u8; 32], usize); 12],
    /// Where presence lapses, unless a frame is completed there or before.
    lapse: u64,
    quiet: u64,
    frames: u64,
    crcs: u64,
    marks: u64,
    earlies: u64,
    lapses: u64,
}

fn rest(text: &str) -> ([u8; 32], usize) {
    let mut room = [0; 32];
    room[..text.len()].copy_from_slice(text.as_bytes());
    (room, text.len())
}

/// Where reading the symbols of a block stopped.
enum Stop {
    /// What stands from here on is the beginning of a collection, or nothing.
    Open(usize),
    Above(usize),
}

impl Reader {
    /// The lapse, if it belongs before an event at this place.
    fn lapse_before(&mut self, place: u64) {
        if self.lapse < place {
            self.output.number(self.lapse);
            self.output.add(b" lapsed quiet from ");
            self.output.number(self.quiet);
            self.output.add(b"\n");
            self.lapses += 1;
            self.lapse = u64::MAX;
        }
    }

    fn failed(&mut self, place: u64, text: &([u8; 32], usize)) -> Result<()> {
        self.output.make_room()?;
        self.lapse_before(place);
        self.output.number(place);
        self.output.add_short(text);
        Ok(())
    }

    /// Twelve symbols of right parities; the last one has this place.
    fn completed(&mut self, place: u64, symbols: &[u8; 24]) -> Result<()> {
        let crc = (0..10).fold(0, |crc, at| crc ^ CRC[at][usize::from(symbols[2 * at + 1])]);
        if crc.to_le_bytes() != [symbols[21], symbols[23]] {
            self.crcs += 1;
            return self.failed(place, &rest(" failed crc\n"));
        }
        self.output.make_room()?;
        self.lapse_before(place);
        self.output.number(place - 11);
        self.output.add_bytes(symbols);
        self.frames += 1;
        self.lapse = place + 768;
        self.quiet = place + 1;
        Ok(())
    }

    /// Reads the symbols of a block, the first of which has the place `base`. At first nothing is collected.
    fn read(&mut self, base: u64, bytes: &[u8], classes: &[u8]) -> Result<Stop> {
        let length = bytes.len() / 2;
        let eight = |at: usize| u64::from_le_bytes(classes[at..at + 8].try_into().expect("eight"));
        let mut at = 0;
        loop {
            // Nothing is collected.
            loop {
                if at >= length {
                    return Ok(Stop::Open(length));
                }
                let ends = eight(at) & ENDS_QUIET;
                if ends != 0 {
                    at += ends.trailing_zeros() as usize / 8;
                    break;
                }
                at += 8;
            }
            if classes[at] & ABOVE != 0 {
                return Ok(Stop::Above(at));
            }
            // A collection begins here, and one after another while even symbols break them.
            loop {
                let first = eight(at + 1);
                let more = eight(at + 4);
                let count = match (first, more) {
                    (0, 0) => 12,
                    (0, _) => 4 + more.trailing_zeros() as usize / 8,
                    _ => 1 + first.trailing_zeros() as usize / 8,
                };
                if at + count > length {
                    return Ok(Stop::Open(at));
                }
                let place = base + (at + count) as u64;
                if count == 12 {
                    let symbols = bytes[2 * at..2 * at + 24].try_into().expect("twelve symbols");
                    self.completed(place - 1, symbols)?;
                    at += 12;
                    break;
                }
                at += count;
                let class = classes[at];
                if class & ABOVE != 0 {
                    return Ok(Stop::Above(at));
                }
                if class & MARKED != 0 {
                    self.marks += 1;
                    let text = self.marked[count];
                    self.failed(place, &text)?;
                    at += 1;
                    break;
                }
                self.earlies += 1;
                let text = self.early[count];
                self.failed(place, &text)?;
            }
        }
    }

    fn end(&mut self, place: u64, answer: u8) -> Result<()> {
        let Reader { frames, crcs, marks, earlies, .. } = *self;
        self.output.make_room()?;
        self.lapse_before(place);
        self.output.number(place);
        let counts = format!("frames {frames} crc {crcs} marked {marks} early {earlies} lapses {}", self.lapses);
        self.output.add(format!(" end {answer} {counts}\n").as_bytes());
        self.output.flush()
    }
}

/// Fills the room as far as the input goes.
fn fill(input: &mut File, room: &mut [u8]) -> Result<usize> {
    let mut filled = 0;
    while filled < room.len() {
        match input.read(&mut room[filled..]) {
            Ok(0) => break,
            Ok(count) => filled += count,
            Err(why) if why.kind() == ErrorKind::Interrupted => {}
            Err(why) => return Err(why),
        }
    }
    Ok(filled)
}

fn main() -> Result<()> {
    let mut input = File::from(stdin().as_fd().try_clone_to_owned()?);
    let file = File::from(stdout().as_fd().try_clone_to_owned()?);
    let output = Output { file, text: vec![0; TEXT], used: 0, digits: [b'0'; 16], length: 0, high: 0 };
    let (mut early, mut marked) = ([rest(""); 12], [rest(""); 12]);
    for count in 1..12 {
        early[count] = rest(&format!(" failed early {count}\n"));
        marked[count] = rest(&format!(" failed marked {count}\n"));
    }
    let mut reader = Reader {
        output,
        early,
        marked,
        lapse: u64::MAX,
        quiet: 0,
        frames: 0,
        crcs: 0,
        marks: 0,
        earlies: 0,
        lapses: 0,
    };
    let mut bytes = vec![0; 2 * BLOCK];
    let mut classes = vec![0; BLOCK + BEYOND];
    // The place of the first symbol in `bytes`, and how many bytes are there already.
    let (mut base, mut kept) = (0, 0);
    loop {
        let filled = kept + fill(&mut input, &mut bytes[kept..])?;
        let length = filled / 2;
        for (class_of, pair) in classes.iter_mut().zip(bytes[..2 * length].chunks_exact(2)) {
            *class_of = class(pair);
        }
        classes[length..length + BEYOND].fill(0);
        let at = match reader.read(base, &bytes[..2 * length], &classes)? {
            Stop::Above(at) => return reader.end(base + at as u64, 5),
            Stop::Open(at) => at,
        };
        if filled < bytes.len() {
            return reader.end(base + length as u64, if filled % 2 == 0 { 0 } else { 12 });
        }
        base += at as u64;
        bytes.copy_within(2 * at..filled, 0);
        kept = filled - 2 * at;
    }
}
