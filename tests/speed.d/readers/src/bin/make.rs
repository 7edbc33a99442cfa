//! `make KIND SYMBOLS`: writes a capture of so many symbols to standard output, the same one each time.

use readers::crc;
use std::env;
use std::io::{stdout, BufWriter, Result, Write};
use std::process::exit;

/// A small generator of random numbers, xorshift.
struct Random(u64);

impl Random {
    fn below(&mut self, limit: u16) -> u16 {
        self.0 ^= self.0 << 13;
        self.0 ^= self.0 >> 7;
        self.0 ^= self.0 << 17;
        ((self.0 >> 32) % u64::from(limit)) as u16
    }
}

/// The symbol with this data and an even number of ones, or an odd one.
fn symbol(byte: u8, even: bool) -> u16 {
    u16::from(byte) | u16::from((byte.count_ones() % 2 == 0) != even) << 8
}

/// Of random bytes.
fn frame(random: &mut Random) -> Vec<u16> {
    let bytes = [(); 10].map(|()| random.below(256) as u8);
    bytes.iter().chain(&crc(&bytes)).enumerate().map(|(place, byte)| symbol(*byte, place == 0)).collect()
}

/// What a capture has piece after piece; one that is quiet begins with a frame.
fn piece(kind: &str, first: bool, random: &mut Random) -> Option<Vec<u16>> {
    Some(match kind {
        "frames" => frame(random),
        "below-512" => vec![random.below(512)],
        "below-1024" => vec![random.below(1024)],
        "odd-field" | "all-marked" if first => frame(random),
        "odd-field" => vec![0x100],
        "all-marked" => vec![512 + random.below(512)],
        _ => return None,
    })
}

fn write(kind: &str, symbols: usize) -> Option<Result<()>> {
    let mut random = Random(0x9E37_79B9_7F4A_7C15);
    let mut output = BufWriter::with_capacity(1 << 16, stdout().lock());
    let mut left = symbols;
    while left > 0 {
        let mut list = piece(kind, left == symbols, &mut random)?;
        list.truncate(left);
        left -= list.len();
        for symbol in list {
            if let Err(why) = output.write_all(&symbol.to_be_bytes()) {
                return Some(Err(why));
            }
        }
    }
    Some(output.flush())
}

fn main() -> Result<()> {
    let words: Vec<String> = env::args().skip(1).collect();
    let written = match &words[..] {
        [kind, symbols] => symbols.parse().ok().and_then(|symbols| write(kind, symbols)),
        _ => None,
    };
    written.unwrap_or_else(|| {
        eprintln!("make KIND SYMBOLS; there is no: {}", words.join(" "));
        exit(2)
    })
}
