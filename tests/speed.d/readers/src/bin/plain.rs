//! The report of document 02, #111, in plain Rust: two bytes at a time from a buffered reader, an end that takes each
//! symbol, a formatted line for each event to a buffered writer.

use readers::crc;
use std::io::{stdin, stdout, BufReader, BufWriter, Read, Result, Write};

/// Document 01, "Taking, one symbol", as far as a report needs it, with the presence of document 02, #107.
struct End {
    symbols: [u16; 12],
    count: usize,
    /// Symbols taken since the last accepted frame; 768 stands for more, and for no frame at all.
    silence: u16,
}

enum Outcome {
    Frame([u8; 10]),
    Crc,
    Marked(usize),
    Early(usize),
}

impl End {
    /// What became of a collection, and whether presence lapses.
    fn take(&mut self, symbol: u16) -> (Option<Outcome>, bool) {
        let outcome = self.collect(symbol);
        if let Some(Outcome::Frame(_)) = outcome {
            self.silence = 0;
            return (outcome, false);
        }
        let was_present = self.silence < 768;
        if was_present {
            self.silence += 1;
        }
        (outcome, was_present && self.silence == 768)
    }

    fn collect(&mut self, symbol: u16) -> Option<Outcome> {
        let count = self.count;
        if symbol >= 512 {
            self.count = 0;
            return if count > 0 { Some(Outcome::Marked(count)) } else { None };
        }
        if symbol.count_ones() % 2 == 0 {
            self.symbols[0] = symbol;
            self.count = 1;
            return if count > 0 { Some(Outcome::Early(count)) } else { None };
        }
        if count == 0 {
            return None;
        }
        self.symbols[count] = symbol;
        self.count += 1;
        if self.count < 12 {
            return None;
        }
        self.count = 0;
        let mut bytes = [0; 10];
        for (byte, symbol) in bytes.iter_mut().zip(self.symbols) {
            *byte = symbol as u8;
        }
        if crc(&bytes) == [self.symbols[10] as u8, self.symbols[11] as u8] {
            Some(Outcome::Frame(bytes))
        } else {
            Some(Outcome::Crc)
        }
    }
}

#[derive(Default)]
struct Counts {
    frames: u64,
    crc: u64,
    marked: u64,
    early: u64,
    lapses: u64,
}

/// The next number, or the answer with which the report ends.
fn next(input: &mut impl Read) -> Result<std::result::Result<u16, u8>> {
    let mut bytes = [0; 2];
    let mut count = input.read(&mut bytes)?;
    if count == 1 {
        count += input.read(&mut bytes[1..])?;
    }
    let symbol = u16::from_be_bytes(bytes);
    Ok(match count {
        0 => Err(0),
        1 => Err(12),
        _ if symbol > 1023 => Err(5),
        _ => Ok(symbol),
    })
}

fn main() -> Result<()> {
    let mut input = BufReader::new(stdin().lock());
    let mut output = BufWriter::new(stdout().lock());
    let mut end = End { symbols: [0; 12], count: 0, silence: 768 };
    let mut counts = Counts::default();
    let (mut place, mut quiet) = (0u64, 0u64);
    let answer = loop {
        let symbol = match next(&mut input)? {
            Ok(symbol) => symbol,
            Err(answer) => break answer,
        };
        let (outcome, lapsed) = end.take(symbol);
        match outcome {
            None => {}
            Some(Outcome::Frame([a, b, c, d, e, f, g, h, i, j])) => {
                counts.frames += 1;
                quiet = place + 1;
                writeln!(
                    output,
                    "{} frame {a:02X} {b:02X} {c:02X} {d:02X} {e:02X} {f:02X} {g:02X} {h:02X} {i:02X} {j:02X}",
                    place - 11
                )?;
            }
            Some(Outcome::Crc) => {
                counts.crc += 1;
                writeln!(output, "{place} failed crc")?;
            }
            Some(Outcome::Marked(count)) => {
                counts.marked += 1;
                writeln!(output, "{place} failed marked {count}")?;
            }
            Some(Outcome::Early(count)) => {
                counts.early += 1;
                writeln!(output, "{place} failed early {count}")?;
            }
        }
        if lapsed {
            counts.lapses += 1;
            writeln!(output, "{place} lapsed quiet from {quiet}")?;
        }
        place += 1;
    };
    let Counts { frames, crc, marked, early, lapses } = counts;
    writeln!(output, "{place} end {answer} frames {frames} crc {crc} marked {marked} early {early} lapses {lapses}")?;
    output.flush()
}
