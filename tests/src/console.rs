//! What every console has in common: one line in, one line out. Its commands are its own.

use std::io::{BufRead, Result as IoResult, Write};

pub type Word<'a> = &'a [u8];
/// What is printed, or why the line could not be read.
pub type Said = Result<String, &'static str>;

/// The largest number of a line.
pub const LARGEST: u32 = 0xFFFF;

/// By default it is as before the first line.
pub trait Console: Default {
    /// The words after `./bench` that start the proved console of the same commands.
    const PROVED: &'static [&'static str];

    /// There is a first word.
    fn command(&mut self, words: &[Word]) -> Said;

    /// Answers one line, given without its newline. A line that is empty or a comment adds nothing to `out`.
    fn line(&mut self, line: &[u8], out: &mut Vec<u8>) {
        let line = line.strip_suffix(b"\r").unwrap_or(line);
        let words: Vec<Word> = line.split(|byte| *byte == b' ').filter(|word| !word.is_empty()).collect();
        if words.first().map_or(true, |word| word[0] == b'#') {
            return;
        }
        match self.command(&words) {
            Ok(said) => out.extend_from_slice(said.as_bytes()),
            Err(reason) => {
                out.extend_from_slice(b"? ");
                out.extend_from_slice(reason.as_bytes());
            }
        }
        out.push(b'\n');
    }
}

/// All that is printed for the whole input.
pub fn run<C: Console>(input: &[u8]) -> Vec<u8> {
    let mut out = Vec::new();
    speak::<C>(input, &mut out).expect("memory takes what is written");
    out
}

/// Answers line by line, each flushed, to the end of the input.
pub fn speak<C: Console>(mut input: impl BufRead, mut output: impl Write) -> IoResult<()> {
    let mut console = C::default();
    let mut line = Vec::new();
    let mut out = Vec::new();
    while input.read_until(b'\n', &mut line)? > 0 {
        console.line(line.strip_suffix(b"\n").unwrap_or(&line), &mut out);
        if !out.is_empty() {
            output.write_all(&out)?;
            output.flush()?;
        }
        line.clear();
        out.clear();
    }
    Ok(())
}

pub fn decimal(word: Word, largest: u32) -> Result<u16, &'static str> {
    number(word, 10, largest)
}

pub fn hex(word: Word, largest: u32) -> Result<u16, &'static str> {
    number(word, 16, largest)
}

/// The last hex digit of a number.
pub fn digit(number: u16) -> u8 {
    b"0123456789ABCDEF"[usize::from(number % 16)]
}

/// Digits alone, of either case, leading zeros allowed, at most `largest` (itself at most 65,535).
fn number(word: Word, radix: u32, largest: u32) -> Result<u16, &'static str> {
    let mut value = 0;
    for byte in word {
        let digit = char::from(*byte).to_digit(radix).ok_or("not a number")?;
        value = value * radix + digit;
        if value > largest {
            return Err("too large a number");
        }
    }
    Ok(value as u16)
}
