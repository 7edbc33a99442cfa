//! However the input is cut, inside a number too, the report is the same.

use crate::helpers::reader::{Reading, LARGEST_DATAGRAM};
use crate::helpers::tell::{seed, tell};
use second::proved::reader;
use second::random::Random;
use second::t1::capture::{due, report};
use second::t1::generate::{long_recording, recording};
use std::time::Instant;

/// Two frames and what can fail, in 38 symbols: P1 of document 01, of which each symbol but the first is 100.
fn short_capture() -> Vec<u8> {
    let mut symbols = vec![0x100, 0x000, 0x000];
    symbols.extend([0x100; 11]);
    symbols.extend([0x000, 0x100, 0x3FF, 0x000]);
    symbols.extend([0x100; 10]);
    symbols.extend([0x001, 0x000]);
    symbols.extend([0x100; 11]);
    symbols.into_iter().flat_map(u16::to_be_bytes).collect()
}

/// Each piece is what one read gets.
fn by_datagrams<'a>(name: &str, input: &[u8], pieces: impl Iterator<Item = &'a [u8]>) {
    let mut reading = Reading::by_datagrams(reader());
    pieces.for_each(|piece| reading.write(piece));
    let report = report(input);
    reading.end().reported(name, &report.text, report.status());
}

#[test]
fn at_every_byte() {
    let start = Instant::now();
    let whole = short_capture();
    // To its end, to an odd byte, and with a value above 1,023, behind which nothing counts.
    let inputs = [whole.clone(), [&whole[..], &[4]].concat(), [&whole[..50], &[4, 0, 0, 0, 1]].concat()];
    let mut count = 0;
    for input in &inputs {
        for cut in 1..input.len() {
            let (first, rest) = input.split_at(cut);
            by_datagrams(&format!("{} bytes cut at {}", input.len(), cut), input, [first, rest].into_iter());
            count += 1;
        }
    }
    tell("captures, cut at every byte", count, "cuts", start);
}

#[test]
fn in_pieces_of_one_size() {
    let start = Instant::now();
    let mut random = Random::new(seed());
    let mut count = 0;
    for (size, symbols) in [(1, 5_000), (2, 5_000), (3, 5_000), (7, 10_000), (4_095, 200_000), (4_096, 200_000)] {
        let mut input = long_recording(symbols, &mut random);
        for last in [None, Some(3)] {
            input.extend(last);
            by_datagrams(&format!("pieces of {}", size), &input, input.chunks(size));
            count += 1 + input.len() / size;
        }
    }
    tell("captures, pieces of one size", count, "pieces", start);
}

#[test]
fn in_pieces_of_any_size() {
    let start = Instant::now();
    let mut random = Random::new(seed());
    let mut count = 0;
    for _ in 0..100 {
        let (kind, input) = recording(&mut random);
        let limit = random.of(&[3, 30, 300, LARGEST_DATAGRAM]);
        let mut pieces = Vec::new();
        let mut rest = &input[..];
        while !rest.is_empty() {
            let (piece, behind) = rest.split_at(rest.len().min(1 + random.below(limit)));
            pieces.push(piece);
            rest = behind;
        }
        by_datagrams(kind, &input, pieces.iter().copied());
        count += pieces.len();
    }
    tell("captures, pieces of any size", count, "pieces", start);
}

/// Longer than a pipe holds, and than any reader's buffer is likely to be; each one's lines come before the next.
#[test]
fn in_long_pieces() {
    let start = Instant::now();
    let input = long_recording(250_000, &mut Random::new(seed()));
    let mut count = 0;
    for size in [65_537, 131_071, 300_001] {
        let mut reading = Reading::by_pipe(reader());
        let mut written = 0;
        for piece in input.chunks(size) {
            reading.write(piece);
            written += piece.len();
            reading.shows(&due(&input[..written]), "a long piece");
            count += 1;
        }
        let report = report(&input);
        reading.end().reported(&format!("pieces of {}", size), &report.text, report.status());
    }
    tell("captures, long pieces", count, "pieces", start);
}

#[test]
fn with_next_to_nothing() {
    by_datagrams("no byte", &[], [].into_iter());
    for byte in [0, 1, 3, 4, 255] {
        by_datagrams("one byte", &[byte], [&[byte][..]].into_iter());
    }
}
