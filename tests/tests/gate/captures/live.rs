//! A live line can be watched: the lines are written before a read that would wait.

use crate::helpers::reader::Reading;
use crate::helpers::tell::{seed, tell};
use second::proved::reader;
use second::random::Random;
use second::t1::capture::{due, report};
use second::t1::generate::{bytes, recording};
use std::time::Instant;

/// The input in pieces of these lengths; the lines of each come before the next is written.
fn watch(name: &str, input: &[u8], mut length: impl FnMut() -> usize) -> usize {
    let mut reading = Reading::by_pipe(reader());
    let (mut written, mut pieces) = (0, 0);
    while written < input.len() {
        let next = input.len().min(written + length());
        reading.write(&input[written..next]);
        written = next;
        reading.shows(&due(&input[..written]), &format!("{}, {} of {} bytes", name, written, input.len()));
        pieces += 1;
    }
    let report = report(input);
    reading.end().reported(name, &report.text, report.status());
    pieces
}

#[test]
fn any_pieces() {
    let start = Instant::now();
    let mut random = Random::new(seed());
    let mut count = 0;
    for _ in 0..60 {
        let (kind, input) = recording(&mut random);
        let limit = random.of(&[4, 60, 2_000]);
        // Not so many pieces that it takes long.
        let least = input.len() / 100;
        count += watch(kind, &input, || 1 + least + random.below(limit));
    }
    tell("captures, live", count, "pieces", start);
}

/// P1 of document 01, byte by byte; then presence lapses with a symbol that only adds to a collection, and the frame
/// that is being collected comes after it.
#[test]
fn lapse_while_a_collection_is_open() {
    const FRAME: &str = "frame 00 00 00 00 00 00 00 00 00 00";
    let mut symbols = vec![0x000];
    symbols.extend([0x100; 11]);
    let mut reading = Reading::by_pipe(reader());
    let input = bytes(symbols);
    reading.write(&input[..23]);
    reading.write(&input[23..]);
    let mut wanted = format!("0 {}\n", FRAME);
    reading.shows(wanted.as_bytes(), "a frame");
    reading.write(&bytes(vec![0x100; 766]));
    reading.write(&bytes(vec![0x000, 0x100]));
    wanted += "779 lapsed quiet from 12\n";
    reading.shows(wanted.as_bytes(), "a lapse at the second symbol of a collection");
    reading.write(&bytes(vec![0x100; 10]));
    wanted += &format!("778 {}\n", FRAME);
    reading.shows(wanted.as_bytes(), "the frame behind the lapse");
    wanted += "790 end 0 frames 2 crc 0 marked 0 early 0 lapses 1\n";
    reading.end().reported("a lapse while a collection is open", wanted.as_bytes(), 0);
}

/// After answer 5 nothing more is read: the reader ends though its input goes on, or waits.
#[test]
fn five_ends_it_at_once() {
    for behind in [&[][..], &[0], &[0, 0, 1, 0, 4]] {
        let mut reading = Reading::by_pipe(reader());
        reading.write(&[&bytes(vec![0x000, 0x000, 0x400]), behind].concat());
        let wanted = b"1 failed early 1\n2 end 5 frames 0 crc 0 marked 0 early 1 lapses 0\n";
        reading.ended().reported("a value above 1,023 in an input that stays open", wanted, 1);
    }
}
