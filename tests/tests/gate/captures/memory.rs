//! Recordings are far larger than memory: the reader keeps none of them.

use crate::helpers::reader::{by_shell, Reading};
use crate::helpers::tell::tell;
use second::t1::generate::bytes;
use std::env::consts::ARCH;
use std::time::Instant;

/// So many frames make 20 MB; the field behind them is longer than the memory that may be used.
const FRAMES: usize = 840_000;
const FIELD: usize = 40_000_000;
/// So many KB of address space, for bash too.
const LIMIT: usize = 65_536;

/// The emulator that runs it on another processor needs more.
#[test]
fn of_a_long_capture_none_is_kept() {
    if ARCH != "x86_64" {
        return;
    }
    let start = Instant::now();
    let mut reading = Reading::by_pipe(by_shell(&format!("ulimit -v {} && exec \"$0\"", LIMIT)));
    reading.write_times(FRAMES / 1_000, &bytes([&[0x000][..], &[0x100; 11]].concat().repeat(1_000)));
    reading.write_times(FIELD / 100_000, &bytes(vec![0x100; 100_000]));
    let ended = reading.end();
    let mut wanted = String::new();
    for frame in 0..FRAMES {
        wanted += &format!("{} frame 00 00 00 00 00 00 00 00 00 00\n", 12 * frame);
    }
    wanted += &format!("{} lapsed quiet from {}\n", 12 * FRAMES + 767, 12 * FRAMES);
    wanted += &format!("{} end 0 frames {} crc 0 marked 0 early 0 lapses 1\n", 12 * FRAMES + FIELD, FRAMES);
    ended.reported("a long capture", wanted.as_bytes(), 0);
    tell("captures, memory", 24 * FRAMES + 2 * FIELD, &format!("bytes within {} KB", LIMIT), start);
}
