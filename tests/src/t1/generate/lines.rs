//! Lines for the bench of 1000BASE-T1, mostly as they should not be.

use crate::lines::{self, Vocabulary};
use crate::t1::bench::Script;

/// The long ones are up to what a list of 33,000 symbols needs.
const VOCABULARY: Vocabulary = Vocabulary {
    commands: &[
        "link 0 0",
        "link 3 40",
        "slot",
        "slot 12",
        "mark a 5",
        "mark b 0",
        "a reset",
        "b send",
        "a take 3FF",
        "b take 400",
        "a read 2308",
        "b read 65535",
        "a write 2308 8500",
        "b write 2309 abCD",
        "a health 3",
        "b present",
        "a set position B",
        "b set tx 11 1FF",
        "a set crc_count FFFE",
        "b set presence_left 2FF",
        "b offer ff 0 02 03 04 05 06 07 08 09 0A 0B 0C 0D 0E 0F 10 11 12 13 14 15 16 17 18 19 1A 1B 1C 1D 1E 1F \
         20 21 22 23 24 25 26 27 28 29 2A 2B 2C 2D 2E 2F 30 31 32 33 34 35 36 37 38 39 3A 3B 3C 3D 3E 3F \
         40 41 42 43 44 45 46 47 48 49 4A 4B 4C 4D 4E 4F 50 51 52 53 54 55 56 57 58 59 5A 5B 5C 5D 5E 5F \
         60 61 62 63 64 65 66 67 68 69 6A 6B 6C 6D 6E 6F 70 71 72 73 74 75 76 77 78 79 7A 7B 7C 7D 7E 7F",
        "a push",
        "b push",
        "a set full 1",
        "a pull",
        "b report",
        "check 000 100 100 100 100 100 100 100 100 100 100 100",
        "find 1 0 100 100 100 100 100 100 100 100 100 100 100",
        "crc 00 31 32 33 34 35 36 37 38 39",
        "build 00 31 32 33 34 35 36 37 38 39",
    ],
    words: &[
        "a", "b", "c", "A", "link", "slot", "mark", "reset", "send", "take", "read", "write", "health", "present",
        "dump", "set", "offer", "push", "pull", "report", "check", "find", "crc", "build", "tx", "rx_bytes", "0", "12",
        "4097", "65535", "65536", "FF", "100", "#",
    ],
    names: &[
        "tx",
        "position",
        "ready",
        "bytes",
        "rx",
        "count",
        "Count",
        "rx_number",
        "accepted_count",
        "crc_count",
        "marked_count",
        "early_count",
        "presence_left",
        "present",
        "none",
    ],
    long: &[
        ("find", " 100", 33_000, ""),
        ("find ", "FFFF ", 33_000, ""),
        ("find ", "00100 ", 32_768, ""),
        ("", "x", 160_000, ""),
        ("a take ", "0", 100_000, "3FF"),
        ("a offer", " 0", 128, ""),
        ("a offer", " FF", 20_000, ""),
        ("#", " ", 160_000, ""),
    ],
};

pub fn lines(seed: u64, lines: usize) -> Script {
    lines::lines(&VOCABULARY, seed, lines)
}
