//! Lines for the bench of the fibre channel, mostly as they should not be.

use crate::fibre::bench::Script;
use crate::lines::{self, Vocabulary};

/// Commands of the other bench are among the words.
const VOCABULARY: Vocabulary = Vocabulary {
    commands: &[
        "link 0 0",
        "link 3 40",
        "slot",
        "slot 12",
        "mark a 5",
        "mark b 0",
        "a reset",
        "b send",
        "a take 0 1 0 0 FFF 1 2 3 4 5 6 7 8",
        "b take 1 0 1 1 1000 FFFF 0 0 0 0 0 0 abCD",
        "a read 0",
        "b read 17",
        "a read 65535",
        "a write 0 8500",
        "b write 8 abCD",
        "b write 9 0",
        "a set txreq 1",
        "b set control FFFF",
        "a set rx_control 0FFF",
        "b set sent_words 7 FFFF",
        "a set rx_words 0 1",
    ],
    words: &[
        "a", "b", "c", "A", "link", "slot", "mark", "reset", "send", "take", "read", "write", "health", "present",
        "dump", "set", "offer", "push", "pull", "report", "check", "find", "crc", "build", "words", "rxval", "0", "1",
        "2", "17", "4096", "4097", "65535", "65536", "FFF", "1000", "#",
    ],
    names: &[
        "txreq",
        "phyt",
        "mert",
        "msgt",
        "control",
        "words",
        "Words",
        "sent_msgt",
        "sent_phyt",
        "sent_mert",
        "sent_control",
        "sent_words",
        "rxval",
        "rx_toggle",
        "rx_control",
        "rx_words",
        "rx_word",
        "position",
        "none",
    ],
    long: &[
        ("a take", " 0", 80_000, ""),
        ("a take ", "0", 100_000, "0 1 0 0 FFF 1 2 3 4 5 6 7 8"),
        ("a take 0 0 0 0 0 0 0 0 0 0 0 0 ", "0", 100_000, "ABCD"),
        ("b write 8 ", "0", 100_000, "10000"),
        ("slot ", "0", 100_000, "2"),
        ("", "x", 160_000, ""),
        ("#", " ", 160_000, ""),
    ],
};

pub fn lines(seed: u64, lines: usize) -> Script {
    lines::lines(&VOCABULARY, seed, lines)
}
