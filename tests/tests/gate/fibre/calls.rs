//! Calls on single ends: long random scripts, and everything that can be gone through one by one.

use crate::helpers::scripts::{answered, compare, compare_random};
use crate::helpers::tell::{seed, tell};
use second::fibre::bench::Script;
use second::fibre::end::End;
use second::fibre::fields::fields;
use second::fibre::generate::{ends, good_limit};
use std::time::Instant;

const CONTROLS: [&str; 3] = ["control", "sent_control", "rx_control"];

#[test]
fn random_calls() {
    let calls = compare_random("fibre ends", ends, 10, 80_000);
    assert!(calls >= 500_000);
}

/// All word numbers, read and written, with no request, with one, and on a wrong end. The receive register is full.
#[test]
fn all_words() {
    let start = Instant::now();
    let mut script = Script::new(seed());
    script.say(format_args!("a take 0 1 0 0 ABC 1 2 3 4 5 6 7 8"));
    for (state, [transmit, receive, outside]) in
        [("a set txreq 0", [0, 3, 2]), ("a set txreq 1", [4, 3, 2]), ("a set rx_control 1000", [1, 1, 1])]
    {
        script.say(format_args!("{}", state));
        for word in 0..=65535u16 {
            script.say(format_args!("a read {}", word));
            let wanted = match word {
                0..=8 => transmit,
                9..=17 => receive,
                _ => outside,
            };
            answered(&mut script, &format!("a write {} {:X}", word, word & 0x7FFF), &format!("{}", wanted));
        }
        script.say(format_args!("a dump"));
    }
    compare("fibre, all words", &script);
    tell("fibre, all words", script.calls, "calls", start);
}

/// All values written to word 0. Its toggles are not the host's, whatever stands in bits 14:12; with a request none is
/// written, bit 15 set or clear.
#[test]
fn all_values_of_word_0() {
    let start = Instant::now();
    let mut script = Script::new(seed());
    for ([phyt, mert, msgt], step) in [([1, 0, 1], 1), ([0, 1, 0], 7)] {
        for (name, value) in [("phyt", phyt), ("mert", mert), ("sent_msgt", msgt)] {
            script.say(format_args!("a set {} {}", name, value));
        }
        let toggles = phyt << 14 | mert << 13 | msgt << 12;
        for value in (0..=65535u16).step_by(step) {
            answered(&mut script, &format!("a write 0 {:X}", value), "0");
            answered(&mut script, "a read 0", &format!("0 {:04X}", value & 0x8FFF | toggles));
            if value >> 15 == 1 {
                script.say(format_args!("a set txreq 0"));
            }
        }
        script.say(format_args!("a dump"));
    }
    script.say(format_args!("a set txreq 1"));
    for value in 0..=65535u16 {
        answered(&mut script, &format!("a write 0 {:X}", value), "4");
    }
    script.say(format_args!("a dump"));
    compare("fibre, all values of word 0", &script);
    tell("fibre, all values of word 0", script.calls, "calls", start);
}

/// Values written to each data word and read again, with no request and with one.
#[test]
fn values_of_data_words() {
    let start = Instant::now();
    let mut script = Script::new(seed());
    for word in 1..=8 {
        for value in (0..=65535u16).step_by(13) {
            answered(&mut script, &format!("b write {} {:X}", word, value), "0");
            answered(&mut script, &format!("b read {}", word), &format!("0 {:04X}", value));
        }
        script.say(format_args!("b set txreq 1"));
        for value in [0, 1, 0x7FFF, 0x8000, 0xFFFF] {
            answered(&mut script, &format!("b write {} {:X}", word, value), "4");
        }
        script.say(format_args!("b set txreq 0"));
        script.say(format_args!("b dump"));
    }
    compare("fibre, values of data words", &script);
    tell("fibre, values of data words", script.calls, "calls", start);
}

/// All controls that a block can have, good and bad ones: 1 above 4,095, and then nothing of it is used.
#[test]
fn all_controls_of_a_block() {
    let start = Instant::now();
    let mut script = Script::new(seed());
    for control in 0..=65535u16 {
        let bad = control % 3 / 2;
        let wanted = if control > 4095 { "1" } else { "0" };
        answered(&mut script, &format!("b take {} {} 1 0 {:X} 1 2 3 4 5 6 7 8", bad, control & 1, control), wanted);
        if control < 4200 || control % 256 == 0 {
            script.say(format_args!("b dump"));
            script.say(format_args!("b read 17"));
        }
    }
    compare("fibre, all controls of a block", &script);
    tell("fibre, all controls of a block", script.calls, "calls", start);
}

/// The controls of an end, good and wrong, each met by a call; and all three at once, which must not make up for each
/// other.
#[test]
fn controls_of_an_end() {
    let start = Instant::now();
    let mut script = Script::new(seed());
    for name in CONTROLS {
        for control in (0..=4200u16).chain((4201..=65535).step_by(97)) {
            script.say(format_args!("b set {} {:X}", name, control));
            let line =
                ["b read 1", "b write 1 5", "b take 1 0 0 0 0 0 0 0 0 0 0 0 0", "b send"][usize::from(control % 4)];
            script.say(format_args!("{}", line));
            let first = script.last_answer()[0];
            assert_eq!(first == b'1', control > 4095, "{} with {} {:X}", line, name, control);
        }
        script.say(format_args!("b set {} 0", name));
    }
    for which in 0..8 {
        for value in [0x1000, 0x2000, 0x8000, 0xF000, 0xFFFF] {
            for (bit, name) in CONTROLS.iter().enumerate() {
                script.say(format_args!("b set {} {:X}", name, if which >> bit & 1 == 1 { value } else { 0 }));
            }
            answered(&mut script, "b read 1", if which == 0 { "0 0005" } else { "1 0000" });
        }
    }
    compare("fibre, controls of an end", &script);
    tell("fibre, controls of an end", script.calls, "calls", start);
}

/// Each field at telling values, good or not, met by each call.
#[test]
fn all_fields() {
    let start = Instant::now();
    let mut script = Script::new(seed());
    for (name, field) in fields(&mut End::default()) {
        let values: &[u16] = match (field.largest(), good_limit(name)) {
            (1, _) => &[0, 1],
            (_, None) => &[0, 1, 0xFF, 0x7FFF, 0x8000, 0xFFFF],
            (_, Some(_)) => &[0, 1, 0xFFE, 0xFFF, 0x1000, 0x1001, 0x7FFF, 0x8000, 0xFFFF],
        };
        for index in 0..field.elements().unwrap_or(1) {
            let place = field.elements().map_or(String::new(), |_| format!(" {}", index));
            for value in values {
                for state in ["b reset", "b set rxval 1", "b set txreq 1"] {
                    script.say(format_args!("{}", state));
                    script.say(format_args!("b set {}{} {:X}", name, place, value));
                    every_call(&mut script);
                }
            }
        }
    }
    compare("fibre, all fields", &script);
    tell("fibre, all fields", script.calls, "calls", start);
}

/// Each call, refused ones too, and the end as it then is.
fn every_call(script: &mut Script) {
    for word in 0..=18 {
        script.say(format_args!("b read {}", word));
    }
    for call in [
        "dump",
        "send",
        "write 0 7ABC",
        "write 0 FABC",
        "write 0 0",
        "write 8 1234",
        "write 9 0",
        "write 17 0",
        "write 18 0",
        "take 1 1 1 1 FFF 1 2 3 4 5 6 7 8",
        "take 0 1 0 0 1000 1 2 3 4 5 6 7 8",
        "take 0 1 0 1 FFE 8 7 6 5 4 3 2 1",
        "take 0 0 1 0 123 1 2 3 4 5 6 7 8",
        "send",
        "dump",
        "read 17",
        "take 0 0 0 0 456 1 1 1 1 1 1 1 1",
        "read 17",
        "dump",
    ] {
        script.say(format_args!("b {}", call));
    }
}

/// Every end by its bits alone, all 256, met by every block by its bits, good and bad, by a send and by a read of word
/// 17: each step of the request, and no other.
#[test]
fn all_bits() {
    const BITS: [&str; 8] = ["txreq", "phyt", "mert", "sent_msgt", "sent_phyt", "sent_mert", "rxval", "rx_toggle"];
    let start = Instant::now();
    let mut script = Script::new(seed());
    let blocks = (0..16).map(|bits| {
        let [bad, msgt, phyt, mert] = [3, 2, 1, 0].map(|bit| bits >> bit & 1);
        format!("take {} {} {} {} 9AB 11 22 33 44 55 66 77 88", bad, msgt, phyt, mert)
    });
    let calls: Vec<String> = blocks.chain(["send".to_string(), "read 17".to_string()]).collect();
    script.say(format_args!("a write 0 123"));
    (1..=8).for_each(|word| script.say(format_args!("a write {} {:X}", word, 0xA0 + word)));
    for end in 0..256 {
        for call in &calls {
            for (bit, name) in BITS.iter().enumerate() {
                script.say(format_args!("a set {} {}", name, end >> bit & 1));
            }
            script.say(format_args!("a {}", call));
            script.say(format_args!("a dump"));
        }
    }
    compare("fibre, all bits", &script);
    tell("fibre, all bits", script.calls, "calls", start);
}
