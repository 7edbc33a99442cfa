//! Calls on single ends: long random scripts, and everything that can be gone through one by one.

use crate::helpers::scripts::{compare, compare_random};
use crate::helpers::tell::{seed, tell};
use second::t1::bench::Script;
use second::t1::end::End;
use second::t1::fields::fields;
use second::t1::generate::{ends, good_limit};
use std::time::Instant;

#[test]
fn random_calls() {
    let calls = compare_random("ends", ends, 50, 250_000);
    assert!(calls >= 10_000_000);
}

/// All register numbers, read and written, with nothing pending, with a message pending, and on a wrong end.
#[test]
fn all_registers() {
    let start = Instant::now();
    let mut script = Script::new(seed());
    for state in ["a reset", "a write 2308 8000", "a set number 10"] {
        script.say(format_args!("{}", state));
        for register in 0..=65535u16 {
            script.say(format_args!("a read {}", register));
            script.say(format_args!("a write {} {:X}", register, register & 0x7FFF));
        }
        script.say(format_args!("a dump"));
    }
    compare("ends, all registers", &script);
    tell("ends, all registers", script.calls, "calls", start);
}

/// All values written to each register but 3.2308 (`read_only_bits` has that), with nothing and with a message pending.
#[test]
fn all_values_written() {
    let start = Instant::now();
    let mut script = Script::new(seed());
    for pending in 0..2 {
        script.say(format_args!("a set pending {}", pending));
        for register in 2309..2318 {
            for value in 0..=65535u16 {
                script.say(format_args!("a write {} {:X}", register, value));
            }
            script.say(format_args!("a dump"));
        }
    }
    compare("ends, all values", &script);
    tell("ends, all values", script.calls, "calls", start);
}

/// All symbols, with an empty collection, inside one, and as its twelfth.
#[test]
fn all_symbols() {
    let start = Instant::now();
    let mut script = Script::new(seed());
    for count in [0, 1, 5, 11] {
        for symbol in 0..=65535u16 {
            script.say(format_args!("a set count {:X}", count));
            script.say(format_args!("a take {:X}", symbol));
            if symbol < 1100 || symbol % 256 == 0 {
                script.say(format_args!("a dump"));
            }
        }
    }
    compare("ends, all symbols", &script);
    tell("ends, all symbols", script.calls, "calls", start);
}

/// Each value of each field, good or not, met by each call.
#[test]
fn all_fields() {
    let start = Instant::now();
    let mut script = Script::new(seed());
    for (name, field) in fields(&mut End::reset()) {
        let values: Vec<u16> = match good_limit(name) {
            Some(511) => vec![0, 1, 0x100, 510, 511, 512, 513, 1023, 1024, 0x8000, 65535],
            Some(768) => (0..=1030).chain([0x7FFF, 0x8000, 0x8300, 0xFF00, 65535]).collect(),
            None if field.largest() == 65535 => vec![0, 1, 0xFF, 0x100, 0x7FFF, 0x8000, 65533, 65534, 65535],
            _ => (0..=field.largest()).collect(),
        };
        for index in 0..field.elements().unwrap_or(1) {
            let place = field.elements().map_or(String::new(), |_| format!(" {}", index));
            for value in &values {
                script.say(format_args!("b set {}{} {:X}", name, place, value));
                every_call(&mut script);
                script.say(format_args!("b reset"));
            }
        }
    }
    compare("ends, all fields", &script);
    tell("ends, all fields", script.calls, "calls", start);
}

/// Each call once, refused ones too, and the end as it then is.
fn every_call(script: &mut Script) {
    let calls = [
        "present",
        "send",
        "take 000",
        "take 003",
        "take 200",
        "take 400",
        "read 2308",
        "read 2317",
        "read 2318",
        "write 2313 0",
        "write 2308 8001",
        "write 2309 1",
        "write 2307 0",
        "health 2",
        "health 4",
        "dump",
    ];
    for call in calls {
        script.say(format_args!("b {}", call));
    }
}

/// All healths that can be given.
#[test]
fn all_healths() {
    let start = Instant::now();
    let mut script = Script::new(seed());
    for health in 0..=65535u16 {
        script.say(format_args!("a health {:X}", health));
    }
    script.say(format_args!("a dump"));
    compare("ends, all healths", &script);
    tell("ends, all healths", script.calls, "calls", start);
}
