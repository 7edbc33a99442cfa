//! Writes to 3.2308: document 02, #101. How many values get which answer is counted from its text.

use crate::helpers::scripts::compare;
use crate::helpers::tell::{seed, tell};
use second::t1::bench::Script;
use second::t1::end::End;
use second::t1::fields::fields;
use second::t1::generate::good_limit;
use std::collections::BTreeMap;
use std::time::Instant;

const NOTHING_PENDING: &str = "a set pending 0";
const PENDING: &str = "a set pending 1";
const WRONG: &str = "a set position C";

/// Six bits are free, 15, 11:8 and 2: 64 values have none of the others set, and bit 15 is set in half of these.
#[test]
fn all_values() {
    let start = Instant::now();
    let mut calls = 0;
    for largest in [false, true] {
        calls += write_all_values(largest, NOTHING_PENDING, &[(0, 64), (10, 65_472)]);
        calls += write_all_values(largest, PENDING, &[(0, 32), (4, 32), (10, 65_472)]);
        calls += write_all_values(largest, WRONG, &[(1, 65_536)]);
    }
    tell("read-only bits, all values", calls, "calls", start);
}

/// Each write is followed by a look at the whole end, which only answer 0 may change; the end is then made anew.
/// `wanted` has the answers given and to how many values. Gives the number of calls.
fn write_all_values(largest: bool, state: &str, wanted: &[(u8, usize)]) -> usize {
    let mut script = Script::new(seed());
    make_end(&mut script, largest, state);
    script.say(format_args!("a dump"));
    let before = script.last_answer().to_vec();
    let mut counts = BTreeMap::new();
    for value in 0..=65535u16 {
        script.say(format_args!("a write 2308 {:X}", value));
        let answer = answer_number(&script);
        // With the counts this says exactly which values get 10, and which of the others 4.
        assert!(answer != 10 || has_read_only_bit(value), "{}: {:04X} is answered 10", state, value);
        assert!(answer != 4 || value >> 15 == 1, "{}: {:04X} is answered 4", state, value);
        script.say(format_args!("a dump"));
        if answer == 0 {
            script.say(format_args!("a read 2308"));
            make_end(&mut script, largest, state);
        } else {
            assert!(script.last_answer() == before, "{}: {:04X}, answered {}, changes the end", state, value, answer);
        }
        *counts.entry(answer).or_default() += 1;
    }
    assert_eq!(counts.into_iter().collect::<Vec<_>>(), wanted, "{}", state);
    compare("read-only bits, all values", &script);
    script.calls
}

/// Every field 0, or every field at its largest good value: whatever a write stores changes one of the two ends.
fn make_end(script: &mut Script, largest: bool, state: &str) {
    for (name, field) in fields(&mut End::reset()) {
        let value = if largest { good_limit(name).unwrap_or_else(|| field.largest()) } else { 0 };
        match field.elements() {
            None => script.say(format_args!("a set {} {:X}", name, value)),
            Some(elements) => {
                (0..elements).for_each(|index| script.say(format_args!("a set {} {} {:X}", name, index, value)));
            }
        }
    }
    script.say(format_args!("{}", state));
}

fn answer_number(script: &Script) -> u8 {
    String::from_utf8_lossy(script.last_answer()).parse().expect("a write prints its answer number")
}

/// Bits 14:12, 7:3 and 1:0, one by one.
fn has_read_only_bit(value: u16) -> bool {
    [14, 13, 12, 7, 6, 5, 4, 3, 1, 0].iter().any(|bit| value >> bit & 1 == 1)
}

/// The same bits written to each other register and beside the ten: only 3.2308 is answered 10.
#[test]
fn other_registers() {
    let mut script = Script::new(seed());
    for (state, [outside, control, bytes, received]) in
        [(NOTHING_PENDING, [2, 10, 0, 3]), (PENDING, [2, 10, 4, 3]), (WRONG, [1, 1, 1, 1])]
    {
        for value in [0x70FB, 0xFFFF] {
            for register in 2307..=2318 {
                make_end(&mut script, false, state);
                script.say(format_args!("a write {} {:X}", register, value));
                let wanted = match register {
                    2308 => control,
                    2309..=2312 => bytes,
                    2313..=2317 => received,
                    _ => outside,
                };
                assert_eq!(answer_number(&script), wanted, "{}: {:04X} to {}", state, value, register);
                script.say(format_args!("a dump"));
            }
        }
    }
    compare("read-only bits, other registers", &script);
}
