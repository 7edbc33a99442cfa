//! All one- to three-bit faults of a frame between two sound neighbours: it is never accepted, they always are.

use crate::helpers::scripts::{answered_list, compare};
use crate::helpers::tell::{seed, tell};
use second::random::Random;
use second::t1::bench::Script;
use second::t1::end::{End, Reason};
use second::t1::frame::{build, Frame};
use second::t1::generate::data_bytes;
use std::time::Instant;

const BITS: usize = 108;
const ALL_FAULTS: usize = 210_042;
const FAULTS_OF_ONE_OR_TWO: usize = 5_886;
const LINES: usize = 100_000;

/// Every set of one to three of the 108 bits.
fn all_faults() -> Vec<Vec<usize>> {
    let mut faults = Vec::new();
    for a in 0..BITS {
        faults.push(vec![a]);
        for b in 0..a {
            faults.push(vec![a, b]);
            faults.extend((0..b).map(|c| vec![a, b, c]));
        }
    }
    assert_eq!(faults.len(), ALL_FAULTS);
    faults
}

fn harmed(frame: &Frame, fault: &[usize]) -> Frame {
    let mut harmed = *frame;
    for bit in fault {
        harmed[bit / 9] ^= 1 << (bit % 9);
    }
    harmed
}

/// A frame and its neighbours; the three have healths of their own.
fn three_frames(seed: u64) -> [Frame; 3] {
    let mut random = Random::new(seed);
    [1, 2, 3].map(|health| {
        let mut data = data_bytes(&mut random);
        data[0] = health;
        build(&data)
    })
}

fn compare_when_long(name: &str, script: &mut Script) {
    if script.lines > LINES {
        compare(name, script);
        *script = Script::new(script.seed);
    }
}

#[test]
fn the_finder_passes_over_them() {
    let start = Instant::now();
    let mut count = 0;
    for seed in [seed(), seed() + 1] {
        let [before, frame, after] = three_frames(seed);
        let mut script = Script::new(seed);
        for fault in all_faults() {
            let capture = [before, harmed(&frame, &fault), after].concat();
            answered_list(&mut script, "find", &capture, "0 0 12");
            answered_list(&mut script, "find", &capture[1..], "0 23 12");
            compare_when_long("faults, finder", &mut script);
            count += 1;
        }
        compare("faults, finder", &script);
    }
    tell("faults, finder", count, "faults", start);
}

/// On the second implementation alone: every fault, exactly the neighbours accepted.
#[test]
fn an_end_never_accepts_them() {
    let start = Instant::now();
    let mut count = 0;
    for seed in [seed(), seed() + 1] {
        let frames = three_frames(seed);
        let mut end = End::reset();
        let mut accepts = |frame: &Frame| {
            frame.iter().fold(false, |accepted, symbol| accepted | (end.take(*symbol).1 == Some(Reason::Accepted)))
        };
        for fault in all_faults() {
            assert!(accepts(&frames[0]), "{:?}", fault);
            assert!(!accepts(&harmed(&frames[1], &fault)), "{:?}", fault);
            assert!(accepts(&frames[2]), "{:?}", fault);
            count += 1;
        }
    }
    tell("faults, an end", count, "faults", start);
}

/// All faults of one or two bits and a sample of three, the partner's health telling whose frame was used last.
#[test]
fn the_proved_end_never_accepts_them() {
    let start = Instant::now();
    let frames = three_frames(seed());
    let mut random = Random::new(seed());
    let mut script = Script::new(seed());
    let mut count = 0;
    let mut small = 0;
    for fault in all_faults() {
        small += usize::from(fault.len() < 3);
        if fault.len() == 3 && !random.one_in(50) {
            continue;
        }
        for _ in 0..random.below(4) {
            script.say(format_args!("a take {:X}", random.word(1024)));
        }
        feed(&mut script, &frames[0], "1");
        feed(&mut script, &harmed(&frames[1], &fault), "1");
        if random.one_in(8) {
            script.say(format_args!("a dump"));
        }
        feed(&mut script, &frames[2], "3");
        compare_when_long("faults, proved end", &mut script);
        count += 1;
    }
    compare("faults, proved end", &script);
    assert_eq!(small, FAULTS_OF_ONE_OR_TWO);
    tell("faults, proved end", count, "faults", start);
}

/// Takes a frame; `health` is what 3.2313 then says of the partner.
fn feed(script: &mut Script, frame: &Frame, health: &str) {
    for symbol in frame {
        script.say(format_args!("a take {:03X}", symbol));
    }
    script.say(format_args!("a read 2313"));
    assert!(script.last_answer().ends_with(health.as_bytes()), "seed {}, line {}", script.seed, script.lines);
}
