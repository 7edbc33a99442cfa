//! What the receiver tells of a collection: document 02, #105. What must be told follows from what was done to sound
//! frames, by the request's sentence: the reason at each twelfth symbol or broken collection, where a marked symbol or
//! an early even symbol breaks a non-empty collection.

use crate::helpers::areas::compare_when;
use crate::helpers::bench::take;
use crate::helpers::frames::{sound_frames, Harm, HARMS};
use crate::helpers::scripts::compare;
use crate::helpers::tell::{seed, tell};
use second::answer::Answer;
use second::random::Random;
use second::t1::bench::Script;
use second::t1::calls::Calls;
use second::t1::end::End;
use second::t1::frame::{build, Frame};
use second::t1::generate::{data_bytes, ends};
use second::t1::record::{record_of, Call};
use std::time::Instant;

/// The reasons in the order of their numbers from C. Nothing told is the first.
const WORDS: [&str; 5] = ["", "accepted", "crc", "marked", "early"];

/// What is told, with a collection of so many symbols before.
fn printed(word: &str, collected: usize) -> String {
    match word {
        "" => "0".to_string(),
        "marked" | "early" => format!("0 {} {}", word, collected),
        _ => format!("0 {}", word),
    }
}

/// What a symbol that follows the first so many of a sound frame does: the reason's word, and how many symbols are
/// collected then.
fn outcome(frame: &Frame, collected: usize, symbol: u16) -> (&'static str, usize) {
    match (collected, symbol.count_ones() % 2 == 0) {
        (0, _) if symbol >= 512 => ("", 0),
        (_, _) if symbol >= 512 => ("marked", 0),
        (0, true) => ("", 1),
        (_, true) => ("early", 1),
        (0, false) => ("", 0),
        (11, false) if symbol == frame[11] => ("accepted", 0),
        // An odd symbol again, so its byte is another one.
        (11, false) => ("crc", 0),
        (_, false) => ("", collected + 1),
    }
}

/// Collects the first so many symbols of a frame, of which nothing is told.
fn collect(script: &mut Script, frame: &Frame, count: usize) {
    script.say(format_args!("a reset"));
    for symbol in &frame[..count] {
        take(script, *symbol, "0");
    }
}

/// A symbol that would break a collection shows whether there is one, and of how many symbols.
fn probe(script: &mut Script, symbol: u16, collected: usize) {
    let word = match (collected, symbol) {
        (0, _) => "",
        (_, 512..) => "marked",
        _ => "early",
    };
    take(script, symbol, &printed(word, collected));
}

/// Each of the 1,024 symbols after none to eleven symbols of a sound frame, then a second one that breaks.
#[test]
fn every_symbol() {
    let start = Instant::now();
    let mut random = Random::new(seed());
    let mut script = Script::new(seed());
    for (collected, symbol) in (0..12).flat_map(|collected| (0..1024).map(move |symbol| (collected, symbol))) {
        for breaking in [0x200, 0x2FF, 0x000] {
            let frame = build(&data_bytes(&mut random));
            let (word, then) = outcome(&frame, collected, symbol);
            collect(&mut script, &frame, collected);
            take(&mut script, symbol, &printed(word, collected));
            probe(&mut script, breaking, then);
        }
    }
    compare("reasons, every symbol", &script);
    tell("reasons, every symbol", script.calls, "calls", start);
}

/// The same on records from C, and beside it the call that tells no reason.
#[test]
fn every_symbol_from_c() {
    let start = Instant::now();
    let mut random = Random::new(seed());
    let mut calls = Calls::default();
    for (collected, symbol) in (0..12).flat_map(|collected| (0..1024).map(move |symbol| (collected, symbol))) {
        let frame = build(&data_bytes(&mut random));
        let mut end = End { count: collected as u8, ..End::reset() };
        end.rx[..collected].copy_from_slice(&frame[..collected]);
        let (word, then) = outcome(&frame, collected, symbol);
        let reason = WORDS.iter().position(|known| *known == word).expect("the words are these");
        let broken = if reason >= 3 { collected } else { 0 };
        for (side, call) in [Call::TakeReason(symbol), Call::Take(symbol)].into_iter().enumerate() {
            calls.lay(side, &record_of(&end));
            let wanted = if side == 0 { [reason as u16, broken as u16, 0, 0] } else { [0; 4] };
            assert_eq!(calls.call(side, call), (Answer::Done, wanted), "{}, {} collected", call, collected);
        }
        assert_eq!(calls.area(0), calls.area(1), "{:03X}, {} collected", symbol, collected);
        let wanted = if then == 0 { [0; 4] } else { [3, then as u16, 0, 0] };
        assert_eq!(
            calls.call(0, Call::TakeReason(0x200)),
            (Answer::Done, wanted),
            "after {:03X}, {} collected",
            symbol,
            collected
        );
        compare_when(false, "reasons, from C", &mut calls);
    }
    compare_when(true, "reasons, from C", &mut calls);
    tell("reasons, from C", calls.count(), "calls", start);
}

/// A sound frame, one with a harmed symbol and another sound one: each place, each harm, each wrong bit.
#[test]
fn a_harmed_frame_between_two() {
    let start = Instant::now();
    let mut random = Random::new(seed());
    let mut script = Script::new(seed());
    for frame in sound_frames(8, &mut random) {
        for (place, bit, harm) in (0..12 * 9).flat_map(|n| HARMS.map(|harm| (n / 9, n % 9, harm))) {
            let mut harmed = frame;
            harmed[place] = harm.on(frame[place], bit);
            // An even symbol where an odd one belongs starts a collection, which the next frame breaks.
            let started = if harm == Harm::Parity && place > 0 { 12 - place } else { 0 };
            let word = match (place, harm) {
                (0, _) => "",
                (_, Harm::Parity) => "early",
                _ => "marked",
            };
            take_frame(&mut script, &frame, (0, "0"), "0 accepted");
            take_frame(&mut script, &harmed, (place, &printed(word, place)), "0");
            let first = if started > 0 { printed("early", started) } else { "0".to_string() };
            take_frame(&mut script, &frame, (0, &first), "0 accepted");
        }
    }
    compare("reasons, harmed frames", &script);
    tell("reasons, harmed frames", script.calls, "calls", start);
}

/// Takes a frame: one place tells this, its last symbol that, unless it is the same place, and the others nothing.
fn take_frame(script: &mut Script, frame: &Frame, one: (usize, &str), last: &str) {
    for (place, symbol) in frame.iter().enumerate() {
        let wanted = match place {
            _ if place == one.0 => one.1,
            11 => last,
            _ => "0",
        };
        take(script, *symbol, wanted);
    }
}

/// Frame after frame, each sound or with two wrong bits in one symbol: the CRC alone shows it, at the twelfth.
#[test]
fn twelfth_symbols() {
    let start = Instant::now();
    let mut random = Random::new(seed());
    let mut script = Script::new(seed());
    for frame in sound_frames(40, &mut random) {
        for (place, high) in (0..12).flat_map(|place| (1..9).map(move |high| (place, high))) {
            let mut wrong = frame;
            wrong[place] ^= 1 << high | 1 << random.below(high);
            take_frame(&mut script, &wrong, (0, "0"), "0 crc");
            if random.bool() {
                take_frame(&mut script, &frame, (0, "0"), "0 accepted");
            }
        }
    }
    compare("reasons, twelfth symbols", &script);
    tell("reasons, twelfth symbols", script.calls, "calls", start);
}

/// A refused symbol, or a wrong end, tells nothing and changes nothing: the frame goes on and is accepted.
#[test]
fn refused_symbols() {
    let mut script = Script::new(seed());
    for frame in sound_frames(4, &mut Random::new(seed())) {
        for collected in 0..12 {
            collect(&mut script, &frame, collected);
            let next = frame[collected];
            for symbol in [1024, 1536, 2047, 0x8000, 65535, next | 0x400] {
                take(&mut script, symbol, "5");
            }
            script.say(format_args!("a set position C"));
            for symbol in [0, 0x100, 0x200, 1023, 1024, next] {
                take(&mut script, symbol, "1");
            }
            script.say(format_args!("a set position 0"));
            for symbol in &frame[collected..11] {
                take(&mut script, *symbol, "0");
            }
            take(&mut script, frame[11], "0 accepted");
        }
    }
    compare("reasons, refused symbols", &script);
}

/// The random calls that `ends::calls` compares meet every reason, broken collections of every number of symbols.
#[test]
fn random_calls_have_them_all() {
    let script = ends(seed(), 250_000);
    let broken = (1..12).flat_map(|collected| [printed("marked", collected), printed("early", collected)]);
    for wanted in broken.chain(["0 accepted".to_string(), "0 crc".to_string()]) {
        let count = script.expected.split(|byte| *byte == b'\n').filter(|line| *line == wanted.as_bytes()).count();
        assert!(count >= 50, "{:?} is printed {} times", wanted, count);
    }
}
