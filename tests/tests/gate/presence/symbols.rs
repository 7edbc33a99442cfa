//! Presence, document 02, #107, symbol by symbol: what lets it lapse, what renews it, what leaves it. Every number is
//! spelled out.

use crate::helpers::bench::{left, present, take};
use crate::helpers::frames::silences;
use crate::helpers::scripts::{answered, compare};
use crate::helpers::tell::{seed, tell};
use second::random::Random;
use second::t1::bench::Script;
use second::t1::frame::MARK;
use std::time::Instant;

/// Document 01's first frame after reset.
const P1: [u16; 12] = [0x000, 0x100, 0x100, 0x100, 0x100, 0x100, 0x100, 0x100, 0x100, 0x100, 0x100, 0x100];

fn accept(script: &mut Script) {
    P1[..11].iter().for_each(|symbol| take(script, *symbol, "0"));
    take(script, P1[11], "0 accepted");
}

/// One that completes no frame.
fn take_silent(script: &mut Script, symbol: u16) {
    script.say(format_args!("a take {:03X}", symbol));
    let told = script.last_answer();
    assert!(told.starts_with(b"0") && !told.ends_with(b"accepted"), "line {}, {:03X}", script.lines, symbol);
}

/// What is left at 766, 767, 768 and 769 later symbols, and presence at each.
#[test]
fn lapses_with_the_768th_symbol() {
    let start = Instant::now();
    let mut script = Script::new(seed());
    let kinds = silences(1_600, &mut Random::new(seed()));
    for symbols in &kinds {
        answered(&mut script, "a reset", "0");
        left(&mut script, "a", 0);
        accept(&mut script);
        left(&mut script, "a", 768);
        for (index, symbol) in symbols.iter().enumerate() {
            take_silent(&mut script, *symbol);
            match index + 1 {
                766 => left(&mut script, "a", 2),
                767 => left(&mut script, "a", 1),
                768 | 769 => left(&mut script, "a", 0),
                later => present(&mut script, "a", later < 768),
            }
        }
        left(&mut script, "a", 0);
    }
    compare("presence, lapses", &script);
    tell("presence, lapses", kinds.len() * 1_600, "later symbols", start);
}

/// A second frame so many symbols behind the first: its own twelve count as later symbols too, so that of 756 it
/// completes on the 768th and presence has never lapsed, of 757 it was absent for one symbol.
#[test]
fn renewed_by_the_next_frame() {
    let start = Instant::now();
    let mut script = Script::new(seed());
    for gap in [0, 1, 11, 12, 13, 755, 756, 757, 758, 767, 768, 769, 1_536] {
        for symbols in silences(gap, &mut Random::new(seed())) {
            answered(&mut script, "a reset", "0");
            accept(&mut script);
            symbols.iter().for_each(|symbol| take_silent(&mut script, *symbol));
            present(&mut script, "a", gap < 768);
            for (index, symbol) in P1[..11].iter().enumerate() {
                take_silent(&mut script, *symbol);
                present(&mut script, "a", gap + index + 1 < 768);
            }
            left(&mut script, "a", 768usize.saturating_sub(gap + 11));
            take(&mut script, P1[11], "0 accepted");
            left(&mut script, "a", 768);
            take_silent(&mut script, 0x100);
            left(&mut script, "a", 767);
        }
    }
    compare("presence, renewed", &script);
    tell("presence, renewed", script.calls, "calls", start);
}

/// Frame after frame, with nothing between or so much that presence nearly lapses: it never does.
#[test]
fn held_by_frames() {
    let mut script = Script::new(seed());
    for gap in [0, 1, 400, 756] {
        answered(&mut script, "a reset", "0");
        for _ in 0..6 {
            accept(&mut script);
            left(&mut script, "a", 768);
            for _ in 0..gap {
                take_silent(&mut script, 0x100);
                present(&mut script, "a", true);
            }
        }
    }
    compare("presence, held", &script);
}

/// A refused symbol is not taken, and a call that takes none lets nothing lapse; nor does anything on a wrong end.
#[test]
fn what_lets_nothing_lapse() {
    let mut script = Script::new(seed());
    for (value, wrong) in [0, 1, 2, 767, 768].iter().flat_map(|value| [(*value, false), (*value, true)]) {
        answered(&mut script, "a reset", "0");
        answered(&mut script, &format!("a set presence_left {:X}", value), "ok");
        answered(&mut script, &format!("a set position {:X}", if wrong { 12 } else { 11 }), "ok");
        script.say(format_args!("a dump"));
        let before = script.last_answer().to_vec();
        for symbol in (0..=65_535).filter(|symbol| wrong || *symbol > 1_023).step_by(61) {
            answered(&mut script, &format!("a take {:X}", symbol), if wrong { "1" } else { "5" });
        }
        script.say(format_args!("a dump"));
        assert_eq!(script.last_answer(), before);
        let stays = |script: &mut Script, call: &str| {
            script.say(format_args!("a {}", call));
            script.say(format_args!("a dump"));
            assert!(script.last_answer().ends_with(format!(" presence_left={:X}", value).as_bytes()), "{}", call);
            present(script, "a", !wrong && value > 0);
        };
        for register in 2_307..=2_318 {
            stays(&mut script, &format!("read {}", register));
            stays(&mut script, &format!("write {} 1", register));
            stays(&mut script, &format!("write {} 8500", register));
        }
        (0..30).for_each(|_| stays(&mut script, "send"));
        for call in ["health 0", "health 3", "health 4", "present", "dump", "set count 0"] {
            stays(&mut script, call);
        }
    }
    compare("presence, lets nothing lapse", &script);
}

/// A source without OAM sends a field that stays the same: each of the 1,024 symbols, again and again, and with some of
/// them marked. As no more than 768 come between, a frame accepted anywhere would show.
#[test]
fn a_field_that_stays_the_same() {
    let start = Instant::now();
    let mut random = Random::new(seed());
    let mut script = Script::new(seed());
    for symbol in 0..1_024 {
        answered(&mut script, "a reset", "0");
        for marks in [false, true] {
            for _ in 0..250 {
                let mark = if marks && random.one_in(20) { MARK } else { 0 };
                take_silent(&mut script, symbol | mark);
            }
            present(&mut script, "a", false);
        }
        left(&mut script, "a", 0);
    }
    compare("presence, a field that stays the same", &script);
    tell("presence, a field that stays the same", 1_024 * 500, "symbols", start);
}
