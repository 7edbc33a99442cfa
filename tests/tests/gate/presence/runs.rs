//! Long runs, on ends and on two that are joined: the partner is present exactly where one of the last 768 symbols
//! taken completed an accepted frame. Document 02, #107. All symbols since reset are kept here and looked through.

use crate::helpers::areas::{compare_when, decide_nothing_else};
use crate::helpers::bench::{left, present};
use crate::helpers::frames::{any_frame, silences};
use crate::helpers::heard::Heard;
use crate::helpers::layout::{LENGTH, PRESENCE_LEFT};
use crate::helpers::scripts::{answered, compare};
use crate::helpers::tell::{seed, tell};
use second::random::Random;
use second::t1::bench::Script;
use second::t1::calls::Calls;
use second::t1::generate::any_call;
use second::t1::record::Call;
use std::time::Instant;

/// Symbols among which frames are at times near, at times so far apart that presence lapses, or nearly.
fn stretch(random: &mut Random) -> Vec<u16> {
    let any = random.below(30);
    let length = random.of(&[0, any, any, any, 740 + any, 740 + any, 760 + any, 1_000]);
    let kinds = silences(length, random);
    let mut symbols = kinds[random.below(kinds.len())].clone();
    (0..1 + random.below(3)).for_each(|_| symbols.extend(any_frame(random)));
    symbols
}

/// How often presence came, and how often it lapsed.
#[derive(Default)]
struct Changes {
    before: bool,
    times: [usize; 2],
}

impl Changes {
    fn see(&mut self, now: bool) {
        if now != self.before {
            self.times[usize::from(now)] += 1;
        }
        self.before = now;
    }
}

fn take(script: &mut Script, heard: &mut Heard, symbol: u16) {
    script.say(format_args!("a take {:X}", symbol));
    match script.last_answer() {
        b"1" | b"5" => {}
        told => heard.add(told == b"0 accepted"),
    }
}

/// A call that takes no symbol, a refused symbol, an end that is wrong for a while, or a reset.
fn other_call(script: &mut Script, heard: &mut Heard, random: &mut Random) {
    let value = random.word(65536);
    match random.below(8) {
        0 => script.say(format_args!("a send")),
        1 => script.say(format_args!("a read {}", 2307 + value % 12)),
        2 => script.say(format_args!("a write {} {:X}", 2307 + value % 12, value)),
        3 => script.say(format_args!("a health {:X}", value % 5)),
        4 => take(script, heard, value | 0x400),
        5 => {
            answered(script, "a set rx_number 10", "ok");
            any_frame(random).into_iter().for_each(|symbol| take(script, heard, symbol));
            answered(script, "a present", "no");
            answered(script, "a set rx_number 0", "ok");
        }
        6 if value % 8 == 0 => {
            answered(script, "a reset", "0");
            heard.clear();
        }
        _ => take(script, heard, value % 1024),
    }
}

#[test]
fn present_is_one_of_the_last_768() {
    let start = Instant::now();
    let mut random = Random::new(seed());
    let mut script = Script::new(seed());
    let (mut heard, mut changes) = (Heard::default(), Changes::default());
    for _ in 0..600 {
        for symbol in stretch(&mut random) {
            take(&mut script, &mut heard, symbol);
            present(&mut script, "a", heard.is_present());
            changes.see(heard.is_present());
            if random.one_in(100) {
                other_call(&mut script, &mut heard, &mut random);
            }
        }
        left(&mut script, "a", heard.left());
    }
    compare("presence, runs", &script);
    assert!(changes.times.iter().all(|times| *times > 50), "{:?}", changes.times);
    tell("presence, runs", script.calls, &format!("calls, it lapsed {} times", changes.times[0]), start);
}

/// The same from C, on a record that moves, with the bytes of what is left.
#[test]
fn present_is_one_of_the_last_768_from_c() {
    let start = Instant::now();
    let mut random = Random::new(seed());
    let mut calls = Calls::default();
    let (mut heard, mut changes) = (Heard::default(), Changes::default());
    calls.lay(0, &[0; LENGTH]);
    calls.call(0, Call::Reset);
    for turn in 0..200 {
        let symbols = stretch(&mut random).into_iter().map(Call::TakeReason);
        let others = (0..6).map(|_| match any_call(&mut random) {
            Call::Take(symbol) => Call::TakeReason(symbol),
            // Long runs are wanted.
            Call::Reset if turn % 20 > 0 => Call::Send,
            call => call,
        });
        for call in others.collect::<Vec<_>>().into_iter().chain(symbols) {
            let reply = calls.call(0, call);
            heard.hear(call, reply);
            let told = calls.call(0, Call::Present);
            heard.hear(Call::Present, told);
            let area = calls.area(0)[PRESENCE_LEFT].to_vec();
            assert_eq!(256 * usize::from(area[0]) + usize::from(area[1]), heard.left());
            changes.see(heard.is_present());
        }
        let bytes = calls.area(0).to_vec();
        calls.lay(0, &bytes);
        compare_when(false, "presence, runs from C", &mut calls);
    }
    compare_when(true, "presence, runs from C", &mut calls);
    assert!(changes.times.iter().all(|times| *times > 20), "{:?}", changes.times);
    tell("presence, runs from C", calls.count(), &format!("calls, it lapsed {} times", changes.times[0]), start);
}

#[test]
fn presence_decides_nothing_else() {
    decide_nothing_else("presence, decides nothing else", PRESENCE_LEFT, Call::Present);
}

/// b's first frame completes in slot 12 + D, and 768 is 64 frames: marked from there on, presence lapses in the 768th
/// slot, and comes again with the twelfth slot without marks. At a, whose line is sound, it stays.
#[test]
fn marks_on_a_line() {
    let mut script = Script::new(seed());
    for (forth, back) in [(0, 0), (1, 0), (0, 7), (11, 12), (12, 11), (40, 3), (2_000, 0), (4_096, 4_096)] {
        answered(&mut script, &format!("link {} {}", forth, back), "ok");
        answered(&mut script, &format!("slot {}", forth + 11), &format!("slot {}", forth + 11));
        left(&mut script, "b", 0);
        script.say(format_args!("slot"));
        left(&mut script, "b", 768);
        answered(&mut script, "mark b 65535", "ok");
        for (slots, wanted) in [(1, 767), (765, 2), (1, 1), (1, 0), (1, 0), (11, 0)] {
            script.say(format_args!("slot {}", slots));
            left(&mut script, "b", wanted);
        }
        answered(&mut script, "mark b 0", "ok");
        for (slots, wanted) in [(11, 0), (1, 768), (11, 757), (1, 768), (12, 768)] {
            script.say(format_args!("slot {}", slots));
            left(&mut script, "b", wanted);
        }
        // At a: its frames come whole, the last one as many slots ago as the delay has moved them.
        let slots = forth + 12 + 780 + 36;
        let since = (slots - back) % 12;
        left(&mut script, "a", 768 - since);
    }
    compare("presence, marks on a line", &script);
}

/// One mark in each frame is as bad as all of them, wherever it stands: 63 frames and 11 symbols, and then one more.
#[test]
fn one_mark_in_each_frame() {
    let mut script = Script::new(seed());
    for place in 0..12 {
        answered(&mut script, "link 0 0", "ok");
        script.say(format_args!("slot 12"));
        for frame in 0..64 {
            script.say(format_args!("slot {}", place));
            answered(&mut script, "mark b 1", "ok");
            script.say(format_args!("slot {}", 11 - place));
            left(&mut script, "b", 768 - 12 * frame - 11);
            script.say(format_args!("slot"));
            left(&mut script, "b", 768 - 12 * frame - 12);
            left(&mut script, "a", 768);
        }
        script.say(format_args!("slot 12"));
        left(&mut script, "b", 768);
    }
    compare("presence, one mark in each frame", &script);
}

/// A wrong end sends 0 in each slot, of which its partner makes no frame; itself it takes nothing, so that what it has
/// left stays.
#[test]
fn a_wrong_end_on_a_line() {
    let mut script = Script::new(seed());
    answered(&mut script, "link 0 0", "ok");
    script.say(format_args!("slot 17"));
    left(&mut script, "a", 763);
    answered(&mut script, "a set number 10", "ok");
    for (slots, wanted) in [(762, 1), (1, 0), (1_000, 0)] {
        script.say(format_args!("slot {}", slots));
        left(&mut script, "b", wanted);
        present(&mut script, "a", false);
    }
    answered(&mut script, "a set number F", "ok");
    left(&mut script, "a", 763);
    compare("presence, a wrong end on a line", &script);
}
