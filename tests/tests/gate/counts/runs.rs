//! Long runs: each count is the number of such reasons told since reset, or since it was set, or 65,535 where that is
//! more. Document 02, #106. The reasons are counted here as they are printed. And no call looks at a count.

use crate::helpers::areas::{compare_when, decide_nothing_else};
use crate::helpers::bench::counted;
use crate::helpers::frames::any_frame;
use crate::helpers::heard::Tally;
use crate::helpers::layout::{COUNTS, LENGTH};
use crate::helpers::scripts::compare;
use crate::helpers::tell::{seed, tell};
use second::random::Random;
use second::t1::bench::Script;
use second::t1::calls::Calls;
use second::t1::generate::any_call;
use second::t1::record::Call;
use std::time::Instant;

/// In the order of the counts, and of the reasons' numbers from 1 on.
const WORDS: [&str; 4] = ["accepted", "crc", "marked", "early"];

struct Run {
    random: Random,
    script: Script,
    tally: Tally,
}

impl Run {
    fn take(&mut self, symbol: u16) {
        self.script.say(format_args!("a take {:03X}", symbol));
        let told = String::from_utf8_lossy(self.script.last_answer()).into_owned();
        let word = told.split(' ').nth(1);
        if let Some(kind) = WORDS.iter().position(|known| word == Some(known)) {
            self.tally.add(kind);
        }
    }

    /// Another call, a refused symbol, an end that is wrong for a while, a reset, or a count set near its end.
    fn other_call(&mut self) {
        let value = self.random.word(65536);
        match self.random.below(10) {
            0 => self.script.say(format_args!("a send")),
            1 => self.script.say(format_args!("a read {}", 2307 + value % 12)),
            2 => self.script.say(format_args!("a write {} {:X}", 2307 + value % 12, value)),
            3 => self.script.say(format_args!("a health {:X}", value % 5)),
            4 => self.script.say(format_args!("a present")),
            5 => self.take(value | 0x400),
            6 => self.wrong_for_a_while(),
            7 if value % 64 == 0 => {
                self.script.say(format_args!("a reset"));
                self.tally.start_from([0; 4]);
            }
            8 if value % 16 == 0 => {
                let kind = self.random.below(4);
                let count = 65_530 + self.random.below(6);
                self.script.say(format_args!("a set {}_count {:X}", WORDS[kind], count));
                self.tally.set(kind, count);
            }
            _ => self.take(value % 1024),
        }
    }

    fn wrong_for_a_while(&mut self) {
        self.script.say(format_args!("a set number 10"));
        any_frame(&mut self.random).into_iter().for_each(|symbol| self.take(symbol));
        self.script.say(format_args!("a set number 0"));
    }
}

#[test]
fn counts_are_the_reasons_told() {
    let start = Instant::now();
    let (random, script) = (Random::new(seed()), Script::new(seed()));
    let mut run = Run { random, script, tally: Tally::default() };
    run.script.say(format_args!("a reset"));
    for _ in 0..30_000 {
        any_frame(&mut run.random).into_iter().for_each(|symbol| run.take(symbol));
        if run.random.bool() {
            run.other_call();
        }
        let counts = run.tally.counts();
        counted(&mut run.script, "a", counts);
    }
    compare("counts, runs", &run.script);
    assert!(run.tally.ever.iter().all(|times| *times > 2_000), "{:?}", run.tally.ever);
    tell("counts, runs", run.script.calls, "calls", start);
}

/// The same from C on two records, one by the call that tells the reason and one by the call that does not.
#[test]
fn counts_are_the_reasons_told_from_c() {
    let start = Instant::now();
    let mut random = Random::new(seed());
    let mut calls = Calls::default();
    let mut tally = Tally::default();
    for side in 0..2 {
        calls.lay(side, &[0; LENGTH]);
        calls.call(side, Call::Reset);
    }
    for turn in 0..6_000 {
        let symbols = any_frame(&mut random).into_iter().map(Call::TakeReason);
        let other = match any_call(&mut random) {
            Call::Take(symbol) => Call::TakeReason(symbol),
            // Long runs are wanted.
            Call::Reset if turn % 100 > 0 => Call::Send,
            call => call,
        };
        for call in symbols.chain([other, Call::Counts]) {
            let reply = calls.call(0, call);
            tally.hear(call, reply);
            let plain = match call {
                Call::TakeReason(symbol) => Call::Take(symbol),
                call => call,
            };
            calls.call(1, plain);
            assert_eq!(calls.area(0), calls.area(1), "{}", call);
        }
        compare_when(false, "counts, runs from C", &mut calls);
    }
    compare_when(true, "counts, runs from C", &mut calls);
    assert!(tally.ever.iter().all(|times| *times > 400), "{:?}", tally.ever);
    tell("counts, runs from C", calls.count(), "calls", start);
}

#[test]
fn counts_decide_nothing() {
    decide_nothing_else("counts, decide nothing", COUNTS, Call::Counts);
}
