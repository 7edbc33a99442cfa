//! Runs from reset by calls alone: what the receiver tells of a collection is what the frame check says of its symbols
//! and the one that ended it, whatever follows to make up twelve. Document 02, #105, with document 01, "Taking".

use crate::helpers::frames::any_frame;
use crate::helpers::scripts::compare;
use crate::helpers::tell::{seed, tell};
use second::random::Random;
use second::t1::bench::Script;
use second::t1::frame::{MARK, SYMBOLS};
use std::collections::BTreeMap;
use std::time::Instant;

struct Run {
    random: Random,
    script: Script,
    /// The symbols collected, by the words of "Taking", step 2.
    collection: Vec<u16>,
    /// How often each answer with its reason was printed.
    told: BTreeMap<String, usize>,
}

impl Run {
    fn last_answer(&self) -> String {
        String::from_utf8_lossy(self.script.last_answer()).into_owned()
    }

    fn take(&mut self, symbol: u16) {
        self.script.say(format_args!("a take {:03X}", symbol));
        let told = self.last_answer();
        *self.told.entry(told.clone()).or_default() += 1;
        if self.collection.is_empty() {
            assert_eq!(told, "0", "no collection, symbol {:03X}", symbol);
        } else {
            self.check(symbol, &told);
        }
        self.gather(symbol);
    }

    /// Where nothing is told, nothing is wrong yet: of a marked symbol right behind, the check says that.
    fn check(&mut self, symbol: u16, told: &str) {
        let behind = self.collection.len() + 1;
        let mut list = self.collection.clone();
        list.push(symbol);
        while list.len() < SYMBOLS {
            list.push(self.random.word(1024) | if told == "0" { MARK } else { 0 });
        }
        let wanted = match told {
            "0" => format!("9 marked {}", behind),
            "0 accepted" => "0".to_string(),
            "0 crc" => "9 crc".to_string(),
            _ => told.replace("0 marked", "9 marked").replace("0 early", "9 parity"),
        };
        self.script.say_list("check", &list);
        assert_eq!(self.last_answer(), wanted, "{:03X?}, of which {} and the next made {:?}", list, behind - 1, told);
    }

    fn gather(&mut self, symbol: u16) {
        let even = symbol.count_ones() % 2 == 0;
        if symbol >= MARK || even {
            self.collection.clear();
        }
        if symbol < MARK && (even || !self.collection.is_empty()) {
            self.collection.push(symbol);
        }
        if self.collection.len() == SYMBOLS {
            self.collection.clear();
        }
    }

    /// The other calls leave the collection, and so does a refused symbol; reset empties it.
    fn other_call(&mut self) {
        let value = self.random.word(65536);
        match self.random.below(8) {
            0 => self.script.say(format_args!("a send")),
            1 => self.script.say(format_args!("a read {}", 2307 + value % 12)),
            2 => self.script.say(format_args!("a write {} {:X}", 2307 + value % 12, value)),
            3 => self.script.say(format_args!("a health {:X}", value % 5)),
            4 => self.script.say(format_args!("a present")),
            5 => self.script.say(format_args!("a take {:X}", value | 0x400)),
            6 if value % 8 == 0 => {
                self.script.say(format_args!("a reset"));
                self.collection.clear();
            }
            _ => self.take(value % 1024),
        }
    }
}

#[test]
fn the_check_says_the_same() {
    let start = Instant::now();
    let (random, script) = (Random::new(seed()), Script::new(seed()));
    let mut run = Run { random, script, collection: Vec::new(), told: BTreeMap::new() };
    run.script.say(format_args!("a reset"));
    for _ in 0..40_000 {
        any_frame(&mut run.random).into_iter().for_each(|symbol| run.take(symbol));
        if run.random.bool() {
            run.other_call();
        }
    }
    compare("reasons, runs", &run.script);
    let broken = (1..12).flat_map(|collected| [format!("0 marked {}", collected), format!("0 early {}", collected)]);
    let wanted: Vec<String> = broken.chain(["0", "0 accepted", "0 crc"].map(String::from)).collect();
    for told in &wanted {
        let count = run.told.get(told).copied().unwrap_or(0);
        assert!(count >= 200, "{:?} was told {} times", told, count);
    }
    assert_eq!(run.told.len(), wanted.len(), "{:?}", run.told);
    tell("reasons, runs", run.script.lines, "lines", start);
}
