//! Calls on two ends without a link, over good ends and wrong ones.

use super::Writer;
use crate::fibre::bench::Script;
use crate::fibre::end::{End, LARGEST_CONTROL};
use crate::fibre::fields::fields;
use crate::fibre::registers::{RX_CONTROL, RX_LAST, TX_CONTROL, TX_FIRST, TX_LAST};
use crate::fields::Field;
use crate::writer::SIDES;

/// Name, number of elements, largest good value of a field.
type FieldKind = (&'static str, Option<usize>, u16);

pub fn ends(seed: u64, lines: usize) -> Script {
    let mut writer = Writer::new(seed);
    while writer.script.lines < lines {
        writer.step();
    }
    writer.dump_both();
    writer.script
}

impl Writer {
    fn step(&mut self) {
        let side = self.random.below(2);
        match self.random.below(100) {
            0..=24 => self.feed_block(side),
            25..=39 => self.script.say(format_args!("{} send", SIDES[side])),
            40..=54 => self.offer(side),
            55..=62 => self.take_message(side),
            63..=78 => self.any_call(side),
            79..=86 => self.set_good(side),
            87..=90 => self.set_bad(side),
            91 => self.set_all(side),
            92 => self.script.say(format_args!("{} reset", SIDES[side])),
            _ => self.script.say(format_args!("{} dump", SIDES[side])),
        }
    }

    /// A block, often one that the end waits for. One in four is bad.
    fn feed_block(&mut self, side: usize) {
        let end = &self.script.console().link.ends[side];
        let (fresh, acknowledged) = (!end.sent.phyt, end.sent.msgt);
        let bad = self.random.one_in(4);
        let [msgt, phyt, mert] = [0; 3].map(|_| self.random.bool());
        let msgt = if self.random.bool() { fresh } else { msgt };
        let phyt = if self.random.bool() { acknowledged } else { phyt };
        let [bad, msgt, phyt, mert] = [bad, msgt, phyt, mert].map(u8::from);
        let message = self.message();
        self.script.say(format_args!("{} take {} {} {} {} {}", SIDES[side], bad, msgt, phyt, mert, message));
    }

    /// Control and words, as `take` has them.
    fn message(&mut self) -> String {
        let control = self.control();
        let words: Vec<String> = (0..8).map(|_| format!(" {:X}", self.random.word(65536))).collect();
        format!("{:X}{}", control, words.concat())
    }

    /// Mostly twelve bits, often where answer 1 begins.
    fn control(&mut self) -> u16 {
        let any = self.random.word(65536);
        let good = any & LARGEST_CONTROL;
        match self.random.below(40) {
            0 => any,
            1 => LARGEST_CONTROL,
            2 => LARGEST_CONTROL + 1,
            // the twelve bits alone would pass
            3 => good | 1 << (12 + any % 4),
            _ => good,
        }
    }

    /// Some data words and word 0, mostly with a request.
    pub fn offer(&mut self, side: usize) {
        for word in TX_FIRST..=TX_LAST {
            if self.random.one_in(3) {
                self.script.say(format_args!("{} write {} {:04X}", SIDES[side], word, self.random.word(65536)));
            }
        }
        let bit_15 = if self.random.one_in(4) { 0 } else { 0x8000 };
        let value = bit_15 | self.random.word(0x8000);
        self.script.say(format_args!("{} write {} {:04X}", SIDES[side], TX_CONTROL, value));
    }

    fn take_message(&mut self, side: usize) {
        for word in RX_CONTROL..=RX_LAST {
            self.script.say(format_args!("{} read {}", SIDES[side], word));
        }
    }

    /// One call, any at all.
    pub fn any_call(&mut self, side: usize) {
        let name = SIDES[side];
        let word = if self.random.one_in(8) { self.random.word(65536) } else { self.random.word(20) };
        match self.random.below(12) {
            0 => self.script.say(format_args!("{} send", name)),
            1 | 2 => self.feed_block(side),
            3 => self.script.say(format_args!("{} read {}", name, RX_LAST)),
            4..=7 => self.script.say(format_args!("{} read {}", name, word)),
            _ => self.script.say(format_args!("{} write {} {:x}", name, word, self.random.word(65536))),
        }
    }

    fn set_good(&mut self, side: usize) {
        let (name, index, largest) = self.any_field();
        let largest = usize::from(largest);
        let any = self.random.below(largest + 1);
        let value = self.random.of(&[any, any, any.min(1), largest]);
        self.set(side, name, index, value);
    }

    /// A control above its twelve bits, some calls that must leave the end alone, and mostly a good value again.
    fn set_bad(&mut self, side: usize) {
        let name = self.random.pick(&["control", "sent_control", "rx_control"]);
        let above = usize::from(LARGEST_CONTROL) + 1;
        let value = if self.random.bool() { above } else { above + self.random.below(65536 - above) };
        self.set(side, name, None, value);
        for _ in 0..1 + self.random.below(6) {
            self.any_call(side);
        }
        self.script.say(format_args!("{} dump", SIDES[side]));
        if !self.random.one_in(8) {
            let value = self.random.below(above);
            self.set(side, name, None, value);
        }
    }

    /// Every field to a good value: an end that no calls may lead to.
    fn set_all(&mut self, side: usize) {
        for (name, elements, largest) in field_kinds() {
            for index in 0..elements.unwrap_or(1) {
                let value = self.random.below(usize::from(largest) + 1);
                self.set(side, name, elements.map(|_| index), value);
            }
        }
    }

    fn any_field(&mut self) -> FieldKind {
        let kinds = field_kinds();
        let (name, elements, largest) = kinds[self.random.below(kinds.len())];
        (name, elements.map(|elements| self.random.below(elements)), largest)
    }
}

fn field_kinds() -> Vec<FieldKind> {
    let kind = |(name, field): (&'static str, Field)| {
        (name, field.elements(), good_limit(name).unwrap_or_else(|| field.largest()))
    };
    fields(&mut End::default()).into_iter().map(kind).collect()
}

/// The largest value that answer 1 lets pass, where there is a larger one to be set.
pub fn good_limit(name: &str) -> Option<u16> {
    name.ends_with("control").then_some(LARGEST_CONTROL)
}
