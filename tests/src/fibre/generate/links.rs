//! Two ends on lossy lines of many delays, with hosts that keep the rule for taking and hosts that don't.

use super::Writer;
use crate::fibre::bench::Script;
use crate::fibre::registers::{RX_CONTROL, RX_FIRST, RX_LAST, TX_CONTROL};
use crate::writer::SIDES;

pub fn links(seed: u64, lines: usize) -> Script {
    let mut writer = Writer::new(seed);
    while writer.script.lines < lines {
        let longest = writer.link();
        let (orderly, lossy) = (!writer.random.one_in(4), writer.random.bool());
        for _ in 0..20 + writer.random.below(200) {
            writer.turn(orderly, lossy, longest);
        }
        writer.dump_both();
    }
    writer.script
}

impl Writer {
    /// Gives the longer delay.
    fn link(&mut self) -> usize {
        let delays = [self.delay(), self.delay()];
        self.script.say(format_args!("link {} {}", delays[0], delays[1]));
        delays[0].max(delays[1])
    }

    fn delay(&mut self) -> usize {
        match self.random.below(20) {
            0 => 4096 - self.random.below(3),
            1 => self.random.below(4097),
            2..=5 => 0,
            6..=12 => 1 + self.random.below(4),
            _ => self.random.below(41),
        }
    }

    fn turn(&mut self, orderly: bool, lossy: bool, longest: usize) {
        let side = self.random.below(2);
        match self.random.below(40) {
            0..=11 => self.slots(longest),
            12..=19 => self.offer(side),
            20..=27 => self.take_by_rule(side, longest),
            28..=30 if lossy => self.script.say(format_args!("mark {} {}", SIDES[side], self.random.below(8))),
            31 => self.dump_both(),
            32 | 33 => self.script.say(format_args!("{} read {}", SIDES[side], TX_CONTROL)),
            34..=36 if !orderly => self.any_call(side),
            37 if !orderly => self.disturb(side, longest),
            _ => self.script.say(format_args!("slot")),
        }
    }

    /// A few, or at times so many that a block has gone over the longer line.
    fn slots(&mut self, longest: usize) {
        let count = match self.random.below(20) {
            0 => 0,
            1..=3 => longest + self.random.below(4),
            _ => 1 + self.random.below(5),
        };
        self.script.say(format_args!("slot {}", count));
    }

    /// Reads word 9 and, only if bit 15 is set, then 10 to 17, with slots and other calls between; at times it starts
    /// again before it is through.
    fn take_by_rule(&mut self, side: usize, longest: usize) {
        self.script.say(format_args!("{} read {}", SIDES[side], RX_CONTROL));
        if !matches!(self.script.last_answer(), [b'0', b' ', digit, ..] if *digit >= b'8') {
            return;
        }
        for word in RX_FIRST..=RX_LAST {
            match self.random.below(24) {
                0 => self.slots(longest),
                1 => self.offer(side),
                2 => self.script.say(format_args!("{} read {}", SIDES[side], TX_CONTROL)),
                3 => return,
                _ => {}
            }
            self.script.say(format_args!("{} read {}", SIDES[side], word));
        }
    }

    /// What no link brings about by itself: an end that starts anew, or one that answer 1 meets for a while, so that
    /// its blocks are bad and it takes none.
    fn disturb(&mut self, side: usize, longest: usize) {
        if self.random.one_in(3) {
            self.script.say(format_args!("{} reset", SIDES[side]));
            return;
        }
        let name = self.random.pick(&["control", "sent_control", "rx_control"]);
        let above = 4096 + self.random.below(65536 - 4096);
        self.set(side, name, None, above);
        self.slots(longest);
        let good = self.random.below(4096);
        self.set(side, name, None, good);
    }
}
