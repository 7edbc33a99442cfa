//! Two ends on lossy lines of many delays, with hosts that keep document 01's rule for taking and hosts that don't.

use super::Writer;
use crate::t1::bench::Script;
use crate::writer::SIDES;

pub fn links(seed: u64, lines: usize) -> Script {
    let mut writer = Writer::new(seed);
    while writer.script.lines < lines {
        writer.link();
        let (orderly, lossy) = (!writer.random.one_in(4), writer.random.bool());
        for _ in 0..20 + writer.random.below(200) {
            writer.turn(orderly, lossy);
        }
        writer.dump_both();
    }
    writer.script
}

impl Writer {
    pub fn link(&mut self) {
        let delays = [self.delay(), self.delay()];
        self.script.say(format_args!("link {} {}", delays[0], delays[1]));
        // Else a long line would stay silent for all that follows.
        let longest = delays[0].max(delays[1]);
        if longest > 40 && self.random.bool() {
            self.script.say(format_args!("slot {}", longest));
        }
    }

    fn delay(&mut self) -> usize {
        match self.random.below(20) {
            0 => 4096 - self.random.below(3),
            1 => self.random.below(4097),
            2..=5 => 0,
            _ => self.random.below(41),
        }
    }

    fn turn(&mut self, orderly: bool, lossy: bool) {
        let side = self.random.below(2);
        match self.random.below(40) {
            0..=13 => self.slots(),
            14..=19 => self.offer(side),
            20..=27 => self.take_by_rule(side),
            28..=30 if lossy => self.marks(side),
            31 => self.dump_both(),
            32 => self.script.say(format_args!("{} read 2308", SIDES[side])),
            33 => self.script.say(format_args!("{} health {}", SIDES[side], self.random.below(5))),
            34 => self.script.say(format_args!("{} present", SIDES[side])),
            35..=37 if !orderly => self.any_call(side),
            38 if !orderly => self.disturb(side),
            _ => self.script.say(format_args!("slot")),
        }
    }

    /// A few, or at times so many that presence lapses, or nearly.
    pub fn marks(&mut self, side: usize) {
        let long = self.random.one_in(12);
        let count = if long { 740 + self.random.below(50) } else { self.random.below(31) };
        self.script.say(format_args!("mark {} {}", SIDES[side], count));
        if long {
            self.script.say(format_args!("slot {}", count + self.random.below(12)));
            self.script.say(format_args!("{} present", SIDES[side]));
        }
    }

    pub fn slots(&mut self) {
        let count = match self.random.below(40) {
            0 => self.random.below(4200),
            1 => 0,
            2..=5 => 58 + self.random.below(80),
            _ => 1 + self.random.below(26),
        };
        self.script.say(format_args!("slot {}", count));
    }

    /// Reads 3.2313 and, only if bit 15 is set, then 3.2314 to 3.2317, with slots and other calls between.
    pub fn take_by_rule(&mut self, side: usize) {
        self.script.say(format_args!("{} read 2313", SIDES[side]));
        if !matches!(self.script.last_answer(), [b'0', b' ', digit, ..] if *digit >= b'8') {
            return;
        }
        for register in 2314..2318 {
            match self.random.below(8) {
                0 => self.slots(),
                1 => self.offer(side),
                2 => self.script.say(format_args!("{} read 2308", SIDES[side])),
                _ => {}
            }
            self.script.say(format_args!("{} read {}", SIDES[side], register));
        }
    }

    /// What no link brings about by itself: an end that starts anew, or one whose record is wrong for a while.
    pub fn disturb(&mut self, side: usize) {
        let name = SIDES[side];
        if self.random.one_in(3) {
            self.script.say(format_args!("{} reset", name));
            return;
        }
        let field = self.random.pick(&["position", "count"]);
        self.script.say(format_args!("{} set {} {:X}", name, field, 12 + self.random.below(244)));
        self.slots();
        self.script.say(format_args!("{} set {} {:X}", name, field, self.random.below(12)));
    }
}
