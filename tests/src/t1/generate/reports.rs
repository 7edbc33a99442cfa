//! Reporting hosts on lossy lines of many delays: alone, or with other hosts at their ends, with messages from nowhere,
//! resets and wrong ends.

use super::ends::good_limit;
use super::Writer;
use crate::t1::bench::Script;
use crate::t1::report::BLOCK;
use crate::writer::SIDES;

pub fn reports(seed: u64, lines: usize) -> Script {
    let mut writer = Writer::new(seed);
    while writer.script.lines < lines {
        writer.link();
        let (alone, lossy) = (writer.random.bool(), writer.random.bool());
        for _ in 0..50 + writer.random.below(400) {
            writer.host_turn(alone, lossy);
        }
        for side in SIDES {
            writer.script.say(format_args!("{} report", side));
        }
        writer.dump_both();
    }
    writer.script
}

impl Writer {
    fn host_turn(&mut self, alone: bool, lossy: bool) {
        let side = self.random.below(2);
        match self.random.below(60) {
            0..=29 => self.host_step(side),
            30..=44 => self.slots(),
            45 | 46 if lossy => self.marks(side),
            47 => self.script.say(format_args!("{} read 2308", SIDES[side])),
            48 => self.script.say(format_args!("{} write 2308 {:04X}", SIDES[side], 4 * self.random.below(2))),
            49 => self.wrong_words(side),
            50 if !alone => self.messages_from_nowhere(side),
            51 if !alone => self.bad_end(side),
            52 if !alone => self.offer(side),
            53 if !alone => self.take_by_rule(side),
            54 if !alone => self.disturb(side),
            _ => self.script.say(format_args!("slot")),
        }
    }

    fn host_step(&mut self, side: usize) {
        match self.random.below(20) {
            0 | 1 => self.offer_block(side),
            2 | 3 => self.script.say(format_args!("{} report", SIDES[side])),
            4..=11 => self.script.say(format_args!("{} push", SIDES[side])),
            _ => self.script.say(format_args!("{} pull", SIDES[side])),
        }
    }

    fn offer_block(&mut self, side: usize) {
        let bytes: Vec<String> = (0..BLOCK).map(|_| self.byte_as_typed()).collect();
        self.script.say(format_args!("{} offer {}", SIDES[side], bytes.join(" ")));
    }

    /// Two digits, or as few as it needs, or more, of either case.
    fn byte_as_typed(&mut self) -> String {
        let byte = self.random.byte();
        match self.random.below(8) {
            0 => format!("{:X}", byte),
            1 => format!("{:x}", byte),
            2 => format!("{:05X}", byte),
            3 => format!("{:02x}", byte),
            _ => format!("{:02X}", byte),
        }
    }

    /// An offer of any length or with a byte too large, or a word too many: nothing may come of it.
    fn wrong_words(&mut self, side: usize) {
        let name = SIDES[side];
        let any = self.random.below(300);
        let count = self.random.of(&[BLOCK - 1, BLOCK + 1, BLOCK, 0, any]);
        let large = self.random.below(BLOCK);
        match self.random.below(3) {
            0 => self.script.say(format_args!("{} {} 0", name, self.random.pick(&["push", "pull", "report"]))),
            1 => self.script.say(format_args!("{} offer{}{}", name, " 1".repeat(large), " 100".repeat(BLOCK - large))),
            _ => self.script.say(format_args!("{} offer{}", name, " 7f".repeat(count))),
        }
        self.script.say(format_args!("{} report", name));
    }

    /// Messages stand in the receive register, mostly those that the taker waits for.
    fn messages_from_nowhere(&mut self, side: usize) {
        for _ in 0..1 + self.random.below(40) {
            let turn = self.script.console().hosts[side].taker.turn();
            let number = match self.random.below(40) {
                0 => 0,
                1 => 15,
                2 => self.random.below(16),
                _ => turn,
            };
            for index in 0..8 {
                if self.random.one_in(4) {
                    let byte = usize::from(self.random.byte());
                    self.set(side, "rx_bytes", Some(index), byte);
                }
            }
            self.set(side, "rx_number", None, number);
            self.set(side, "full", None, 1);
            self.script.say(format_args!("{} pull", SIDES[side]));
        }
        self.script.say(format_args!("{} report", SIDES[side]));
    }

    /// Steps of a host whose end answer 1 meets, and mostly a good end again.
    fn bad_end(&mut self, side: usize) {
        let name = self.random.pick(&["position", "count", "health", "number", "rx_number", "presence_left"]);
        let limit = usize::from(good_limit(name).expect("these fields have one"));
        self.set(side, name, None, limit + 1);
        for _ in 0..1 + self.random.below(6) {
            self.host_step(side);
        }
        self.script.say(format_args!("{} dump", SIDES[side]));
        if self.random.one_in(8) {
            self.script.say(format_args!("{} reset", SIDES[side]));
        } else {
            let value = self.random.below(limit + 1);
            self.set(side, name, None, value);
        }
    }
}
