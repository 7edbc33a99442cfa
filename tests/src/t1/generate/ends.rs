//! Calls on two ends without a link, over good records and wrong ones.

use super::frames::{data_bytes, flip};
use super::Writer;
use crate::fields::Field;
use crate::random::Random;
use crate::t1::bench::Script;
use crate::t1::end::{End, PRESENCE};
use crate::t1::fields::fields;
use crate::t1::frame::{build, DATA, MARK, SYMBOLS};
use crate::t1::registers::{READ_ONLY_BITS, TX_CONTROL};
use crate::writer::SIDES;

pub fn ends(seed: u64, lines: usize) -> Script {
    let mut writer = Writer::new(seed);
    while writer.script.lines < lines {
        writer.step();
    }
    writer.dump_both();
    writer.script
}

impl Writer {
    fn step(&mut self) {
        let side = self.random.below(2);
        match self.random.below(100) {
            0..=24 => self.feed_frame(side),
            25..=44 => self.sends(side),
            45..=59 => self.offer(side),
            60..=69 => self.take_message(side),
            70..=81 => self.any_call(side),
            82..=87 => self.set_good(side),
            88..=91 => self.set_bad(side),
            92 => self.set_all(side),
            93 | 94 => self.set_collection(side),
            95 => self.script.say(format_args!("{} reset", SIDES[side])),
            96 => self.nearly_lapse(side),
            _ => self.script.say(format_args!("{} dump", SIDES[side])),
        }
    }

    /// Twelve symbols, often ones that the end waits for, at times harmed.
    fn feed_frame(&mut self, side: usize) {
        let mut list = build(&self.telling_bytes(side)).to_vec();
        let place = self.random.below(SYMBOLS);
        match self.random.below(12) {
            0 => {
                let count = 1 + self.random.below(4);
                flip(&mut list, count, &mut self.random);
            }
            1 | 2 => list[place] |= MARK,
            // Right parities, wrong CRC.
            3 => flip(&mut list[place..=place], 2, &mut self.random),
            4 => list.truncate(place),
            5 => drop(list.remove(place)),
            6 => list.insert(place, self.random.word(1100)),
            _ => {}
        }
        for symbol in list {
            self.script.say(format_args!("{} take {:03X}", SIDES[side], symbol));
        }
    }

    fn telling_bytes(&mut self, side: usize) -> [u8; DATA] {
        telling_bytes(&self.script.console().link.ends[side], &mut self.random)
    }

    fn sends(&mut self, side: usize) {
        for _ in 0..1 + self.random.below(26) {
            self.script.say(format_args!("{} send", SIDES[side]));
        }
    }

    /// Some message bytes and the control register, pending or not.
    pub fn offer(&mut self, side: usize) {
        for register in 2309..2313 {
            if self.random.one_in(3) {
                self.script.say(format_args!("{} write {} {:04X}", SIDES[side], register, self.random.word(65536)));
            }
        }
        let bit_15 = if self.random.one_in(4) { 0 } else { 0x8000 };
        let value = bit_15 | control_value(&mut self.random) & 0x7FFF;
        self.script.say(format_args!("{} write 2308 {:04X}", SIDES[side], value));
    }

    fn take_message(&mut self, side: usize) {
        for register in 2313..2318 {
            self.script.say(format_args!("{} read {}", SIDES[side], register));
        }
    }

    /// One call, any at all.
    pub fn any_call(&mut self, side: usize) {
        let name = SIDES[side];
        let register = if self.random.one_in(8) { self.random.word(65536) } else { 2306 + self.random.word(14) };
        let value = self.random.word(65536);
        let symbol = if self.random.one_in(8) { value } else { value % 1040 };
        let health = if self.random.one_in(8) { value } else { value % 6 };
        match self.random.below(12) {
            0 => self.script.say(format_args!("{} send", name)),
            1 | 2 => self.script.say(format_args!("{} take {:X}", name, symbol)),
            3..=5 => self.script.say(format_args!("{} read {}", name, register)),
            6..=8 => {
                let value = if register == TX_CONTROL { control_value(&mut self.random) } else { value };
                self.script.say(format_args!("{} write {} {:x}", name, register, value));
            }
            9 | 10 => self.script.say(format_args!("{} health {:X}", name, health)),
            _ => self.script.say(format_args!("{} present", name)),
        }
    }

    fn set_good(&mut self, side: usize) {
        let (name, index, largest) = self.any_field();
        let any = self.random.below(usize::from(largest) + 1);
        let largest = usize::from(largest);
        // Often near the largest, where a count stops, or the least, where presence lapses.
        let value = self.random.of(&[any, any, any.min(1), largest, largest - 1]);
        self.set(side, name, index, value);
    }

    /// A wrong value, some calls that must leave the end alone, and mostly a good value again.
    fn set_bad(&mut self, side: usize) {
        let (name, index, largest) = loop {
            let field = self.any_field();
            if good_limit(field.0).is_some() {
                break field;
            }
        };
        let kind_limit = if largest > 255 { 0xFFFF } else { 0xFF };
        let above = usize::from(largest) + 1;
        let value = if self.random.bool() { above } else { above + self.random.below(kind_limit + 1 - above) };
        self.set(side, name, index, value);
        for _ in 0..1 + self.random.below(6) {
            self.any_call(side);
        }
        self.script.say(format_args!("{} dump", SIDES[side]));
        if !self.random.one_in(8) {
            let value = self.random.below(above);
            self.set(side, name, index, value);
        }
    }

    /// Every field to a good value, as a record from elsewhere would be.
    fn set_all(&mut self, side: usize) {
        for (name, elements, largest) in field_kinds() {
            for index in 0..elements.unwrap_or(1) {
                let value = self.random.below(usize::from(largest) + 1);
                self.set(side, name, elements.map(|_| index), value);
            }
        }
    }

    /// A collection that no calls lead to, the CRC right but the parities any; then the symbols that it lacks.
    fn set_collection(&mut self, side: usize) {
        let frame = build(&self.telling_bytes(side));
        let count = 1 + self.random.below(SYMBOLS - 1);
        for (place, symbol) in frame[..count].iter().enumerate() {
            let value = symbol ^ u16::from(self.random.one_in(4)) << 8;
            self.set(side, "rx", Some(place), usize::from(value));
        }
        self.set(side, "count", None, count);
        for symbol in &frame[count..] {
            self.script.say(format_args!("{} take {:03X}", SIDES[side], symbol));
        }
        self.script.say(format_args!("{} dump", SIDES[side]));
    }

    /// So little is left of presence that the symbols taken next decide.
    fn nearly_lapse(&mut self, side: usize) {
        let left = self.random.below(2 * SYMBOLS);
        self.set(side, "presence_left", None, left);
        self.feed_frame(side);
        self.script.say(format_args!("{} present", SIDES[side]));
    }

    fn any_field(&mut self) -> (&'static str, Option<usize>, u16) {
        let kinds = field_kinds();
        let (name, elements, largest) = kinds[self.random.below(kinds.len())];
        (name, elements.map(|elements| self.random.below(elements)), largest)
    }
}

/// Any ten bytes, symbol 1's bits half the time as the end's toggles want them.
pub fn telling_bytes(end: &End, random: &mut Random) -> [u8; DATA] {
    let mut data = data_bytes(random);
    if random.bool() {
        data[1] = data[1] & !0x40 | u8::from(end.expected_toggle) << 6 | 0x80;
    }
    if random.bool() {
        data[1] = data[1] & !0x10 | u8::from(end.sending_toggle) << 4 | 0x20;
    }
    data
}

/// A value for 3.2308. Mostly no read-only bit is set, as of all values only one in 1,024 has none.
pub fn control_value(random: &mut Random) -> u16 {
    let value = random.word(65536);
    if random.one_in(8) {
        value
    } else {
        value & !READ_ONLY_BITS
    }
}

/// Name, number of elements, largest good value of every field.
fn field_kinds() -> Vec<(&'static str, Option<usize>, u16)> {
    let kind = |(name, field): (&'static str, Field)| {
        (name, field.elements(), good_limit(name).unwrap_or_else(|| field.largest()))
    };
    fields(&mut End::reset()).into_iter().map(kind).collect()
}

/// The largest value that answer 1 lets pass, where there is a larger one to be set.
pub fn good_limit(name: &str) -> Option<u16> {
    match name {
        "tx" | "rx" => Some(511),
        "position" | "count" => Some(11),
        "health" | "loaded_health" | "partner_health" => Some(3),
        "number" | "rx_number" => Some(15),
        "presence_left" => Some(PRESENCE),
        _ => None,
    }
}
