//! What every kind of random script is written with.

use crate::console::Console;
use crate::random::Random;
use crate::script::Script;

pub const SIDES: [&str; 2] = ["a", "b"];

/// A script and where its choices come from.
pub struct Writer<C> {
    pub script: Script<C>,
    pub random: Random,
}

impl<C: Console> Writer<C> {
    pub fn new(seed: u64) -> Writer<C> {
        Writer { script: Script::new(seed), random: Random::new(seed) }
    }

    pub fn dump_both(&mut self) {
        self.script.say(format_args!("a dump"));
        self.script.say(format_args!("b dump"));
    }

    pub fn set(&mut self, side: usize, name: &str, index: Option<usize>, value: usize) {
        match index {
            None => self.script.say(format_args!("{} set {} {:X}", SIDES[side], name, value)),
            Some(index) => self.script.say(format_args!("{} set {} {} {:X}", SIDES[side], name, index, value)),
        }
    }
}
