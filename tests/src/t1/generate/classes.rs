//! Symbols by what can be told of one alone: its parity, and whether it is marked.

use crate::random::Random;
use crate::t1::frame::MARK;

#[derive(Clone, Copy, Debug)]
pub enum Class {
    Even,
    Odd,
    /// Marked, of either parity.
    Marked,
    MarkedEven,
    MarkedOdd,
}

/// Of these every symbol has one.
pub const CLASSES: [Class; 4] = [Class::Even, Class::Odd, Class::MarkedEven, Class::MarkedOdd];

impl Class {
    /// Any symbol of the class.
    pub fn symbol(self, random: &mut Random) -> u16 {
        let any = random.word(512);
        let flip = any.count_ones() as u16 % 2;
        let (even, odd) = (any ^ flip, any ^ flip ^ 1);
        match self {
            Class::Even => even,
            Class::Odd => odd,
            Class::Marked => any | MARK,
            Class::MarkedEven => even | MARK,
            Class::MarkedOdd => odd | MARK,
        }
    }
}

pub fn symbols_of(classes: &[Class], random: &mut Random) -> Vec<u16> {
    classes.iter().map(|class| class.symbol(random)).collect()
}

/// Every word of so many letters.
pub fn words(letters: &[Class], length: usize) -> impl Iterator<Item = Vec<Class>> + '_ {
    let count = letters.len();
    let word =
        move |number: usize| (0..length).map(|place| letters[number / count.pow(place as u32) % count]).collect();
    (0..count.pow(length as u32)).map(word)
}
