//! Two ends of 1000BASE-T1 joined.

use super::end::End;
use super::frame::MARK;
use crate::link::{self, Joined};

pub type Link = link::Link<End>;

impl Joined for End {
    type Carried = u16;

    fn reset() -> End {
        End::reset()
    }

    /// A refused send puts its value, 0, on the line.
    fn put(&mut self) -> u16 {
        self.send().1
    }

    fn get(&mut self, symbol: u16, marked: bool) {
        self.take(if marked { symbol | MARK } else { symbol });
    }
}
