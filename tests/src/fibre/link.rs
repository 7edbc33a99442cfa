//! Two ends of the fibre channel joined.

use super::end::{Block, End};
use crate::answer::Answer;
use crate::link::{self, Joined};

pub type Link = link::Link<End>;

impl Joined for End {
    /// A block, and whether it is bad from the beginning.
    type Carried = (Block, bool);

    fn reset() -> End {
        End::default()
    }

    /// A refused send puts a bad block on the line.
    fn put(&mut self) -> (Block, bool) {
        let (answer, block) = self.send();
        (block, answer != Answer::Done)
    }

    fn get(&mut self, (block, bad): (Block, bool), marked: bool) {
        self.take(block, bad || marked);
    }
}
