//! Two ends joined by two lines, slot by slot, and the commands on them that every such console has.

use crate::console::{decimal, Said, Word, LARGEST};
use std::collections::VecDeque;

const LARGEST_DELAY: u32 = 4096;

/// An end, as a line sees it.
pub trait Joined {
    /// What goes over a line in one slot.
    type Carried;

    fn reset() -> Self;

    /// What the end puts on its line in a slot, a refused send too.
    fn put(&mut self) -> Self::Carried;

    /// What the line brings in a slot, `marked` where it was harmed on its way.
    fn get(&mut self, carried: Self::Carried, marked: bool);
}

/// The line that arrives at one end.
struct Line<T> {
    delay: usize,
    on_the_way: VecDeque<T>,
    /// How many of the next to arrive are marked.
    marks: u16,
}

impl<T> Line<T> {
    fn new(delay: u16) -> Line<T> {
        Line { delay: usize::from(delay), on_the_way: VecDeque::new(), marks: 0 }
    }

    /// What arrives in the slot in which `sent` is sent, and whether it is marked: nothing before the delay has run.
    fn carry(&mut self, sent: T) -> Option<(T, bool)> {
        self.on_the_way.push_back(sent);
        if self.on_the_way.len() <= self.delay {
            return None;
        }
        let arrived = self.on_the_way.pop_front()?;
        let marked = self.marks > 0;
        self.marks -= u16::from(marked);
        Some((arrived, marked))
    }
}

pub struct Link<E: Joined> {
    pub ends: [E; 2],
    /// Line n arrives at end n.
    lines: [Line<E::Carried>; 2],
    pub slots: u64,
}

impl<E: Joined> Link<E> {
    /// Both ends reset, `forth` the delay from end 0 to end 1, `back` that from 1 to 0.
    pub fn new(forth: u16, back: u16) -> Link<E> {
        Link { ends: [E::reset(), E::reset()], lines: [Line::new(back), Line::new(forth)], slots: 0 }
    }

    pub fn mark(&mut self, side: usize, count: u16) {
        self.lines[side].marks = count;
    }

    /// Both ends send, then both take what arrives.
    pub fn slot(&mut self) {
        let [a, b] = &mut self.ends;
        let (from_a, from_b) = (a.put(), b.put());
        for (side, sent) in [from_b, from_a].into_iter().enumerate() {
            if let Some((arrived, marked)) = self.lines[side].carry(sent) {
                self.ends[side].get(arrived, marked);
            }
        }
        self.slots += 1;
    }

    /// `link`, `slot` and `mark`; nothing for any other first word.
    pub fn command(&mut self, words: &[Word]) -> Option<Said> {
        let (first, rest) = words.split_first()?;
        match *first {
            b"link" => Some(self.say_link(rest)),
            b"slot" => Some(self.say_slot(rest)),
            b"mark" => Some(self.say_mark(rest)),
            _ => None,
        }
    }

    fn say_link(&mut self, words: &[Word]) -> Said {
        if let [forth, back] = words {
            *self = Link::new(decimal(forth, LARGEST_DELAY)?, decimal(back, LARGEST_DELAY)?);
            return Ok("ok".to_string());
        }
        Err("two delays are needed")
    }

    fn say_slot(&mut self, words: &[Word]) -> Said {
        let count = match words {
            [] => 1,
            [count] => decimal(count, LARGEST)?,
            _ => return Err("one count at most"),
        };
        for _ in 0..count {
            self.slot();
        }
        Ok(format!("slot {}", self.slots))
    }

    fn say_mark(&mut self, words: &[Word]) -> Said {
        if let [end, count] = words {
            let (side, count) = (side(end)?, decimal(count, LARGEST)?);
            self.mark(side, count);
            return Ok("ok".to_string());
        }
        Err("an end and a count are needed")
    }
}

/// Which of the two ends a word names.
pub fn side(word: Word) -> Result<usize, &'static str> {
    match word {
        b"a" => Ok(0),
        b"b" => Ok(1),
        _ => Err("no such command or end"),
    }
}
