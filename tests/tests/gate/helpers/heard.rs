//! What a test was told since reset, kept by itself: how often each reason (document 02, #106), and of each symbol
//! whether it completed a frame (#107).

use second::answer::Answer;
use second::t1::record::{Call, Reply};

/// How often each reason was told, in the order of the reasons' numbers from 1 on.
#[derive(Default)]
pub struct Tally {
    since_reset: [usize; 4],
    pub ever: [usize; 4],
}

impl Tally {
    /// As the counts must be.
    pub fn counts(&self) -> [u16; 4] {
        self.since_reset.map(|times| times.min(65_535) as u16)
    }

    pub fn add(&mut self, kind: usize) {
        self.since_reset[kind] += 1;
        self.ever[kind] += 1;
    }

    pub fn set(&mut self, kind: usize, count: usize) {
        self.since_reset[kind] = count;
    }

    pub fn start_from(&mut self, counts: [u16; 4]) {
        self.since_reset = counts.map(usize::from);
    }

    /// A call from C and its reply. Where it gives the counts, they are looked at.
    pub fn hear(&mut self, call: Call, reply: Reply) {
        match (call, reply) {
            (Call::Reset, (Answer::Done, _)) => self.start_from([0; 4]),
            (Call::TakeReason(_), (Answer::Done, [reason @ 1..=4, ..])) => self.add(usize::from(reason) - 1),
            (Call::Counts, (Answer::Done, counts)) => assert_eq!(counts, self.counts()),
            _ => {}
        }
    }
}

/// Of each symbol taken, the last one last, whether it completed an accepted frame.
#[derive(Default)]
pub struct Heard(Vec<bool>);

impl Heard {
    pub fn is_present(&self) -> bool {
        self.0.iter().rev().take(768).any(|accepted| *accepted)
    }

    /// How many more symbols without a frame until presence lapses.
    pub fn left(&self) -> usize {
        self.0.iter().rev().take(768).position(|accepted| *accepted).map_or(0, |later| 768 - later)
    }

    pub fn add(&mut self, accepted: bool) {
        self.0.push(accepted);
    }

    pub fn clear(&mut self) {
        self.0.clear();
    }

    /// A call from C and its reply. Where it tells of presence, that is looked at.
    pub fn hear(&mut self, call: Call, reply: Reply) {
        match (call, reply) {
            (Call::Reset, (Answer::Done, _)) => self.clear(),
            (Call::TakeReason(_), (Answer::Done, [reason, ..])) => self.add(reason == 1),
            (Call::Present, (Answer::Done, [told, ..])) => assert_eq!(told == 1, self.is_present()),
            _ => {}
        }
    }
}
