//! Document 02, #110: reports of 128 bytes, carried whole. Each end has a host that sends them and takes them; of its
//! end it sees the registers alone.

use super::end::End;
use super::registers::{RX_CONTROL, RX_FIRST, TX_CONTROL, TX_FIRST};
use crate::answer::Answer;
use std::collections::VecDeque;

pub const BLOCK: usize = 128;
/// The message numbers allow so many parts.
const PARTS: usize = 16;
/// Bit 15 of 3.2308 and of 3.2313.
const BIT_15: u16 = 0x8000;

pub type Block = [u8; BLOCK];
type Part = [u8; BLOCK / PARTS];

#[derive(Default)]
pub struct Host {
    pub sender: Sender,
    pub taker: Taker,
}

/// The parts of the block under way that were not accepted yet, each with its number.
#[derive(Default)]
pub struct Sender(VecDeque<(u8, Part)>);

pub enum Pushed {
    /// No block is under way.
    Idle,
    /// An earlier message is pending.
    Waits,
    /// It is at the same part as before.
    Refused(Answer),
    Part(u8),
}

impl Sender {
    /// Blocked while an earlier block is under way.
    pub fn offer(&mut self, block: &Block) -> Answer {
        if !self.0.is_empty() {
            return Answer::Blocked;
        }
        self.0 = (0..).zip(parts_of(block)).collect();
        Answer::Done
    }

    /// The number that it sends next.
    pub fn next(&self) -> Option<u8> {
        self.0.front().map(|(number, _)| *number)
    }

    pub fn push(&mut self, end: &mut End) -> Pushed {
        let (number, part) = match self.0.front() {
            None => return Pushed::Idle,
            Some(next) => *next,
        };
        for (register, pair) in (TX_FIRST..).zip(part.chunks_exact(2)) {
            match end.write(register, u16::from_le_bytes([pair[0], pair[1]])) {
                Answer::Done => {}
                Answer::Blocked if register == TX_FIRST => return Pushed::Waits,
                answer => return Pushed::Refused(answer),
            }
        }
        match end.write(TX_CONTROL, BIT_15 | u16::from(number) << 8) {
            Answer::Done => {}
            answer => return Pushed::Refused(answer),
        }
        self.0.pop_front();
        Pushed::Part(number)
    }
}

fn parts_of(block: &Block) -> impl Iterator<Item = Part> + '_ {
    block.chunks_exact(BLOCK / PARTS).map(|part| part.try_into().expect("a chunk is as long as a part"))
}

/// The parts that came in turn, from number 0 on: fifteen at most, as the sixteenth completes a block.
#[derive(Default)]
pub struct Taker(Vec<Part>);

pub enum Taken {
    Part,
    Out,
    Block(Block),
}

pub enum Pulled {
    Empty,
    Refused(Answer),
    /// A message of this number, and what the taker made of it.
    Message(u8, Taken),
}

impl Taker {
    pub fn turn(&self) -> usize {
        self.0.len()
    }

    /// The part block: zero where no part has come.
    pub fn block(&self) -> Block {
        let mut block = [0; BLOCK];
        for (place, byte) in block.iter_mut().zip(self.0.concat()) {
            *place = byte;
        }
        block
    }

    /// A number out of turn drops the part block. Then it is 0's turn, so that a 0 starts the next.
    pub fn take(&mut self, number: u8, part: Part) -> Taken {
        if usize::from(number) != self.turn() {
            self.0.clear();
        }
        if usize::from(number) != self.turn() {
            return Taken::Out;
        }
        self.0.push(part);
        if self.turn() < PARTS {
            return Taken::Part;
        }
        let block = self.block();
        self.0.clear();
        Taken::Block(block)
    }

    pub fn pull(&mut self, end: &mut End) -> Pulled {
        let (answer, control) = end.read(RX_CONTROL);
        if answer != Answer::Done {
            return Pulled::Refused(answer);
        }
        if control & BIT_15 == 0 {
            return Pulled::Empty;
        }
        let mut part = Part::default();
        for (register, pair) in (RX_FIRST..).zip(part.chunks_exact_mut(2)) {
            pair.copy_from_slice(&end.read(register).1.to_le_bytes());
        }
        let number = (control >> 8 & 0xF) as u8;
        Pulled::Message(number, self.take(number, part))
    }
}
