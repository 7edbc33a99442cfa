//! One end: a block sent, a block taken. The words that a host reads and writes are in `registers`.
//!
//! Every field is public, as any end may come in; one that is out of range is answered 1 and left as it was.

use crate::answer::Answer;

pub const LARGEST_CONTROL: u16 = 4095;

/// The 140 bits that go together: the control has twelve, sixteen only where answer 1 is to meet it.
#[derive(Clone, Copy, Debug, Default, PartialEq, Eq)]
pub struct Message {
    pub control: u16,
    pub words: [u16; 8],
}

impl Message {
    fn is_good(&self) -> bool {
        self.control <= LARGEST_CONTROL
    }
}

/// What a block carries. Whether it arrives whole is told beside it.
#[derive(Clone, Copy, Debug, Default, PartialEq, Eq)]
pub struct Block {
    pub msgt: bool,
    pub phyt: bool,
    pub mert: bool,
    pub message: Message,
}

/// After reset all is 0.
#[derive(Clone, Debug, Default, PartialEq, Eq)]
pub struct End {
    pub txreq: bool,
    /// What the last good block said of our messages.
    pub phyt: bool,
    pub mert: bool,
    /// The transmit words, as the host wrote them.
    pub transmit: Message,
    /// What every block carries until something is changed in it. Its MSGT is the host's too.
    pub sent: Block,
    pub rxval: bool,
    pub rx_toggle: bool,
    /// The receive words.
    pub receive: Message,
}

impl End {
    /// Whether answer 1 does not meet this end.
    pub fn is_good(&self) -> bool {
        self.transmit.is_good() && self.sent.message.is_good() && self.receive.is_good()
    }

    /// A request is taken with this block if the partner's PHY has the message before.
    pub fn send(&mut self) -> (Answer, Block) {
        if !self.is_good() {
            return (Answer::BadEnd, Block::default());
        }
        if self.txreq && self.phyt == self.sent.msgt {
            self.sent.msgt = !self.sent.msgt;
            self.sent.message = self.transmit;
            self.txreq = false;
        }
        (Answer::Done, self.sent)
    }

    /// Nothing of a bad block is used, but its control is looked at as that of any other.
    pub fn take(&mut self, block: Block, bad: bool) -> Answer {
        if !self.is_good() || !block.message.is_good() {
            return Answer::BadEnd;
        }
        if bad {
            return Answer::Done;
        }
        self.phyt = block.phyt;
        self.mert = block.mert;
        if block.msgt != self.sent.phyt && !self.rxval {
            self.receive = block.message;
            self.rx_toggle = block.msgt;
            self.rxval = true;
            self.sent.phyt = block.msgt;
        }
        Answer::Done
    }
}
