//! The host side: transmit words 0 to 8, receive words 9 to 17.

use super::end::{End, LARGEST_CONTROL};
use crate::answer::Answer;

pub const TX_CONTROL: u16 = 0;
pub const TX_FIRST: u16 = 1;
pub const TX_LAST: u16 = 8;
pub const RX_CONTROL: u16 = 9;
pub const RX_FIRST: u16 = 10;
pub const RX_LAST: u16 = 17;

impl End {
    pub fn read(&mut self, word: u16) -> (Answer, u16) {
        if !self.is_good() {
            return (Answer::BadEnd, 0);
        }
        let value = match word {
            TX_CONTROL => self.tx_control(),
            TX_FIRST..=TX_LAST => self.transmit.words[usize::from(word - TX_FIRST)],
            RX_CONTROL => self.rx_control(),
            RX_FIRST..=RX_LAST => self.receive.words[usize::from(word - RX_FIRST)],
            _ => return (Answer::NoRegister, 0),
        };
        if word == RX_LAST && self.rxval {
            self.rxval = false;
            self.sent.mert = self.rx_toggle;
        }
        (Answer::Done, value)
    }

    fn tx_control(&self) -> u16 {
        u16::from(self.txreq) << 15
            | u16::from(self.phyt) << 14
            | u16::from(self.mert) << 13
            | u16::from(self.sent.msgt) << 12
            | self.transmit.control
    }

    fn rx_control(&self) -> u16 {
        u16::from(self.rxval) << 15 | u16::from(self.rx_toggle) << 12 | self.receive.control
    }

    /// Nothing cancels a request: while there is one, word 0 with bit 15 clear is answered 4 too.
    pub fn write(&mut self, word: u16, value: u16) -> Answer {
        if !self.is_good() {
            return Answer::BadEnd;
        }
        match word {
            TX_CONTROL..=TX_LAST if self.txreq => return Answer::Blocked,
            TX_CONTROL => {
                self.txreq = value >> 15 == 1;
                self.transmit.control = value & LARGEST_CONTROL;
            }
            TX_FIRST..=TX_LAST => self.transmit.words[usize::from(word - TX_FIRST)] = value,
            RX_CONTROL..=RX_LAST => return Answer::ReadOnly,
            _ => return Answer::NoRegister,
        }
        Answer::Done
    }
}
