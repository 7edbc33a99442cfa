//! Document 01, "The ten registers": 3.2308 to 3.2317, as document 02, #101 amends it.

use super::end::End;
use crate::answer::Answer;

pub const TX_CONTROL: u16 = 2308;
pub const TX_FIRST: u16 = 2309;
pub const TX_LAST: u16 = 2312;
pub const RX_CONTROL: u16 = 2313;
pub const RX_FIRST: u16 = 2314;
pub const RX_LAST: u16 = 2317;

/// Bits 14:12, 7:3 and 1:0 of 3.2308.
pub const READ_ONLY_BITS: u16 = 0x70FB;

impl End {
    pub fn read(&mut self, register: u16) -> (Answer, u16) {
        if !self.is_good() {
            return (Answer::BadEnd, 0);
        }
        let value = match register {
            TX_CONTROL => self.read_tx_control(),
            TX_FIRST..=TX_LAST => pair(&self.bytes, register - TX_FIRST),
            RX_CONTROL => self.rx_control(),
            RX_FIRST..=RX_LAST => pair(&self.rx_bytes, register - RX_FIRST),
            _ => return (Answer::NoRegister, 0),
        };
        if register == RX_LAST {
            self.full = false;
        }
        (Answer::Done, value)
    }

    /// Received is given first and cleared then.
    fn read_tx_control(&mut self) -> u16 {
        let value = u16::from(self.pending) << 15
            | u16::from(self.register_toggle) << 14
            | u16::from(self.received) << 13
            | u16::from(self.received_toggle) << 12
            | u16::from(self.number) << 8
            | u16::from(self.ping_got) << 3
            | u16::from(self.ping_tx) << 2
            | u16::from(self.loaded_health);
        self.received = false;
        value
    }

    fn rx_control(&self) -> u16 {
        u16::from(self.full) << 15
            | u16::from(self.rx_toggle) << 14
            | u16::from(self.rx_number) << 8
            | u16::from(self.partner_health)
    }

    pub fn write(&mut self, register: u16, value: u16) -> Answer {
        if !self.is_good() {
            return Answer::BadEnd;
        }
        match register {
            TX_CONTROL => self.write_tx_control(value),
            TX_FIRST..=TX_LAST if self.pending => Answer::Blocked,
            TX_FIRST..=TX_LAST => {
                let even = 2 * usize::from(register - TX_FIRST);
                self.bytes[even..even + 2].copy_from_slice(&value.to_le_bytes());
                Answer::Done
            }
            RX_CONTROL..=RX_LAST => Answer::ReadOnly,
            _ => Answer::NoRegister,
        }
    }

    /// 10 comes before 4.
    fn write_tx_control(&mut self, value: u16) -> Answer {
        if value & READ_ONLY_BITS != 0 {
            return Answer::ReadOnlyBits;
        }
        let bit_15 = value >> 15 == 1;
        if self.pending && bit_15 {
            return Answer::Blocked;
        }
        if !self.pending {
            self.pending = bit_15;
            self.number = (value >> 8 & 0xF) as u8;
        }
        self.ping_tx = value >> 2 & 1 == 1;
        Answer::Done
    }
}

/// The even byte in 7:0, the odd one in 15:8.
fn pair(bytes: &[u8; 8], index: u16) -> u16 {
    let even = 2 * usize::from(index);
    u16::from_le_bytes([bytes[even], bytes[even + 1]])
}
