//! Document 01's end, with document 02's request #101, in plain Rust, written for the comparison. Every call gives its
//! answer number first.

use crate::plain::{build, has_right_crc, is_even, Crc};

/// Bits 14:12, 7:3 and 1:0 of 3.2308.
const READ_ONLY_BITS: u16 = 0x70FB;

/// What the last accepted frame said.
#[derive(Default)]
struct Heard {
    health: u8,
    ping_rx: bool,
    ping_tx: bool,
    valid: bool,
    toggle: bool,
    ack: bool,
    togack: bool,
}

#[derive(Default)]
pub struct End {
    tx: [u16; 12],
    position: u8,
    sending_toggle: bool,
    ready: bool,
    health: u8,
    loaded_health: u8,
    pending: bool,
    register_toggle: bool,
    received: bool,
    received_toggle: bool,
    number: u8,
    ping: bool,
    bytes: [u8; 8],
    rx: [u16; 12],
    count: u8,
    heard: Heard,
    expected_toggle: bool,
    acknowledge: bool,
    full: bool,
    rx_toggle: bool,
    rx_number: u8,
    rx_bytes: [u8; 8],
}

impl End {
    pub fn reset() -> End {
        End { ready: true, ..End::default() }
    }

    fn is_good(&self) -> bool {
        self.position <= 11
            && self.count <= 11
            && self.tx.iter().all(|symbol| *symbol <= 511)
            && self.rx.iter().all(|symbol| *symbol <= 511)
            && self.health <= 3
            && self.loaded_health <= 3
            && self.heard.health <= 3
            && self.number <= 15
            && self.rx_number <= 15
    }

    pub fn send<C: Crc>(&mut self) -> (u8, u16) {
        if !self.is_good() {
            return (1, 0);
        }
        if self.position == 0 {
            self.make_frame::<C>();
        }
        let symbol = self.tx[usize::from(self.position)];
        self.position = if self.position == 11 { 0 } else { self.position + 1 };
        (0, symbol)
    }

    fn make_frame<C: Crc>(&mut self) {
        let mut valid = self.tx[1] & 0x80 != 0;
        if self.heard.ack && self.heard.togack == self.sending_toggle {
            self.sending_toggle = self.register_toggle;
            self.ready = true;
            valid = false;
            self.received = true;
            self.received_toggle = self.heard.togack;
        }
        let toggle = self.sending_toggle;
        let mut number = self.tx[1] as u8 & 15;
        let mut data = [0; 10];
        for (byte, symbol) in data[2..].iter_mut().zip(&self.tx[2..10]) {
            *byte = *symbol as u8;
        }
        if self.pending && self.ready {
            valid = true;
            number = self.number;
            data[2..].copy_from_slice(&self.bytes);
            self.pending = false;
            self.register_toggle = !self.register_toggle;
            self.ready = false;
        }
        self.loaded_health = self.health;
        data[0] = u8::from(self.heard.ping_tx) << 3 | u8::from(self.ping) << 2 | self.health;
        data[1] = u8::from(valid) << 7
            | u8::from(toggle) << 6
            | u8::from(self.acknowledge) << 5
            | u8::from(self.rx_toggle) << 4
            | number;
        self.tx = build::<C>(&data);
    }

    pub fn take<C: Crc>(&mut self, symbol: u16) -> u8 {
        if !self.is_good() {
            return 1;
        }
        if symbol > 1023 {
            return 5;
        }
        if !self.heard.valid || !self.acknowledge {
            self.expected_toggle = self.heard.toggle;
            self.acknowledge = false;
        }
        if symbol >= 512 {
            self.count = 0;
        } else if is_even(symbol) {
            self.rx[0] = symbol;
            self.count = 1;
        } else if self.count > 0 {
            self.rx[usize::from(self.count)] = symbol;
            self.count += 1;
            if self.count == 12 {
                self.count = 0;
                if has_right_crc::<C>(&self.rx) {
                    self.accept();
                }
            }
        }
        0
    }

    fn accept(&mut self) {
        let bit = |symbol: u16, n: u32| symbol >> n & 1 == 1;
        let [zero, one, ..] = self.rx;
        self.heard = Heard {
            health: (zero & 3) as u8,
            ping_rx: bit(zero, 3),
            ping_tx: bit(zero, 2),
            valid: bit(one, 7),
            toggle: bit(one, 6),
            ack: bit(one, 5),
            togack: bit(one, 4),
        };
        if !self.full && self.heard.valid && self.heard.toggle == self.expected_toggle {
            self.rx_number = (one & 15) as u8;
            for (byte, symbol) in self.rx_bytes.iter_mut().zip(&self.rx[2..]) {
                *byte = *symbol as u8;
            }
            self.rx_toggle = self.heard.toggle;
            self.full = true;
            self.expected_toggle = !self.heard.toggle;
            self.acknowledge = true;
        }
    }

    pub fn read(&mut self, register: u16) -> (u8, u16) {
        if !self.is_good() {
            return (1, 0);
        }
        let pair = |bytes: &[u8; 8], at: u16| u16::from_le_bytes([bytes[2 * at as usize], bytes[2 * at as usize + 1]]);
        let bit = |set: bool, n: u32| u16::from(set) << n;
        let value = match register {
            2308 => {
                let received = std::mem::replace(&mut self.received, false);
                bit(self.pending, 15)
                    | bit(self.register_toggle, 14)
                    | bit(received, 13)
                    | bit(self.received_toggle, 12)
                    | u16::from(self.number) << 8
                    | bit(self.heard.ping_rx, 3)
                    | bit(self.ping, 2)
                    | u16::from(self.loaded_health)
            }
            2309..=2312 => pair(&self.bytes, register - 2309),
            2313 => {
                bit(self.full, 15)
                    | bit(self.rx_toggle, 14)
                    | u16::from(self.rx_number) << 8
                    | u16::from(self.heard.health)
            }
            2314..=2317 => pair(&self.rx_bytes, register - 2314),
            _ => return (2, 0),
        };
        if register == 2317 {
            self.full = false;
        }
        (0, value)
    }

    pub fn write(&mut self, register: u16, value: u16) -> u8 {
        if !self.is_good() {
            return 1;
        }
        match register {
            2308 if value & READ_ONLY_BITS != 0 => return 10,
            2308 if self.pending && value >> 15 == 1 => return 4,
            2308 => {
                if !self.pending {
                    self.pending = value >> 15 == 1;
                    self.number = (value >> 8 & 15) as u8;
                }
                self.ping = value >> 2 & 1 == 1;
            }
            2309..=2312 if self.pending => return 4,
            2309..=2312 => {
                let at = 2 * usize::from(register - 2309);
                self.bytes[at..at + 2].copy_from_slice(&value.to_le_bytes());
            }
            2313..=2317 => return 3,
            _ => return 2,
        }
        0
    }
}
