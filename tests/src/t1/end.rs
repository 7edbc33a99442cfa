//! One end: document 01, "Sending, one symbol a slot" and "Taking, one symbol", with the reason of document 02, #105,
//! the counts of #106 and the presence of #107. The registers are in `registers`.
//!
//! Every field is public, as any end may come in; one that is out of range is answered 1 and left as it was.

use super::frame::{build, data_of, has_right_crc, is_even, is_marked, Frame, DATA, LARGEST_SYMBOL, SYMBOLS};
use crate::answer::Answer;

pub const LARGEST_HEALTH: u16 = 3;
const LARGEST_NUMBER: u8 = 15;
const LARGEST_STORED: u16 = 511;
const LAST: u8 = SYMBOLS as u8 - 1;
/// So many symbols later than the last accepted frame the partner is absent.
pub const PRESENCE: u16 = 768;

#[derive(Clone, Debug, Default, PartialEq, Eq)]
pub struct End {
    /// The twelve symbols being sent.
    pub tx: Frame,
    pub position: u8,
    pub sending_toggle: bool,
    pub ready: bool,
    pub health: u8,
    /// Health as loaded at the last frame start.
    pub loaded_health: u8,
    pub pending: bool,
    pub register_toggle: bool,
    pub received: bool,
    pub received_toggle: bool,
    pub number: u8,
    pub ping_tx: bool,
    pub bytes: [u8; 8],
    /// The collection.
    pub rx: Frame,
    pub count: u8,
    /// From here to `togack`: what the last accepted frame said.
    pub partner_health: u8,
    /// Its PingRx.
    pub ping_got: bool,
    /// Its PingTx, to be echoed.
    pub partner_ping: bool,
    pub valid: bool,
    pub toggle: bool,
    pub ack: bool,
    pub togack: bool,
    pub expected_toggle: bool,
    /// The receive acknowledge.
    pub acknowledge: bool,
    pub full: bool,
    pub rx_toggle: bool,
    pub rx_number: u8,
    pub rx_bytes: [u8; 8],
    /// From here on: how many collections ended with each reason, 65,535 standing for more as well.
    pub accepted_count: u16,
    pub crc_count: u16,
    pub marked_count: u16,
    pub early_count: u16,
    pub silence: Silence,
}

/// How many symbols were taken after the one that completed the last accepted frame: 768 stands for more, and for no
/// frame at all. Below 0 it is out of range.
#[derive(Clone, Copy, Debug, PartialEq, Eq)]
pub struct Silence(i32);

impl Default for Silence {
    fn default() -> Silence {
        Silence::of_left(0)
    }
}

impl Silence {
    /// From how many more symbols without a frame it takes until presence lapses.
    pub fn of_left(left: u16) -> Silence {
        Silence(i32::from(PRESENCE) - i32::from(left))
    }

    pub fn left(self) -> u16 {
        (i32::from(PRESENCE) - self.0) as u16
    }
}

/// What became of a collection, at its twelfth symbol or where it is broken. An empty one can't be broken.
#[derive(Clone, Copy, Debug, PartialEq, Eq)]
pub enum Reason {
    Accepted,
    Crc,
    /// Broken by a marked symbol, having had so many.
    Marked(u8),
    /// Broken by an early even symbol, having had so many.
    Early(u8),
}

impl End {
    /// After reset everything is 0, the sender is ready, the position is 0.
    pub fn reset() -> End {
        End { ready: true, ..End::default() }
    }

    /// Whether answer 1 does not meet this end.
    pub fn is_good(&self) -> bool {
        self.position <= LAST
            && self.count <= LAST
            && self.tx.iter().chain(&self.rx).all(|symbol| *symbol <= LARGEST_STORED)
            && [self.health, self.loaded_health, self.partner_health].iter().all(|h| u16::from(*h) <= LARGEST_HEALTH)
            && self.number <= LARGEST_NUMBER
            && self.rx_number <= LARGEST_NUMBER
            && self.silence.0 >= 0
    }

    pub fn send(&mut self) -> (Answer, u16) {
        if !self.is_good() {
            return (Answer::BadEnd, 0);
        }
        if self.position == 0 {
            self.make_frame();
        }
        let symbol = self.tx[usize::from(self.position)];
        self.position = if self.position == LAST { 0 } else { self.position + 1 };
        (Answer::Done, symbol)
    }

    /// Sending steps 1 to 4, in this order; symbol 1's Valid, number and the bytes stay where no step changes them.
    fn make_frame(&mut self) {
        let mut data = [0; DATA];
        for (byte, symbol) in data.iter_mut().zip(&self.tx) {
            *byte = data_of(*symbol);
        }
        let mut valid = data[1] >> 7 == 1;
        let mut number = data[1] & 0xF;

        // Step 1.
        if self.ack && self.togack == self.sending_toggle {
            self.sending_toggle = self.register_toggle;
            self.ready = true;
            valid = false;
            self.received = true;
            self.received_toggle = self.togack;
        }

        // Step 2.
        self.loaded_health = self.health;
        data[0] = u8::from(self.partner_ping) << 3 | u8::from(self.ping_tx) << 2 | self.health;
        let (ack, togack, toggle) = (self.acknowledge, self.rx_toggle, self.sending_toggle);

        // Step 3.
        if self.pending && self.ready {
            valid = true;
            number = self.number;
            data[2..].copy_from_slice(&self.bytes);
            self.pending = false;
            self.register_toggle = !self.register_toggle;
            self.ready = false;
        }

        // Step 4.
        data[1] = u8::from(valid) << 7 | u8::from(toggle) << 6 | u8::from(ack) << 5 | u8::from(togack) << 4 | number;
        self.tx = build(&data);
    }

    pub fn take(&mut self, symbol: u16) -> (Answer, Option<Reason>) {
        if !self.is_good() {
            return (Answer::BadEnd, None);
        }
        if symbol > LARGEST_SYMBOL {
            return (Answer::BadSymbol, None);
        }
        self.settle();
        let reason = self.collect(symbol);
        self.count_up(reason);
        self.silence = match reason {
            Some(Reason::Accepted) => Silence(0),
            _ => Silence(i32::from(PRESENCE).min(self.silence.0 + 1)),
        };
        (Answer::Done, reason)
    }

    /// Taking step 1.
    fn settle(&mut self) {
        if !self.valid || !self.acknowledge {
            self.expected_toggle = self.toggle;
            self.acknowledge = false;
        }
    }

    /// Taking step 2, and step 3 with the twelfth symbol.
    fn collect(&mut self, symbol: u16) -> Option<Reason> {
        let collected = self.count;
        if is_marked(symbol) {
            self.count = 0;
            return (collected > 0).then_some(Reason::Marked(collected));
        }
        if is_even(symbol) {
            self.rx[0] = symbol;
            self.count = 1;
            return (collected > 0).then_some(Reason::Early(collected));
        }
        if collected > 0 {
            self.rx[usize::from(collected)] = symbol;
            self.count += 1;
        }
        if usize::from(self.count) < SYMBOLS {
            return None;
        }
        self.count = 0;
        if !has_right_crc(&self.rx) {
            return Some(Reason::Crc);
        }
        self.accept();
        Some(Reason::Accepted)
    }

    fn count_up(&mut self, reason: Option<Reason>) {
        let count = match reason {
            None => return,
            Some(Reason::Accepted) => &mut self.accepted_count,
            Some(Reason::Crc) => &mut self.crc_count,
            Some(Reason::Marked(_)) => &mut self.marked_count,
            Some(Reason::Early(_)) => &mut self.early_count,
        };
        *count = count.saturating_add(1);
    }

    /// Taking step 3, the CRC being right.
    fn accept(&mut self) {
        let bit = |place: usize, n: u16| self.rx[place] >> n & 1 == 1;
        self.partner_health = data_of(self.rx[0]) & 3;
        self.ping_got = bit(0, 3);
        self.partner_ping = bit(0, 2);
        self.valid = bit(1, 7);
        self.toggle = bit(1, 6);
        self.ack = bit(1, 5);
        self.togack = bit(1, 4);
        if !self.full && self.valid && self.toggle == self.expected_toggle {
            self.enter();
        }
    }

    fn enter(&mut self) {
        self.rx_number = data_of(self.rx[1]) & 0xF;
        for (byte, symbol) in self.rx_bytes.iter_mut().zip(&self.rx[2..]) {
            *byte = data_of(*symbol);
        }
        self.rx_toggle = self.toggle;
        self.full = true;
        self.expected_toggle = !self.expected_toggle;
        self.acknowledge = true;
    }

    pub fn set_health(&mut self, health: u16) -> Answer {
        if !self.is_good() {
            return Answer::BadEnd;
        }
        if health > LARGEST_HEALTH {
            return Answer::BadHealth;
        }
        self.health = health as u8;
        Answer::Done
    }

    pub fn is_present(&self) -> bool {
        self.is_good() && self.silence.0 < i32::from(PRESENCE)
    }
}
