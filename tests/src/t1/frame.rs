//! Document 01, "The frame": twelve symbols of nine bits, bits 7..0 data, bit 8 parity. The first fault is document
//! 02's, #105.

use crate::answer::Answer;

pub const SYMBOLS: usize = 12;
pub const DATA: usize = 10;
/// A symbol of this value or more is marked: its data frame could not be corrected.
pub const MARK: u16 = 512;
pub const LARGEST_SYMBOL: u16 = 1023;

pub type Frame = [u16; SYMBOLS];

/// x^15 + x^2 + 1, the generator below its x^16.
const GENERATOR: u16 = 1 << 15 | 1 << 2 | 1;

/// The register after the ten data bytes. Bit n of the result is Sn.
fn register(data: &[u8; DATA]) -> u16 {
    let mut s: u16 = 0;
    for byte in data {
        for bit in 0..8 {
            let feedback = (u16::from(*byte) >> bit & 1) ^ (s >> 15);
            s <<= 1;
            if feedback == 1 {
                s ^= GENERATOR;
            }
        }
    }
    s
}

/// The data bytes of symbols 10 and 11: S15 to bit 0 of symbol 10, S8 to its bit 7, S7 to bit 0 of symbol 11.
pub fn crc(data: &[u8; DATA]) -> [u8; 2] {
    let [high, low] = register(data).to_be_bytes();
    [high.reverse_bits(), low.reverse_bits()]
}

pub fn is_marked(symbol: u16) -> bool {
    symbol >= MARK
}

/// Whether the nine bits hold an even number of ones.
pub fn is_even(symbol: u16) -> bool {
    (symbol & 0x1FF).count_ones() % 2 == 0
}

/// Symbol 0 is even, the others are odd.
fn has_right_parity(place: usize, symbol: u16) -> bool {
    is_even(symbol) == (place == 0)
}

fn with_parity(place: usize, byte: u8) -> u16 {
    let symbol = u16::from(byte);
    if has_right_parity(place, symbol) {
        symbol
    } else {
        symbol | 1 << 8
    }
}

pub fn data_of(symbol: u16) -> u8 {
    (symbol & 0xFF) as u8
}

fn data_bytes(frame: &Frame) -> [u8; DATA] {
    let mut data = [0; DATA];
    for (byte, symbol) in data.iter_mut().zip(frame) {
        *byte = data_of(*symbol);
    }
    data
}

/// Sending step 4 alone.
pub fn build(data: &[u8; DATA]) -> Frame {
    let mut frame = [0; SYMBOLS];
    for (place, byte) in data.iter().chain(&crc(data)).enumerate() {
        frame[place] = with_parity(place, *byte);
    }
    frame
}

pub fn has_right_crc(frame: &Frame) -> bool {
    crc(&data_bytes(frame)) == [data_of(frame[10]), data_of(frame[11])]
}

pub fn is_acceptable(frame: &Frame) -> bool {
    frame.iter().enumerate().all(|(place, symbol)| !is_marked(*symbol) && has_right_parity(place, *symbol))
        && has_right_crc(frame)
}

/// What is wrong first with a frame that is not acceptable.
#[derive(Clone, Copy, Debug, PartialEq, Eq)]
pub enum Fault {
    /// The symbol at this place is marked.
    Marked(usize),
    /// The symbol at this place has wrong parity.
    Parity(usize),
    Crc,
}

/// The lowest symbol that is marked or has wrong parity, and which of the two: marked wins at the same symbol. If there
/// is none, the CRC.
fn first_fault(frame: &Frame) -> Fault {
    for (place, symbol) in frame.iter().enumerate() {
        if is_marked(*symbol) {
            return Fault::Marked(place);
        }
        if !has_right_parity(place, *symbol) {
            return Fault::Parity(place);
        }
    }
    Fault::Crc
}

/// The frame check. Answer 9 comes with the first fault.
pub fn check(list: &[u16]) -> (Answer, Option<Fault>) {
    match Frame::try_from(list) {
        Err(_) => (Answer::BadLength, None),
        Ok(_) if list.iter().any(|symbol| *symbol > LARGEST_SYMBOL) => (Answer::BadSymbol, None),
        Ok(frame) if is_acceptable(&frame) => (Answer::Done, None),
        Ok(frame) => (Answer::NotAcceptable, Some(first_fault(&frame))),
    }
}
