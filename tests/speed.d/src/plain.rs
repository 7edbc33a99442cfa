//! Document 01's frame and finder, with #102, in plain Rust, written for the comparison. The CRC is worked bit by bit,
//! by a table of 512 bytes, or by Boost; bit 0 of its register is S15.

use crate::plain_end::End;
use crate::{Calls, Finds};
use std::marker::PhantomData;

/// The longest list that is searched: request #102.
pub const LIMIT: usize = 32_768;

pub trait Crc {
    fn crc(bytes: &[u8; 10]) -> u16;
}

pub struct Bitwise;

pub struct Table;

pub struct Boost;

extern "C" {
    // Cut from 32 bits, as in `proved`.
    fn boost_crc(ten_bytes: *const u8) -> u32;
}

const fn eight_bits(mut register: u16) -> u16 {
    let mut bit = 0;
    while bit < 8 {
        register = if register & 1 == 1 { register >> 1 ^ 0xA001 } else { register >> 1 };
        bit += 1;
    }
    register
}

static TABLE: [u16; 256] = {
    let mut table = [0; 256];
    let mut byte = 0;
    while byte < 256 {
        table[byte] = eight_bits(byte as u16);
        byte += 1;
    }
    table
};

impl Crc for Bitwise {
    fn crc(bytes: &[u8; 10]) -> u16 {
        bytes.iter().fold(0, |register, byte| eight_bits(register ^ u16::from(*byte)))
    }
}

impl Crc for Table {
    fn crc(bytes: &[u8; 10]) -> u16 {
        bytes.iter().fold(0, |register, byte| register >> 8 ^ TABLE[usize::from((register ^ u16::from(*byte)) & 0xFF)])
    }
}

impl Crc for Boost {
    fn crc(bytes: &[u8; 10]) -> u16 {
        // It reads these ten bytes and no more.
        unsafe { boost_crc(bytes.as_ptr()) as u16 }
    }
}

pub fn is_even(symbol: u16) -> bool {
    (symbol & 0x1FF).count_ones() % 2 == 0
}

/// The symbol with this data and an even number of ones, or an odd one.
pub fn symbol(byte: u8, even: bool) -> u16 {
    let data = u16::from(byte);
    if is_even(data) == even {
        data
    } else {
        data | 256
    }
}

pub fn build<C: Crc>(bytes: &[u8; 10]) -> [u16; 12] {
    let mut frame = [0; 12];
    for (place, byte) in bytes.iter().enumerate() {
        frame[place] = symbol(*byte, place == 0);
    }
    let [low, high] = C::crc(bytes).to_le_bytes();
    frame[10] = symbol(low, false);
    frame[11] = symbol(high, false);
    frame
}

pub fn has_right_crc<C: Crc>(frame: &[u16; 12]) -> bool {
    let mut bytes = [0; 10];
    for (byte, symbol) in bytes.iter_mut().zip(frame) {
        *byte = *symbol as u8;
    }
    C::crc(&bytes).to_le_bytes() == [frame[10] as u8, frame[11] as u8]
}

fn is_acceptable<C: Crc>(frame: &[u16; 12]) -> bool {
    frame[0] < 512
        && is_even(frame[0])
        && frame[1..].iter().all(|symbol| *symbol < 512 && !is_even(*symbol))
        && has_right_crc::<C>(frame)
}

fn check<C: Crc>(list: &[u16]) -> u8 {
    match <&[u16; 12]>::try_from(list) {
        Err(_) => 7,
        Ok(_) if list.iter().any(|symbol| *symbol > 1023) => 5,
        Ok(frame) if is_acceptable::<C>(frame) => 0,
        Ok(_) => 9,
    }
}

/// Place by place, as document 01 has it. Unlike the check it has one loop over all twelve symbols, symbol 0 too, and
/// looks for the largest symbol and not for one that is too large: both were the quicker of the ways tried.
fn find<C: Crc>(list: &[u16]) -> (u8, usize) {
    if list.len() > LIMIT {
        return (7, 0);
    }
    if list.iter().copied().max() > Some(1023) {
        return (5, 0);
    }
    let passes = |stretch: &[u16]| {
        stretch.iter().enumerate().all(|(place, symbol)| *symbol < 512 && is_even(*symbol) == (place == 0))
            && stretch.try_into().map_or(false, has_right_crc::<C>)
    };
    list.windows(12).position(passes).map_or((8, 0), |place| (0, place))
}

pub struct Plain<C>(PhantomData<C>);

impl<C: Crc> Calls for Plain<C> {
    fn crc(bytes: &[u8; 10]) -> u16 {
        C::crc(bytes)
    }

    fn build(bytes: &[u8; 10]) -> [u16; 12] {
        build::<C>(bytes)
    }

    fn check(list: &[u16]) -> u8 {
        check::<C>(list)
    }

    /// Two ends joined with delays 0; a message is written at a and the register at b read every 48 slots.
    fn slots(count: u32) -> u64 {
        let plus = |sum: u64, number: u16| (sum & 0xFFFF_FFFF) * 31 + u64::from(number);
        let (mut a, mut b, mut sum) = (End::reset(), End::reset(), 0);
        for left in (1..=count).rev() {
            if left % 48 == 0 {
                let number = left as u16;
                a.write(2309, number);
                a.write(2308, number % 16 << 8 | 1 << 15);
                sum = plus(plus(sum, b.read(2313).1), b.read(2317).1);
            }
            let (_, from_a) = a.send::<C>();
            let (_, from_b) = b.send::<C>();
            a.take::<C>(from_b);
            b.take::<C>(from_a);
            sum = plus(plus(sum, from_a), from_b);
        }
        sum
    }
}

impl<C: Crc> Finds for Plain<C> {
    fn found(list: &[u16]) -> u8 {
        find::<C>(list).0
    }

    fn place(list: &[u16]) -> usize {
        find::<C>(list).1
    }
}
