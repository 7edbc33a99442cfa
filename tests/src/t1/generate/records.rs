//! Ends, records and calls for the calls from C.

use super::ends::{control_value, good_limit, telling_bytes};
use crate::random::Random;
use crate::t1::end::End;
use crate::t1::fields::fields;
use crate::t1::frame::{build, MARK, SYMBOLS};
use crate::t1::record::Call;
use crate::t1::registers::TX_CONTROL;

/// Some calls on an end, as a line and a host would make them.
pub fn wander(end: &mut End, random: &mut Random) {
    match random.below(8) {
        0..=2 => feed_frame(end, random),
        3 | 4 => {
            for _ in 0..1 + random.below(26) {
                end.send();
            }
        }
        5 => {
            for register in 2309..2313 {
                end.write(register, random.word(65536));
            }
            end.write(TX_CONTROL, 0x8000 | control_value(random));
        }
        6 => {
            for register in 2313..2318 {
                end.read(register);
            }
        }
        _ => drop(any_call(random).on_end(end)),
    }
}

/// A frame or its beginning, at times with a symbol that does not belong there.
fn feed_frame(end: &mut End, random: &mut Random) {
    let mut frame = build(&telling_bytes(end, random));
    if random.one_in(6) {
        frame[random.below(SYMBOLS)] = random.word(1024);
    }
    let count = if random.one_in(3) { random.below(SYMBOLS) } else { SYMBOLS };
    for symbol in &frame[..count] {
        end.take(*symbol);
    }
}

/// Every field at a good value, often at its least, its largest or the one before.
pub fn any_good_end(random: &mut Random) -> End {
    let mut end = End::default();
    for (name, mut field) in fields(&mut end) {
        let largest = good_limit(name).unwrap_or_else(|| field.largest());
        for index in 0..field.elements().unwrap_or(1) {
            let any = random.below(usize::from(largest) + 1) as u16;
            field.store(index, random.of(&[0, largest, largest - 1, any, any]));
        }
    }
    end
}

/// An end that has collected symbols of a frame, often all but the last, and the call that takes the next: the right
/// one, one that breaks the collection, or a wrong one of right parity.
pub fn about_to_end(random: &mut Random) -> (End, Call) {
    let mut end = any_good_end(random);
    let frame = build(&telling_bytes(&end, random));
    let (last, any) = (SYMBOLS - 1, 1 + random.below(SYMBOLS - 1));
    let count = random.of(&[last, any, any]);
    end.rx[..count].copy_from_slice(&frame[..count]);
    end.count = count as u8;
    let next = frame[count];
    let symbol = random.of(&[next, next, next | MARK, next ^ 1, next ^ 3]);
    (end, taking(symbol, random))
}

fn taking(symbol: u16, random: &mut Random) -> Call {
    if random.bool() {
        Call::Take(symbol)
    } else {
        Call::TakeReason(symbol)
    }
}

/// One to four bytes changed.
pub fn damaged(record: &[u8], random: &mut Random) -> Vec<u8> {
    let mut damaged = record.to_vec();
    for _ in 0..1 + random.below(4) {
        let place = random.below(record.len());
        let near = damaged[place].wrapping_add(random.of(&[1, 0xFF]));
        let (bit, any) = (1 << random.below(8), random.byte());
        damaged[place] = random.of(&[near, bit, 0, 0xFF, any]);
    }
    damaged
}

pub fn any_call(random: &mut Random) -> Call {
    let any = random.word(65536);
    let symbol = random.of(&[0, 0x100, 511, 512, 1023, 1024, 65535, any, any % 1024, any % 512]);
    let register = random.of(&[2307, 2308, 2308, 2313, 2317, 2318, 2306 + any % 14, 2309 + any % 4, any]);
    let health = random.of(&[0, 3, 4, 65535, 256, any % 6, any]);
    match random.below(13) {
        0 => Call::Reset,
        1 | 2 => Call::Send,
        3 | 4 => taking(symbol, random),
        5 | 6 => Call::Read(register),
        7..=9 if register == TX_CONTROL => Call::Write(register, control_value(random)),
        7..=9 => Call::Write(register, random.word(65536)),
        10 => Call::SetHealth(health),
        11 => Call::Present,
        _ => Call::Counts,
    }
}
