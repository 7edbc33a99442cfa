//! `speed agree`: holds the proved calls against the plain ones on random input.
//! `speed times`: times the search of every capture.
//! `speed WORK WHO COUNT`: does a piece of work COUNT times, for `tests/speed` to count its instructions, and prints a
//! sum over the results. A search is KIND:LENGTH:SEED, or KIND:LENGTH for those of all seeds in turn.

mod agree;
mod captures;
mod plain;
mod plain_end;
mod proved;
mod random;
mod skipping;
mod times;

use captures::{frame, Capture};
use plain::{Bitwise, Boost, Plain, Table};
use proved::Proved;
use random::Random;
use skipping::Skipping;
use std::process::exit;
use std::ptr::read_volatile;

/// What is compared.
pub trait Calls {
    fn crc(bytes: &[u8; 10]) -> u16;
    /// The twelve symbols of ten bytes.
    fn build(bytes: &[u8; 10]) -> [u16; 12];
    /// The frame check's answer number.
    fn check(list: &[u16]) -> u8;
    /// The sum over so many slots of two ends from reset, a message every 48 slots.
    fn slots(count: u32) -> u64;
}

/// The finder's answer number, and its place.
pub trait Finds {
    fn found(list: &[u16]) -> u8;
    fn place(list: &[u16]) -> usize;
}

type Search = fn(&[u16]) -> usize;

/// Who searches, in the order of the tables.
pub const EVERYONE: [(&str, Search); 5] = [
    ("proved", Proved::place),
    ("bitwise", Plain::<Bitwise>::place),
    ("table", Plain::<Table>::place),
    ("boost", Plain::<Boost>::place),
    ("skipping", Skipping::place),
];

fn sum_over<T>(count: u32, inputs: &[T], call: impl Fn(&T) -> u64) -> u64 {
    let turns = inputs.iter().cycle().take(count as usize);
    // The volatile read hides from the compiler which input it is, so that no call is worked out beforehand.
    turns.fold(0, |sum: u64, input| sum.wrapping_mul(31).wrapping_add(call(unsafe { read_volatile(&input) })))
}

fn work<C: Calls>(work: &str, count: u32) -> Option<u64> {
    let mut random = Random::new(1);
    Some(match work {
        "slot" => C::slots(count),
        "check" => {
            let frames: Vec<_> = (0..64).map(|_| frame(&mut random)).collect();
            sum_over(count, &frames, |list| u64::from(C::check(list)))
        }
        "crc" => {
            let bytes: Vec<_> = (0..64).map(|_| random.bytes()).collect();
            sum_over(count, &bytes, |ten| u64::from(C::crc(ten)))
        }
        "build" => {
            let bytes: Vec<_> = (0..64).map(|_| random.bytes()).collect();
            // Which symbol is looked at is not known beforehand, so all twelve are made.
            sum_over(count, &bytes, |ten| u64::from(C::build(ten)[usize::from(ten[0]) % 12]))
        }
        _ => return None,
    })
}

fn search(captures: &[Capture], who: &str, count: u32) -> Option<u64> {
    let (_, place) = EVERYONE.iter().find(|(name, _)| *name == who)?;
    let lists: Vec<_> = captures.iter().map(Capture::list).collect();
    Some(sum_over(count, &lists, |list| place(list) as u64))
}

/// The sum over the results of WORK WHO COUNT, if there is such a work and such an implementation of it.
fn sum(name: &str, who: &str, count: &str) -> Option<u64> {
    let count = count.parse().ok()?;
    if let Some(captures) = captures::by_name(name) {
        return search(&captures, who, count);
    }
    match who {
        "proved" => work::<Proved>(name, count),
        "bitwise" => work::<Plain<Bitwise>>(name, count),
        "table" => work::<Plain<Table>>(name, count),
        "boost" => work::<Plain<Boost>>(name, count),
        _ => None,
    }
}

fn main() {
    let words: Vec<String> = std::env::args().skip(1).collect();
    let words: Vec<&str> = words.iter().map(String::as_str).collect();
    let sum = match words[..] {
        ["agree"] => return agree::all(),
        ["times"] => return times::all(),
        [name, who, count] => sum(name, who, count),
        _ => None,
    };
    match sum {
        Some(sum) => println!("{sum}"),
        None => {
            eprintln!("speed agree, speed times, or speed WORK WHO COUNT; there is no: {}", words.join(" "));
            exit(2)
        }
    }
}
