//! The proved calls, of the static library `speed`, which `tests/speed.d/archive` builds.

use crate::{Calls, Finds};

// A result of fewer than 32 bits is cut from 32: what stands above it may be anything, and a Rust compiler may take it
// for zeros (1.63 does, on aarch64).
extern "C" {
    fn simhadol_crc(bytes: *const u8) -> u32;
    fn simhadol_build(bytes: *const u8, symbols: *mut u16);
    fn simhadol_check(list: *const u16, len: usize) -> u32;
    fn simhadol_found(list: *const u16, len: usize) -> u32;
    fn simhadol_place(list: *const u16, len: usize) -> usize;
    fn simhadol_slots(count: u32) -> u64;
}

pub struct Proved;

impl Calls for Proved {
    // Each call reads and writes what it is lent, and no more: ten bytes, twelve symbols, or the list's own length.
    fn crc(bytes: &[u8; 10]) -> u16 {
        unsafe { simhadol_crc(bytes.as_ptr()) as u16 }
    }

    fn build(bytes: &[u8; 10]) -> [u16; 12] {
        let mut symbols = [0; 12];
        unsafe { simhadol_build(bytes.as_ptr(), symbols.as_mut_ptr()) };
        symbols
    }

    fn check(list: &[u16]) -> u8 {
        unsafe { simhadol_check(list.as_ptr(), list.len()) as u8 }
    }

    fn slots(count: u32) -> u64 {
        unsafe { simhadol_slots(count) }
    }
}

impl Finds for Proved {
    fn found(list: &[u16]) -> u8 {
        unsafe { simhadol_found(list.as_ptr(), list.len()) as u8 }
    }

    fn place(list: &[u16]) -> usize {
        unsafe { simhadol_place(list.as_ptr(), list.len()) }
    }
}
