//! The finder in plain Rust once more, by skipping: it looks at twelve symbols from the last to the first, so that one
//! fault tells of all the places before it. It stands beside the others to tell the way from the language.

use crate::plain::{has_right_crc, is_even, Table, LIMIT};
use crate::Finds;

/// How far it is to the next place where a frame may start, or nothing if these twelve symbols are an acceptable one.
fn skip(twelve: &[u16; 12]) -> Option<usize> {
    for (k, symbol) in twelve.iter().enumerate().rev() {
        let may_start = *symbol < 512 && is_even(*symbol);
        if *symbol >= 512 || may_start != (k == 0) {
            // The symbols behind this one are odd, so they start none.
            return Some(if may_start { k } else { 12 });
        }
    }
    if has_right_crc::<Table>(twelve) {
        None
    } else {
        Some(12)
    }
}

fn find(list: &[u16]) -> (u8, usize) {
    if list.len() > LIMIT {
        return (7, 0);
    }
    if list.iter().fold(false, |above, symbol| above | (*symbol > 1023)) {
        return (5, 0);
    }
    let mut at = 0;
    while let Some(twelve) = list.get(at..at + 12) {
        match <&[u16; 12]>::try_from(twelve).map_or(Some(12), skip) {
            Some(further) => at += further,
            None => return (0, at),
        }
    }
    (8, 0)
}

pub struct Skipping;

impl Finds for Skipping {
    fn found(list: &[u16]) -> u8 {
        find(list).0
    }

    fn place(list: &[u16]) -> usize {
        find(list).1
    }
}
