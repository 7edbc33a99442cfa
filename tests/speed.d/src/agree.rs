//! Holds the proved calls against the plain ones on random input, so that what is measured is the same work.

use crate::captures::{frame, groups, place};
use crate::plain::{Bitwise, Boost, Plain, Table};
use crate::proved::Proved;
use crate::random::Random;
use crate::skipping::Skipping;
use crate::{Calls, Finds};

const TURNS: u32 = 20_000;
const SLOTS: [u32; 5] = [0, 1, 25, 4_800, 100_000];

macro_rules! same {
    ($call:ident, $input:expr) => {
        let proved = Proved::$call($input);
        let others = [Plain::<Bitwise>::$call($input), Plain::<Table>::$call($input), Plain::<Boost>::$call($input)];
        assert!(others.iter().all(|other| *other == proved), "{}: {:?} and {:?}", stringify!($call), proved, others);
    };
}

fn same_lists(list: &[u16]) {
    same!(check, list);
    same!(found, list);
    same!(place, list);
    assert_eq!((Skipping::found(list), Skipping::place(list)), (Proved::found(list), Proved::place(list)), "skipping");
}

/// How many captures there are; everyone finds each one's frame.
fn same_captures() -> usize {
    let captures: Vec<_> = groups().into_iter().flatten().collect();
    for capture in &captures {
        let list = capture.list();
        same_lists(&list);
        assert_eq!((Proved::found(&list), Proved::place(&list)), (0, place(list.len())), "{}", capture.kind.name);
    }
    captures.len()
}

pub fn all() {
    let mut random = Random::new(2);
    for turn in 0..TURNS {
        let bytes = random.bytes();
        same!(crc, &bytes);
        same!(build, &bytes);
        // Good frames, frames with one symbol changed, and lists with a frame somewhere or none.
        let mut list = frame(&mut random).to_vec();
        if turn % 2 == 1 {
            list[usize::from(random.below(12))] = random.below(1030);
        }
        for _ in 0..turn % 5 {
            list.insert(usize::from(random.below(2)) * list.len(), random.below(512));
        }
        same_lists(&list);
    }
    let captures = same_captures();
    for length in [0, 4097, 32_768, 32_769] {
        same_lists(&vec![0; length]);
    }
    for count in SLOTS {
        same!(slots, count);
    }
    println!("the same results on {TURNS} random lists, {captures} captures and {} slots", SLOTS.iter().sum::<u32>());
}
