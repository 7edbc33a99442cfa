//! Times the search of every capture by everyone, all in one process. A time is the best of many rounds. A round goes
//! through ten captures or so, as a processor knows a single one by heart before long; everyone searches each of them,
//! in every other round the last one first.

use crate::captures::{groups, place, Capture};
use crate::EVERYONE;
use std::ptr::read_volatile;
use std::time::{Duration, Instant};

const ROUNDS: u32 = 200;

fn time(who: usize, list: &[u16]) -> Duration {
    let (name, search) = EVERYONE[who];
    // As in `sum_over`: no search is worked out beforehand.
    let list = unsafe { read_volatile(&list) };
    let start = Instant::now();
    let found = search(list);
    let time = start.elapsed();
    assert_eq!(found, place(list.len()), "{name}");
    time
}

/// Everyone's best times for each of the lists.
fn best(lists: &[Vec<u16>]) -> Vec<[Duration; EVERYONE.len()]> {
    let mut best = vec![[Duration::MAX; EVERYONE.len()]; lists.len()];
    for round in 0..ROUNDS {
        for (list, best) in lists.iter().zip(&mut best) {
            for step in 0..EVERYONE.len() {
                let who = if round % 2 == 0 { step } else { EVERYONE.len() - 1 - step };
                best[who] = best[who].min(time(who, list));
            }
        }
    }
    best
}

/// For each capture a line: kind, length, seed, and everyone's microseconds.
pub fn all() {
    for group in groups() {
        let lists: Vec<_> = group.iter().map(Capture::list).collect();
        for (Capture { kind, length, seed }, best) in group.iter().zip(best(&lists)) {
            print!("{} {length} {seed}", kind.name);
            for time in best {
                print!(" {:.2}", time.as_secs_f64() * 1e6);
            }
            println!();
        }
    }
}
