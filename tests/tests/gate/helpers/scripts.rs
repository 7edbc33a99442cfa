//! Scripts for any console: what a line must print, and the comparison of the whole.

use super::tell::{seed, tell};
use second::console::Console;
use second::proved;
use second::script::Script;
use std::time::Instant;

/// What the proved console prints, having ended well.
pub fn proved_prints<C: Console>(script: &[u8]) -> Vec<u8> {
    let (printed, status) = proved::run(C::PROVED, script).unwrap_or_else(|why| panic!("{}", why));
    assert!(status.success(), "the proved program ended with {}", status);
    printed
}

pub fn compare<C: Console>(name: &str, script: &Script<C>) {
    script.compare().unwrap_or_else(|why| panic!("{}: {}", name, why));
}

/// So many random scripts of a kind, each with its own seed. Gives how many calls on ends they had.
pub fn compare_random<C: Console>(
    name: &str,
    kind: impl Fn(u64, usize) -> Script<C>,
    scripts: u64,
    lines: usize,
) -> usize {
    let start = Instant::now();
    let (mut count, mut calls) = (0, 0);
    for seed in seed()..seed() + scripts {
        let script = kind(seed, lines);
        compare(name, &script);
        count += script.lines;
        calls += script.calls;
    }
    tell(name, count, &format!("lines with {} calls on ends", calls), start);
    calls
}

pub fn answered<C: Console>(script: &mut Script<C>, line: &str, wanted: &str) {
    script.say(format_args!("{}", line));
    assert_eq!(String::from_utf8_lossy(script.last_answer()), wanted, "line {}, {}", script.lines, line);
}

/// A command with its list of symbols.
pub fn answered_list<C: Console>(script: &mut Script<C>, command: &str, list: &[u16], wanted: &str) {
    script.say_list(command, list);
    let said = String::from_utf8_lossy(script.last_answer());
    assert_eq!(said, wanted, "{} of {}: {:03X?} ..", command, list.len(), &list[..list.len().min(60)]);
}
