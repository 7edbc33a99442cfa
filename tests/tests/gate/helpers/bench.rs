//! Lines for the bench of 1000BASE-T1, and what they must print.

use super::scripts::answered;
use second::t1::bench::Script;

/// End a takes a symbol.
pub fn take(script: &mut Script, symbol: u16, wanted: &str) {
    answered(script, &format!("a take {:03X}", symbol), wanted);
}

pub fn present(script: &mut Script, side: &str, wanted: bool) {
    answered(script, &format!("{} present", side), if wanted { "yes" } else { "no" });
}

/// The whole end is printed, so much is left, and the partner is present or not.
pub fn left(script: &mut Script, side: &str, wanted: usize) {
    script.say(format_args!("{} dump", side));
    let said = String::from_utf8_lossy(script.last_answer()).into_owned();
    assert!(said.ends_with(&format!(" presence_left={:X}", wanted)), "line {}: {:X} in {}", script.lines, wanted, said);
    present(script, side, (1..=768).contains(&wanted));
}

/// The whole end is printed, and these are its counts.
pub fn counted(script: &mut Script, side: &str, counts: [u16; 4]) {
    script.say(format_args!("{} dump", side));
    let said = String::from_utf8_lossy(script.last_answer());
    assert!(said.contains(&printed(counts)), "line {}: {:?} in {}", script.lines, counts, said);
}

/// As `dump` prints them, with what stands behind them.
fn printed(counts: [u16; 4]) -> String {
    let [accepted, crc, marked, early] = counts;
    let first = format!(" accepted_count={:X} crc_count={:X}", accepted, crc);
    first + &format!(" marked_count={:X} early_count={:X} presence_left=", marked, early)
}
