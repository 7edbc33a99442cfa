//! Calls on two areas of bytes, for `tests/c/driver.c`, answered by the second implementation as they are written.

use super::record::{upgrade, Call, Reply};
use crate::answer::Answer;
use crate::console::digit;
use crate::proved::feed;
use crate::script::first_difference;
use std::collections::BTreeMap;
use std::fmt::{Arguments, Write};
use std::process::Command;

const SIDES: [&str; 2] = ["a", "b"];

/// A script of about this many bytes goes to the driver at a go.
const LONG: usize = 4_000_000;

#[derive(Default)]
pub struct Calls {
    text: String,
    expected: String,
    areas: [Vec<u8>; 2],
    /// How many calls there are, by name and answer number.
    pub counts: BTreeMap<(&'static str, u8), usize>,
    /// How many calls told a reason, by its number and the symbols of the collection that was broken.
    pub reasons: BTreeMap<(u16, u16), usize>,
}

impl Calls {
    /// The area of a side is laid anew, with these bytes.
    pub fn lay(&mut self, side: usize, bytes: &[u8]) {
        self.areas[side] = bytes.to_vec();
        let bytes = if bytes.is_empty() { "empty".to_string() } else { hex(bytes) };
        self.say(format_args!("{} area {}", SIDES[side], bytes));
    }

    /// No bytes, at NULL.
    pub fn lay_null(&mut self, side: usize) {
        self.areas[side].clear();
        self.say(format_args!("{} area null", SIDES[side]));
    }

    pub fn area(&self, side: usize) -> &[u8] {
        &self.areas[side]
    }

    /// A call, answered by the second implementation through its own records.
    pub fn call(&mut self, side: usize, call: Call) -> Reply {
        let mut after = self.areas[side].clone();
        let reply = call.on_record(&mut after);
        self.expect(side, call, reply, after);
        reply
    }

    /// A call, with what it must give and leave. A refusal gives 0 and leaves the bytes, whoever worked it out.
    pub fn expect(&mut self, side: usize, call: Call, reply: Reply, after: Vec<u8>) {
        let (answer, given) = reply;
        let refused = given == [0; 4] && after == self.areas[side];
        assert!(answer == Answer::Done || refused, "{} changes what it refuses", call);
        self.seal_for(side, answer);
        self.say(format_args!("{} {}", SIDES[side], call));
        write!(self.expected, "{} ", answer.number()).expect("memory takes what is written");
        for number in &given[..call.gives()] {
            write!(self.expected, "{} ", number).expect("memory takes what is written");
        }
        self.areas[side] = after;
        self.expected += &shown(&self.areas[side]);
        self.expected.push('\n');
        *self.counts.entry((call.name(), answer.number())).or_default() += 1;
        if let (Call::TakeReason(_), Answer::Done) = (call, answer) {
            *self.reasons.entry((given[0], given[1])).or_default() += 1;
        }
    }

    /// The area of a side is to be filled from the other one, which is only read.
    pub fn upgrade(&mut self, side: usize) -> Answer {
        let old = self.areas[1 - side].clone();
        let answer = upgrade(&old, &mut self.areas[side]);
        self.seal_for(side, answer);
        self.say(format_args!("{} upgrade {}", SIDES[side], SIDES[1 - side]));
        let (bytes, old) = (shown(&self.areas[side]), shown(&old));
        writeln!(self.expected, "{} 0 {} {}", answer.number(), bytes, old).expect("memory takes what is written");
        *self.counts.entry(("upgrade", answer.number())).or_default() += 1;
        answer
    }

    /// With 11 no byte is written, not even with the value that it has.
    fn seal_for(&mut self, side: usize, answer: Answer) {
        if answer == Answer::BadRecord {
            self.say(format_args!("{} seal", SIDES[side]));
        }
    }

    pub fn count(&self) -> usize {
        self.counts.values().sum()
    }

    fn say(&mut self, line: Arguments) {
        writeln!(self.text, "{}", line).expect("memory takes what is written");
    }

    /// The driver must print the same, or the first difference is told.
    pub fn compare(&self, mut driver: Command) -> Result<(), String> {
        let child = driver.spawn().map_err(|why| format!("{:?} cannot be run: {}", driver, why))?;
        let output = feed(child, self.text.as_bytes())?;
        let ended = format!("the driver ended with {} {}", output.status, String::from_utf8_lossy(&output.stderr));
        match first_difference(self.expected.as_bytes(), &output.stdout) {
            None if output.status.success() => Ok(()),
            None => Err(format!("all as expected, but {}", ended)),
            Some(index) => Err(format!("{}\n  {}", self.explain(index, &output.stdout), ended)),
        }
    }

    /// Compares what is there, if that is much or the last, and goes on with the areas as they are.
    pub fn compare_when(&mut self, last: bool, driver: impl Fn() -> Command) -> Result<(), String> {
        if last || self.text.len() > LONG {
            self.compare(driver())?;
            self.text.clear();
            self.expected.clear();
            for side in 0..2 {
                let area = self.areas[side].clone();
                self.lay(side, &area);
            }
        }
        Ok(())
    }

    /// Names the call that the printed line `index` answers, and the bytes that it was given.
    fn explain(&self, index: usize, printed: &[u8]) -> String {
        let mut areas = [""; 2];
        let mut answers = self.expected.lines();
        let mut said = 0;
        let mut asked = "(nothing more was asked)".to_string();
        for line in self.text.lines() {
            let side = usize::from(line.starts_with('b'));
            if let Some(bytes) = line[2..].strip_prefix("area ") {
                areas[side] = bytes;
                continue;
            }
            if line.ends_with(" seal") {
                continue;
            }
            // Of an upgrade the other area is printed too, as the last.
            let upgrades = line[2..].starts_with("upgrade");
            if said == index {
                asked = format!("{}, on {}", line, areas[side]);
                if upgrades {
                    asked += &format!(", from {}", areas[1 - side]);
                }
                break;
            }
            let bytes = answers.next().and_then(|answer| answer.rsplit(' ').nth(usize::from(upgrades)));
            areas[side] = bytes.unwrap_or_default();
            said += 1;
        }
        let printed = String::from_utf8_lossy(printed);
        let line = |output: &str| output.lines().nth(index).unwrap_or("(nothing)").to_string();
        format!("call {}: {}\n  second: {}\n  driver: {}", index + 1, asked, line(&self.expected), line(&printed))
    }
}

/// As the driver prints an area.
fn shown(area: &[u8]) -> String {
    if area.is_empty() {
        "-".to_string()
    } else {
        hex(area)
    }
}

fn hex(bytes: &[u8]) -> String {
    let digits = bytes.iter().flat_map(|byte| [u16::from(byte >> 4), u16::from(*byte)].map(digit)).collect();
    String::from_utf8(digits).expect("digits are text")
}
