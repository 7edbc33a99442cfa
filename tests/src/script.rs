//! A script of commands, answered by a console of the second implementation as it is written: a writer of scripts can
//! look at the console as it then stands.

use crate::console::{digit, Console};
use crate::proved;
use std::fmt::Arguments;
use std::io::Write;

pub struct Script<C> {
    pub seed: u64,
    pub text: Vec<u8>,
    pub expected: Vec<u8>,
    pub lines: usize,
    /// How many of the lines are calls on an end.
    pub calls: usize,
    console: C,
}

impl<C: Console> Script<C> {
    pub fn new(seed: u64) -> Script<C> {
        Script { seed, text: Vec::new(), expected: Vec::new(), lines: 0, calls: 0, console: C::default() }
    }

    /// Adds a line. For use as `script.say(format_args!("a take {:X}", symbol))`.
    pub fn say(&mut self, line: Arguments) {
        let start = self.text.len();
        self.text.write_fmt(line).expect("memory takes what is written");
        self.answer(start);
        self.text.push(b'\n');
    }

    /// Adds a line of any bytes but a newline.
    pub fn say_bytes(&mut self, line: &[u8]) {
        self.say_last(line);
        self.text.push(b'\n');
    }

    /// Adds the last line, which has no newline.
    pub fn say_last(&mut self, line: &[u8]) {
        let start = self.text.len();
        self.text.extend_from_slice(line);
        self.answer(start);
    }

    /// Adds a command with its list of symbols, of three digits or four.
    pub fn say_list(&mut self, command: &str, list: &[u16]) {
        let start = self.text.len();
        self.text.extend_from_slice(command.as_bytes());
        for symbol in list {
            self.text.push(b' ');
            if *symbol > 0xFFF {
                self.text.push(digit(symbol >> 12));
            }
            self.text.extend([symbol >> 8, symbol >> 4, *symbol].map(digit));
        }
        self.answer(start);
        self.text.push(b'\n');
    }

    fn answer(&mut self, start: usize) {
        self.console.line(&self.text[start..], &mut self.expected);
        self.lines += 1;
        self.calls += usize::from(is_call(&self.text[start..]));
    }

    pub fn console(&self) -> &C {
        &self.console
    }

    /// What the last line printed.
    pub fn last_answer(&self) -> &[u8] {
        let said = self.expected.strip_suffix(b"\n").unwrap_or(&self.expected);
        said.rsplit(|byte| *byte == b'\n').next().unwrap_or(said)
    }

    /// The proved program must print the same, or the first difference is told.
    pub fn compare(&self) -> Result<(), String> {
        let (printed, status) = proved::run(C::PROVED, &self.text)?;
        match first_difference(&self.expected, &printed) {
            None if status.success() => Ok(()),
            None => Err(format!("seed {}: all as expected, but the proved program ended with {}", self.seed, status)),
            Some(index) => Err(format!("{}\n  it ended with {}", self.explain(index, &printed), status)),
        }
    }

    /// Names the command that the printed line `index` answers.
    fn explain(&self, index: usize, printed: &[u8]) -> String {
        let mut console = C::default();
        let mut out = Vec::new();
        let mut said = 0;
        let mut command = (0, "(nothing more was asked)".to_string());
        for (number, line) in self.text.split(|byte| *byte == b'\n').enumerate() {
            out.clear();
            console.line(line, &mut out);
            said += usize::from(!out.is_empty());
            if said == index + 1 {
                command = (number + 1, shown(line));
                break;
            }
        }
        format!(
            "seed {}, line {}: {}\n  second: {}\n  proved: {}",
            self.seed,
            command.0,
            command.1,
            shown_line(&self.expected, index),
            shown_line(printed, index)
        )
    }
}

/// `dump` and `set` look at an end or change it, but are no calls of document 01; `offer` and `report` meet no end.
const NO_CALLS: [&[u8]; 4] = [b"dump", b"set", b"offer", b"report"];

fn is_call(line: &[u8]) -> bool {
    let on_an_end = line.starts_with(b"a ") || line.starts_with(b"b ");
    on_an_end && !NO_CALLS.iter().any(|name| line[2..].starts_with(name))
}

/// The first printed line in which two outputs differ. What follows `? ` is free.
pub fn first_difference(expected: &[u8], printed: &[u8]) -> Option<usize> {
    if expected == printed {
        return None;
    }
    let mut left = expected.split(|byte| *byte == b'\n');
    let mut right = printed.split(|byte| *byte == b'\n');
    for index in 0.. {
        match (left.next(), right.next()) {
            (None, None) => return None,
            (Some(a), Some(b)) if a == b || a.starts_with(b"? ") && b.starts_with(b"? ") => {}
            _ => return Some(index),
        }
    }
    None
}

fn shown_line(output: &[u8], index: usize) -> String {
    output.split(|byte| *byte == b'\n').nth(index).map_or("(nothing)".to_string(), shown)
}

/// Bytes that a terminal can show, cut where long.
fn shown(line: &[u8]) -> String {
    let text: String = line.iter().take(600).flat_map(|byte| byte.escape_ascii()).map(char::from).collect();
    if line.len() > 600 {
        text + " .."
    } else {
        text
    }
}
