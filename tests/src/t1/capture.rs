//! Document 02, #111: a capture, symbols as big-endian numbers, and the report on it.
//!
//! The report has a line for each event, in the order of the symbols that complete them: a frame stands by its last
//! symbol, though its place is its first. At one symbol a failed collection stands before a lapse.

use super::end::{End, Reason};
use super::frame::{data_of, DATA, SYMBOLS};
use crate::answer::Answer;
use crate::proved::{feed, reader};
use crate::script::first_difference;
use std::fmt::Arguments;
use std::io::Write;
use std::process::Stdio;

pub struct Report {
    pub text: Vec<u8>,
    /// What its last line says.
    pub answer: Answer,
}

impl Report {
    /// The reader's exit status.
    pub fn status(&self) -> i32 {
        i32::from(self.answer != Answer::Done)
    }

    pub fn lines(&self) -> usize {
        self.text.iter().filter(|byte| **byte == b'\n').count()
    }
}

/// The whole report.
pub fn report(input: &[u8]) -> Report {
    let mut reader = Reader::new();
    let answer = reader.read(input).unwrap_or(if input.len() % 2 == 0 { Answer::Done } else { Answer::OddByte });
    reader.say_end(answer);
    Report { text: reader.text, answer }
}

/// What must be out once these bytes were read, though more may follow: a line for each event that a whole symbol of
/// them completed. Only a value above 1,023 ends the report already.
pub fn due(read: &[u8]) -> Vec<u8> {
    let mut reader = Reader::new();
    if let Some(answer) = reader.read(read) {
        reader.say_end(answer);
    }
    reader.text
}

/// An end that takes the symbols, with what only a report knows.
struct Reader {
    end: End,
    /// Of the next symbol: so many were taken.
    place: u64,
    /// Of the first symbol after the last accepted frame.
    quiet: u64,
    frames: u64,
    crc: u64,
    marked: u64,
    early: u64,
    lapses: u64,
    text: Vec<u8>,
}

impl Reader {
    fn new() -> Reader {
        let text = Vec::new();
        Reader { end: End::reset(), place: 0, quiet: 0, frames: 0, crc: 0, marked: 0, early: 0, lapses: 0, text }
    }

    /// Takes the whole symbols, up to the first that is refused: with that answer nothing more is read.
    fn read(&mut self, input: &[u8]) -> Option<Answer> {
        for pair in input.chunks_exact(2) {
            match self.take(u16::from_be_bytes([pair[0], pair[1]])) {
                Answer::Done => {}
                refused => return Some(refused),
            }
        }
        None
    }

    fn take(&mut self, symbol: u16) -> Answer {
        let was_present = self.end.is_present();
        let (answer, reason) = self.end.take(symbol);
        if answer != Answer::Done {
            return answer;
        }
        if let Some(reason) = reason {
            self.say_reason(reason);
        }
        if was_present && !self.end.is_present() {
            self.lapses += 1;
            let quiet = self.quiet;
            self.say(self.place, format_args!("lapsed quiet from {}", quiet));
        }
        self.place += 1;
        if reason == Some(Reason::Accepted) {
            self.quiet = self.place;
        }
        Answer::Done
    }

    /// The symbol that is being taken ended a collection.
    fn say_reason(&mut self, reason: Reason) {
        match reason {
            Reason::Accepted => self.say_frame(),
            Reason::Crc => {
                self.crc += 1;
                self.say(self.place, format_args!("failed crc"));
            }
            Reason::Marked(count) => {
                self.marked += 1;
                self.say(self.place, format_args!("failed marked {}", count));
            }
            Reason::Early(count) => {
                self.early += 1;
                self.say(self.place, format_args!("failed early {}", count));
            }
        }
    }

    /// The end keeps the symbols of its last collection.
    fn say_frame(&mut self) {
        self.frames += 1;
        let bytes: String = self.end.rx[..DATA].iter().map(|symbol| format!(" {:02X}", data_of(*symbol))).collect();
        self.say(self.place + 1 - SYMBOLS as u64, format_args!("frame{}", bytes));
    }

    fn say_end(&mut self, answer: Answer) {
        let Reader { frames, crc, marked, early, lapses, .. } = *self;
        let events = format!("frames {} crc {} marked {} early {} lapses {}", frames, crc, marked, early, lapses);
        self.say(self.place, format_args!("end {} {}", answer.number(), events));
    }

    fn say(&mut self, place: u64, what: Arguments) {
        writeln!(self.text, "{} {}", place, what).expect("memory takes what is written");
    }
}

/// The proved reader must print the same and end with the status that belongs to it, or the first difference is told.
pub fn compare(input: &[u8]) -> Result<Report, String> {
    let mut command = reader();
    command.stdin(Stdio::piped()).stdout(Stdio::piped()).stderr(Stdio::piped());
    let child = command.spawn().map_err(|why| format!("{:?} cannot be run: {}", command, why))?;
    let output = feed(child, input)?;
    let report = report(input);
    let ended = format!("it ended with {} {}", output.status, String::from_utf8_lossy(&output.stderr));
    if let Some(index) = first_difference(&report.text, &output.stdout) {
        let (wanted, got) = (line(&report.text, index), line(&output.stdout, index));
        return Err(format!("printed line {}\n  second: {}\n  proved: {}\n  {}", index + 1, wanted, got, ended));
    }
    if output.status.code() != Some(report.status()) || !output.stderr.is_empty() {
        return Err(format!("all as expected, and status {}, but {}", report.status(), ended));
    }
    Ok(report)
}

fn line(text: &[u8], index: usize) -> String {
    String::from_utf8_lossy(text.split(|byte| *byte == b'\n').nth(index).unwrap_or(b"(nothing)")).into_owned()
}
