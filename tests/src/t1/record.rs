//! An end as a record of bytes, and the calls on one: document 02, #104, #105's reason, #106 and #107.
//!
//! Two bytes of length, big-endian, counting the whole record; one version byte; then the end, field by field in the
//! order of `fields`. What can be above 255 has two bytes, the high one first; everything else has one. Versions 1 and
//! 2 have a bool more, `present`, before the partner's health, and not what is left of presence; version 1 has no
//! counts.

use super::end::{End, Reason};
use super::fields::fields;
use crate::answer::Answer;
use crate::fields::Field;
use std::fmt;

pub const LENGTH: usize = 101;
pub const VERSION: u8 = 3;
/// Versions that are still read, with their lengths.
const OLD: [(u8, usize); 2] = [(1, 92), (2, 100)];

/// The calls. Written out, one is the driver's command for it.
#[derive(Clone, Copy, Debug, PartialEq, Eq)]
pub enum Call {
    Reset,
    Send,
    Take(u16),
    /// Takes, and tells the reason.
    TakeReason(u16),
    Read(u16),
    Write(u16, u16),
    SetHealth(u16),
    Present,
    Counts,
}

/// The answer, and what else the call gives, in the header's order: a value; the reason's number and how many symbols a
/// broken collection had; or the four counts. What it does not give is 0.
pub type Reply = (Answer, [u16; 4]);

impl Call {
    pub fn name(&self) -> &'static str {
        match self {
            Call::Reset => "reset",
            Call::Send => "send",
            Call::Take(_) => "take",
            Call::TakeReason(_) => "reason",
            Call::Read(_) => "read",
            Call::Write(..) => "write",
            Call::SetHealth(_) => "health",
            Call::Present => "present",
            Call::Counts => "counts",
        }
    }

    /// How many numbers it gives beside the answer.
    pub fn gives(&self) -> usize {
        match self {
            Call::Counts => 4,
            Call::TakeReason(_) => 2,
            _ => 1,
        }
    }

    /// The call on an end, as document 01 has it.
    pub fn on_end(self, end: &mut End) -> Reply {
        let (answer, value) = match self {
            Call::Reset => {
                *end = End::reset();
                (Answer::Done, 0)
            }
            Call::Send => end.send(),
            Call::Take(symbol) => (end.take(symbol).0, 0),
            Call::TakeReason(symbol) => {
                let (answer, reason) = end.take(symbol);
                let (number, collected) = reason_numbers(reason);
                return (answer, [number, collected, 0, 0]);
            }
            Call::Read(register) => end.read(register),
            Call::Write(register, value) => (end.write(register, value), 0),
            Call::SetHealth(health) => (end.set_health(health), 0),
            Call::Present => (Answer::Done, u16::from(end.is_present())),
            Call::Counts => {
                let counts = [end.accepted_count, end.crc_count, end.marked_count, end.early_count];
                return (Answer::Done, counts);
            }
        };
        (answer, [value, 0, 0, 0])
    }

    /// The call on a record. Reset asks only for an area of the right size; a refusal leaves all bytes.
    pub fn on_record(self, record: &mut [u8]) -> Reply {
        let end = match self {
            Call::Reset if record.len() == LENGTH => Some(End::reset()),
            _ => end_of(record),
        };
        let mut end = match end {
            Some(end) => end,
            None => return (Answer::BadRecord, [0; 4]),
        };
        let reply = self.on_end(&mut end);
        if reply.0 == Answer::Done {
            record.copy_from_slice(&record_of(&end));
        }
        reply
    }
}

impl fmt::Display for Call {
    fn fmt(&self, out: &mut fmt::Formatter) -> fmt::Result {
        let name = self.name();
        match self {
            Call::Reset | Call::Send | Call::Present | Call::Counts => write!(out, "{}", name),
            Call::Take(number) | Call::TakeReason(number) | Call::Read(number) | Call::SetHealth(number) => {
                write!(out, "{} {}", name, number)
            }
            Call::Write(register, value) => write!(out, "{} {} {}", name, register, value),
        }
    }
}

/// The reason by number, as the header has it, and how many symbols a broken collection had.
fn reason_numbers(reason: Option<Reason>) -> (u16, u16) {
    match reason {
        None => (0, 0),
        Some(Reason::Accepted) => (1, 0),
        Some(Reason::Crc) => (2, 0),
        Some(Reason::Marked(collected)) => (3, u16::from(collected)),
        Some(Reason::Early(collected)) => (4, u16::from(collected)),
    }
}

/// Fills the area with the record of the end in a good record of version 1 or 2: what that does not have is 0, so the
/// partner is absent. Anything else is answered 11, and leaves the area.
pub fn upgrade(old: &[u8], area: &mut [u8]) -> Answer {
    match OLD.iter().find_map(|(version, length)| read(old, *length, *version)) {
        Some(end) if area.len() == LENGTH => {
            area.copy_from_slice(&record_of(&end));
            Answer::Done
        }
        _ => Answer::BadRecord,
    }
}

fn head(length: usize, version: u8) -> [u8; 3] {
    let [high, low] = (length as u16).to_be_bytes();
    [high, low, version]
}

pub fn record_of(end: &End) -> Vec<u8> {
    let mut record = head(LENGTH, VERSION).to_vec();
    for (_, field) in fields(&mut end.clone()) {
        for value in field.values() {
            record.extend_from_slice(&value.to_be_bytes()[2 - width(&field)..]);
        }
    }
    record
}

/// None where answer 11 is given.
pub fn end_of(record: &[u8]) -> Option<End> {
    read(record, LENGTH, VERSION)
}

/// A record of this length and version. A field that its version does not have is 0.
fn read(record: &[u8], length: usize, version: u8) -> Option<End> {
    let mut rest = record.strip_prefix(&head(length, version))?;
    if record.len() != length {
        return None;
    }
    let mut end = End::default();
    for (name, mut field) in fields(&mut end) {
        if version < VERSION && name == "partner_health" {
            // `present`: that a frame was accepted, but not when
            let (present, behind) = rest.split_first()?;
            if *present > 1 {
                return None;
            }
            rest = behind;
        }
        if version < first_version(&field) {
            continue;
        }
        for index in 0..field.elements().unwrap_or(1) {
            let (bytes, behind) = rest.split_at(width(&field));
            rest = behind;
            let value = bytes.iter().fold(0, |value, byte| value << 8 | u16::from(*byte));
            if value > field.largest() {
                return None;
            }
            field.store(index, value);
        }
    }
    // What answer 1 would meet is a value out of range.
    end.is_good().then_some(end)
}

/// The version in which a record had the field first.
fn first_version(field: &Field) -> u8 {
    match field {
        Field::Other(_) => 3,
        Field::Word(_) => 2,
        _ => 1,
    }
}

fn width(field: &Field) -> usize {
    match field {
        Field::Words(_) | Field::Word(_) | Field::Other(_) => 2,
        Field::Bool(_) | Field::Byte(_) | Field::Bytes(_) => 1,
    }
}
