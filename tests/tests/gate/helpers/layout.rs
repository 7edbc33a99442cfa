//! The bytes of a record, each by its place: a table written from the description, not from either implementation. The
//! second implementation's records, docs/RECORD.md and the calls from C are held to it.

use second::t1::end::End;
use second::t1::fields::fields;
use std::ops::Range;

pub const LENGTH: usize = 101;
/// The counts, and what is left of presence.
pub const COUNTS: Range<usize> = 91..99;
pub const PRESENCE_LEFT: Range<usize> = 99..101;

/// A version that is written no more.
#[derive(Clone, Copy, Debug)]
pub struct Old {
    pub version: u8,
    pub length: usize,
}

/// Version 1 ends before the counts, version 2 behind them. Both have `present` at byte 71, and what is there now and
/// behind it one byte later.
pub const OLD: [Old; 2] = [Old { version: 1, length: 92 }, Old { version: 2, length: 100 }];
const PRESENT: usize = 71;

/// The fields of a record: name, first byte, largest value. What can be above 255 has two bytes, the high one first.
pub const LAYOUT: [(&str, usize, u16); 33] = [
    ("tx", 3, 511),
    ("position", 27, 11),
    ("sending_toggle", 28, 1),
    ("ready", 29, 1),
    ("health", 30, 3),
    ("loaded_health", 31, 3),
    ("pending", 32, 1),
    ("register_toggle", 33, 1),
    ("received", 34, 1),
    ("received_toggle", 35, 1),
    ("number", 36, 15),
    ("ping_tx", 37, 1),
    ("bytes", 38, 255),
    ("rx", 46, 511),
    ("count", 70, 11),
    ("partner_health", 71, 3),
    ("ping_got", 72, 1),
    ("partner_ping", 73, 1),
    ("valid", 74, 1),
    ("toggle", 75, 1),
    ("ack", 76, 1),
    ("togack", 77, 1),
    ("expected_toggle", 78, 1),
    ("acknowledge", 79, 1),
    ("full", 80, 1),
    ("rx_toggle", 81, 1),
    ("rx_number", 82, 15),
    ("rx_bytes", 83, 255),
    ("accepted_count", 91, 65535),
    ("crc_count", 93, 65535),
    ("marked_count", 95, 65535),
    ("early_count", 97, 65535),
    ("presence_left", 99, 768),
];

const HEAD: [u8; 3] = [0, 101, 3];

impl Old {
    fn head(self) -> [u8; 3] {
        [0, self.length as u8, self.version]
    }
}

/// Length, version and the fields, each laid at its place by the table.
pub fn spelled_out(end: &End) -> Vec<u8> {
    let mut record = vec![0; LENGTH];
    record[..3].copy_from_slice(&HEAD);
    for (name, field) in fields(&mut end.clone()) {
        let (_, first, largest) = *LAYOUT.iter().find(|row| row.0 == name).expect("every field has a row");
        for (index, value) in field.values().enumerate() {
            if largest > 255 {
                record[first + 2 * index] = (value / 256) as u8;
                record[first + 2 * index + 1] = (value % 256) as u8;
            } else {
                record[first + index] = value as u8;
            }
        }
    }
    record
}

/// The same of an old version, which has `present` beside what the end has now.
pub fn spelled_out_old(end: &End, present: bool, old: Old) -> Vec<u8> {
    let record = spelled_out(end);
    let long = [&old.head(), &record[3..PRESENT], &[u8::from(present)], &record[PRESENT..]].concat();
    long[..old.length].to_vec()
}

/// What an old record becomes: its bytes but the head and `present`, and 0 where it has none.
pub fn upgraded(old: &[u8]) -> Vec<u8> {
    let mut record = [&HEAD, &old[3..PRESENT], &old[PRESENT + 1..]].concat();
    record.resize(LENGTH, 0);
    record
}

/// Whether a byte behind the head may have this value. Of what is left of presence either byte may have any, as only
/// the number is limited.
fn allowed(place: usize, byte: u8) -> bool {
    match LAYOUT.iter().rev().find(|(_, first, _)| *first <= place) {
        None => true,
        Some((_, first, 511)) => (place - first) % 2 == 1 || byte <= 1,
        Some((_, _, largest)) => u16::from(byte) <= *largest,
    }
}

pub fn is_record(bytes: &[u8]) -> bool {
    bytes.len() == LENGTH
        && bytes.starts_with(&HEAD)
        && bytes.iter().enumerate().all(|(place, byte)| allowed(place, *byte))
        && 256 * u32::from(bytes[PRESENCE_LEFT.start]) + u32::from(bytes[PRESENCE_LEFT.start + 1]) <= 768
}

fn allowed_in_old(place: usize, byte: u8) -> bool {
    match place {
        PRESENT => byte <= 1,
        _ => allowed(if place < PRESENT { place } else { place - 1 }, byte),
    }
}

pub fn is_old(bytes: &[u8]) -> bool {
    let head = |old: &Old| bytes.len() == old.length && bytes.starts_with(&old.head());
    OLD.iter().any(head) && bytes.iter().enumerate().all(|(place, byte)| allowed_in_old(place, *byte))
}
