//! The second implementation's records and docs/RECORD.md against the table of bytes.

use crate::helpers::areas::compare_when;
use crate::helpers::layout::{is_record, spelled_out, spelled_out_old, upgraded, Old, LAYOUT, OLD};
use crate::helpers::tell::{seed, tell};
use second::answer::Answer;
use second::random::Random;
use second::t1::calls::Calls;
use second::t1::end::{End, Silence};
use second::t1::generate::{any_good_end, damaged, wander};
use second::t1::record::{end_of, record_of, Call};
use std::time::Instant;

const PAGE: &str = include_str!("../../../../docs/RECORD.md");

/// The cells of the page's first table, row by row, below its heading.
fn rows_of_the_page() -> Vec<Vec<&'static str>> {
    let table = PAGE.lines().skip_while(|line| !line.starts_with('|')).take_while(|line| line.starts_with('|'));
    let cells = |line: &'static str| line.trim_matches('|').split('|').map(str::trim).collect();
    let mut rows: Vec<Vec<_>> = table.map(cells).collect();
    let below = rows.split_off(2);
    assert_eq!(rows, [vec!["Offset", "Bytes", "Field", "Largest", "What it is"], vec!["---"; 5]]);
    below
}

/// The first four cells of each row as they must be. Length and version have no name and no largest value.
fn rows_of_the_layout() -> Vec<[String; 4]> {
    let head = [(0, 2), (2, 1)].map(|(first, bytes)| [first.to_string(), bytes.to_string(), "".into(), "".into()]);
    let fields = LAYOUT.iter().map(|(name, first, largest)| {
        let bytes = match largest {
            511 => 24,
            255 => 8,
            65535 | 768 => 2,
            _ => 1,
        };
        [first.to_string(), bytes.to_string(), format!("`{}`", name), largest.to_string()]
    });
    head.into_iter().chain(fields).collect()
}

#[test]
fn page_has_the_layout() {
    let (page, layout) = (rows_of_the_page(), rows_of_the_layout());
    for (row, wanted) in page.iter().zip(&layout) {
        assert_eq!(row.len(), 5, "{:?}", row);
        assert_eq!(row[..4], wanted[..]);
    }
    assert_eq!((page.len(), layout.len()), (35, 35));
    for Old { version, length } in OLD {
        let row = format!("\n| {} | {}: 0, {} and {} first |", version, length, length, version);
        assert!(PAGE.contains(&row), "{}", row);
    }
}

/// Every byte by hand: each field has a value of its own, or its largest.
#[test]
fn worked_by_hand() {
    let end = End {
        tx: [0x0AA, 0x101, 0x102, 0x103, 0x104, 0x105, 0x106, 0x107, 0x108, 0x109, 0x10A, 0x1FF],
        position: 11,
        sending_toggle: true,
        ready: false,
        health: 2,
        loaded_health: 3,
        pending: true,
        register_toggle: false,
        received: true,
        received_toggle: false,
        number: 15,
        ping_tx: true,
        bytes: [0x11, 0x12, 0x13, 0x14, 0x15, 0x16, 0x17, 0xFF],
        rx: [0x0BB, 0x121, 0x122, 0x123, 0x124, 0x125, 0x126, 0x127, 0x128, 0x129, 0x12A, 0x1FE],
        count: 10,
        partner_health: 1,
        ping_got: false,
        partner_ping: true,
        valid: false,
        toggle: true,
        ack: false,
        togack: true,
        expected_toggle: false,
        acknowledge: true,
        full: false,
        rx_toggle: true,
        rx_number: 14,
        rx_bytes: [0x21, 0x22, 0x23, 0x24, 0x25, 0x26, 0x27, 0xFE],
        accepted_count: 0xFFFE,
        crc_count: 0x0102,
        marked_count: 0x0300,
        early_count: 0x0004,
        silence: Silence::of_left(0x02FE),
    };
    // What stands between the head and `present`, and from there to the counts.
    let body = "00AA 0101 0102 0103 0104 0105 0106 0107 0108 0109 010A 01FF 0B 01 00 02 03 01 00 01 00 0F 01 \
                11121314151617FF 00BB 0121 0122 0123 0124 0125 0126 0127 0128 0129 012A 01FE 0A";
    let heard = "01 00 01 00 01 00 01 00 01 00 01 0E 21222324252627FE";
    let counts = "FFFE 0102 0300 0004";
    let bytes = |text: &str| -> Vec<u8> {
        let digits: Vec<u32> = text.chars().filter_map(|letter| letter.to_digit(16)).collect();
        digits.chunks(2).map(|pair| (16 * pair[0] + pair[1]) as u8).collect()
    };
    let record = bytes(&format!("0065 03 {body} {heard} {counts} 02FE"));
    assert_eq!((record.len(), spelled_out(&end)), (101, record.clone()));
    let mut calls = Calls::default();
    calls.lay(0, &record);
    assert_eq!(calls.call(0, Call::Counts), (Answer::Done, [0xFFFE, 0x0102, 0x0300, 0x0004]));
    assert_eq!(calls.call(0, Call::Present), (Answer::Done, [1, 0, 0, 0]));
    for present in [false, true] {
        let flag = u8::from(present);
        let [first, second] = OLD.map(|old| spelled_out_old(&end, present, old));
        assert_eq!(first, bytes(&format!("005C 01 {body} 0{flag} {heard}")));
        assert_eq!(second, bytes(&format!("0064 02 {body} 0{flag} {heard} {counts}")));
        for (old, kept) in [(first, "0000 0000 0000 0000"), (second, counts)] {
            let new = bytes(&format!("0065 03 {body} {heard} {kept} 0000"));
            assert_eq!(upgraded(&old), new);
            calls.lay(1, &old);
            assert_eq!((calls.upgrade(0), calls.area(0)), (Answer::Done, &new[..]));
            assert_eq!(calls.call(0, Call::Present), (Answer::Done, [0; 4]));
        }
    }
    compare_when(true, "records, worked by hand", &mut calls);
}

/// The second implementation's own records: as the table lays them, read back as the same end, and accepted only if
/// writing gives the same bytes.
#[test]
fn second_round_trips() {
    let start = Instant::now();
    let mut random = Random::new(seed());
    let mut end = End::reset();
    let (count, mut accepted) = (100_000, 0);
    for turn in 0..count {
        wander(&mut end, &mut random);
        let any = if turn % 2 == 0 { end.clone() } else { any_good_end(&mut random) };
        let record = record_of(&any);
        assert_eq!(record, spelled_out(&any));
        assert_eq!(end_of(&record), Some(any));
        let bytes = damaged(&record, &mut random);
        let read = end_of(&bytes);
        assert_eq!(read.is_some(), is_record(&bytes), "{:02X?}", bytes);
        if let Some(read) = read {
            assert_eq!(record_of(&read), bytes);
            accepted += 1;
        }
    }
    assert!(accepted > count / 100 && accepted < count);
    tell("records, round trips", count, "ends", start);
}
