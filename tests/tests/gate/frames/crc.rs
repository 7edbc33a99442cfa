//! The CRC against what others published and built.

use crate::helpers::scripts::{answered, compare};
use crate::helpers::tell::{seed, tell};
use second::random::Random;
use second::t1::bench::Script;
use second::t1::frame::{crc, DATA};
use second::t1::generate::data_bytes;
use std::io::Write;
use std::process::{Command, Stdio};
use std::thread;
use std::time::Instant;

/// The bits of a message.
const BITS: usize = 8 * DATA;

/// Debian's python3-crcmod. Its reflected register has S15 in bit 0, so the low byte is symbol 10's.
const OUTSIDE: &str = "
import sys, crcmod.predefined
crc = crcmod.predefined.mkCrcFun('crc-16')
for line in sys.stdin:
    value = crc(bytes.fromhex(line))
    print('%02X %02X' % (value & 0xFF, value >> 8))
";

/// CRC-16/ARC gives BB3D for the text 123456789; a zero byte before it changes nothing.
#[test]
fn published_check_value() {
    assert_eq!(crc(b"\x00123456789"), [0x3D, 0xBB]);
    let mut script = Script::new(0);
    answered(&mut script, "crc 00 31 32 33 34 35 36 37 38 39", "3D BB");
    compare("crc", &script);
}

#[test]
fn outside_implementation() {
    let mut random = Random::new(seed());
    compare_outside("crc, random", (0..150_000).map(|_| data_bytes(&mut random)));
}

/// Every message with one to three of its eighty bits set, as many as demand 2 speaks of, and every one with as many
/// clear. A wrong shift shows in one bit; a carry where none belongs shows in two.
#[test]
fn few_ones_and_few_zeros() {
    let places = (0..BITS).flat_map(|i| (i..BITS).flat_map(move |j| (j..BITS).map(move |k| [i, j, k])));
    // Of the ways to name a place twice one is left, so that each message comes once.
    let places = places.filter(|[i, j, k]| j < k || i == k);
    let ones = places.map(|places| places.iter().fold(0u128, |message, place| message | 1 << place));
    let messages = ones.flat_map(|message| [message, !message]).map(|message| message.to_le_bytes());
    compare_outside(
        "crc, few",
        messages.map(|bytes| bytes[..DATA].try_into().expect("as many bytes as are asked for")),
    );
}

/// The bench, the second implementation and crcmod on the same messages.
fn compare_outside(name: &str, messages: impl Iterator<Item = [u8; DATA]>) {
    let start = Instant::now();
    let mut script = Script::new(seed());
    let mut inputs = String::new();
    for message in messages {
        let hex: Vec<String> = message.iter().map(|byte| format!("{:02X}", byte)).collect();
        let hex = hex.join(" ");
        script.say(format_args!("crc {}", hex));
        inputs += &(hex + "\n");
    }
    assert!(script.expected == outside(&inputs), "crcmod and the second implementation differ");
    compare(name, &script);
    tell(name, script.lines, "inputs", start);
}

/// Debian's own Python, as another one would not see Debian's modules.
fn outside(inputs: &str) -> Vec<u8> {
    let mut child = Command::new("/usr/bin/python3")
        .args(["-c", OUTSIDE])
        .stdin(Stdio::piped())
        .stdout(Stdio::piped())
        .spawn()
        .expect("Debian's python3 can be run");
    let mut stdin = child.stdin.take().expect("its input is ours");
    let output = thread::scope(|scope| {
        scope.spawn(move || stdin.write_all(inputs.as_bytes()));
        child.wait_with_output()
    });
    let output = output.expect("its output can be read");
    assert!(output.status.success(), "Debian's package python3-crcmod is needed");
    output.stdout
}
