//! The C programs as they are: document 02, #104 to #107.

use crate::helpers::areas::driver;
use second::programs::program;
use second::proved::feed;
use second::t1::end::End;
use std::fs::OpenOptions;
use std::process::{Command, Output};

const TILE: &str = include_str!("../../../../examples/tile.out");

fn run(mut command: Command, input: &str) -> Output {
    let child = command.spawn().unwrap_or_else(|why| panic!("{:?} cannot be run: {}", command, why));
    feed(child, input.as_bytes()).unwrap_or_else(|why| panic!("{:?}: {}", command, why))
}

/// What is printed, by a program that has to end well.
fn printed(name: &str, output: &Output) -> String {
    let text = String::from_utf8_lossy(&output.stdout).into_owned();
    let errors = String::from_utf8_lossy(&output.stderr);
    assert!(output.status.success(), "{} ended with {}\n{}{}", name, output.status, text, errors);
    text
}

#[test]
fn tile_plays_the_freeze() {
    assert_eq!(printed("tile", &run(program("tile"), "")), TILE);
}

#[test]
fn tests_from_c_pass() {
    let text = printed("calls", &run(program("calls"), ""));
    assert!(text.ends_with("\n50 tests, 0 failed\n"), "{}", text);
}

#[test]
fn header_is_cpp_too() {
    printed("header", &run(program("header"), ""));
}

#[test]
fn macros_are_the_lengths() {
    assert_eq!(printed("driver", &run(driver("guards"), "length\n")), "101 101 92 100\n");
}

/// What can't be printed is told, and no success.
#[test]
fn failed_output_is_told() {
    let programs: [(&str, &[&str]); 3] = [("tile", &[]), ("calls", &[]), ("slots", &["48"])];
    for (name, words) in programs {
        let full = OpenOptions::new().write(true).open("/dev/full").expect("/dev/full is there");
        let mut command = program(name);
        command.args(words).stdout(full);
        let output = run(command, "");
        let errors = String::from_utf8_lossy(&output.stderr);
        assert_eq!(output.status.code(), Some(1), "{}: {}", name, errors);
        assert!(errors.starts_with(&format!("{}: ", name)), "{}: {}", name, errors);
    }
}

/// What `slots` sums up is what the second implementation's own ends give, without records.
#[test]
fn slots_are_those_of_ends() {
    let count = 4_810u32;
    let mut command = program("slots");
    command.arg(count.to_string());
    assert_eq!(printed("slots", &run(command, "")), format!("{}\n", sum_of_slots(count)));
}

fn sum_of_slots(count: u32) -> u64 {
    let (mut a, mut b, mut sum) = (End::reset(), End::reset(), 0u64);
    let mut add = |number: u16| sum = sum % (1 << 32) * 31 + u64::from(number);
    for left in (1..=count).rev() {
        if left % 48 == 0 {
            let number = (left % 65536) as u16;
            a.write(2309, number);
            a.write(2308, 0x8000 | number % 16 << 8);
            add(b.read(2313).1);
            add(b.read(2317).1);
        }
        let sent = [a.send().1, b.send().1];
        a.take(sent[1]);
        b.take(sent[0]);
        sent.into_iter().for_each(&mut add);
    }
    sum
}

/// The driver says what it can't read and where, and stops.
#[test]
fn driver_names_what_it_cannot_read() {
    let long = format!("a area {}\n", "00".repeat(1025));
    let inputs = [
        "\n",
        "c send\n",
        "a\n",
        "a area\n",
        "a area 0\n",
        "a area 0G\n",
        "a area ab\n",
        "a area 00 00\n",
        "a sent\n",
        "a take\n",
        "a take x\n",
        "a take -1\n",
        "a take 65536\n",
        "a take 1 2\n",
        "a reason\n",
        "a counts 1\n",
        "a seal 1\n",
        "a upgrade\n",
        "a upgrade a\n",
        "b upgrade b\n",
        "a upgrade c\n",
        "a upgrade b 1\n",
        "a write 1\n",
        "a send",
        "length 1\n",
        "a send\0\n",
        &long,
    ];
    for input in inputs {
        let output = run(driver("guards"), &format!("length\n{}", input));
        let errors = String::from_utf8_lossy(&output.stderr);
        assert!(output.status.code() == Some(2), "{:?}: {}", input, output.status);
        assert!(errors.starts_with("driver: line 2: "), "{:?}: {}", input, errors);
        assert_eq!(output.stdout, b"101 101 92 100\n", "{:?}", input);
    }
    assert_eq!(run(driver("elsewhere"), "").status.code(), Some(2));
}
