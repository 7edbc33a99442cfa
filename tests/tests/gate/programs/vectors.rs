//! The scripts in `vectors/` and what a separately written implementation printed for them, and the stories in `docs/`.

use crate::helpers::scripts::proved_prints;
use crate::helpers::tell::tell;
use second::console;
use second::proved::package;
use second::script::first_difference;
use second::{fibre, t1};
use std::fs;
use std::path::PathBuf;
use std::time::Instant;

/// The scripts of 1000BASE-T1, of its reports and of the fibre channel, by the folder of what they must print.
const T1: (&str, usize) = ("107", 8);
const REPORTS: (&str, usize) = ("110", 2);
const FIBRE: (&str, usize) = ("109", 2);

/// Name, script and expected output.
type Vector = (String, Vec<u8>, Vec<u8>);

fn folder() -> PathBuf {
    package().join("vectors")
}

fn vectors((expected, count): (&str, usize)) -> Vec<Vector> {
    let mut found = Vec::new();
    for entry in fs::read_dir(folder().join("expected").join(expected)).expect("vectors/expected is there") {
        let path = entry.expect("a folder can be read").path();
        let name = path.file_stem().expect("a file has a name").to_string_lossy().into_owned();
        let script = folder().join("scripts").join(format!("{}.txt", name));
        found.push((
            name,
            fs::read(&script).expect("each expected output has its script"),
            fs::read(&path).expect("an expected output can be read"),
        ));
    }
    assert_eq!(found.len(), count);
    found
}

/// A script in `docs/` with its output.
fn story(name: &str) -> Vector {
    let docs = package().join("../docs");
    (
        format!("docs/{}", name),
        fs::read(docs.join(format!("{}.txt", name))).expect("a story can be read"),
        fs::read(docs.join(format!("{}.out", name))).expect("a story's output can be read"),
    )
}

/// The vectors of a channel, and its story.
fn with_story(channel: (&str, usize), name: &str) -> Vec<Vector> {
    let mut found = vectors(channel);
    found.push(story(name));
    found
}

fn t1_vectors() -> Vec<Vector> {
    let mut found = with_story(T1, "freeze");
    found.extend(with_story(REPORTS, "report"));
    found
}

fn fibre_vectors() -> Vec<Vector> {
    with_story(FIBRE, "fibre")
}

/// A script as `./play` shows it: each command with its answer beside it, comments as they stand.
fn played((_, script, output): Vector) -> String {
    let script = String::from_utf8(script).expect("a story is text");
    let output = String::from_utf8(output).expect("a story's output is text");
    let mut answers = output.lines();
    let mut shown = String::new();
    for line in script.lines() {
        if line.is_empty() || line.starts_with('#') {
            shown.push_str(line);
        } else {
            shown.push_str(&format!("{:<24} {}", line, answers.next().expect("each command has its answer")));
        }
        shown.push('\n');
    }
    assert_eq!(answers.next(), None);
    shown
}

fn line(output: &[u8], index: usize) -> String {
    let line = output.split(|byte| *byte == b'\n').nth(index).unwrap_or(b"(nothing)");
    String::from_utf8_lossy(line).into_owned()
}

fn hold(who: &str, vectors: Vec<Vector>, answers: impl Fn(&[u8]) -> Vec<u8>) {
    let start = Instant::now();
    let mut count = 0;
    for (name, script, expected) in vectors {
        let printed = answers(&script);
        if let Some(index) = first_difference(&expected, &printed) {
            let (wanted, got) = (line(&expected, index), line(&printed, index));
            panic!("vector {}, printed line {}\n  expected: {}\n  {}: {}", name, index + 1, wanted, who, got);
        }
        count += expected.iter().filter(|byte| **byte == b'\n').count();
    }
    tell(&format!("vectors, {}", who), count, "lines", start);
}

#[test]
fn every_script_has_its_output() {
    let scripts = fs::read_dir(folder().join("scripts")).expect("vectors/scripts is there").count();
    assert_eq!(scripts, T1.1 + REPORTS.1 + FIBRE.1);
}

#[test]
fn second_prints_them() {
    hold("second", t1_vectors(), console::run::<t1::bench::Bench>);
    hold("second, fibre", fibre_vectors(), console::run::<fibre::bench::Bench>);
}

#[test]
fn proved_prints_them() {
    hold("proved", t1_vectors(), proved_prints::<t1::bench::Bench>);
}

#[test]
fn proved_prints_those_of_fibre() {
    hold("proved, fibre", fibre_vectors(), proved_prints::<fibre::bench::Bench>);
}

/// The pages show the stories with the output that the programs are held to.
#[test]
fn pages_show_the_stories() {
    for (page, name) in [("README.md", "freeze"), ("docs/REPORT.md", "report"), ("docs/FIBRE.md", "fibre")] {
        let text = fs::read_to_string(package().join("..").join(page)).expect("a page can be read");
        let block = format!("```text\n{}```\n", played(story(name)));
        assert!(text.contains(&block), "{} does not show docs/{}.txt with its output", page, name);
    }
}
