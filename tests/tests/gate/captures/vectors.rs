//! The captures in `vectors/` and the reports that a separately written implementation printed for them.

use crate::helpers::reader::read;
use crate::helpers::tell::tell;
use second::proved::package;
use second::t1::capture::report;
use std::fs;
use std::time::Instant;

const COUNT: usize = 22;

struct Vector {
    name: String,
    capture: Vec<u8>,
    report: Vec<u8>,
}

impl Vector {
    /// As the last line says.
    fn status(&self) -> i32 {
        let text = String::from_utf8_lossy(&self.report);
        let last = text.lines().last().expect("a report has a last line");
        match last.split(' ').collect::<Vec<_>>()[1..3] {
            ["end", "0"] => 0,
            ["end", "5" | "12"] => 1,
            _ => panic!("{}: {}", self.name, last),
        }
    }
}

fn vectors() -> Vec<Vector> {
    let folder = package().join("vectors/captures");
    let mut found = Vec::new();
    for entry in fs::read_dir(&folder).expect("vectors/captures is there") {
        let path = entry.expect("a folder can be read").path();
        if path.extension().map_or(false, |kind| kind == "bin") {
            let name = path.file_stem().expect("a file has a name").to_string_lossy().into_owned();
            let capture = fs::read(&path).expect("a capture can be read");
            let report = fs::read(path.with_extension("out")).expect("each capture has its report");
            found.push(Vector { name, capture, report });
        }
    }
    assert_eq!(found.len(), COUNT);
    assert_eq!(fs::read_dir(folder).expect("vectors/captures is there").count(), 2 * COUNT);
    found
}

#[test]
fn second_prints_them() {
    for vector in vectors() {
        let told = report(&vector.capture);
        assert_eq!((told.text == vector.report, told.status()), (true, vector.status()), "{}", vector.name);
    }
}

#[test]
fn proved_prints_them() {
    let start = Instant::now();
    let mut lines = 0;
    for vector in vectors() {
        read(&vector.capture).reported(&vector.name, &vector.report, vector.status());
        lines += report(&vector.capture).lines();
    }
    tell("captures, vectors", lines, "lines", start);
}
