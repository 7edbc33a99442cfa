//! `soak SECONDS [SEED]`: random scripts of every kind through both implementations, until the time is up or they
//! differ.

use second::console::Console;
use second::script::Script;
use second::{fibre, t1};
use std::env;
use std::process::ExitCode;
use std::time::{Duration, Instant, SystemTime, UNIX_EPOCH};

const LINES: usize = 50_000;

fn main() -> ExitCode {
    let numbers: Option<Vec<u64>> = env::args().skip(1).map(|word| word.parse().ok()).collect();
    let (seconds, seed) = match numbers.as_deref() {
        Some([seconds]) => (*seconds, clock_seed()),
        Some([seconds, seed]) => (*seconds, *seed),
        _ => {
            eprintln!("soak SECONDS [SEED]");
            return ExitCode::FAILURE;
        }
    };
    match soak(Duration::from_secs(seconds), seed) {
        Ok(()) => ExitCode::SUCCESS,
        Err(why) => {
            eprintln!("{}", why);
            ExitCode::FAILURE
        }
    }
}

fn clock_seed() -> u64 {
    SystemTime::now().duration_since(UNIX_EPOCH).map_or(0, |time| time.as_secs() * 1_000_000)
}

/// Each round has the next seed, and one script of each kind.
fn soak(time: Duration, first: u64) -> Result<(), String> {
    let start = Instant::now();
    let mut counts = Counts::default();
    let mut seed = first;
    while start.elapsed() < time {
        for (name, kind) in t1::generate::KINDS {
            counts.compare(name, &kind(seed, LINES))?;
        }
        for (name, kind) in fibre::generate::KINDS {
            counts.compare(name, &kind(seed, LINES))?;
        }
        seed += 1;
    }
    let Counts { lines, calls } = counts;
    println!("seeds {} to {}, {} lines with {} calls on ends, no difference", first, seed - 1, lines, calls);
    Ok(())
}

#[derive(Default)]
struct Counts {
    lines: usize,
    calls: usize,
}

impl Counts {
    fn compare<C: Console>(&mut self, name: &str, script: &Script<C>) -> Result<(), String> {
        script.compare().map_err(|why| format!("{}: {}", name, why))?;
        self.lines += script.lines;
        self.calls += script.calls;
        Ok(())
    }
}
