//! Runs the proved programs.

use std::env;
use std::io::Write;
use std::path::PathBuf;
use std::process::{Child, Command, ExitStatus, Output, Stdio};
use std::thread;

/// Names the program that starts every console to be tested; a relative path is seen from this package.
const PROGRAM: &str = "SIMHADOL_BENCH";
const DEFAULT_PROGRAM: &str = "../bench";

/// The folder of this package. Cargo names it to what it runs, so that a copied tree tests its own programs though it
/// was compiled elsewhere; what runs without cargo has the folder it was compiled in.
pub fn package() -> PathBuf {
    env::var_os("CARGO_MANIFEST_DIR").unwrap_or_else(|| env!("CARGO_MANIFEST_DIR").into()).into()
}

fn path() -> PathBuf {
    package().join(env::var_os(PROGRAM).unwrap_or_else(|| DEFAULT_PROGRAM.into()))
}

/// Starts the console that these words name, with its input and output in our hands.
pub fn start(words: &[&str]) -> Result<Child, String> {
    let path = path();
    Command::new(&path)
        .args(words)
        .stdin(Stdio::piped())
        .stdout(Stdio::piped())
        .spawn()
        .map_err(|why| format!("the proved program {} cannot be run: {} ({} names it)", path.display(), why, PROGRAM))
}

/// What the console prints for `input`, and how it ended.
pub fn run(words: &[&str], input: &[u8]) -> Result<(Vec<u8>, ExitStatus), String> {
    let output = feed(start(words)?, input)?;
    Ok((output.stdout, output.status))
}

/// Gives a program all its input, and waits for its end.
pub fn feed(mut child: Child, input: &[u8]) -> Result<Output, String> {
    let mut stdin = child.stdin.take().ok_or("no standard input")?;
    // The input is written beside the reading, as neither pipe holds a whole script. A program that stops reading
    // shows by its output and status, so a failed write says nothing more.
    let output = thread::scope(|scope| {
        scope.spawn(move || stdin.write_all(input));
        child.wait_with_output()
    });
    output.map_err(|why| why.to_string())
}
