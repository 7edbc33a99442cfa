//! The C programs that `tests/c/build` has compiled.

use crate::proved::package;
use std::env;
use std::path::PathBuf;
use std::process::{Command, Stdio};

/// Names the folder of the programs, by its absolute path.
const FOLDER: &str = "SIMHADOL_C";
const DEFAULT_FOLDER: &str = "../target/c";

/// What runs a program, its input and outputs in our hands. It may be given words.
pub fn program(name: &str) -> Command {
    let mut command = Command::new(package().join("c/run"));
    command.arg(name);
    in_our_hands(command)
}

/// The same under valgrind, which gives status 3 for a byte touched that is not the program's, or for memory lost.
pub fn under_valgrind(name: &str) -> Command {
    let folder = env::var_os(FOLDER).map_or_else(|| package().join(DEFAULT_FOLDER), PathBuf::from);
    let mut command = Command::new("valgrind");
    command.args(["--quiet", "--leak-check=full", "--error-exitcode=3"]).arg(folder.join(name));
    in_our_hands(command)
}

fn in_our_hands(mut command: Command) -> Command {
    command.stdin(Stdio::piped()).stdout(Stdio::piped()).stderr(Stdio::piped());
    command
}
