//! The second implementation as a program: the commands of a bench on standard input, its answers on standard output.
//! Its words are those of `./bench`.

use second::console::{speak, Console};
use second::{fibre, t1};
use std::env;
use std::io::{stdin, stdout, Error, ErrorKind, Result};

fn main() -> Result<()> {
    let words: Vec<String> = env::args().skip(1).collect();
    if words == t1::bench::Bench::PROVED {
        speak::<t1::bench::Bench>(stdin().lock(), stdout().lock())
    } else if words == fibre::bench::Bench::PROVED {
        speak::<fibre::bench::Bench>(stdin().lock(), stdout().lock())
    } else {
        Err(Error::new(ErrorKind::InvalidInput, "there is no such bench"))
    }
}
