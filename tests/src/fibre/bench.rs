//! `./bench fibre`: commands on two ends and the link between them.

use super::end::{Block, End, Message};
use super::fields::fields;
use super::link::Link;
use crate::console::{decimal, hex, Console, Said, Word, LARGEST};
use crate::fields::{dump, set};
use crate::link::side;
use crate::script;
use std::fmt::Write;

pub type Script = script::Script<Bench>;

pub struct Bench {
    pub link: Link,
}

impl Default for Bench {
    /// As after `link 0 0`.
    fn default() -> Bench {
        Bench { link: Link::new(0, 0) }
    }
}

impl Console for Bench {
    const PROVED: &'static [&'static str] = &["fibre"];

    fn command(&mut self, words: &[Word]) -> Said {
        match self.link.command(words) {
            Some(said) => said,
            None => call(&mut self.link.ends[side(words[0])?], &words[1..]),
        }
    }
}

fn call(end: &mut End, words: &[Word]) -> Said {
    let (name, arguments) = words.split_first().ok_or("a call is needed")?;
    match (*name, arguments) {
        (b"reset", []) => {
            *end = End::default();
            Ok("0".to_string())
        }
        (b"send", []) => Ok(say_send(end)),
        (b"take", [bad, block @ ..]) => {
            let (bad, block) = (bit(bad)?, block_of(block)?);
            Ok(end.take(block, bad).number().to_string())
        }
        (b"read", [word]) => {
            let (answer, value) = end.read(decimal(word, LARGEST)?);
            Ok(format!("{} {:04X}", answer.number(), value))
        }
        (b"write", [word, value]) => {
            let (word, value) = (decimal(word, LARGEST)?, hex(value, LARGEST)?);
            Ok(end.write(word, value).number().to_string())
        }
        (b"dump", []) => Ok(dump(fields(end))),
        (b"set", words) => set(fields(end), words),
        _ => Err("no such call, or not its words"),
    }
}

fn say_send(end: &mut End) -> String {
    let (answer, block) = end.send();
    let [msgt, phyt, mert] = [block.msgt, block.phyt, block.mert].map(u8::from);
    let mut said = format!("{} {} {} {} {:03X}", answer.number(), msgt, phyt, mert, block.message.control);
    for word in block.message.words {
        write!(said, " {:04X}", word).expect("memory takes what is written");
    }
    said
}

/// MSGT, PHYT, MERT, the control and the eight words.
fn block_of(words: &[Word]) -> Result<Block, &'static str> {
    if let [msgt, phyt, mert, control, data @ ..] = words {
        let data: Vec<u16> = data.iter().map(|word| hex(word, LARGEST)).collect::<Result<_, _>>()?;
        let message =
            Message { control: hex(control, LARGEST)?, words: data.try_into().map_err(|_| "a block has eight words")? };
        return Ok(Block { msgt: bit(msgt)?, phyt: bit(phyt)?, mert: bit(mert)?, message });
    }
    Err("a block has three toggles, a control and eight words")
}

fn bit(word: Word) -> Result<bool, &'static str> {
    Ok(hex(word, 1)? == 1)
}
