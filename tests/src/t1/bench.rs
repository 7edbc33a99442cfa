//! The bench: commands on two ends, each with its reporting host, a link and the finder.

use super::end::{End, Reason};
use super::fields::fields;
use super::finder::find;
use super::frame::{build, check, crc, Fault, DATA, SYMBOLS};
use super::link::Link;
use super::report::{Block, Host, Pulled, Pushed, Taken};
use crate::console::{decimal, hex, Console, Said, Word, LARGEST};
use crate::fields::{dump, set};
use crate::link::side;
use crate::script;

const LARGEST_BYTE: u32 = 0xFF;

pub type Script = script::Script<Bench>;

pub struct Bench {
    pub link: Link,
    /// Host n is that of end n.
    pub hosts: [Host; 2],
}

impl Default for Bench {
    /// As after `link 0 0`.
    fn default() -> Bench {
        Bench { link: Link::new(0, 0), hosts: Default::default() }
    }
}

impl Console for Bench {
    const PROVED: &'static [&'static str] = &[];

    fn command(&mut self, words: &[Word]) -> Said {
        let (first, rest) = (words[0], &words[1..]);
        if let Some(said) = self.link.command(words) {
            if first == b"link" && said.is_ok() {
                self.hosts = Default::default();
            }
            return said;
        }
        match first {
            b"check" => say_check(&symbols(rest)?),
            b"find" => say_find(&symbols(rest)?),
            b"crc" => Ok(joined(&crc(&ten_bytes(rest)?), |byte| format!("{:02X}", byte))),
            b"build" => Ok(joined(&build(&ten_bytes(rest)?), |symbol| format!("{:03X}", symbol))),
            _ => {
                let side = side(first)?;
                call(&mut self.link.ends[side], &mut self.hosts[side], rest)
            }
        }
    }
}

fn call(end: &mut End, host: &mut Host, words: &[Word]) -> Said {
    let (name, arguments) = words.split_first().ok_or("a call is needed")?;
    match (*name, arguments) {
        (b"offer", bytes) => Ok(host.sender.offer(&block(bytes)?).number().to_string()),
        (b"push", []) => Ok(say_push(host.sender.push(end))),
        (b"pull", []) => Ok(say_pull(host.taker.pull(end))),
        (b"report", []) => Ok(say_report(host)),
        _ => call_end(end, name, arguments),
    }
}

fn call_end(end: &mut End, name: Word, arguments: &[Word]) -> Said {
    match (name, arguments) {
        (b"reset", []) => {
            *end = End::reset();
            Ok("0".to_string())
        }
        (b"send", []) => {
            let (answer, symbol) = end.send();
            Ok(format!("{} {:03X}", answer.number(), symbol))
        }
        (b"take", [symbol]) => say_take(end, hex(symbol, LARGEST)?),
        (b"read", [register]) => {
            let (answer, value) = end.read(decimal(register, LARGEST)?);
            Ok(format!("{} {:04X}", answer.number(), value))
        }
        (b"write", [register, value]) => {
            let (register, value) = (decimal(register, LARGEST)?, hex(value, LARGEST)?);
            Ok(end.write(register, value).number().to_string())
        }
        (b"health", [health]) => Ok(end.set_health(hex(health, LARGEST)?).number().to_string()),
        (b"present", []) => Ok(if end.is_present() { "yes" } else { "no" }.to_string()),
        (b"dump", []) => Ok(dump(fields(end))),
        (b"set", words) => set(fields(end), words),
        _ => Err("no such call, or not its words"),
    }
}

fn say_take(end: &mut End, symbol: u16) -> Said {
    let (answer, reason) = end.take(symbol);
    let number = answer.number();
    Ok(match reason {
        None => number.to_string(),
        Some(Reason::Accepted) => format!("{} accepted", number),
        Some(Reason::Crc) => format!("{} crc", number),
        Some(Reason::Marked(collected)) => format!("{} marked {}", number, collected),
        Some(Reason::Early(collected)) => format!("{} early {}", number, collected),
    })
}

fn say_push(pushed: Pushed) -> String {
    match pushed {
        Pushed::Idle => "idle".to_string(),
        Pushed::Waits => "waits".to_string(),
        Pushed::Refused(answer) => answer.number().to_string(),
        Pushed::Part(number) => format!("part {}", number),
    }
}

fn say_pull(pulled: Pulled) -> String {
    match pulled {
        Pulled::Empty => "empty".to_string(),
        Pulled::Refused(answer) => answer.number().to_string(),
        Pulled::Message(number, Taken::Part) => format!("part {}", number),
        Pulled::Message(number, Taken::Out) => format!("out {}", number),
        Pulled::Message(_, Taken::Block(block)) => format!("block {}", digits(&block)),
    }
}

fn say_report(host: &Host) -> String {
    let next = host.sender.next().map_or("-".to_string(), |number| number.to_string());
    format!("next {} turn {} part {}", next, host.taker.turn(), digits(&host.taker.block()))
}

fn digits(block: &Block) -> String {
    block.iter().map(|byte| format!("{:02X}", byte)).collect()
}

fn say_check(list: &[u16]) -> Said {
    let (answer, fault) = check(list);
    let number = answer.number();
    Ok(match fault {
        None => number.to_string(),
        Some(Fault::Marked(place)) => format!("{} marked {}", number, place),
        Some(Fault::Parity(place)) => format!("{} parity {}", number, place),
        Some(Fault::Crc) => format!("{} crc", number),
    })
}

fn say_find(list: &[u16]) -> Said {
    let (answer, place) = find(list);
    let length = if answer.number() == 0 { SYMBOLS } else { 0 };
    Ok(format!("{} {} {}", answer.number(), place, length))
}

fn symbols(words: &[Word]) -> Result<Vec<u16>, &'static str> {
    words.iter().map(|word| hex(word, LARGEST)).collect()
}

fn ten_bytes(words: &[Word]) -> Result<[u8; DATA], &'static str> {
    bytes(words)?.try_into().map_err(|_| "ten bytes are needed")
}

fn block(words: &[Word]) -> Result<Block, &'static str> {
    bytes(words)?.try_into().map_err(|_| "128 bytes are needed")
}

fn bytes(words: &[Word]) -> Result<Vec<u8>, &'static str> {
    words.iter().map(|word| hex(word, LARGEST_BYTE).map(|byte| byte as u8)).collect()
}

fn joined<T>(values: &[T], write: impl Fn(&T) -> String) -> String {
    values.iter().map(write).collect::<Vec<_>>().join(" ")
}
