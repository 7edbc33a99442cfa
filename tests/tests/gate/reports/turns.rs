//! Each number at each turn, on both sides: what the page says of it, gone through one by one.

use crate::helpers::blocks::{down, printed, spliced, typed, up, Block, ZERO};
use crate::helpers::scripts::{answered, compare};
use crate::helpers::tell::{seed, tell};
use second::random::Random;
use second::t1::bench::Script;
use std::time::Instant;

/// Part `number` of a block stands in b's receive register and is pulled.
fn pulled(script: &mut Script, number: usize, block: &Block, wanted: &str) {
    for (index, byte) in block[8 * number..8 * number + 8].iter().enumerate() {
        script.say(format_args!("b set rx_bytes {} {:X}", index, byte));
    }
    script.say(format_args!("b set rx_number {:X}", number));
    script.say(format_args!("b set full 1"));
    answered(script, "b pull", wanted);
}

fn reported(script: &mut Script, turn: usize, part: &Block) {
    answered(script, "b report", &format!("next - turn {} part {}", turn, printed(part)));
}

/// A taker that has the first so many parts of `up` is given one of `down`. In turn it fills its place, and 15 hands
/// the block over; out of turn it drops the others, and a 0 starts the next block.
#[test]
fn every_number_at_every_turn() {
    let start = Instant::now();
    let mut script = Script::new(seed());
    for turn in 0..16 {
        for number in 0..16 {
            script.say(format_args!("link 0 0"));
            (0..turn).for_each(|before| pulled(&mut script, before, &up(), &format!("part {}", before)));
            reported(&mut script, turn, &spliced(&up(), turn, &ZERO));
            let mixed = spliced(&up(), turn, &down());
            let (said, next, part) = if number == 15 && turn == 15 {
                (format!("block {}", printed(&mixed)), 0, ZERO)
            } else if number == turn {
                (format!("part {}", number), turn + 1, spliced(&mixed, turn + 1, &ZERO))
            } else if number == 0 {
                ("part 0".to_string(), 1, spliced(&down(), 1, &ZERO))
            } else {
                (format!("out {}", number), 0, ZERO)
            };
            pulled(&mut script, number, &down(), &said);
            reported(&mut script, next, &part);
        }
    }
    compare("reports, every number at every turn", &script);
    tell("reports, every number at every turn", script.lines, "lines", start);
}

/// The messages that were pulled, the last one last.
#[derive(Default)]
struct Messages(Vec<(usize, [u8; 8])>);

impl Messages {
    /// The block, if the last sixteen are in turn, 0 to 15.
    fn whole(&self) -> Option<Vec<u8>> {
        let last = &self.0[self.0.len().checked_sub(16)?..];
        let in_turn = last.iter().enumerate().all(|(turn, (number, _))| turn == *number);
        in_turn.then(|| last.iter().flat_map(|(_, bytes)| *bytes).collect())
    }
}

/// Whatever messages come: a block is handed over with the last of sixteen in turn, with nothing between them, and
/// with no other message.
#[test]
fn handed_over_is_sixteen_in_turn() {
    let start = Instant::now();
    let mut script = Script::new(seed());
    let mut random = Random::new(seed());
    let mut messages = Messages::default();
    let (mut bytes, mut number, mut blocks) = ([0; 8], 0, 0);
    for _ in 0..15_000 {
        for _ in 0..random.below(3) {
            let index = random.below(8);
            bytes[index] = random.byte();
            script.say(format_args!("b set rx_bytes {} {:X}", index, bytes[index]));
        }
        let any = random.below(16);
        number = if random.one_in(40) { random.of(&[0, 15, number, any]) } else { (number + 1) % 16 };
        script.say(format_args!("b set rx_number {:X}", number));
        script.say(format_args!("b set full 1"));
        script.say(format_args!("b pull"));
        messages.0.push((number, bytes));
        let said = String::from_utf8_lossy(script.last_answer()).into_owned();
        let handed = said.strip_prefix("block ").map(str::to_string);
        let wanted = messages.whole().map(|bytes| bytes.iter().map(|byte| format!("{:02X}", byte)).collect::<String>());
        assert_eq!(handed, wanted, "line {}: {}", script.lines, said);
        blocks += usize::from(handed.is_some());
    }
    assert!(blocks > 200, "only {} blocks were handed over", blocks);
    compare("reports, any messages", &script);
    tell("reports, any messages", messages.0.len(), &format!("messages, {} blocks", blocks), start);
}

/// Part by part: the registers that are written, PingTx that falls, the push that waits and changes nothing, the one
/// that a bad end refuses, and the offer that is refused until the last part is accepted.
#[test]
fn every_part_of_a_sender() {
    let mut script = Script::new(seed());
    let block = down();
    answered(&mut script, &format!("a offer {}", typed(&block)), "0");
    for number in 0..16 {
        let reported = |next: usize| {
            let next = if next == 16 { "-".to_string() } else { next.to_string() };
            format!("next {} turn 0 part {}", next, printed(&ZERO))
        };
        answered(&mut script, "a write 2308 0F04", "0");
        answered(&mut script, "a set rx 3 200", "ok");
        answered(&mut script, "a push", "1");
        answered(&mut script, "a set rx 3 0", "ok");
        answered(&mut script, "a report", &reported(number));
        answered(&mut script, "a set pending 1", "ok");
        answered(&mut script, "a push", "waits");
        answered(&mut script, "a read 2308", "0 8F04");
        answered(&mut script, "a report", &reported(number));
        answered(&mut script, "a set pending 0", "ok");
        answered(&mut script, &format!("a offer {}", typed(&up())), "4");
        answered(&mut script, "a push", &format!("part {}", number));
        answered(&mut script, "a read 2308", &format!("0 8{:X}00", number));
        for place in 0..4 {
            let at = 8 * number + 2 * place;
            let wanted = format!("0 {:02X}{:02X}", block[at + 1], block[at]);
            answered(&mut script, &format!("a read {}", 2309 + place), &wanted);
        }
        answered(&mut script, "a report", &reported(number + 1));
        answered(&mut script, "a push", if number == 15 { "idle" } else { "waits" });
        answered(&mut script, "a set pending 0", "ok");
    }
    answered(&mut script, &format!("a offer {}", typed(&up())), "0");
    answered(&mut script, "a push", "part 0");
    answered(&mut script, "a read 2309", "0 0100");
    compare("reports, every part of a sender", &script);
}

/// Each place where answer 1 begins: the hosts are told and change nothing, and an offer is taken all the same.
#[test]
fn every_bad_end() {
    const LIMITS: [(&str, &str, &str); 12] = [
        ("position", "B", "C"),
        ("count", "B", "C"),
        ("tx 0", "1FF", "200"),
        ("tx 11", "1FF", "200"),
        ("rx 0", "1FF", "200"),
        ("rx 11", "1FF", "200"),
        ("health", "3", "4"),
        ("loaded_health", "3", "4"),
        ("partner_health", "3", "4"),
        ("number", "F", "10"),
        ("rx_number", "F", "10"),
        ("presence_left", "300", "301"),
    ];
    let mut script = Script::new(seed());
    for (field, good, bad) in LIMITS {
        script.say(format_args!("link 0 0"));
        answered(&mut script, "b set full 1", "ok");
        answered(&mut script, &format!("b set {} {}", field, bad), "ok");
        answered(&mut script, "b push", "idle");
        answered(&mut script, "b pull", "1");
        answered(&mut script, &format!("b offer {}", typed(&up())), "0");
        answered(&mut script, &format!("b offer {}", typed(&down())), "4");
        answered(&mut script, "b push", "1");
        answered(&mut script, "b pull", "1");
        answered(&mut script, "b report", &format!("next 0 turn 0 part {}", printed(&ZERO)));
        script.say(format_args!("b dump"));
        answered(&mut script, &format!("b set {} {}", field, good), "ok");
        answered(&mut script, "b push", "part 0");
        answered(&mut script, "b pull", if field == "rx_number" { "out 15" } else { "part 0" });
        answered(&mut script, "b read 2309", "0 0100");
    }
    compare("reports, every bad end", &script);
}
