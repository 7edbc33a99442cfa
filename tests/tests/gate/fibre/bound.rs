//! How soon a message comes into an idle direction with nothing bad: in the far register after 1 + D slots and not
//! after D, its acknowledgement back after 2 + D + E and not after 1 + D + E. What is expected is written out.

use crate::helpers::scripts::{answered, compare};
use crate::helpers::tell::{seed, tell};
use second::fibre::bench::Script;
use second::writer::SIDES;
use std::time::Instant;

const DELAYS: [usize; 10] = [0, 1, 2, 3, 4, 7, 16, 40, 255, 4096];

/// Words 0 and 9 by their bits.
fn transmit(txreq: usize, [phyt, mert, msgt]: [usize; 3], control: usize) -> String {
    format!("0 {:04X}", txreq << 15 | phyt << 14 | mert << 13 | msgt << 12 | control)
}

fn receive(rxval: usize, toggle: usize, control: usize) -> String {
    format!("0 {:04X}", rxval << 15 | toggle << 12 | control)
}

struct Timed<'a> {
    script: &'a mut Script,
    /// The names of the sending end and of the other.
    near: &'static str,
    far: &'static str,
    /// D and E, as the message sees them.
    forth: usize,
    back: usize,
}

impl Timed<'_> {
    /// `from` is the side that sends.
    fn new(script: &mut Script, from: usize, forth: usize, back: usize) -> Timed<'_> {
        let delays = if from == 0 { [forth, back] } else { [back, forth] };
        answered(script, &format!("link {} {}", delays[0], delays[1]), "ok");
        Timed { script, near: SIDES[from], far: SIDES[1 - from], forth, back }
    }

    fn slots(&mut self, count: usize) {
        self.script.say(format_args!("slot {}", count));
    }

    fn near_reads(&mut self, wanted: String) {
        answered(self.script, &format!("{} read 0", self.near), &wanted);
    }

    fn far_reads(&mut self, wanted: String) {
        answered(self.script, &format!("{} read 9", self.far), &wanted);
    }

    /// Message `number`, from 1, its control being so many times 111: written, stored, acknowledged, read and that
    /// acknowledged too, each in its own slot and not before.
    fn message(&mut self, number: usize) {
        let (toggle, before) = (number % 2, (number + 1) % 2);
        let (control, old) = (0x111 * number, 0x111 * (number - 1));
        let (forth, back) = (self.forth, self.back);
        answered(self.script, &format!("{} write 8 {:X}", self.near, number), "0");
        answered(self.script, &format!("{} write 0 {:X}", self.near, 0x8000 | control), "0");
        self.near_reads(transmit(1, [before, before, before], control));
        self.slots(forth);
        self.far_reads(receive(0, before, old));
        self.slots(1);
        self.far_reads(receive(1, toggle, control));
        self.slots(back);
        self.near_reads(transmit(0, [before, before, toggle], control));
        self.slots(1);
        self.near_reads(transmit(0, [toggle, before, toggle], control));
        for word in 10..17 {
            answered(self.script, &format!("{} read {}", self.far, word), "0 0000");
        }
        answered(self.script, &format!("{} read 17", self.far), &format!("0 {:04X}", number));
        self.far_reads(receive(0, toggle, control));
        self.slots(back);
        self.near_reads(transmit(0, [toggle, before, toggle], control));
        self.slots(1);
        self.near_reads(transmit(0, [toggle, toggle, toggle], control));
    }
}

#[test]
fn the_bound_is_tight() {
    let start = Instant::now();
    let mut script = Script::new(seed());
    let mut messages = 0;
    for forth in DELAYS {
        for back in DELAYS {
            for (from, wait) in [(0, 0), (1, 0), (0, 5), (1, 5)] {
                let mut timed = Timed::new(&mut script, from, forth, back);
                timed.slots(wait);
                (1..=4).for_each(|number| timed.message(number));
                messages += 4;
            }
        }
    }
    compare("fibre, the bound", &script);
    tell("fibre, the bound", messages, "messages", start);
}

/// The first good block that has the message brings it, and the ones before do nothing: marked from the write on, N
/// blocks put it off to slot N + 1 where that is later than 1 + D.
#[test]
fn bad_blocks_put_it_off() {
    let mut script = Script::new(seed());
    for forth in [0, 1, 3, 40] {
        for marks in [0, 1, forth, forth + 1, forth + 2, 2 * forth + 9] {
            let mut timed = Timed::new(&mut script, 0, forth, 2);
            timed.slots(forth + 5);
            answered(timed.script, "a write 0 8ABC", "0");
            answered(timed.script, &format!("mark b {}", marks), "ok");
            timed.slots(marks.max(forth));
            timed.far_reads(receive(0, 0, 0));
            timed.slots(1);
            timed.far_reads(receive(1, 1, 0xABC));
        }
    }
    compare("fibre, bad blocks", &script);
}
