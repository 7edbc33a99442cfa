//! Demand 3's prefix part: hosts that write messages and take them by the rule, over lossy lines, both ways at once.
//! They see what is printed and nothing else. Beside the console runs a link of numbered messages, which says what
//! table 2 of document 000 must read at each step.

use crate::helpers::ask::{Answers, Live};
use crate::helpers::numbered::Link;
use crate::helpers::scripts::compare;
use crate::helpers::tell::{seed, tell};
use second::fibre::bench::{Bench, Script};
use second::random::Random;
use second::writer::SIDES;
use std::time::Instant;

/// The control and the eight words.
type Message = [u16; 9];

/// Table 2 by whether PHYT and MERT equal MSGT: whether message K is acknowledged by the remote PHY and by the remote
/// ME, then the same of message K - 1.
const TABLE_2: [([bool; 2], [bool; 4]); 4] = [
    ([true, true], [true, true, true, true]),
    ([false, false], [false, false, true, true]),
    ([true, false], [true, false, true, true]),
    ([false, true], [false, false, true, false]),
];

/// One way over the link.
#[derive(Default)]
struct Way {
    /// The transmit words, as the near host has written them.
    written: Message,
    accepted: Vec<Message>,
    taken: Vec<Message>,
    /// What the far host has read of the message that it is taking.
    reading: Vec<u16>,
    /// How often the near end showed that all was taken, with something accepted.
    all_taken: usize,
}

struct Run<A> {
    console: A,
    random: Random,
    numbers: Link,
    /// D + E.
    delays: usize,
    /// Way n goes from end n to end 1 - n.
    ways: [Way; 2],
}

impl<A: Answers> Run<A> {
    fn new(mut console: A, seed: u64) -> Run<A> {
        let mut random = Random::new(seed);
        let delays = [delay(&mut random), delay(&mut random)];
        assert_eq!(console.ask(format_args!("link {} {}", delays[0], delays[1])), "ok");
        let numbers = Link::new(delays[0], delays[1]);
        Run { console, random, numbers, delays: usize::from(delays[0] + delays[1]), ways: Default::default() }
    }

    /// Eager hosts leave no register free; others let the link come to rest.
    fn step(&mut self, lossy: bool, eager: bool) {
        let side = self.random.below(2);
        match self.random.below(12) {
            0 | 1 if eager || self.random.one_in(8) => self.offer(side),
            2..=5 => {
                for _ in 0..1 + self.random.below(18) {
                    self.read_on(side);
                    if self.ways[1 - side].reading.is_empty() {
                        break;
                    }
                }
            }
            6 => self.other_call(side),
            7 if lossy => self.harm(side),
            _ => {
                let most = if self.random.one_in(16) { self.delays + 3 } else { 3 };
                let count = 1 + self.random.below(most);
                self.slots(count);
            }
        }
        self.look(0);
        self.look(1);
    }

    fn slots(&mut self, count: usize) {
        (0..count).for_each(|_| self.numbers.slot());
        let said = self.console.ask(format_args!("slot {}", count));
        assert_eq!(said, format!("slot {}", self.numbers.slots));
    }

    /// Some of the next blocks are marked; or a bad block comes besides, which says anything.
    fn harm(&mut self, side: usize) {
        if self.random.one_in(3) {
            let [msgt, phyt, mert] = [0; 3].map(|_| self.random.below(2));
            let words: Vec<String> = (0..8).map(|_| format!(" {:X}", self.random.word(65536))).collect();
            let control = self.random.word(4096);
            let block = format!("{} {} {} {:X}{}", msgt, phyt, mert, control, words.concat());
            assert_eq!(self.console.ask(format_args!("{} take 1 {}", SIDES[side], block)), "0");
        } else {
            let count = self.random.word(5);
            self.numbers.mark(side, count);
            assert_eq!(self.console.ask(format_args!("mark {} {}", SIDES[side], count)), "ok");
        }
    }

    fn write(&mut self, side: usize, word: usize, value: u16) -> String {
        self.console.ask(format_args!("{} write {} {:X}", SIDES[side], word, value))
    }

    fn read(&mut self, side: usize, word: usize) -> u16 {
        let said = self.console.ask(format_args!("{} read {}", SIDES[side], word));
        let value = said.strip_prefix("0 ").and_then(|value| u16::from_str_radix(value, 16).ok());
        value.unwrap_or_else(|| panic!("word {} reads {}", word, said))
    }

    /// A write to a transmit word: done if no request waits, else refused.
    fn write_transmit(&mut self, side: usize, word: usize, value: u16) {
        let requested = self.numbers.ends[side].requested;
        assert_eq!(self.write(side, word, value), if requested { "4" } else { "0" });
        if !requested {
            self.ways[side].written[word] = if word == 0 { value & 0xFFF } else { value };
        }
    }

    /// The near host writes some words, then requests what it wrote last. Whatever stands in bits 14:12 is ignored.
    fn offer(&mut self, side: usize) {
        for word in 1..=8 {
            if self.random.one_in(3) {
                let value = self.random.word(65536);
                self.write_transmit(side, word, value);
            }
        }
        let accepted = !self.numbers.ends[side].requested;
        let value = 0x8000 | self.random.word(65536);
        self.write_transmit(side, 0, value);
        if accepted {
            let way = &mut self.ways[side];
            way.accepted.push(way.written);
            self.numbers.ends[side].requested = true;
        }
    }

    /// The next receive-side read by the rule for hosts, at end `side`; or word 9 again, which begins the take anew.
    fn read_on(&mut self, side: usize) {
        if self.random.one_in(40) {
            self.ways[1 - side].reading.clear();
        }
        let value = self.read(side, 9 + self.ways[1 - side].reading.len());
        let (way, end) = (&mut self.ways[1 - side], &mut self.numbers.ends[side]);
        match way.reading.len() {
            0 => {
                let control = end.stored.checked_sub(1).map_or(0, |last| way.accepted[last][0]);
                assert_eq!(value & 0xFFF, control);
                assert_eq!(usize::from(value >> 12 & 7), end.stored % 2, "the toggle, and two zeros");
                assert_eq!(value >> 15 == 1, end.stored > end.read, "RXVAL");
                if value >> 15 == 1 {
                    way.reading.push(value & 0xFFF);
                }
            }
            8 => {
                let mut message = [value; 9];
                message[..8].copy_from_slice(&way.reading);
                way.reading.clear();
                assert_eq!(Some(&message), way.accepted.get(way.taken.len()), "not the next that was accepted");
                way.taken.push(message);
                end.read += 1;
            }
            _ => way.reading.push(value),
        }
    }

    /// Reads on until a take is complete, or word 9 shows that there is nothing to take.
    fn take(&mut self, side: usize) {
        self.read_on(side);
        while !self.ways[1 - side].reading.is_empty() {
            self.read_on(side);
        }
    }

    /// What moves no message.
    fn other_call(&mut self, side: usize) {
        let (transmit, receive) = (self.random.below(9), 9 + self.random.below(9));
        let (outside, value) = (18 + self.random.below(65536 - 18), self.random.word(65536));
        match self.random.below(5) {
            0 if transmit > 0 => assert_eq!(self.read(side, transmit), self.ways[side].written[transmit]),
            1 => assert_eq!(self.write(side, receive, value), "3"),
            2 => assert_eq!(self.write(side, outside, value), "2"),
            3 => assert_eq!(self.console.ask(format_args!("{} read {}", SIDES[side], outside)), "2 0000"),
            _ => self.write_transmit(side, transmit, if transmit == 0 { value & 0x7FFF } else { value }),
        }
    }

    /// The near host of a way looks at word 0 and reads it by table 2; then where every message is must be clear.
    fn look(&mut self, side: usize) {
        let value = self.read(side, 0);
        let (way, near, far) = (&mut self.ways[side], self.numbers.ends[side], self.numbers.ends[1 - side]);
        let [txreq, phyt, mert, msgt] = [15, 14, 13, 12].map(|bit| value >> bit & 1 == 1);
        assert_eq!(value & 0xFFF, way.written[0]);
        assert_eq!(txreq, near.requested, "TXREQ");
        assert_eq!(msgt, near.loaded % 2 == 1, "MSGT");
        let (k, stored, read) = (near.loaded, near.heard_stored, near.heard_read);
        let row = TABLE_2.iter().find(|row| row.0 == [phyt == msgt, mert == msgt]).expect("the table has four rows");
        assert_eq!(row.1, [stored >= k, read >= k, stored + 1 >= k, read + 1 >= k], "table 2, message {}", k);

        let held = [usize::from(txreq), near.loaded - far.stored, far.stored - far.read];
        assert!(held.iter().all(|count| *count <= 1), "{:?}", held);
        assert_eq!(way.accepted.len(), way.taken.len() + held.iter().sum::<usize>());
        if !txreq && phyt == msgt && mert == msgt {
            assert_eq!(way.accepted.len(), way.taken.len(), "shown as taken");
            way.all_taken += usize::from(k > 0);
        }
    }

    /// With nothing bad and hosts that go on reading, every message is taken in the end, and word 0 shows it. A way
    /// holds three at most, and each round takes one of them.
    fn finish(&mut self) {
        for (side, name) in SIDES.iter().enumerate() {
            self.numbers.mark(side, 0);
            assert_eq!(self.console.ask(format_args!("mark {} 0", name)), "ok");
            self.ways[side].all_taken = 0;
        }
        for _ in 0..4 {
            self.slots(self.delays + 2);
            self.take(0);
            self.take(1);
        }
        self.slots(self.delays + 2);
        for side in 0..2 {
            self.look(side);
            let way = &self.ways[side];
            assert_eq!((way.accepted.len(), way.all_taken), (way.taken.len(), 1));
        }
    }
}

/// Mostly short, so that many messages come through.
fn delay(random: &mut Random) -> u16 {
    match random.below(20) {
        0 => 4096 - random.word(2),
        1 => random.word(4097),
        2..=7 => random.word(41),
        _ => random.word(4),
    }
}

/// What came of a run: how many messages were taken, and how often word 0 showed before its end that all were.
#[derive(Default)]
struct Came {
    taken: usize,
    shown: usize,
}

impl Came {
    /// Lossy spells and sound ones in turn, both with eager hosts and with others.
    fn play<A: Answers>(&mut self, console: A, seed: u64, steps: usize) -> A {
        let mut run = Run::new(console, seed);
        for step in 0..steps {
            run.step(step / 50 % 2 == 0, step / 100 % 2 == 0);
        }
        self.shown += run.ways.iter().map(|way| way.all_taken).sum::<usize>();
        run.finish();
        self.taken += run.ways.iter().map(|way| way.taken.len()).sum::<usize>();
        run.console
    }

    fn tell(&self, name: &str, count: usize, what: &str, start: Instant) {
        assert!(self.taken * 120 > count, "only {} messages were taken in {} {}", self.taken, count, what);
        assert!(self.shown * 10 > self.taken, "only {} times all was shown as taken", self.shown);
        tell(name, count, &format!("{}, {} messages taken", what, self.taken), start);
    }
}

/// The hosts meet the second implementation, and the proved program prints the same: so they have met both.
#[test]
fn taken_is_a_prefix_of_accepted() {
    let start = Instant::now();
    let mut came = Came::default();
    let mut script = Script::new(seed());
    for seed in seed()..seed() + 150 {
        script = came.play(script, seed, 600);
    }
    compare("fibre, demand 3", &script);
    came.tell("fibre, demand 3", script.lines, "lines", start);
}

/// The same hosts on the proved program alone, which answers each before the next is asked.
#[test]
fn hosts_at_the_proved_program() {
    let start = Instant::now();
    let mut came = Came::default();
    let mut console = Live::start::<Bench>();
    for seed in seed() + 150..seed() + 220 {
        console = came.play(console, seed, 300);
    }
    came.tell("fibre, demand 3 live", console.questions, "questions", start);
    console.end();
}
