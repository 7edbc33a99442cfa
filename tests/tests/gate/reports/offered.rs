//! Two reporting hosts over lossy lines, both ways at once, with other calls between: the blocks handed over are the
//! first so many offered, whole, each once, and at most two fewer. A block counts as offered when its number 0 is
//! accepted. The hosts see what is printed and nothing else.

use crate::helpers::ask::{Answers, Live};
use crate::helpers::blocks::{printed, spliced, typed, Block, ZERO};
use crate::helpers::scripts::compare;
use crate::helpers::tell::{seed, tell};
use second::random::Random;
use second::t1::bench::{Bench, Script};
use second::writer::SIDES;
use std::time::Instant;

/// One way over the link.
#[derive(Default)]
struct Way {
    /// The block under way at the near end, and the number that comes next.
    under_way: Option<(Block, usize)>,
    /// How many messages were accepted, and how many were taken.
    accepted: usize,
    taken: usize,
    offered: Vec<Block>,
    handed_over: Vec<Block>,
    /// After how many steps two were offered that were not handed over.
    two_fewer: usize,
}

struct Run<A> {
    console: A,
    random: Random,
    /// Demand 3's 58 + D + E.
    bound: usize,
    slots: usize,
    /// Way n goes from end n to end 1 - n.
    ways: [Way; 2],
}

impl<A: Answers> Run<A> {
    fn new(mut console: A, random: Random, delays: [usize; 2]) -> Run<A> {
        assert_eq!(console.ask(format_args!("link {} {}", delays[0], delays[1])), "ok");
        let bound = 58 + delays[0] + delays[1];
        Run { console, random, bound, slots: 0, ways: Default::default() }
    }

    fn step(&mut self, lossy: bool, eager: bool) {
        let side = self.random.below(2);
        match self.random.below(40) {
            0..=2 => self.offer(side),
            3..=12 => self.push(side),
            13..=16 => self.pull(side),
            17..=20 if eager => self.pull(side),
            21 => self.report(side),
            22 | 23 => self.other_call(side),
            24..=26 if lossy => self.mark(side),
            _ => self.any_slots(),
        }
        self.ways.iter_mut().for_each(Way::check);
    }

    fn offer(&mut self, side: usize) {
        let mut block = ZERO;
        block.iter_mut().for_each(|byte| *byte = self.random.byte());
        let said = self.console.ask(format_args!("{} offer {}", SIDES[side], typed(&block)));
        let way = &mut self.ways[side];
        assert_eq!(said, if way.under_way.is_some() { "4" } else { "0" });
        way.under_way.get_or_insert((block, 0));
    }

    fn push(&mut self, side: usize) {
        let said = self.console.ask(format_args!("{} push", SIDES[side]));
        let way = &mut self.ways[side];
        let (block, number) = match way.under_way {
            None => return assert_eq!(said, "idle"),
            Some(next) => next,
        };
        if said == "waits" {
            return assert!(way.accepted > way.taken, "nothing is there to wait for");
        }
        assert_eq!(said, format!("part {}", number));
        way.accepted += 1;
        if number == 0 {
            way.offered.push(block);
        }
        way.under_way = (number < 15).then_some((block, number + 1));
    }

    /// At end `side`, where the other way arrives. Every message comes in turn.
    fn pull(&mut self, side: usize) {
        let said = self.console.ask(format_args!("{} pull", SIDES[side]));
        let way = &mut self.ways[1 - side];
        if said == "empty" {
            return;
        }
        assert!(way.accepted > way.taken, "{} of nothing", said);
        match said.strip_prefix("block ") {
            Some(digits) => {
                assert_eq!(way.taken % 16, 15, "handed over too early");
                way.handed_over.push(block_of(digits));
            }
            None => assert_eq!(said, format!("part {}", way.taken % 16)),
        }
        way.taken += 1;
    }

    /// What the host of this end has, of both ways.
    fn report(&mut self, side: usize) {
        let said = self.console.ask(format_args!("{} report", SIDES[side]));
        let next = self.ways[side].under_way.map_or("-".to_string(), |(_, number)| number.to_string());
        let way = &self.ways[1 - side];
        let turn = way.taken % 16;
        let coming = way.offered.get(way.taken / 16).unwrap_or(&ZERO);
        assert_eq!(said, format!("next {} turn {} part {}", next, turn, printed(&spliced(coming, turn, &ZERO))));
    }

    /// Calls that send no message and take none.
    fn other_call(&mut self, side: usize) {
        let (name, value, place) = (SIDES[side], self.random.word(65536), self.random.below(4));
        match self.random.below(8) {
            0 => drop(self.console.ask(format_args!("{} write {} {:X}", name, 2309 + place, value))),
            1 => drop(self.console.ask(format_args!("{} write 2308 {:X}", name, value & 0x0F04))),
            2 => drop(self.console.ask(format_args!("{} health {}", name, place))),
            3 => drop(self.console.ask(format_args!("{} present", name))),
            4 => drop(self.console.ask(format_args!("{} read 2313", name))),
            5 => assert_eq!(self.console.ask(format_args!("{} write 2317 {:X}", name, value)), "3"),
            _ => drop(self.console.ask(format_args!("{} read {}", name, 2308 + place))),
        }
    }

    fn mark(&mut self, side: usize) {
        let count = self.random.below(40);
        assert_eq!(self.console.ask(format_args!("mark {} {}", SIDES[side], count)), "ok");
    }

    fn any_slots(&mut self) {
        let most = if self.random.one_in(12) { self.bound } else { 40 };
        let count = 1 + self.random.below(most);
        self.pass(count);
    }

    fn pass(&mut self, slots: usize) {
        self.slots += slots;
        assert_eq!(self.console.ask(format_args!("slot {}", slots)), format!("slot {}", self.slots));
    }

    /// With nothing marked and hosts that go on, all is handed over in the end. A way has three messages held and
    /// sixteen parts to come at most, and each round takes one of them.
    fn finish(&mut self) {
        for side in SIDES {
            assert_eq!(self.console.ask(format_args!("mark {} 0", side)), "ok");
        }
        for _ in 0..20 {
            self.push(0);
            self.push(1);
            self.pass(self.bound);
            self.pull(0);
            self.pull(1);
            self.ways.iter_mut().for_each(Way::check);
        }
        for side in 0..2 {
            self.report(side);
            let way = &self.ways[side];
            assert_eq!(way.under_way, None);
            assert_eq!(way.offered, way.handed_over);
            assert_eq!(way.taken, 16 * way.offered.len());
        }
    }
}

impl Way {
    fn check(&mut self) {
        assert!(self.offered.starts_with(&self.handed_over), "not the first so many offered");
        let fewer = self.offered.len() - self.handed_over.len();
        assert!(fewer <= 2, "{} fewer", fewer);
        assert!(self.accepted - self.taken <= 3);
        self.two_fewer += usize::from(fewer == 2);
    }
}

fn block_of(digits: &str) -> Block {
    let bytes: Option<Vec<u8>> = digits
        .as_bytes()
        .chunks(2)
        .map(|pair| std::str::from_utf8(pair).ok().and_then(|pair| u8::from_str_radix(pair, 16).ok()))
        .collect();
    let block: Block = bytes.and_then(|bytes| bytes.try_into().ok()).expect("256 hex digits");
    assert_eq!(printed(&block), digits);
    block
}

/// Mostly short, so that many blocks come through.
fn delay(random: &mut Random) -> usize {
    match random.below(20) {
        0 => 4096 - random.below(2),
        1 => random.below(4097),
        2..=9 => random.below(41),
        _ => random.below(13),
    }
}

/// What came of runs.
#[derive(Default)]
struct Came {
    slots: usize,
    blocks: usize,
    two_fewer: usize,
}

impl Came {
    /// Lossy spells and sound ones in turn, both with eager takers and with slow ones.
    fn play<A: Answers>(&mut self, console: A, seed: u64, steps: usize) -> A {
        let mut random = Random::new(seed);
        let delays = [delay(&mut random), delay(&mut random)];
        let mut run = Run::new(console, random, delays);
        for step in 0..steps {
            run.step(step / 100 % 2 == 0, step / 200 % 2 == 0);
        }
        run.finish();
        self.slots += run.slots;
        for way in &run.ways {
            self.blocks += way.handed_over.len();
            self.two_fewer += usize::from(way.two_fewer > 0);
        }
        run.console
    }

    fn tell(&self, name: &str, lines: usize, start: Instant) {
        assert!(self.blocks * 300 > lines, "only {} blocks were handed over in {} lines", self.blocks, lines);
        assert!(self.two_fewer > 0, "never two fewer");
        let what = format!("lines, {} slots, {} blocks handed over", self.slots, self.blocks);
        tell(name, lines, &format!("{}, in {} ways once two fewer", what, self.two_fewer), start);
    }
}

/// The hosts meet the second implementation, and the proved program prints the same: so they have met both.
#[test]
fn handed_over_is_a_prefix_of_offered() {
    let start = Instant::now();
    let mut came = Came::default();
    let mut script = Script::new(seed());
    for seed in seed()..seed() + 100 {
        script = came.play(script, seed, 1_500);
    }
    compare("reports, offered", &script);
    came.tell("reports, offered", script.lines, start);
}

/// The same hosts on the proved program alone, which answers each before the next is asked.
#[test]
fn hosts_at_the_proved_program() {
    let start = Instant::now();
    let mut came = Came::default();
    let mut console = Live::start::<Bench>();
    for seed in seed() + 100..seed() + 150 {
        console = came.play(console, seed, 1_500);
    }
    came.tell("reports, offered live", console.questions, start);
    console.end();
}

/// Two fewer is reached, either way and with many delays: sixteen parts and a 0 accepted, fourteen taken, three held.
#[test]
fn two_fewer_is_reached() {
    let mut script = Script::new(seed());
    for delays in [[0, 0], [1, 1], [12, 0], [3, 40], [255, 7], [4096, 4096]] {
        for side in 0..2 {
            let mut run = Run::new(script, Random::new(seed()), delays);
            run.offer(side);
            for part in 0..16 {
                run.push(side);
                run.pass(run.bound);
                if part < 14 {
                    run.pull(1 - side);
                }
            }
            run.offer(side);
            run.push(side);
            run.ways[side].check();
            let way = &run.ways[side];
            assert_eq!((way.accepted, way.taken), (17, 14));
            assert_eq!((way.offered.len(), way.handed_over.len()), (2, 0));
            run.finish();
            assert_eq!(run.ways[side].handed_over.len(), 2);
            script = run.console;
        }
    }
    compare("reports, two fewer", &script);
}
