//! Demand 3 on the second implementation: it guards the reading of document 01 that the proved code is held against.

use crate::helpers::tell::{seed, tell};
use second::answer::Answer;
use second::random::Random;
use second::t1::generate::control_value;
use second::t1::link::Link;
use second::t1::registers::READ_ONLY_BITS;
use std::time::Instant;

/// Number and the four words of bytes.
type Message = [u16; 5];

/// One way over the link: what was offered at its near end and what became of it at its far end.
#[derive(Default)]
struct Way {
    /// What the near host wrote last to 3.2309 to 3.2312 and was answered 0.
    written: [u16; 4],
    /// How many were acknowledged when it last read 3.2308.
    looked: usize,
    accepted: Vec<Message>,
    taken: Vec<Message>,
    loaded: usize,
    entered: usize,
    acknowledged: usize,
    /// What the far host has read of the message it is taking.
    reading: Vec<u16>,
    /// A message whose time runs, and the unmarked slots that it still has.
    watched: Option<(usize, usize)>,
}

struct Run {
    random: Random,
    link: Link,
    delays: usize,
    /// Way n goes from end n to end 1 - n.
    ways: [Way; 2],
    /// The host of this end reads its receive side as it likes. The messages that it takes are then promised a time
    /// alone; the other way is promised all.
    wild: Option<usize>,
}

impl Run {
    fn new(seed: u64) -> Run {
        let mut random = Random::new(seed);
        let (forth, back) = (random.word(41), random.word(41));
        let wild = [None, None, Some(0), Some(1)][random.below(4)];
        Run { random, link: Link::new(forth, back), delays: usize::from(forth + back), ways: Default::default(), wild }
    }

    fn step(&mut self, lossy: bool) {
        let side = self.random.below(2);
        match self.random.below(10) {
            0 => self.offer(side),
            1 if self.wild == Some(side) => self.read_wildly(side),
            1 => self.read_on(side),
            2 => self.other_call(side),
            _ => self.slot(lossy),
        }
        self.ways[side].check(&self.link, side, self.wild != Some(1 - side));
    }

    fn slot(&mut self, lossy: bool) {
        let marks = [0, 1].map(|_| u16::from(lossy && self.random.one_in(20)));
        let before = self.link.ends.clone();
        self.link.mark(0, marks[0]);
        self.link.mark(1, marks[1]);
        self.link.slot();
        for (side, way) in self.ways.iter_mut().enumerate() {
            let (near, far) = (&self.link.ends[side], &self.link.ends[1 - side]);
            way.loaded += usize::from(before[side].pending && !near.pending);
            way.acknowledged += usize::from(before[side].sending_toggle != near.sending_toggle);
            way.entered += usize::from(!before[1 - side].full && far.full);
            way.count_down(marks == [0, 0]);
        }
    }

    /// The near host writes some bytes, then offers what it wrote last.
    fn offer(&mut self, side: usize) {
        let end = &mut self.link.ends[side];
        let was_pending = end.pending;
        for place in 0..4 {
            if self.random.bool() {
                let value = self.random.word(65536);
                let answer = end.write(2309 + place as u16, value);
                assert_eq!(answer == Answer::Done, !was_pending);
                if answer == Answer::Done {
                    self.ways[side].written[place] = value;
                }
            }
        }
        let value = 0x8000 | control_value(&mut self.random);
        let answer = end.write(2308, value);
        assert_eq!(answer, control_answer(value, was_pending));
        if answer != Answer::Done {
            return;
        }
        let mut message = [value >> 8 & 0xF; 5];
        message[1..].copy_from_slice(&self.ways[side].written);
        let far_is_empty = !self.link.ends[1 - side].full;
        self.ways[side].accept(message, far_is_empty, 58 + self.delays);
    }

    /// The next receive-side read by document 01's rule for hosts, at end `side`; or 3.2313 again, which begins the take
    /// anew.
    fn read_on(&mut self, side: usize) {
        let way = &mut self.ways[1 - side];
        if self.random.one_in(8) {
            way.reading.clear();
        }
        let (answer, value) = self.link.ends[side].read(2313 + way.reading.len() as u16);
        assert_eq!(answer, Answer::Done);
        match way.reading.len() {
            0 if value >> 15 == 0 => {}
            0 => way.reading.push(value >> 8 & 0xF),
            4 => {
                let mut message = [value; 5];
                message[..4].copy_from_slice(&way.reading);
                way.taken.push(message);
                way.reading.clear();
            }
            _ => way.reading.push(value),
        }
    }

    /// A receive-side read by no rule.
    fn read_wildly(&mut self, side: usize) {
        let (answer, _) = self.link.ends[side].read(2313 + self.random.word(5));
        assert_eq!(answer, Answer::Done);
    }

    /// Received says that a message was acknowledged since 3.2308 was last read, the received toggle is that of the last
    /// one: they alternate from 0.
    fn look(&mut self, side: usize) {
        let way = &mut self.ways[side];
        let (answer, value) = self.link.ends[side].read(2308);
        assert_eq!(answer, Answer::Done);
        assert_eq!(value >> 13 & 1 == 1, way.acknowledged > way.looked);
        assert_eq!(value >> 12 & 1 == 1, way.acknowledged > 0 && way.acknowledged % 2 == 0);
        way.looked = way.acknowledged;
    }

    fn other_call(&mut self, side: usize) {
        if self.random.one_in(5) {
            return self.look(side);
        }
        let end = &mut self.link.ends[side];
        match self.random.below(4) {
            0 => drop(end.read(2309 + self.random.word(4))),
            1 => assert_eq!(end.set_health(self.random.word(4)), Answer::Done),
            // Bit 15 clear: PingTx, and the number where nothing is pending; no message is in its way.
            2 => {
                let value = control_value(&mut self.random) & 0x7FFF;
                assert_eq!(end.write(2308, value), control_answer(value, false));
            }
            _ => assert!(end.is_good()),
        }
    }
}

/// What a write to 3.2308 is answered, `blocked` telling whether a pending message stands in its way.
fn control_answer(value: u16, blocked: bool) -> Answer {
    match (value & READ_ONLY_BITS, blocked) {
        (0, false) => Answer::Done,
        (0, true) => Answer::Blocked,
        _ => Answer::ReadOnlyBits,
    }
}

impl Way {
    fn accept(&mut self, message: Message, far_is_empty: bool, bound: usize) {
        if self.acknowledged == self.accepted.len() && far_is_empty {
            self.watched = Some((self.accepted.len(), bound));
        }
        self.accepted.push(message);
    }

    /// A marked slot ends the watch; after the bound the message has entered and its acknowledgement has acted.
    fn count_down(&mut self, unmarked: bool) {
        self.watched = match self.watched {
            Some((message, slots)) if unmarked && slots > 1 => Some((message, slots - 1)),
            Some((message, _)) if unmarked => {
                assert!(self.entered > message && self.acknowledged > message, "later than 58 + D + E");
                None
            }
            _ => None,
        };
    }

    /// Taken is a prefix of accepted, at most three fewer, and each of the three named places holds what it should.
    fn check(&self, link: &Link, side: usize, by_rule: bool) {
        let (near, far) = (&link.ends[side], &link.ends[1 - side]);
        if by_rule {
            assert!(self.accepted.starts_with(&self.taken), "not a prefix");
            assert!(self.accepted.len() - self.taken.len() <= 3);
            assert_eq!(self.entered, self.taken.len() + usize::from(far.full));
        }
        assert_eq!(self.accepted.len(), self.loaded + usize::from(near.pending));
        assert!(self.acknowledged <= self.entered && self.entered <= self.loaded);
        assert_eq!(near.ready, self.loaded == self.acknowledged);
        assert!(self.loaded - self.entered <= 1);
    }
}

#[test]
fn taken_is_a_prefix_of_accepted() {
    let start = Instant::now();
    let (mut slots, mut taken) = (0, 0);
    for seed in seed()..seed() + 400 {
        let mut run = Run::new(seed);
        for step in 0..10_000 {
            // Lossy spells and sound ones in turn, the sound ones longer than the bound.
            run.step(step / 400 % 2 == 0);
        }
        slots += run.link.slots as usize;
        taken += run.ways[0].taken.len() + run.ways[1].taken.len();
    }
    assert!(taken > 10_000, "only {} messages were taken", taken);
    tell("demand 3", slots, "slots", start);
}

/// How many slots it takes from a write, `wait` slots after reset, until the acknowledgement has acted.
fn slots_needed(forth: u16, back: u16, wait: usize) -> usize {
    let mut link = Link::new(forth, back);
    (0..wait).for_each(|_| link.slot());
    assert_eq!(link.ends[0].write(2308, 0x8000), Answer::Done);
    let mut slots = 0;
    while !link.ends[0].received {
        link.slot();
        slots += 1;
        assert!(slots < 1000, "never acknowledged");
    }
    assert!(link.ends[1].full);
    slots
}

/// 58 + D + E slots are always enough, and 57 + D + E are not where D = E = 1.
#[test]
fn the_bound_is_tight() {
    let start = Instant::now();
    let mut count = 0;
    for forth in 0..40 {
        for back in 0..40 {
            let bound = 58 + usize::from(forth + back);
            let longest = (100..112).map(|wait| slots_needed(forth, back, wait)).max();
            assert!(longest <= Some(bound), "delays {} and {}", forth, back);
            if (forth, back) == (1, 1) {
                assert_eq!(longest, Some(bound));
            }
            count += 12;
        }
    }
    tell("demand 3, the bound", count, "messages", start);
}
