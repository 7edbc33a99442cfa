//! Two records joined by lines that mark, over many slots: each call from C does what the call on the end itself does.

use crate::helpers::areas::{compare_when, random_bytes};
use crate::helpers::layout::{spelled_out, LENGTH};
use crate::helpers::tell::{seed, tell};
use second::random::Random;
use second::t1::calls::Calls;
use second::t1::end::End;
use second::t1::generate::any_call;
use second::t1::record::{Call, Reply};
use std::time::Instant;

/// The two ends, held as ends, and the calls on their records.
struct Joined {
    random: Random,
    calls: Calls,
    ends: [End; 2],
    taken: usize,
    marked: usize,
}

impl Joined {
    /// The call on the end itself says what the record must become: no record is read for it.
    fn call(&mut self, side: usize, call: Call) -> Reply {
        let reply = call.on_end(&mut self.ends[side]);
        let after = spelled_out(&self.ends[side]);
        self.calls.expect(side, call, reply, after);
        reply
    }

    fn slot(&mut self, lossy: bool) {
        let sent = [self.call(0, Call::Send).1[0], self.call(1, Call::Send).1[0]];
        for side in 0..2 {
            let mark = u16::from(lossy && self.random.one_in(30));
            self.marked += usize::from(mark);
            let symbol = sent[1 - side] + 512 * mark;
            let call = if self.random.bool() { Call::Take(symbol) } else { Call::TakeReason(symbol) };
            self.call(side, call);
        }
    }

    fn host(&mut self, side: usize) {
        match self.random.below(8) {
            0..=2 => self.offer(side),
            3..=5 => self.take_message(side),
            // Read out of turn, a message would be gone; a reset has its own turn.
            6 => match any_call(&mut self.random) {
                Call::Reset | Call::Read(2317) => {}
                call => drop(self.call(side, call)),
            },
            _ => self.copy(side),
        }
    }

    fn offer(&mut self, side: usize) {
        for register in 2309..2313 {
            let value = self.random.word(65536);
            self.call(side, Call::Write(register, value));
        }
        let number = self.random.word(16);
        self.call(side, Call::Write(2308, 0x8000 | number << 8));
    }

    fn take_message(&mut self, side: usize) {
        if self.call(side, Call::Read(2313)).1[0] >> 15 == 1 {
            for register in 2314..2318 {
                self.call(side, Call::Read(register));
            }
            self.taken += 1;
        }
    }

    /// The record goes on from another place, as all that is known of an end stands in it.
    fn copy(&mut self, side: usize) {
        let bytes = self.calls.area(side).to_vec();
        self.calls.lay(side, &bytes);
    }
}

#[test]
fn long_runs() {
    let start = Instant::now();
    let mut joined = Joined {
        random: Random::new(seed()),
        calls: Calls::default(),
        ends: [End::reset(), End::reset()],
        taken: 0,
        marked: 0,
    };
    for round in 0..20 {
        for side in 0..2 {
            let before = random_bytes(&mut joined.random, LENGTH);
            joined.calls.lay(side, &before);
            joined.call(side, Call::Reset);
        }
        for slot in 0..5_000 {
            joined.slot(round % 2 == 1 && slot % 1_000 > 500);
            if joined.random.one_in(3) {
                let side = joined.random.below(2);
                joined.host(side);
            }
        }
        compare_when(true, "records, long runs", &mut joined.calls);
    }
    assert!(joined.taken > 2_000 && joined.marked > 500, "{} taken, {} marked", joined.taken, joined.marked);
    let told = |number| joined.calls.reasons.iter().filter(|((reason, _), _)| *reason == number).map(|(_, n)| n).sum();
    let (accepted, broken): (usize, usize) = (told(1), told(3));
    assert!(accepted > 2_000 && broken > 100, "{} accepted, {} broken by a mark", accepted, broken);
    let what = format!("calls with {} messages taken", joined.taken);
    tell("records, long runs", joined.calls.count(), &what, start);
}
