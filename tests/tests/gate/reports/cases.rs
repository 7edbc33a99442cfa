//! Document 02, #110, sentence by sentence: what is expected is written from its text.

use crate::helpers::blocks::{down, printed, spliced, typed, up, Block, ZERO};
use crate::helpers::cases::{cases_of, hold};
use crate::helpers::scripts::proved_prints;
use second::console;
use second::t1::bench::Bench;

const CASES: &str = include_str!("cases.txt");
const CASES_IN_THE_FILE: usize = 21;

/// More than demand 3's 58 slots with no delay, and than the ones that a message waits for a free register.
const ENOUGH: usize = 70;

/// A case while it is written, with the slots since its beginning.
#[derive(Default)]
struct Case {
    lines: Vec<String>,
    slots: usize,
}

impl Case {
    fn says(&mut self, command: &str, answer: &str) {
        self.lines.push(format!("{} > {}", command, answer));
    }

    fn waits(&mut self, slots: usize) {
        self.slots += slots;
        self.says(&format!("slot {}", slots), &format!("slot {}", self.slots));
    }

    fn reports(&mut self, side: &str, next: &str, turn: usize, part: &str) {
        self.says(&format!("{} report", side), &format!("next {} turn {} part [{}]", next, turn, part));
    }

    /// Part `number` of the block under way goes from a to b, which holds the ones before it.
    fn carries(&mut self, number: usize, taken: &str) {
        self.says("a push", &format!("part {}", number));
        self.waits(ENOUGH);
        self.says("b pull", taken);
    }

    /// Parts from `first` on up to the one before `last`, neither of which is 15.
    fn carries_parts(&mut self, first: usize, last: usize) {
        (first..last).for_each(|number| self.carries(number, &format!("part {}", number)));
    }

    fn named(self, name: &str) -> (String, String) {
        (name.to_string(), self.lines.join("\n"))
    }
}

/// The part block after each part, nothing handed over before the last, and all fresh after it.
fn whole() -> (String, String) {
    let mut case = Case::default();
    for block in ["up", "down"] {
        case.says(&format!("a offer [{}]", block), "0");
        for number in 0..15 {
            case.carries(number, &format!("part {}", number));
            case.reports("a", &format!("{}", number + 1), 0, "zero");
            case.reports("b", "-", number + 1, &format!("{} {} zero", block, number + 1));
        }
        case.says("a offer [zero]", "4");
        case.carries(15, &format!("block [{}]", block));
        case.reports("a", "-", 0, "zero");
        case.reports("b", "-", 0, "zero");
        case.says("a push", "idle");
        case.says("b pull", "empty");
    }
    case.named("two blocks over a sound line, one after the other")
}

/// What arrives is marked for so long that no frame comes through, then nothing is: the part comes, once.
fn marked() -> (String, String) {
    let mut case = Case::default();
    case.says("link 3 5", "ok");
    case.waits(40);
    case.says("a offer [down]", "0");
    for number in 0..16 {
        case.says("a push", &format!("part {}", number));
        case.says("mark b 30", "ok");
        case.says("mark a 50", "ok");
        case.waits(30);
        case.says("b pull", "empty");
        // The acknowledgement comes when a hears b again.
        case.waits(20 + ENOUGH + 8);
        case.says("b pull", &if number == 15 { "block [down]".to_string() } else { format!("part {}", number) });
        case.says("b pull", "empty");
    }
    case.reports("a", "-", 0, "zero");
    case.named("a block over a line that is marked again and again")
}

/// Sending and taking at one end know nothing of each other.
fn both_ways() -> (String, String) {
    let mut case = Case::default();
    case.says("a offer [up]", "0");
    case.carries_parts(0, 5);
    case.says("b offer [down]", "0");
    for number in 0..11 {
        case.says("b push", &format!("part {}", number));
        case.carries(number + 5, &if number == 10 { "block [up]".to_string() } else { format!("part {}", number + 5) });
        case.says("a pull", &format!("part {}", number));
        let next = if number == 10 { "-".to_string() } else { format!("{}", number + 6) };
        case.reports("a", &next, number + 1, &format!("down {} zero", number + 1));
    }
    case.reports("b", "11", 0, "zero");
    for number in 11..15 {
        case.says("b push", &format!("part {}", number));
        case.waits(ENOUGH);
        case.says("a pull", &format!("part {}", number));
    }
    case.says("b push", "part 15");
    case.waits(ENOUGH);
    case.says("a pull", "block [down]");
    case.reports("a", "-", 0, "zero");
    case.reports("b", "-", 0, "zero");
    case.named("both ways at once, one block five parts behind")
}

/// Sixteen parts and a 0 accepted, fourteen taken, three held: part 14 in the far register, part 15 in the sender, the
/// 0 pending. Two blocks are offered, and none is handed over.
fn two_fewer() -> (String, String) {
    let mut case = Case::default();
    case.says("a offer [up]", "0");
    case.carries_parts(0, 14);
    case.says("a push", "part 14");
    case.waits(ENOUGH);
    case.says("a push", "part 15");
    // All its numbers are accepted, though 15 is still pending.
    case.says("a push", "idle");
    case.says("a offer [down]", "0");
    case.says("a push", "waits");
    case.waits(ENOUGH);
    case.says("a push", "part 0");
    case.waits(ENOUGH);
    case.says("a push", "waits");
    case.reports("a", "1", 0, "zero");
    case.reports("b", "-", 14, "up 14 zero");
    case.says("b pull", "part 14");
    case.says("b pull", "empty");
    case.waits(ENOUGH);
    case.says("b pull", "block [up]");
    case.says("b pull", "empty");
    case.waits(ENOUGH);
    case.says("b pull", "part 0");
    case.reports("b", "-", 1, "down 1 zero");
    case.named("two blocks offered, none handed over yet")
}

/// A host that breaks the turn: it writes the second half of another block itself. The taker cannot tell.
fn splice() -> (String, String) {
    let mut case = Case::default();
    case.says("a offer [up]", "0");
    case.carries_parts(0, 8);
    for number in 8..16 {
        for place in 0..4 {
            let even = 255 - 8 * number - 2 * place;
            case.says(&format!("a write {} {:02X}{:02X}", 2309 + place, even - 1, even), "0");
        }
        case.says(&format!("a write 2308 8{:X}00", number), "0");
        case.waits(ENOUGH);
        case.says("b pull", &if number == 15 { "block [up 8 down]".to_string() } else { format!("part {}", number) });
    }
    case.reports("a", "8", 0, "zero");
    case.carries(8, "out 8");
    case.reports("b", "-", 0, "zero");
    case.named("direct writes in turn splice two blocks")
}

/// 15 written once more is out of turn, and so is every number but 0 after a block.
fn fifteen_twice() -> (String, String) {
    let mut case = Case::default();
    case.says("a offer [up]", "0");
    case.carries_parts(0, 15);
    case.carries(15, "block [up]");
    for number in [15, 14, 1] {
        case.says(&format!("a write 2308 8{:X}00", number), "0");
        case.waits(ENOUGH);
        case.says("b pull", &format!("out {}", number));
        case.reports("b", "-", 0, "zero");
    }
    case.says("a offer [down]", "0");
    case.carries_parts(0, 1);
    case.reports("b", "-", 1, "down 1 zero");
    case.named("15 twice")
}

/// Exactly 128 bytes, each at most FF. What cannot be read changes nothing, with a block under way or with none.
fn wrong_offers() -> (String, String) {
    let mut case = Case::default();
    let bytes = typed(&up());
    let short = typed(&up()[..127]);
    let wrong = [
        short.clone(),
        format!("{} 80", bytes),
        format!("{} {}", bytes, bytes),
        format!("{} 100", short),
        format!("100 {}", short),
        format!("{} 0100", short),
        format!("{} 1FF", short),
        format!("{} G", short),
        format!("{} -1", short),
        format!("{} 0x1", short),
        format!("{} 100", bytes),
    ];
    for words in &wrong {
        case.says(&format!("a offer {}", words), "?");
    }
    case.reports("a", "-", 0, "zero");
    case.says("a push", "idle");
    case.says("a offer [down]", "0");
    case.says("a push", "part 0");
    for words in &wrong {
        case.says(&format!("a offer {}", words), "?");
    }
    case.reports("a", "1", 0, "zero");
    case.says("a read 2309", "0 FEFF");
    case.waits(1);
    case.says("a push", "part 1");
    case.says("a read 2309", "0 F6F7");
    case.named("offers of 127, 129 and 256 bytes, and of what is no byte")
}

/// Either case, leading zeros or none.
fn forms_of_bytes() -> (String, String) {
    let mut case = Case::default();
    let form = |write: fn(&u8) -> String| down().iter().map(write).collect::<Vec<_>>().join(" ");
    let forms = [form(|byte| format!("{:x}", byte)), form(|byte| format!("{:06X}", byte)), typed(&down())];
    for bytes in &forms {
        case.says("link 0 0", "ok");
        case.slots = 0;
        case.says(&format!("a offer {}", bytes), "0");
        case.carries_parts(0, 2);
        case.reports("b", "-", 2, "down 2 zero");
    }
    let few: Vec<String> = up().iter().map(|byte| format!("{:x}", byte)).collect();
    case.says(&format!("  b   offer  {}  ", few.join("   ")), "0");
    case.says("b push", "part 0");
    case.waits(ENOUGH);
    case.says("a pull", "part 0");
    case.reports("a", "2", 1, "up 1 zero");
    case.named("bytes in every form")
}

fn all() -> Vec<(String, String)> {
    let mut cases = cases_of(CASES);
    assert_eq!(cases.len(), CASES_IN_THE_FILE);
    cases.extend([whole(), marked(), both_ways(), two_fewer(), splice(), fifteen_twice(), wrong_offers()]);
    cases.push(forms_of_bytes());
    cases.into_iter().map(|(name, lines)| (name, spelled(&lines))).collect()
}

/// With the bytes of its blocks in the place of their names.
fn spelled(lines: &str) -> String {
    let line = |line: &str| {
        let (command, answer) = line.split_once(" > ").expect("command > answer");
        format!("{} > {}", filled(command, |block| typed(block)), filled(answer, printed))
    };
    lines.lines().map(line).collect::<Vec<_>>().join("\n")
}

fn filled(text: &str, write: impl Fn(&Block) -> String) -> String {
    let mut filled = String::new();
    for (place, piece) in text.split(|byte| byte == '[' || byte == ']').enumerate() {
        filled += &if place % 2 == 1 { write(&block_of(piece)) } else { piece.to_string() };
    }
    filled
}

fn block_of(name: &str) -> Block {
    match name.split(' ').collect::<Vec<_>>()[..] {
        ["up"] => up(),
        ["down"] => down(),
        ["zero"] => ZERO,
        [first, parts, second] => {
            spliced(&block_of(first), parts.parse().expect("a number of parts"), &block_of(second))
        }
        _ => panic!("there is no block {}", name),
    }
}

#[test]
fn second_keeps_them() {
    hold("second", all(), console::run::<Bench>);
}

#[test]
fn proved_keeps_them() {
    hold("proved", all(), proved_prints::<Bench>);
}
