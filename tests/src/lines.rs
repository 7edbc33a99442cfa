//! Lines as they should not be, among good ones: none may change anything or upset what follows.

use crate::console::Console;
use crate::script::Script;
use crate::writer::{Writer, SIDES};

/// What the lines for one console are made of.
pub struct Vocabulary {
    pub commands: &'static [&'static str],
    pub words: &'static [&'static str],
    /// Names for `set`, wrong ones too.
    pub names: &'static [&'static str],
    /// Lines too long to be spelled out: a beginning, what is repeated and how often, an end.
    pub long: &'static [(&'static str, &'static str, usize, &'static str)],
}

const NUMBERS: [&str; 27] = [
    "0",
    "1",
    "2",
    "00000",
    "000000000000000000000000000000000001",
    "11",
    "12",
    "255",
    "256",
    "FF",
    "ff",
    "100",
    "4096",
    "4097",
    "65535",
    "65536",
    "FFFF",
    "10000",
    "4294967296",
    "100000000",
    "10000000000000000",
    "18446744073709551616",
    "99999999999999999999999999999999999999999",
    "-1",
    "+1",
    "0x1",
    "1_0",
];

pub fn lines<C: Console>(vocabulary: &Vocabulary, seed: u64, lines: usize) -> Script<C> {
    let mut writer = Writer::new(seed);
    while writer.script.lines < lines {
        writer.any_line(vocabulary);
    }
    writer.dump_both();
    if writer.random.bool() {
        writer.script.say_last(b"slot 3");
    }
    writer.script
}

impl<C: Console> Writer<C> {
    fn any_line(&mut self, vocabulary: &Vocabulary) {
        let line = self.random.pick(vocabulary.commands).as_bytes().to_vec();
        match self.random.below(16) {
            0 | 1 => self.script.say_bytes(&line),
            2..=4 => self.harmed(line),
            5 => self.with_number(&line),
            6 => self.with_words(line, vocabulary),
            7 => self.with_spaces(&line),
            8 => self.soup(vocabulary),
            9 => self.random_bytes(),
            10 => {
                let end = self.random.pick(&["\r", "\r\r", " \r", "\r ", "\0", "\t", "\u{b}", " #"]);
                self.script.say_bytes(&[&line, end.as_bytes()].concat());
            }
            11 => {
                let line = self.random.pick(&["", " ", "\r", "   \r", "\r\r", "#", "# a send", "  #x", "#\0\r", "a #"]);
                self.script.say_bytes(line.as_bytes());
            }
            12 => self.script.say(format_args!("slot {}", self.random.below(30))),
            13 => self.set_soup(vocabulary),
            14 if self.random.one_in(100) => self.long_line(vocabulary),
            _ => self.dump_both(),
        }
    }

    /// One byte lost, added, changed or of the other case.
    fn harmed(&mut self, mut line: Vec<u8>) {
        let place = self.random.below(line.len());
        let byte = match self.random.byte() {
            b'\n' => 0,
            byte => byte,
        };
        match self.random.below(5) {
            0 => drop(line.remove(place)),
            1 => line.insert(place, byte),
            2 => line[place] = byte,
            3 => line[place] ^= 0x20,
            _ => line.truncate(place),
        }
        // A change of case can turn a star into a newline.
        line.retain(|byte| *byte != b'\n');
        self.script.say_bytes(&line);
    }

    /// One word replaced by a number, of whatever size and form.
    fn with_number(&mut self, line: &[u8]) {
        let mut words: Vec<&[u8]> = line.split(|byte| *byte == b' ').collect();
        let place = self.random.below(words.len());
        words[place] = self.random.pick(&NUMBERS).as_bytes();
        self.script.say_bytes(&words.join(&b' '));
    }

    /// A word too many or too few.
    fn with_words(&mut self, mut line: Vec<u8>, vocabulary: &Vocabulary) {
        if self.random.bool() {
            let cut = line.iter().rposition(|byte| *byte == b' ').unwrap_or(0);
            line.truncate(cut);
        } else {
            line.push(b' ');
            line.extend_from_slice(self.random.pick(vocabulary.words).as_bytes());
        }
        self.script.say_bytes(&line);
    }

    fn with_spaces(&mut self, line: &[u8]) {
        let mut spaced = b" ".repeat(self.random.below(4));
        for byte in line {
            spaced.push(*byte);
            if *byte == b' ' {
                spaced.extend(b" ".repeat(self.random.below(4)));
            }
        }
        spaced.extend(b" ".repeat(self.random.below(4)));
        self.script.say_bytes(&spaced);
    }

    fn soup(&mut self, vocabulary: &Vocabulary) {
        let words: Vec<&str> = (0..1 + self.random.below(6)).map(|_| self.random.pick(vocabulary.words)).collect();
        self.script.say_bytes(words.join(" ").as_bytes());
    }

    fn set_soup(&mut self, vocabulary: &Vocabulary) {
        let name = self.random.pick(vocabulary.names);
        let side = SIDES[self.random.below(2)];
        let (index, value) = (self.random.pick(&NUMBERS), self.random.pick(&NUMBERS));
        if self.random.bool() {
            self.script.say(format_args!("{} set {} {}", side, name, value));
        } else {
            self.script.say(format_args!("{} set {} {} {}", side, name, index, value));
        }
    }

    fn random_bytes(&mut self) {
        let line: Vec<u8> =
            (0..self.random.below(40)).map(|_| self.random.byte()).filter(|byte| *byte != b'\n').collect();
        self.script.say_bytes(&line);
    }

    fn long_line(&mut self, vocabulary: &Vocabulary) {
        let (beginning, repeated, times, end) = self.random.of(vocabulary.long);
        self.script.say_bytes(&[beginning.as_bytes(), &repeated.as_bytes().repeat(times), end.as_bytes()].concat());
    }
}
