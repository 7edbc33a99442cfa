//! Questions put one at a time, each after the answer to the one before: to a proved program, or to the second
//! implementation in a script.

use second::console::Console;
use second::proved;
use second::script::Script;
use std::fmt::Arguments;
use std::io::{BufRead, BufReader, Result, Write};
use std::process::{Child, ChildStdin};
use std::sync::mpsc::{channel, Receiver};
use std::thread;
use std::time::Duration;

/// So many seconds an answer may take.
const PATIENCE: u64 = 20;

pub trait Answers {
    /// For use as `console.ask(format_args!("a read {}", word))`.
    fn ask(&mut self, line: Arguments) -> String;
}

impl<C: Console> Answers for Script<C> {
    fn ask(&mut self, line: Arguments) -> String {
        self.say(line);
        String::from_utf8_lossy(self.last_answer()).into_owned()
    }
}

/// A proved program that runs beside the test.
pub struct Live {
    child: Child,
    input: ChildStdin,
    /// Its lines, read by a thread: one that never comes must not hold up the test.
    answers: Receiver<Result<String>>,
    pub questions: usize,
}

impl Live {
    pub fn start<C: Console>() -> Live {
        let mut child = proved::start(C::PROVED).unwrap_or_else(|why| panic!("{}", why));
        let input = child.stdin.take().expect("its input is ours");
        let output = child.stdout.take().expect("its output is ours");
        let (sender, answers) = channel();
        thread::spawn(move || BufReader::new(output).lines().try_for_each(|line| sender.send(line)));
        Live { child, input, answers, questions: 0 }
    }

    /// It ends with its input, and well.
    pub fn end(self) {
        let Live { mut child, input, .. } = self;
        drop(input);
        assert!(child.wait().expect("the program ends").success());
    }
}

impl Answers for Live {
    fn ask(&mut self, line: Arguments) -> String {
        self.questions += 1;
        self.input.write_all(format!("{}\n", line).as_bytes()).expect("the program reads");
        match self.answers.recv_timeout(Duration::from_secs(PATIENCE)) {
            Ok(answer) => answer.expect("its output is text"),
            Err(_) => {
                self.child.kill().expect("our own child can be ended");
                panic!("no answer to {} within {} s", line, PATIENCE);
            }
        }
    }
}
