//! How a program meets a person: each line answered at once, and status 0 at the end of any input.

use super::ask::{Answers, Live};
use super::scripts::compare;
use second::console::Console;
use second::script::Script;

/// Every answer comes before the next question is asked.
pub fn answers_at_once<C: Console>(questions: &[(&str, &str)]) {
    let mut program = Live::start::<C>();
    for (question, wanted) in questions {
        assert_eq!(program.ask(format_args!("{}", question)), *wanted, "{}", question);
    }
    program.end();
}

pub fn short_inputs<C: Console>() {
    for input in [&b""[..], b"\n", b"\r", b"#", b"slot", b"slot\r", b"\0", b"slot 2\nslot\n\n", b"a dump", b"slot \xFF"]
    {
        let mut script = Script::<C>::new(0);
        let mut lines: Vec<&[u8]> = input.split(|byte| *byte == b'\n').collect();
        let last = lines.pop().expect("a split gives one part at least");
        lines.into_iter().for_each(|line| script.say_bytes(line));
        script.say_last(last);
        assert_eq!(script.text, input);
        compare(&format!("{:?}", input), &script);
    }
}
