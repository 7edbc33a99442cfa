//! Cases worked out by hand: lines `command > what is printed`, each case under a name after `#`. A `?` alone stands
//! for a line that cannot be read, whatever the reason that follows.

/// The cases of a file. Lines with `//` before the first tell of the file itself.
pub fn cases_of(text: &str) -> Vec<(String, String)> {
    let mut cases = Vec::new();
    for part in text.split("# ").skip(1) {
        let (name, lines) = part.split_once('\n').expect("a case has lines");
        cases.push((name.to_string(), lines.trim().to_string()));
    }
    cases
}

/// Each case starts the console anew.
pub fn hold(who: &str, cases: Vec<(String, String)>, answers: impl Fn(&[u8]) -> Vec<u8>) {
    for (name, text) in cases {
        let pairs: Vec<_> = text.lines().map(|line| line.trim().split_once(" > ").expect("command > answer")).collect();
        let script: Vec<&str> = pairs.iter().map(|(command, _)| *command).collect();
        let printed = String::from_utf8(answers(script.join("\n").as_bytes())).expect("the output is text");
        let mut lines = printed.lines();
        for (number, (command, wanted)) in pairs.iter().enumerate() {
            let got = lines.next().unwrap_or("(nothing)");
            let got = if *wanted == "?" && got.starts_with("? ") { "?" } else { got };
            assert_eq!(got, *wanted, "{}, {}: line {}, {:.80}", who, name, number + 1, command);
        }
        assert_eq!(lines.next(), None, "{}, {}: more was printed than asked", who, name);
    }
}
