//! Crate `report`, its laws and its blocks see only the promise of the ends: they name no field of `End`, and take from
//! crate `end` the types of its calls, what a message is, and the two definitions of what reading and writing a register
//! give, which they do not unfold.

use second::proved::package;
use std::collections::BTreeSet;
use std::fs;
use std::path::{Path, PathBuf};

/// Where `End` and the structs of its parts are declared.
const DECLARED: [&str; 2] = ["end/src/lib.rt", "receiver/src/lib.rt"];

/// All that may be imported from crate `end`.
const TYPES: [&str; 3] = ["End", "Next", "Read"];
const DEFINITIONS: [&str; 2] = ["read_of", "write_of"];
const REGISTERS: &str = "Rattle.end.specs.Registers";
const MESSAGE: &str = "Rattle.end.specs.Message.{Message}";

/// The crates that keep to the promise, with what each of their rooms has.
const ROOMS: [(&str, &str, &str); 7] = [
    ("report", "src", "rt"),
    ("report", "specs", "antt"),
    ("report", "proofs", "antt"),
    ("reportlaws", "specs", "antt"),
    ("reportlaws", "proofs", "antt"),
    ("reportblocks", "specs", "antt"),
    ("reportblocks", "proofs", "antt"),
];

type Names = BTreeSet<String>;

/// The fields of `End` itself, and those of its parts.
struct Fields {
    own: Names,
    nested: Names,
}

impl Fields {
    fn of(sources: &str) -> Fields {
        let own = fields_of("End", sources);
        let mut nested = Names::new();
        let mut parts: Vec<String> = own.iter().map(|(_, part)| part.clone()).collect();
        while let Some(part) = parts.pop() {
            for (name, inner) in fields_of(&part, sources) {
                nested.insert(name);
                parts.push(inner);
            }
        }
        Fields { own: own.into_iter().map(|(name, _)| name).collect(), nested }
    }
}

/// Names and types of a struct's fields; none of what is no struct here.
fn fields_of(name: &str, sources: &str) -> Vec<(String, String)> {
    let head = format!("pub struct {} {{", name);
    let lines = sources.lines().skip_while(|line| **line != head).skip(1).take_while(|line| *line != "}");
    let fields = lines.filter_map(|line| line.trim().strip_prefix("pub ")?.strip_suffix(',')?.split_once(": "));
    fields.map(|(name, part)| (name.to_string(), part.to_string())).collect()
}

/// A character that a name can have, in code or in a statement.
fn is_of_a_name(character: char) -> bool {
    character.is_alphanumeric() || "_-'".contains(character)
}

/// The places behind each occurrence of `what`, where neither end of it goes on as a name.
fn behind<'a>(text: &'a str, what: &'a str) -> impl Iterator<Item = &'a str> {
    text.match_indices(what).filter_map(move |(place, _)| {
        let (before, after) = (&text[..place], &text[place + what.len()..]);
        let starts = !what.starts_with(is_of_a_name) || !before.ends_with(is_of_a_name);
        let stops = !what.ends_with(is_of_a_name) || !after.starts_with(is_of_a_name);
        (starts && stops).then_some(after)
    })
}

fn names_in(text: &str) -> impl Iterator<Item = &str> {
    text.split(|character| !is_of_a_name(character)).filter(|name| !name.is_empty())
}

/// What a file does beyond the promise, nothing if all is well.
fn breaks(text: &str, fields: &Fields) -> Option<String> {
    names_a_field(text, fields).or_else(|| builds_an_end(text)).or_else(|| imports(text)).or_else(|| unfolds(text))
}

/// A field of `End` behind a dot, whatever stands before it; a field of a part right behind an end.
fn names_a_field(text: &str, fields: &Fields) -> Option<String> {
    let own = fields.own.iter().find(|name| behind(text, &format!(".{}", name)).next().is_some());
    let nested = behind(text, "end").find_map(|after| {
        let name = names_in(after.trim_start().strip_prefix('.')?).next()?;
        fields.nested.get(name)
    });
    own.or(nested).map(|name| format!("names the field {}", name))
}

/// By a literal or a pattern, which name its fields without a dot.
fn builds_an_end(text: &str) -> Option<String> {
    let built = behind(text, "End").any(|after| after.trim_start().starts_with('{'));
    built.then(|| "builds an End or takes one apart".to_string())
}

/// Every mention of the crates that declare `End` must be an import, and one of those that are allowed.
fn imports(text: &str) -> Option<String> {
    let paths = ["end::", "receiver::", "Rattle.end", "Rattle.receiver"];
    let mentions = |line: &&str| paths.iter().any(|path| behind(line, path).next().is_some());
    text.lines().filter(mentions).find(|line| !is_allowed(line)).map(|line| format!("has the line {:?}", line))
}

fn is_allowed(line: &str) -> bool {
    let line = line.trim();
    let line = line.strip_suffix(';').unwrap_or(line);
    let path = match line.strip_prefix("ghost use ").or_else(|| line.strip_prefix("use ")) {
        None => return false,
        Some(path) => path,
    };
    let all_of = |from: &str, allowed: &[&str]| {
        let names = path.strip_prefix(from).and_then(|names| names.strip_prefix('{')?.strip_suffix('}'));
        names.map_or(false, |names| names.split(", ").all(|name| allowed.contains(&name)))
    };
    let of_a_type = |name: &&str| {
        path == format!("end::{}", name) || path == format!("Rattle.end.specs.declared.{}.{{{}}}", name, name)
    };
    TYPES.iter().any(of_a_type)
        || path == MESSAGE
        || all_of("end::", &TYPES)
        || all_of(&format!("{}.", REGISTERS), &DEFINITIONS)
}

/// A list of names to unfold goes on in the lines that are indented below it; in an attribute it stands in parentheses.
fn unfolds(text: &str) -> Option<String> {
    let indent = |line: &str| line.len() - line.trim_start().len();
    let lines: Vec<&str> = text.lines().collect();
    let mut names = Vec::new();
    for (place, first) in lines.iter().enumerate() {
        if first.trim_start().starts_with("unfolding") {
            let more = lines[place + 1..].iter().take_while(|line| indent(line) > indent(first));
            names.extend(names_in(first).chain(more.flat_map(|line| names_in(line))));
        }
    }
    names.extend(behind(text, "unfolding(").filter_map(|after| after.split(')').next()).flat_map(names_in));
    names.into_iter().find(|name| DEFINITIONS.contains(name)).map(|name| format!("unfolds {}", name))
}

fn crates() -> PathBuf {
    package().join("../crates")
}

fn fields() -> Fields {
    let read = |path: &str| fs::read_to_string(crates().join(path)).expect("the sources of an end can be read");
    let fields = Fields::of(&DECLARED.map(read).concat());
    assert!(!fields.own.is_empty() && !fields.nested.is_empty(), "no fields were found");
    fields
}

/// Files of one ending, in all folders below.
fn files(folder: &Path, ending: &str) -> Vec<PathBuf> {
    let mut found = Vec::new();
    for entry in fs::read_dir(folder).unwrap_or_else(|why| panic!("{}: {}", folder.display(), why)) {
        let path = entry.expect("a folder can be read").path();
        if path.is_dir() {
            found.extend(files(&path, ending));
        } else if path.extension().map_or(false, |extension| extension == ending) {
            found.push(path);
        }
    }
    found
}

#[test]
fn reports_see_only_the_promise() {
    let fields = fields();
    for (name, room, ending) in ROOMS {
        let found = files(&crates().join(name).join(room), ending);
        assert!(!found.is_empty(), "crate {} has nothing in {}", name, room);
        for path in found {
            let text = fs::read_to_string(&path).expect("a file of these crates can be read");
            if let Some(what) = breaks(&text, &fields) {
                panic!("{} {}", path.display(), what);
            }
        }
    }
}

/// What this looks for is found where it stands: in the fields themselves, and in the crates that need them.
#[test]
fn others_see_more() {
    let fields = fields();
    let has = |names: &Names, wanted: &[&str]| wanted.iter().all(|name| names.contains(*name));
    assert!(has(&fields.own, &["sender", "outbox", "collector", "heard", "inbox", "counts", "presence"]));
    assert!(has(&fields.nested, &["symbols", "position", "pending", "bytes", "count", "togack", "full", "early"]));
    for path in ["end/specs/Registers.antt", "end/src/writing.rt", "record/src/lib.rt", "link/specs/Link.antt"] {
        let text = fs::read_to_string(crates().join(path)).expect("a file of these crates can be read");
        assert!(breaks(&text, &fields).is_some(), "{} keeps to the promise?", path);
    }
}

#[test]
fn told_from_what_is_allowed() {
    let fields = fields();
    let good = [
        "use end::End;\nuse end::{End, Next};\nuse end::{Read};\n",
        "ghost use Rattle.end.specs.Registers.{read_of, write_of};\nghost use Rattle.end.specs.declared.End.{End};\n",
        "use Rattle.end.specs.declared.Next.{Next}\nuse Rattle.end.specs.declared.Read.{Read}\n",
        "use Rattle.end.specs.Message.{Message}\n",
        "use Rattle.end.specs.Registers.{write_of}\nuse Rattle.endlaws.specs.Presence.{left_by}\n",
        "let next = host.push(end).end;\nlet bytes = read.value;\nr.end\nc.before.end.ensures\n",
        "x.number\nself.block[8 * n]\nlet sender = self;\nr.sending.bytes\nend.write(2309, value)\n",
        "-- the sender's outbox. sender\nunfolding push_of\n  offer_of\npush e = write_of e 2309 0\n",
        "pub fn push(self, end: End) -> Pushed\n{\n    self\n}\n",
    ];
    for text in good {
        assert_eq!(breaks(text, &fields), None, "{}", text);
    }
    let bad = [
        "e.outbox.pending\n",
        "let outbox = end.outbox;\n",
        "e.inbox\n",
        "(r.end).presence\n",
        "self.end.counts.crc\n",
        "x.sender)\n",
        "end .pending\n",
        "r.end.full ≡ true\n",
        "let End { presence, .. } = end;\n",
        "End {\n    sender,\n}\n",
        "use end::Outbox;\n",
        "use end::End as Whole;\n",
        "use end::{End, Outbox};\n",
        "let next = end::reading::control(x);\n",
        "use receiver::Inbox;\n",
        "use Rattle.end.specs.declared.Outbox.{Outbox}\n",
        "use Rattle.end.specs.declared.End.{End, the_fields}\n",
        "use Rattle.end.specs.Registers.{read_of, written}\n",
        "use Rattle.end.specs.Registers.{}\n",
        "use Rattle.end.specs.Parts.{with_outbox}\n",
        "use Rattle.end.specs.Message.{Message, message_in}\n",
        "use Rattle.end.proofs.RegisterLaws.{write_done}\n",
        "use Rattle.end.specs.Registers as registers\n",
        "use Rattle.end as whole\n",
        "use Rattle.receiver.specs.declared.Inbox.{Inbox}\n",
        "push e = Rattle.end.specs.Good.bad e\n",
        "unfolding read_of\n",
        "#[tactic(auto, unfolding(crate::specs::Sending::push_of, read_of))]\n",
        "push_law : Law\nunfolding push_of above\n    bad write_of\npush_law = refl\n",
        "  where\n  unfolding push_of write_of\n  push_law = refl\n",
    ];
    for text in bad {
        assert!(breaks(text, &fields).is_some(), "{}", text);
    }
}
