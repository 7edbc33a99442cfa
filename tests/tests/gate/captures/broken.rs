//! Where a read or a write fails the last line is missing, standard error says why, and the exit status is 2. A reader
//! of the report that goes away is no failure to speak of.

use crate::helpers::reader::{by_shell, read, Ended, Reading};
use second::proved::reader;
use second::t1::capture::due;
use second::t1::generate::bytes;
use std::fs::File;
use std::io::{Read, Write};
use std::os::unix::io::OwnedFd;
use std::os::unix::net::UnixStream;
use std::process::id;
use std::{env, fs};

/// The report on three zeros.
const ZEROS: &[u8] = b"1 failed early 1\n2 failed early 1\n3 end 0 frames 0 crc 0 marked 0 early 2 lapses 0\n";

/// Three zeros are its capture.
fn run(line: &str) -> Ended {
    let mut reading = Reading::by_pipe(by_shell(line));
    reading.write(&[0; 6]);
    reading.end()
}

/// Its capture is zeros without end, of which each symbol but the first is a line.
fn endless(line: &str) -> Reading {
    let mut reading = Reading::by_pipe(by_shell(line));
    reading.write_times(usize::MAX, &[0; 1 << 14]);
    reading
}

/// As with `./capture | head -1`: it ends at once and says nothing, also where a failed write alone tells it so.
#[test]
fn nobody_reads_on() {
    for line in ["exec \"$0\"", "trap '' PIPE; exec \"$0\""] {
        let ended = endless(line).one_line_and_gone();
        assert!(ended.printed.starts_with(b"1 failed early 1\n"), "{}", line);
        assert_eq!((ended.status, ended.errors.as_str()), (Some(2), ""), "{}", line);
    }
}

#[test]
fn nobody_reads_at_all() {
    for line in ["\"$0\" > >(exec 0<&-)", "trap '' PIPE; \"$0\" > >(exec 0<&-)"] {
        let ended = endless(line).ended();
        assert_eq!((ended.status, ended.errors.as_str()), (Some(2), ""), "{}", line);
    }
}

#[test]
fn a_directory_for_a_capture() {
    let mut command = reader();
    command.stdin(File::open("/").expect("/ is there"));
    Reading::start(command).ended().cut_off("a directory", b"");
}

/// Its input fails behind some symbols: a socket whose other side goes away with bytes that it has not read.
#[test]
fn a_read_that_fails_later() {
    let (ours, theirs) = UnixStream::pair().expect("a pair of sockets can be had");
    (&theirs).write_all(b"unread").expect("a socket takes it");
    let mut command = reader();
    command.stdin(OwnedFd::from(theirs));
    let mut reading = Reading::start(command);
    let capture = bytes([&[0x000][..], &[0x100; 11], &[0x000, 0x000, 0x200]].concat());
    // Half a number is left when it fails: that is no odd last byte.
    (&ours).write_all(&capture).and_then(|()| (&ours).write_all(&[1])).expect("a socket takes it");
    let wanted = due(&capture);
    reading.shows(&wanted, "before the read that fails");
    drop(ours);
    reading.ended().cut_off("a read that fails later", &wanted);
}

#[test]
fn nowhere_to_write() {
    run("exec \"$0\" > /dev/full").cut_off("a full disk", b"");
    endless("exec \"$0\" > /dev/full").ended().cut_off("a full disk and a capture without end", b"");
    run("exec \"$0\" 1< /dev/null").cut_off("a standard output that is only read", b"");
}

/// Each of the three closed or not: without input or output it is refused, and no other file is taken for them.
#[test]
fn descriptors_that_are_not_open() {
    for line in ["exec \"$0\" <&-", "exec \"$0\" >&-", "exec \"$0\" <&- >&-"] {
        run(line).cut_off(line, b"");
    }
    for line in
        ["exec \"$0\" <&- 2>&-", "exec \"$0\" >&- 2>&-", "exec \"$0\" <&- >&- 2>&-", "exec \"$0\" 2>&- >/dev/full"]
    {
        let ended = run(line);
        assert_eq!((&ended.printed[..], ended.status), (&b""[..], Some(2)), "{}", line);
    }
    run("exec \"$0\" 2>&-").reported("no standard error", ZEROS, 0);
}

/// Descriptors that the caller uses for something of its own are not written to.
#[test]
fn descriptors_of_the_caller() {
    let folder = env::temp_dir().join(format!("simhadol-capture-{}", id()));
    fs::create_dir_all(&folder).expect("a folder can be made");
    let name = folder.join("file");
    let mut line = "exec \"$0\"".to_string();
    (3..10).for_each(|number| line += &format!(" {}> {}", number, name.display()));
    run(&line).reported("descriptors 3 to 9 in use", ZEROS, 0);
    assert_eq!(fs::read(&name).expect("the file is there"), b"");
    fs::remove_dir_all(&folder).expect("our own folder can be removed");
}

/// Nothing is read.
#[test]
fn a_word_is_refused() {
    for word in ["", "-h", "--help", "-", "short.bin", "faults now", "\n"] {
        let mut command = reader();
        command.arg(word);
        let (ours, theirs) = UnixStream::pair().expect("a pair of sockets can be had");
        (&ours).write_all(&[0; 6]).expect("a socket takes it");
        command.stdin(OwnedFd::from(theirs.try_clone().expect("a socket can be had twice")));
        let ended = Reading::start(command).ended();
        ended.cut_off(&format!("{:?}", word), b"");
        assert!(ended.errors.contains("standard input"), "{:?}: {}", word, ended.errors);
        drop(ours);
        let mut left = Vec::new();
        (&theirs).read_to_end(&mut left).expect("what was not read is still there");
        assert_eq!(left, [0; 6], "{:?}", word);
    }
}

/// An exit status is that of its own report, whatever came before.
#[test]
fn statuses() {
    for (input, status) in [(&[0, 0][..], 0), (&[4, 0], 1), (&[0, 0, 0], 1), (&[], 0), (&[4], 1)] {
        assert_eq!(read(input).status, Some(status), "{:?}", input);
    }
}
