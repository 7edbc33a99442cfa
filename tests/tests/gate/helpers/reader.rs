//! The reader of captures, `./capture`, started as a person starts it. Whatever it is waited for must come within some
//! patience, so that a reader that hangs fails its test.

use second::proved::{reader, reader_path};
use std::io::{Read, Result, Write};
use std::os::unix::io::OwnedFd;
use std::os::unix::net::UnixDatagram;
use std::process::{Child, Command, Stdio};
use std::sync::mpsc::{channel, Receiver, RecvTimeoutError, Sender};
use std::thread;
use std::time::{Duration, Instant};

const PATIENCE: Duration = Duration::from_secs(20);

/// A read takes one datagram, and what its buffer doesn't hold of it is lost.
pub const LARGEST_DATAGRAM: usize = 4_096;

/// A reader that runs beside the test.
pub struct Reading {
    child: Child,
    /// To the thread that writes its input, which is held up where the reader reads nothing.
    pieces: Option<Sender<(Vec<u8>, usize)>>,
    output: Option<Receiver<Vec<u8>>>,
    errors: Receiver<Vec<u8>>,
    printed: Vec<u8>,
}

/// What came of it.
pub struct Ended {
    pub printed: Vec<u8>,
    pub errors: String,
    pub status: Option<i32>,
}

/// The reader by a line of bash, in which `"$0"` is its path.
pub fn by_shell(line: &str) -> Command {
    let mut command = Command::new("bash");
    command.args(["-c", line]).arg(reader_path());
    command
}

/// The report on a whole input.
pub fn read(input: &[u8]) -> Ended {
    let mut reading = Reading::by_pipe(reader());
    reading.write(input);
    reading.end()
}

impl Reading {
    /// Its input is a pipe.
    pub fn by_pipe(mut command: Command) -> Reading {
        command.stdin(Stdio::piped());
        let mut reading = Reading::start(command);
        let mut input = reading.child.stdin.take().expect("its input is ours");
        reading.feed(move |piece| input.write_all(piece));
        reading
    }

    /// Its input comes in datagrams: each read gets one piece, neither more nor less. An empty one is the end.
    pub fn by_datagrams(mut command: Command) -> Reading {
        let (ours, theirs) = UnixDatagram::pair().expect("a pair of sockets can be had");
        command.stdin(OwnedFd::from(theirs));
        let mut reading = Reading::start(command);
        reading.feed(move |piece| {
            assert!(piece.len() <= LARGEST_DATAGRAM);
            ours.send(piece).map(drop)
        });
        reading
    }

    /// Its input is set already.
    pub fn start(mut command: Command) -> Reading {
        let mut child = command
            .stdout(Stdio::piped())
            .stderr(Stdio::piped())
            .spawn()
            .unwrap_or_else(|why| panic!("{:?} cannot be run: {}", command, why));
        let output = Some(gather(child.stdout.take().expect("its output is ours")));
        let errors = gather(child.stderr.take().expect("its errors are ours"));
        Reading { child, pieces: None, output, errors, printed: Vec::new() }
    }

    /// A reader that ended before its input shows that by its report, so a failed write only stops the writing.
    fn feed(&mut self, mut write: impl FnMut(&[u8]) -> Result<()> + Send + 'static) {
        let (sender, pieces) = channel::<(Vec<u8>, usize)>();
        self.pieces = Some(sender);
        thread::spawn(move || {
            pieces.into_iter().try_for_each(|(piece, times)| (0..times).try_for_each(|_| write(&piece)))?;
            write(&[])
        });
    }

    pub fn write(&mut self, piece: &[u8]) {
        self.write_times(1, piece);
    }

    /// Written again and again.
    pub fn write_times(&mut self, times: usize, piece: &[u8]) {
        let pieces = self.pieces.as_ref().expect("its input is ours");
        // None of it is written any more where the writing has stopped.
        drop(pieces.send((piece.to_vec(), times)));
    }

    /// Waits until so much is printed as is wanted; it must be the same.
    pub fn shows(&mut self, wanted: &[u8], when: &str) {
        let until = Instant::now() + PATIENCE;
        while self.printed.len() < wanted.len() {
            let output = self.output.as_ref().expect("its output is ours");
            match output.recv_timeout(until.saturating_duration_since(Instant::now())) {
                Ok(part) => self.printed.extend(part),
                Err(_) => break,
            }
        }
        same(when, wanted, &self.printed);
    }

    /// Waits for a first line, then goes away.
    pub fn one_line_and_gone(mut self) -> Ended {
        let output = self.output.take().expect("its output is ours");
        while !self.printed.contains(&b'\n') {
            self.printed.extend(output.recv_timeout(PATIENCE).expect("a first line comes"));
        }
        drop(output);
        self.ended()
    }

    /// The end of its input.
    pub fn end(mut self) -> Ended {
        self.pieces = None;
        self.ended()
    }

    /// Waits until it has ended by itself.
    pub fn ended(mut self) -> Ended {
        let until = Instant::now() + PATIENCE;
        if let Some(output) = self.output.take() {
            let rest = gathered(&output, until).unwrap_or_else(|| self.late());
            self.printed.extend(rest);
        }
        let errors = gathered(&self.errors, until).unwrap_or_else(|| self.late());
        let status = loop {
            match self.child.try_wait().expect("our own child can be waited for") {
                Some(status) => break status.code(),
                None if Instant::now() > until => self.late(),
                None => thread::sleep(Duration::from_millis(1)),
            }
        };
        Ended { printed: self.printed, errors: String::from_utf8_lossy(&errors).into_owned(), status }
    }

    fn late(&mut self) -> ! {
        self.child.kill().expect("our own child can be ended");
        panic!("the reader has not ended within {:?}", PATIENCE);
    }
}

/// A thread reads, so that nothing that never comes holds up the test. It stops where nobody listens any more.
fn gather(mut from: impl Read + Send + 'static) -> Receiver<Vec<u8>> {
    let (sender, parts) = channel();
    thread::spawn(move || {
        let mut buffer = vec![0; 1 << 16];
        while let Ok(count @ 1..) = from.read(&mut buffer) {
            if sender.send(buffer[..count].to_vec()).is_err() {
                return;
            }
        }
    });
    parts
}

/// All to the end, if that comes in time.
fn gathered(parts: &Receiver<Vec<u8>>, until: Instant) -> Option<Vec<u8>> {
    let mut all = Vec::new();
    loop {
        match parts.recv_timeout(until.saturating_duration_since(Instant::now())) {
            Ok(part) => all.extend(part),
            Err(RecvTimeoutError::Disconnected) => return Some(all),
            Err(RecvTimeoutError::Timeout) => return None,
        }
    }
}

/// Byte for byte, or the first line that differs is told.
pub fn same(name: &str, wanted: &[u8], printed: &[u8]) {
    if wanted == printed {
        return;
    }
    let (wanted, printed): (Vec<_>, Vec<_>) = (lines(wanted), lines(printed));
    let index = (0..).find(|index| wanted.get(*index) != printed.get(*index)).expect("they differ");
    let line = |lines: &[&[u8]]| {
        lines.get(index).map_or("(nothing)".into(), |line| String::from_utf8_lossy(line).into_owned())
    };
    panic!("{}: line {}\n  wanted:  {}\n  printed: {}", name, index + 1, line(&wanted), line(&printed));
}

fn lines(text: &[u8]) -> Vec<&[u8]> {
    text.split(|byte| *byte == b'\n').collect()
}

impl Ended {
    /// The whole report was printed, and nothing else told.
    pub fn reported(&self, name: &str, wanted: &[u8], status: i32) {
        same(name, wanted, &self.printed);
        assert_eq!((self.status, self.errors.as_str()), (Some(status), ""), "{}", name);
    }

    /// What was printed is cut off before its last line, and something is told about it.
    pub fn cut_off(&self, name: &str, wanted: &[u8]) {
        same(name, wanted, &self.printed);
        assert_eq!(self.status, Some(2), "{}: {}", name, self.errors);
        assert!(self.errors.ends_with('\n') && self.errors.len() > 10, "{}: it says {:?}", name, self.errors);
    }
}
