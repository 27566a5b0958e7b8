//! Another program run on an input, whatever it does: within a time, and with no
//! more kept of what it prints than `linerun` can print. It is given its input at once
//! or part by part, and the pipe may stay open after the last byte. It runs in a group
//! of processes of its own, so that what it started ends with it.

use std::io::{self, ErrorKind, Read, Write};
use std::os::unix::process::{CommandExt, ExitStatusExt};
use std::path::Path;
use std::process::{Child, ChildStdin, Command, ExitStatus, Stdio};
use std::sync::mpsc::{channel, sync_channel, Receiver, RecvTimeoutError, Sender};
use std::thread;
use std::time::{Duration, Instant};

use line::kernels::process::{end_group, signal_in_words, unread};
use line::output;

/// How often it is looked whether a part of the input was read.
const LOOK_AGAIN: Duration = Duration::from_micros(20);

/// The most bytes that `linerun` prints: for a list of 4,096 calls.
const PRINTED_MAX: usize = 270_364;

/// How many bytes of standard error are kept, and how long to wait for them once
/// the program has ended: something that it started may still hold it open.
const SAID_MAX: u64 = 500;
const WAIT_FOR_SAID: Duration = Duration::from_secs(2);

/// What a program did with an input.
#[derive(Debug, Clone, PartialEq, Eq)]
pub struct Ran {
    pub printed: Vec<u8>,
    /// What it wrote to standard error, the start of it.
    pub said: Vec<u8>,
    pub end: End,
}

/// How a program is given its input.
#[derive(Debug, Clone, Copy, PartialEq, Eq)]
pub struct Feed {
    /// The most bytes that are written at a time, where it isn't all of them: parts of
    /// changing sizes up to that, each written once all before it was read, so that a
    /// read gets no more than one.
    pub parts: Option<usize>,
    /// The pipe stays open after the last byte until the program has ended.
    pub held: bool,
    /// How long the program may take.
    pub time: Duration,
}

impl Feed {
    /// The input in the parts that are written.
    fn cut<'a>(&self, input: &'a [u8]) -> Vec<&'a [u8]> {
        let Some(most) = self.parts else {
            return vec![input];
        };
        let mut parts = Vec::new();
        let mut rest = input;
        while !rest.is_empty() {
            let size = 1 + parts.len() * 7919 % most;
            let (part, after) = rest.split_at(size.min(rest.len()));
            parts.push(part);
            rest = after;
        }
        parts
    }
}

#[derive(Debug, Clone, Copy, PartialEq, Eq)]
pub enum End {
    /// Of its own accord, with a status.
    Status(i32),
    Signal(i32),
    /// Stopped from here, for printing too much or for taking too long.
    TooMuch,
    TooLong(Duration),
}

impl End {
    /// What is wrong with how it ended.
    pub fn fault(self) -> Option<String> {
        Some(match self {
            End::Status(0) => return None,
            End::Status(status) => format!("it ended with status {status}, it should be 0"),
            End::Signal(signal) => format!("it was ended by {}", signal_in_words(signal)),
            End::TooMuch => format!("it was stopped: it printed more than {PRINTED_MAX} bytes"),
            End::TooLong(time) => format!(
                "it was stopped: it had not ended after {} s",
                time.as_secs()
            ),
        })
    }
}

/// Runs a program on an input; an error where it can't be started.
pub fn run(program: impl AsRef<Path>, input: &[u8], feed: Feed) -> Result<Ran, String> {
    let program = program.as_ref();
    let mut child = start(program)?;
    let deadline = Instant::now() + feed.time;
    let running = give(child.stdin.take(), input.to_vec(), feed);
    let said = first_bytes(child.stderr.take());
    let (printed, gathered) = collect(parts(child.stdout.take()), deadline);
    let stopped = match gathered {
        Gathered::TooMuch => Some(End::TooMuch),
        // It may have ended in time all the same, and left something that holds its
        // output open.
        Gathered::All | Gathered::InTime => {
            wait(&mut child, deadline).then_some(End::TooLong(feed.time))
        }
    };
    if stopped.is_some() || gathered != Gathered::All {
        end_group(&child);
    }
    let status = child.wait();
    drop(running);
    let status =
        status.map_err(|why| format!("cannot wait for {}: {why}", output::shown(program)))?;
    Ok(Ran {
        printed,
        said: said.recv_timeout(WAIT_FOR_SAID).unwrap_or_default(),
        end: stopped.unwrap_or_else(|| ended(status)),
    })
}

fn start(program: &Path) -> Result<Child, String> {
    let mut command = Command::new(program);
    command.stdin(Stdio::piped());
    command.stdout(Stdio::piped()).stderr(Stdio::piped());
    command.process_group(0);
    command.spawn().map_err(|why| {
        let name = output::shown(program);
        let bare = why.kind() == ErrorKind::NotFound && program.components().count() == 1;
        if bare && program.exists() {
            return format!("no program {name} is installed: for the one here write ./{name}");
        }
        format!("cannot start {name}: {why}")
    })
}

/// Gives the program its input, which it may stop reading before the end. What is
/// returned is dropped once the program has ended: then nothing more is waited for.
fn give(stdin: Option<ChildStdin>, input: Vec<u8>, feed: Feed) -> Sender<()> {
    let (running, ended) = channel();
    thread::spawn(move || {
        let mut stdin = stdin?;
        for part in feed.cut(&input) {
            stdin.write_all(part).ok()?;
            while feed.parts.is_some() && unread(&stdin) > 0 {
                if ended.recv_timeout(LOOK_AGAIN) != Err(RecvTimeoutError::Timeout) {
                    return None;
                }
            }
        }
        if feed.held {
            let _ = ended.recv();
        }
        Some(())
    });
    running
}

/// What is read from a program, part by part; one part at most waits to be taken.
fn parts(stream: Option<impl Read + Send + 'static>) -> Receiver<Vec<u8>> {
    let (give, take) = sync_channel(1);
    thread::spawn(move || {
        let Some(mut stream) = stream else { return };
        let mut space = vec![0; 65_536];
        while let Ok(count @ 1..) = stream.read(&mut space) {
            if give.send(space[..count].to_vec()).is_err() {
                return;
            }
        }
    });
    take
}

/// The first bytes that are read from a program. What follows is read too, so that
/// the program never waits for that, and left out.
fn first_bytes(stream: Option<impl Read + Send + 'static>) -> Receiver<Vec<u8>> {
    let (give, take) = channel();
    thread::spawn(move || {
        let mut first = Vec::new();
        let mut stream = stream?;
        let _ = stream.by_ref().take(SAID_MAX).read_to_end(&mut first);
        let _ = give.send(first);
        io::copy(&mut stream, &mut io::sink()).ok()
    });
    take
}

/// How much of what a program prints was gathered.
#[derive(Debug, Clone, Copy, PartialEq, Eq)]
enum Gathered {
    All,
    /// What came until the deadline.
    InTime,
    /// It is more than is kept.
    TooMuch,
}

/// What is printed.
fn collect(parts: Receiver<Vec<u8>>, deadline: Instant) -> (Vec<u8>, Gathered) {
    let mut printed = Vec::new();
    loop {
        let left = deadline.saturating_duration_since(Instant::now());
        match parts.recv_timeout(left) {
            Ok(part) => printed.extend(part),
            Err(RecvTimeoutError::Disconnected) => return (printed, Gathered::All),
            Err(RecvTimeoutError::Timeout) => return (printed, Gathered::InTime),
        }
        if printed.len() > PRINTED_MAX {
            printed.truncate(PRINTED_MAX + 1);
            return (printed, Gathered::TooMuch);
        }
    }
}

/// Waits for a program to end; whether it takes too long.
fn wait(child: &mut Child, deadline: Instant) -> bool {
    while let Ok(None) = child.try_wait() {
        if Instant::now() >= deadline {
            return true;
        }
        thread::sleep(Duration::from_micros(20));
    }
    false
}

fn ended(status: ExitStatus) -> End {
    match (status.code(), status.signal()) {
        (Some(status), _) => End::Status(status),
        (None, signal) => End::Signal(signal.unwrap_or_default()),
    }
}

#[cfg(test)]
mod tests {
    use super::*;

    /// Long enough for what a shell does at once on a busy machine, and longer than anything
    /// here takes that comes to its end.
    const SOON: Duration = Duration::from_secs(6);
    const LATE: Duration = Duration::from_secs(120);

    /// The input at once, and the pipe closed after it.
    fn at_once_for(time: Duration) -> Feed {
        Feed {
            parts: None,
            held: false,
            time,
        }
    }

    fn at_once(program: &str, input: &[u8]) -> Result<Ran, String> {
        run(program, input, at_once_for(LATE))
    }

    /// What a shell does with a script that it is given as its input.
    fn shell(script: &str) -> Ran {
        at_once("/bin/sh", script.as_bytes()).unwrap()
    }

    /// The same with a script that never ends.
    fn endless(script: &str) -> Ran {
        run("/bin/sh", script.as_bytes(), at_once_for(SOON)).unwrap()
    }

    #[test]
    fn an_input_is_cut_into_parts() {
        let feed = |parts| Feed {
            parts,
            ..at_once_for(LATE)
        };
        let input: Vec<u8> = (0..100).collect();
        assert_eq!(feed(None).cut(&input), [&input[..]]);
        assert_eq!(feed(Some(1)).cut(&input).len(), 100);
        let odd = feed(Some(17)).cut(&input);
        assert_eq!(odd.concat(), input);
        let sizes: Vec<usize> = odd.iter().map(|part| part.len()).collect();
        assert_eq!(sizes[..4], [1, 15, 12, 9]);
    }

    #[test]
    fn a_read_gets_no_more_than_one_part() {
        // dd counts its reads, whole and short ones.
        let reads = |parts| {
            let feed = Feed {
                parts,
                ..at_once_for(LATE)
            };
            let ran = run("/bin/dd", b"abcdef", feed).unwrap();
            assert_eq!(ran.printed, b"abcdef");
            String::from_utf8_lossy(&ran.said).into_owned()
        };
        assert!(reads(None).starts_with("0+1 records in"), "{}", reads(None));
        assert!(reads(Some(1)).starts_with("0+6 records in"));
        assert!(reads(Some(4)).starts_with("0+3 records in"));
    }

    #[test]
    fn a_pipe_is_held_open_after_the_last_byte() {
        let held = |time| Feed {
            held: true,
            ..at_once_for(time)
        };
        let all = run("/bin/cat", b"abc\n", held(SOON)).unwrap();
        assert_eq!(all.end, End::TooLong(SOON));
        assert_eq!(all.printed, b"abc\n");
        let enough = run("/bin/sh", b"exit 3\nabc\n", held(LATE)).unwrap();
        assert_eq!(enough.end, End::Status(3));
    }

    #[test]
    fn what_is_printed_and_said_is_kept() {
        let ran = shell("echo abc; echo wrong >&2; exit 3");
        assert_eq!(ran.printed, b"abc\n");
        assert_eq!(ran.said, b"wrong\n");
        assert_eq!(ran.end, End::Status(3));
        let report = ran.end.fault().unwrap();
        assert_eq!(report, "it ended with status 3, it should be 0");
        assert_eq!(shell("echo abc").end.fault(), None);
    }

    #[test]
    fn a_signal_is_reported() {
        let ran = shell("echo abc; kill -SEGV $$");
        assert_eq!(ran.printed, b"abc\n");
        let report = ran.end.fault().unwrap();
        assert_eq!(report, "it was ended by signal 11 (segmentation fault)");
    }

    #[test]
    fn what_prints_without_end_is_stopped() {
        let ran = at_once("/usr/bin/yes", b"").unwrap();
        assert_eq!(ran.end, End::TooMuch);
        assert_eq!(ran.printed.len(), PRINTED_MAX + 1);
        let said = endless("yes no >&2");
        assert_eq!(said.end, End::TooLong(SOON));
        assert_eq!(said.said.len(), SAID_MAX as usize);
    }

    #[test]
    fn what_waits_without_end_is_stopped() {
        let waits = endless("echo abc; exec sleep 600");
        assert_eq!(waits.end, End::TooLong(SOON));
        assert_eq!(waits.printed, b"abc\n");
        let closes = endless("echo abc; exec sleep 600 >&- 2>&-");
        let report = closes.end.fault().unwrap();
        assert_eq!(report, "it was stopped: it had not ended after 6 s");
    }

    #[test]
    fn what_a_program_started_ends_with_it() {
        let began = Instant::now();
        assert_eq!(endless("sleep 600; echo late").end, End::TooLong(SOON));
        // It ends, and leaves another that holds its output open.
        let ran = endless("echo abc; sleep 600 &");
        assert_eq!(ran.end, End::Status(0));
        assert_eq!(ran.printed, b"abc\n");
        assert!(began.elapsed() < Duration::from_secs(300));
    }

    #[test]
    fn a_program_that_cannot_be_started_is_reported() {
        assert!(at_once("/no/such/program", b"").is_err());
        // Tests run in the folder of the package.
        let here = at_once("Cargo.toml", b"").unwrap_err();
        assert!(here.ends_with("write ./Cargo.toml"), "{here}");
        let nowhere = at_once("no-such-program", b"").unwrap_err();
        assert!(nowhere.starts_with("cannot start"), "{nowhere}");
    }
}
