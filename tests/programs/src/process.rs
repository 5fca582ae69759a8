//! One process for each input: standard input given, both outputs and the
//! status taken.

use second::random::Random;
use std::fs::{self, File};
use std::io::{self, ErrorKind, Read, Write};
use std::path::{Path, PathBuf};
use std::process::{Child, ChildStdin, Command, ExitStatus, Stdio};
use std::sync::mpsc;
use std::thread;
use std::time::{Duration, Instant};

/// A process that has not ended by then hangs.
const PATIENCE: Duration = Duration::from_secs(10);
/// Between two pieces of an input, so that a read finds only a part of it.
const PAUSE: Duration = Duration::from_micros(150);
/// More than any output has; a process that writes without end gets no
/// reader for the rest.
const OUTPUT_LIMIT: u64 = 65_536;

pub struct Ended {
    pub output: Vec<u8>,
    pub errors: Vec<u8>,
    pub status: ExitStatus,
}

/// How an input reaches the process.
#[derive(Clone, Copy, PartialEq, Eq)]
pub enum Feed {
    File,
    Pipe,
    /// A pipe that is written piece by piece, with pauses.
    Pieces,
}

pub const FEEDS: [Feed; 3] = [Feed::File, Feed::Pipe, Feed::Pieces];

fn read_whole(from: Option<impl Read>) -> Vec<u8> {
    let mut bytes = Vec::new();
    if let Some(from) = from {
        // Of a failed read what came before it is kept and compared.
        let _ = from.take(OUTPUT_LIMIT).read_to_end(&mut bytes);
    }
    bytes
}

/// Writes all pieces and closes the pipe. A process may stop reading before
/// the end of a text that is too long, and then the pipe is broken.
fn write_pieces(mut to: ChildStdin, pieces: &[&[u8]]) -> io::Result<()> {
    for (i, piece) in pieces.iter().enumerate() {
        if i > 0 {
            thread::sleep(PAUSE);
        }
        match to.write_all(piece) {
            Err(error) if error.kind() == ErrorKind::BrokenPipe => return Ok(()),
            outcome => outcome?,
        }
    }
    Ok(())
}

/// Waits for the end of a process that was given the pieces. One that hangs
/// is killed and is an error.
pub fn finish(mut child: Child, pieces: &[&[u8]]) -> Result<Ended, String> {
    let deadline = Instant::now() + PATIENCE;
    let left = || deadline.saturating_duration_since(Instant::now());
    let input = child.stdin.take();
    let (output, errors) = (child.stdout.take(), child.stderr.take());
    thread::scope(|scope| {
        // The outputs are read at once, so that no full pipe stops the process.
        let (send_output, receive_output) = mpsc::channel();
        let (send_errors, receive_errors) = mpsc::channel();
        scope.spawn(move || send_output.send(read_whole(output)));
        scope.spawn(move || send_errors.send(read_whole(errors)));
        let writer = input.map(|to| scope.spawn(move || write_pieces(to, pieces)));
        let mut wait = || {
            let output = receive_output.recv_timeout(left()).ok()?;
            let errors = receive_errors.recv_timeout(left()).ok()?;
            loop {
                if let Some(status) = child.try_wait().ok()? {
                    return Some(Ended {
                        output,
                        errors,
                        status,
                    });
                }
                if left().is_zero() {
                    return None;
                }
                thread::sleep(Duration::from_micros(20));
            }
        };
        let Some(ended) = wait() else {
            // Its end also ends the threads.
            child.kill().map_err(|error| error.to_string())?;
            child.wait().map_err(|error| error.to_string())?;
            return Err(format!("has not ended after {PATIENCE:?}"));
        };
        match writer.map(|writer| writer.join()) {
            None | Some(Ok(Ok(()))) => Ok(ended),
            Some(Ok(Err(error))) => Err(format!("standard input: {error}")),
            Some(Err(_)) => Err("standard input: the writer panicked".into()),
        }
    })
}

pub fn start(command: &mut Command) -> Result<Child, String> {
    command
        .spawn()
        .map_err(|error| format!("cannot be started: {error}"))
}

/// The text cut at up to five places.
fn cut<'a>(r: &mut Random, text: &'a [u8]) -> Vec<&'a [u8]> {
    let mut cuts: Vec<usize> = (0..r.within(1, 5)).map(|_| r.edge(0, text.len())).collect();
    cuts.extend([0, text.len()]);
    cuts.sort_unstable();
    cuts.windows(2).map(|w| &text[w[0]..w[1]]).collect()
}

/// A file of this run alone, removed at its end.
pub struct Scratch(PathBuf);

impl Scratch {
    pub fn new() -> Scratch {
        Scratch(scratch_path("input"))
    }

    pub fn hold(&self, text: &[u8]) -> Result<File, String> {
        fs::write(&self.0, text)
            .and_then(|()| File::open(&self.0))
            .map_err(|error| format!("{}: {error}", self.0.display()))
    }
}

impl Drop for Scratch {
    fn drop(&mut self) {
        let _ = fs::remove_file(&self.0);
    }
}

/// A path in the directory for temporary files.
pub fn scratch_path(what: &str) -> PathBuf {
    let name = format!("compare-{}-{what}.txt", std::process::id());
    std::env::temp_dir().join(name)
}

/// The process's three streams.
pub fn command(program: &Path, input: impl Into<Stdio>) -> Command {
    let mut command = Command::new(program);
    command
        .stdin(input)
        .stdout(Stdio::piped())
        .stderr(Stdio::piped());
    command
}

/// Runs the program on the text.
pub fn run(
    r: &mut Random,
    program: &Path,
    scratch: &Scratch,
    text: &[u8],
    feed: Feed,
) -> Result<Ended, String> {
    let whole = [text];
    match feed {
        Feed::File => finish(start(&mut command(program, scratch.hold(text)?))?, &[]),
        Feed::Pipe => finish(start(&mut command(program, Stdio::piped()))?, &whole),
        Feed::Pieces => finish(start(&mut command(program, Stdio::piped()))?, &cut(r, text)),
    }
}
