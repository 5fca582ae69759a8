//! Standard input that cannot be read, standard output that cannot be
//! written: the process ends, says so on standard error and prints nothing.

use crate::process::{command, finish, scratch_path, start, Ended};
use crate::run::{shown, Run, Test};
use second::random::{case_seed, Random};
use std::fs::{self, File};
use std::io::Write;
use std::path::Path;
use std::process::{Command, Stdio};
use std::thread;

/// What the program says of a stream.
#[derive(Clone, Copy)]
enum Message {
    None,
    Input,
    Output,
}

/// Holds the status to 0, and standard output and standard error to what is expected.
fn hold(run: &Run, ended: &Ended, output: &[u8], message: Message) -> Result<(), String> {
    let status = ended.status;
    if status.code() != Some(0) {
        return Err(format!("{status}"));
    }
    if ended.output != output {
        return Err(format!("prints {}", shown(&ended.output)));
    }
    let name = run.program.name;
    let said = match message {
        Message::None => String::new(),
        Message::Input => format!("{name}: standard input cannot be read\n"),
        Message::Output => format!("{name}: standard output cannot be written\n"),
    };
    match ended.errors == said.as_bytes() {
        true => Ok(()),
        false => Err(format!("standard error {}", shown(&ended.errors))),
    }
}

/// The program started by a shell that has changed its descriptors.
fn by_shell(program: &Path, script: &str) -> Command {
    let mut shell = command(Path::new("sh"), Stdio::piped());
    shell.args(["-c", script, "sh"]).arg(program);
    shell
}

fn open(path: &str, write: bool) -> Result<File, String> {
    let mut options = File::options();
    let opened = if write {
        options.write(true).open(path)
    } else {
        options.read(true).open(path)
    };
    opened.map_err(|error| format!("{path}: {error}"))
}

fn directory_in(run: &mut Run) -> Result<(), String> {
    let input = open(".", false)?;
    let ended = finish(start(&mut command(&run.path, input))?, &[])?;
    hold(run, &ended, b"", Message::Input)
}

fn write_only_in(run: &mut Run) -> Result<(), String> {
    let input = open("/dev/null", true)?;
    let ended = finish(start(&mut command(&run.path, input))?, &[])?;
    hold(run, &ended, b"", Message::Input)
}

fn closed_in(run: &mut Run) -> Result<(), String> {
    let mut shell = by_shell(&run.path, "exec \"$1\" <&-");
    let ended = finish(start(&mut shell)?, &[])?;
    hold(run, &ended, b"", Message::Input)
}

/// One byte more than the longest input, and then no end: the process need not
/// wait for it.
fn endless_in(run: &mut Run) -> Result<(), String> {
    let mut child = start(&mut command(&run.path, Stdio::piped()))?;
    let mut input = child.stdin.take().ok_or("no standard input")?;
    let text = vec![b' '; run.program.longest + 1];
    let writer = thread::spawn(move || {
        let written = input.write_all(&text);
        (input, written)
    });
    let ended = finish(child, &[]);
    // The pipe was open until here.
    drop(writer.join());
    hold(run, &ended?, b"         14\n", Message::None)
}

fn closed_out(run: &mut Run) -> Result<(), String> {
    let mut shell = by_shell(&run.path, "exec \"$1\" >&-");
    let ended = finish(start(&mut shell)?, &[run.program.good])?;
    hold(run, &ended, b"", Message::Output)
}

fn full_out(run: &mut Run) -> Result<(), String> {
    let mut process = command(&run.path, Stdio::piped());
    process.stdout(open("/dev/full", true)?);
    let ended = finish(start(&mut process)?, &[run.program.good])?;
    hold(run, &ended, b"", Message::Output)
}

/// The reader closes before the input is given, so that no output is written
/// ahead of it.
fn unread_out(run: &mut Run) -> Result<(), String> {
    let mut child = start(&mut command(&run.path, Stdio::piped()))?;
    drop(child.stdout.take());
    let ended = finish(child, &[run.program.good])?;
    hold(run, &ended, b"", Message::Output)
}

fn unread_out_no_signal(run: &mut Run) -> Result<(), String> {
    let mut child = start(&mut by_shell(&run.path, "trap '' PIPE; exec \"$1\""))?;
    drop(child.stdout.take());
    let ended = finish(child, &[run.program.good])?;
    hold(run, &ended, b"", Message::Output)
}

/// A file that takes the first block of the output and no more: what fits is
/// written, and that the rest is not is said.
fn cut_out(run: &mut Run) -> Result<(), String> {
    let text = (run.program.largest)(&mut Random::new(case_seed(91, 0)));
    let whole = (run.program.second)(&text);
    let path = scratch_path("output");
    let mut shell = by_shell(&run.path, "trap '' XFSZ; ulimit -f 1; exec \"$1\" >\"$2\"");
    let ended = finish(start(shell.arg(&path))?, &[&text]);
    let written = fs::read(&path).map_err(|error| format!("{}: {error}", path.display()));
    // What cannot be removed was not made, and that is an error already.
    let _ = fs::remove_file(&path);
    let written = written?;
    // A block of a shell's is 512 bytes or 1,024.
    let fits = [512, 1_024].map(|block| whole.len().min(block));
    if !fits.contains(&written.len()) || !whole.starts_with(&written) {
        return Err(format!("the file has {}", shown(&written)));
    }
    let message = match written.len() < whole.len() {
        true => Message::Output,
        false => Message::None,
    };
    hold(run, &ended?, b"", message)
}

/// Not even the message can be written.
fn all_closed(run: &mut Run) -> Result<(), String> {
    let mut shell = by_shell(&run.path, "exec \"$1\" <&- >&- 2>&-");
    let ended = finish(start(&mut shell)?, &[])?;
    hold(run, &ended, b"", Message::None)
}

pub const TESTS: &[(&str, Test)] = &[
    ("a directory as standard input", directory_in),
    ("standard input open for writing only", write_only_in),
    ("standard input closed", closed_in),
    ("standard input without end", endless_in),
    ("standard output closed", closed_out),
    ("standard output on a full device", full_out),
    ("standard output cut short", cut_out),
    ("standard output with no reader", unread_out),
    (
        "standard output with no reader, signal ignored",
        unread_out_no_signal,
    ),
    ("all three closed", all_closed),
];
