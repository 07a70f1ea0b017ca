//! Running `probe`, `probe_added` or `readback` over a pipe.

use crate::call::{self, Call, Calls};
use crate::{oracle, readback};
use std::io::{Read, Write};
use std::path::{Path, PathBuf};
use std::process::{Command, Stdio};
use std::sync::Arc;
use std::sync::mpsc::{RecvTimeoutError, channel};
use std::time::Duration;

/// A program runs no longer than this over one batch.
const LONGEST_RUN: Duration = Duration::from_secs(120);

#[derive(Clone, Copy, Debug, PartialEq, Eq)]
pub enum Kind {
    Probe,
    Added,
    Readback,
}

#[derive(Clone)]
pub struct Program {
    pub kind: Kind,
    pub path: PathBuf,
}

pub struct Output {
    pub bytes: Vec<u8>,
    /// How it ended, if not by itself with status 0.
    pub ending: Option<String>,
}

impl Kind {
    pub fn name(self) -> &'static str {
        match self {
            Kind::Probe => "probe",
            Kind::Added => "probe_added",
            Kind::Readback => "readback",
        }
    }

    /// The program's calls; none for `readback`, which has bodies.
    pub fn calls(self) -> Option<&'static Calls> {
        match self {
            Kind::Probe => Some(&call::PROBE),
            Kind::Added => Some(&call::ADDED),
            Kind::Readback => None,
        }
    }

    /// Writes a call as the program reads it; none if it can't be said to this program.
    pub fn write(self, call: &Call, out: &mut Vec<u8>) -> Option<()> {
        match self {
            Kind::Probe | Kind::Added => Some(call.write(out)),
            Kind::Readback => readback::write(call, out),
        }
    }

    /// What the program must print for `input`.
    pub fn expected(self, input: &[u8]) -> Vec<u8> {
        match self {
            Kind::Probe => oracle::probe(input, |_, _, _| ()),
            Kind::Added => oracle::probe_added(input, |_, _, _| ()),
            Kind::Readback => readback::readback(input, |_, _, _| ()),
        }
    }

    /// The call at the front of `input`; none if it is cut.
    pub fn call(self, mut input: &[u8]) -> Option<Call> {
        let Some(calls) = self.calls() else {
            return readback::call(input);
        };
        let lent = call::read(calls, &mut input)?;
        let shape = calls.shape_of(lent.no)?;
        let numbers = &lent.numbers[..shape.numbers.len()];
        Some(Call::new(lent.no, numbers, &lent.texts[..shape.texts.len()]))
    }
}

fn ending(status: std::process::ExitStatus) -> Option<String> {
    (!status.success()).then(|| status.to_string())
}

/// Runs a program on `input` and takes what it prints.
pub fn run(path: &Path, input: Arc<Vec<u8>>) -> Result<Output, String> {
    let mut child = Command::new(path)
        .stdin(Stdio::piped())
        .stdout(Stdio::piped())
        .spawn()
        .map_err(|error| format!("{}: {error}", path.display()))?;
    let mut stdin = child.stdin.take().ok_or("no pipe to the program")?;
    let mut stdout = child.stdout.take().ok_or("no pipe from the program")?;
    // A program that prints `cut` ends without reading the rest, so this may fail.
    let writer = std::thread::spawn(move || drop(stdin.write_all(&input)));
    let (sender, receiver) = channel();
    let reader = std::thread::spawn(move || {
        let mut bytes = Vec::new();
        let read = stdout.read_to_end(&mut bytes);
        let _ = sender.send(());
        read.map(|_| bytes)
    });
    let late = receiver.recv_timeout(LONGEST_RUN) == Err(RecvTimeoutError::Timeout);
    if late {
        child.kill().map_err(|error| error.to_string())?;
    }
    let status = child.wait().map_err(|error| error.to_string())?;
    let bytes = reader.join().map_err(|_| "the reader ended early")?;
    let _ = writer.join();
    let ending = if late { Some("stopped: it did not end".into()) } else { ending(status) };
    Ok(Output { bytes: bytes.map_err(|error| error.to_string())?, ending })
}

/// Lines without their line feeds; a part without one counts as a line.
pub fn lines(bytes: &[u8]) -> Vec<&[u8]> {
    let mut lines: Vec<&[u8]> = bytes.split(|&byte| byte == b'\n').collect();
    if lines.last().is_some_and(|line| line.is_empty()) {
        lines.pop();
    }
    lines
}

/// A difference: its line, what is expected there, and what the program printed.
pub struct Difference {
    pub line: usize,
    pub expected: String,
    pub printed: String,
}

/// The lines that differ. Where the program printed less, the first line that lacks is the last difference.
pub fn differences(expected: &[u8], output: &Output) -> Vec<Difference> {
    if expected == output.bytes {
        return Vec::new();
    }
    let text = |line: &[u8]| String::from_utf8_lossy(line).into_owned();
    let (want, got) = (lines(expected), lines(&output.bytes));
    let mut found = Vec::new();
    for line in 0..want.len().max(got.len()) {
        let (one, other) = (want.get(line), got.get(line));
        if one == other {
            continue;
        }
        let nothing = || match &output.ending {
            Some(ending) => format!("nothing; {ending}"),
            None => "nothing".into(),
        };
        found.push(Difference {
            line,
            expected: one.map_or("nothing".into(), |line| text(line)),
            printed: other.map_or_else(nothing, |line| text(line)),
        });
        if one.is_none() || other.is_none() {
            break;
        }
    }
    if found.is_empty() {
        // Only the last line feed differs.
        found.push(Difference { line: want.len(), expected: "a last line feed".into(), printed: "none".into() });
    }
    found
}
