//! One run of the program under test, compared with the model as it comes.

use crate::program::{lines, replies, write_reply};
use crate::walk::{Tally, Witness};
use std::fmt;
use std::io::{self, BufRead, BufReader, Read, Write};
use std::path::Path;
use std::process::{Child, ChildStdout, Command, Stdio};
use std::sync::mpsc::{self, RecvTimeoutError};
use std::sync::Mutex;
use std::thread;
use std::time::Duration;

/// A program that has not ended by then hangs, and is stopped.
const TIME_LIMIT: Duration = Duration::from_secs(120);

/// How much of a line is shown.
const SHOWN: usize = 160;

pub enum Failure {
    /// The program under test wrote something else than the model.
    Differs(String),
    /// The model itself broke a promise or missed a known answer.
    Broken(String),
    /// The program under test could not be run or read.
    Io(io::Error),
}

impl From<io::Error> for Failure {
    fn from(error: io::Error) -> Self {
        Failure::Io(error)
    }
}

impl fmt::Display for Failure {
    fn fmt(&self, f: &mut fmt::Formatter<'_>) -> fmt::Result {
        match self {
            Failure::Differs(text) => f.write_str(text),
            Failure::Broken(text) => write!(f, "the twin itself is wrong: {text}"),
            Failure::Io(error) => write!(f, "the program cannot be run: {error}"),
        }
    }
}

/// Runs the program once on `script` and compares its output byte for byte.
pub fn check(program: &Path, script: &[u8]) -> Result<Tally, Failure> {
    exchange(program, script, |output| compare(script, output))
}

/// Runs the program once on `input` and has its output judged as it comes.
pub fn exchange<T>(
    program: &Path,
    input: &[u8],
    judge: impl FnOnce(&mut BufReader<ChildStdout>) -> Result<T, Failure>,
) -> Result<T, Failure> {
    let mut child = Command::new(program)
        .stdin(Stdio::piped())
        .stdout(Stdio::piped())
        .spawn()?;
    let mut stdin = child.stdin.take().expect("standard input is piped");
    let output = child.stdout.take().expect("standard output is piped");
    let child = Mutex::new(child);
    let (done, waiting) = mpsc::channel::<()>();

    let (verdict, late) = thread::scope(|scope| {
        // A thread of its own writes the input: with both pipes full, one
        // thread for both ends would wait for ever. The program may stop
        // reading when a script is too long, so a broken pipe is no failure.
        scope.spawn(move || drop(stdin.write_all(input)));
        let child = &child;
        let watch = scope.spawn(move || {
            let late = waiting.recv_timeout(TIME_LIMIT) == Err(RecvTimeoutError::Timeout);
            if late {
                stop(child);
            }
            late
        });
        let verdict = judge(&mut BufReader::new(output));
        if verdict.is_err() {
            stop(child);
        }
        drop(done);
        (verdict, watch.join().expect("the watch does not panic"))
    });

    let status = child.into_inner().expect("no thread panicked").wait()?;
    if late {
        let hangs = format!("the program was stopped after {TIME_LIMIT:?}");
        return Err(Failure::Differs(hangs));
    }
    let agreed = verdict?;
    if !status.success() {
        let end = format!("the answers agree, but the program ends with {status}");
        return Err(Failure::Differs(end));
    }
    Ok(agreed)
}

/// Ends the child; that it has ended already is no failure.
fn stop(child: &Mutex<Child>) {
    let _ = child.lock().expect("no thread panicked").kill();
}

fn compare(script: &[u8], output: &mut impl BufRead) -> Result<Tally, Failure> {
    let mut witness = Witness::default();
    let mut script_lines = lines(script);
    let mut expected = Vec::new();
    let mut found = Vec::new();
    for (index, exchange) in replies(script).enumerate() {
        let line = script_lines.next().unwrap_or_default();
        witness.observe(&exchange).map_err(|promise| {
            Failure::Broken(format!("line {}, {}: {promise}", index + 1, show(line, 0)))
        })?;
        expected.clear();
        write_reply(&exchange.reply, &mut expected);
        read_line(output, expected.len(), &mut found)?;
        if found != expected {
            return Err(differs(index + 1, line, &expected, &found));
        }
    }
    expect_end(output, "more answers than lines")?;
    Ok(witness.tally())
}

/// Reads a line, but of an overlong one only so much that it can be shown.
pub fn read_line(
    output: &mut impl BufRead,
    expected: usize,
    found: &mut Vec<u8>,
) -> io::Result<()> {
    found.clear();
    output
        .take((expected + SHOWN) as u64)
        .read_until(b'\n', found)?;
    Ok(())
}

/// Nothing more may come.
pub fn expect_end(output: &mut impl BufRead, otherwise: &str) -> Result<(), Failure> {
    let mut found = Vec::new();
    read_line(output, 0, &mut found)?;
    if found.is_empty() {
        return Ok(());
    }
    let extra = format!("{otherwise}, first {}", show(&found, 0));
    Err(Failure::Differs(extra))
}

fn differs(number: usize, line: &[u8], expected: &[u8], found: &[u8]) -> Failure {
    let same = expected
        .iter()
        .zip(found)
        .take_while(|(wanted, got)| wanted == got)
        .count();
    // Long lines are shown from a little before the difference on.
    let from = same.saturating_sub(SHOWN / 2);
    Failure::Differs(format!(
        "answer {number} differs at byte {} of its line\n  line:     {}\n  expected: {}\n  found:    {}",
        same + 1,
        show(line, 0),
        show(expected, from),
        show(found, from),
    ))
}

/// A part of a line in quotes, with odd bytes escaped.
pub fn show(line: &[u8], from: usize) -> String {
    let rest = &line[from..];
    let cut = &rest[..rest.len().min(SHOWN)];
    let before = if from > 0 { "... " } else { "" };
    let after = if cut.len() < rest.len() { " ..." } else { "" };
    format!("{before}\"{}\"{after}", cut.escape_ascii())
}

#[cfg(test)]
mod tests {
    use super::*;

    fn outcome(script: &str, output: &str) -> Result<Tally, String> {
        compare(script.as_bytes(), &mut output.as_bytes()).map_err(|failure| match failure {
            Failure::Differs(text) | Failure::Broken(text) => text,
            Failure::Io(error) => error.to_string(),
        })
    }

    #[test]
    fn equal_output_agrees() {
        assert!(outcome("", "").is_ok());
        assert_eq!(outcome("N 1 1\nC 0", "0\n0 0 0\n").unwrap().ended, 1);
    }

    #[test]
    fn every_kind_of_difference_is_found() {
        for (output, message) in [
            ("0\n0 0 1\n", "answer 2 differs at byte 5"),
            ("0\n", "answer 2 differs at byte 1"),
            ("0\n0 0 0", "answer 2 differs at byte 6"),
            ("0\n0 0 0 \n", "answer 2 differs at byte 6"),
            ("0\r\n0 0 0\n", "answer 1 differs at byte 2"),
            ("0\n0 0 0\n\n", "more answers than lines"),
            ("", "answer 1 differs at byte 1"),
        ] {
            let text = outcome("N 1 1\nC 0\n", output).unwrap_err();
            assert!(text.starts_with(message), "{output:?}: {text}");
        }
    }

    #[test]
    fn long_lines_are_cut_to_the_difference() {
        let shown = show(&[b'7'; 1000], 100);
        assert!(shown.starts_with("... \"777") && shown.ends_with("7\" ..."));
        assert!(shown.len() < SHOWN + 20);
    }
}
