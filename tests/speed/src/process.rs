//! A program as a process of its own: what it writes for an order, and how long
//! a processor was busy with it.

use crate::failure::Failure;
use std::fs;
use std::io::{self, Read, Write};
use std::path::Path;
use std::process::{Child, Command, Stdio};
use std::thread;
use std::time::Duration;

/// A program and the arguments that make it answer orders.
pub struct Program<'a> {
    pub path: &'a Path,
    pub arguments: &'a [&'a str],
}

impl Program<'_> {
    /// What the program writes for an order, and its processor time.
    pub fn run(&self, order: &str) -> Result<(String, Duration), Failure> {
        let mut child = Command::new(self.path)
            .args(self.arguments)
            .stdin(Stdio::piped())
            .stdout(Stdio::piped())
            .spawn()?;
        let mut input = child.stdin.take().expect("standard input is piped");
        input.write_all(order.as_bytes())?;
        drop(input);
        let mut text = String::new();
        let mut output = child.stdout.take().expect("standard output is piped");
        output.read_to_string(&mut text)?;
        let time = processor_time(&child)?;
        let status = child.wait()?;
        if status.success() {
            Ok((text, time))
        } else {
            let path = self.path.display();
            Err(Failure::Differs(format!("{path} ends with {status}")))
        }
    }
}

/// The processor time of a process, from its start to its end. It has written all
/// that it writes, and so ends by itself. Until it is waited for, what the kernel
/// counted of it can still be read.
fn processor_time(child: &Child) -> io::Result<Duration> {
    let id = child.id();
    while !has_ended(&fs::read_to_string(format!("/proc/{id}/stat"))?) {
        thread::yield_now();
    }
    let counted = fs::read_to_string(format!("/proc/{id}/schedstat"))?;
    let nanoseconds = counted.split(' ').next().and_then(|word| word.parse().ok());
    nanoseconds
        .map(Duration::from_nanos)
        .ok_or_else(|| io::Error::other(format!("no processor time in {counted:?}")))
}

/// Whether the state of a process is Z: it has ended and is not waited for. The
/// state stands behind the name of the program, which is in parentheses and may
/// have any characters in it.
fn has_ended(stat: &str) -> bool {
    let behind_name = stat.rsplit(')').next().unwrap_or_default();
    behind_name.trim_start().starts_with('Z')
}

#[cfg(test)]
mod tests {
    use super::*;

    #[test]
    fn a_process_has_ended_by_its_state_and_not_by_its_name() {
        assert!(has_ended("12 (speed) Z 1 12 12"));
        assert!(has_ended("12 (a) S b) Z 1 12 12"));
        assert!(!has_ended("12 (speed) R 1 12 12"));
        assert!(!has_ended("12 (a) Z b) S 1 12 12"));
        assert!(!has_ended(""));
    }

    #[test]
    fn a_process_that_is_idle_takes_little_processor_time() {
        let program = Program {
            path: Path::new("/bin/sh"),
            arguments: &["-c", "read line; sleep 0.2; echo $line"],
        };
        let Ok((text, time)) = program.run("hello\n") else {
            panic!("the shell runs");
        };
        assert_eq!(text, "hello\n");
        assert!(!time.is_zero() && time < Duration::from_millis(100));
    }
}
