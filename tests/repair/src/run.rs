//! The program under test.

use std::io::{self, Read, Write};
use std::path::PathBuf;
use std::process::{Child, Command, Stdio};
use std::sync::mpsc::{self, RecvTimeoutError};
use std::sync::Mutex;
use std::thread;
use std::time::Duration;

use crate::compare::{record, Failure, Numbers, Side, NUMBERS};
use crate::memory::Memory;

/// A program that has not ended by then hangs, and is stopped.
const TIME_LIMIT: Duration = Duration::from_secs(120);

const RECORD_BYTES: usize = 4 * NUMBERS;

pub struct Program(pub PathBuf);

impl Side for Program {
    fn answers(&self, memories: &[Memory]) -> Result<Vec<Numbers>, Failure> {
        let input: Vec<u8> = memories
            .iter()
            .flat_map(record)
            .flat_map(u32::to_le_bytes)
            .collect();
        let output = self.run(&input).map_err(Failure::Unanswered)?;
        if output.len() % RECORD_BYTES != 0 {
            let cut = format!("the output has {} bytes, no whole answers", output.len());
            return Err(Failure::Unanswered(cut));
        }
        Ok(output.chunks_exact(RECORD_BYTES).map(words).collect())
    }
}

fn words(bytes: &[u8]) -> Numbers {
    let word = |four: &[u8]| u32::from_le_bytes(four.try_into().expect("four bytes"));
    bytes.chunks_exact(4).map(word).collect()
}

impl Program {
    fn run(&self, input: &[u8]) -> Result<Vec<u8>, String> {
        let cannot = |error: io::Error| format!("the program cannot be run: {error}");
        let mut child = Command::new(&self.0)
            .stdin(Stdio::piped())
            .stdout(Stdio::piped())
            .spawn()
            .map_err(cannot)?;
        let mut stdin = child.stdin.take().expect("standard input is piped");
        let stdout = child.stdout.take().expect("standard output is piped");
        let child = Mutex::new(child);
        let (done, waiting) = mpsc::channel::<()>();
        let mut output = Vec::new();

        let (read, late) = thread::scope(|scope| {
            // A thread of its own writes: with both pipes full, one thread for both ends would wait for ever. A program that
            // stops reading has answered too little, and that shows.
            scope.spawn(move || drop(stdin.write_all(input)));
            let child = &child;
            let watch = scope.spawn(move || {
                let late = waiting.recv_timeout(TIME_LIMIT) == Err(RecvTimeoutError::Timeout);
                if late {
                    stop(child);
                }
                late
            });
            // One record more than there should be is enough to tell that there are too many.
            let most = (input.len() + RECORD_BYTES) as u64;
            let read = stdout.take(most).read_to_end(&mut output);
            drop(done);
            (read, watch.join().expect("the watch does not panic"))
        });

        let status = child.into_inner().expect("no thread panicked").wait();
        if late {
            return Err(format!("the program was stopped after {TIME_LIMIT:?}"));
        }
        read.map_err(cannot)?;
        match status.map_err(cannot)? {
            status if status.success() => Ok(output),
            status => Err(format!("the program ends with {status}")),
        }
    }
}

/// Ends the child; that it has ended already is no failure.
fn stop(child: &Mutex<Child>) {
    let _ = child.lock().expect("no thread panicked").kill();
}
