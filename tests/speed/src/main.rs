//! Times the proved store against the same work in plain Rust.
//!
//! ```text
//! cargo run --release -- PATH-TO-PROGRAM
//! cargo run --release -- PATH-TO-PROGRAM 'add in' walk 4096
//! cargo run --release -- --csv PATH-TO-PROGRAM
//! cargo run --release -- --compare PATH-TO-PROGRAM
//! ```
//!
//! The program is that of `crates/speed`. Both run as processes of their own, in
//! turns, and std's HashMap with them where it can do the same; every sum that they
//! write is compared. The times are those that a processor spent on a program: what it
//! spends on others does not count, though these may still slow it down, so that only
//! times of one run can be set side by side, and small differences only where nothing
//! else runs. Without more words the whole table is timed, which takes some minutes;
//! a word chooses the rows whose names begin with it, a number those with
//! so many keys. Rows of which a call takes seconds, those of 10,000 scan chains, are
//! timed only where a word chooses them. With `--csv` the times are printed for another
//! program (`tests/speed/picture`), and with `--compare` nothing is timed.
//!
//! Status 0: all agree. 1: a difference. 2: wrong use.

mod failure;
mod keys;
mod map;
mod order;
mod process;
mod report;
mod rows;
mod store;
mod timing;
mod work;

use failure::Failure;
use order::Order;
use process::Program;
use report::Format;
use rows::Choice;
use std::env;
use std::io::{self, Read, Write};
use std::path::Path;
use std::process::ExitCode;
use timing::Race;

const USAGE: &str = "usage: speed [--csv] PATH-TO-PROGRAM [NAME-OF-ROWS | KEYS]..
       speed --compare PATH-TO-PROGRAM";

/// Prints the times for another program.
const CSV: &str = "--csv";

/// Compares the programs, and times nothing.
const COMPARE: &str = "--compare";

/// Make this program answer an order, as the proved one does: by the plain store,
/// or by a HashMap.
const ANSWER: &str = "--answer";
const MAP: &str = "--map";

fn main() -> ExitCode {
    let arguments: Vec<String> = env::args().skip(1).collect();
    let outcome = match &arguments[..] {
        [flag] if flag == ANSWER => answer(|order| Some(work::run(order))),
        [flag] if flag == MAP => answer(map::run),
        [flag, path] if flag == COMPARE => compare(path),
        [flag, path, words @ ..] if flag == CSV => time(path, words, Format::Csv),
        [path, words @ ..] if !path.starts_with("--") => time(path, words, Format::Markdown),
        _ => Err(Failure::Misused),
    };
    match outcome {
        Ok(()) => ExitCode::SUCCESS,
        Err(Failure::Misused) => {
            eprintln!("{USAGE}");
            ExitCode::from(2)
        }
        Err(failure) => {
            eprintln!("speed: {failure}");
            ExitCode::FAILURE
        }
    }
}

fn compare(path: &str) -> Result<(), Failure> {
    with_race(path, |race| race.compare())?;
    println!("speed: the sums agree");
    Ok(())
}

/// The words must choose at least one row.
fn time(path: &str, words: &[String], format: Format) -> Result<(), Failure> {
    let choice = Choice::new(words);
    if !choice.takes_any() {
        return Err(Failure::Misused);
    }
    with_race(path, |race| race.run(&choice, format))
}

fn answer(run: fn(Order) -> Option<u32>) -> Result<(), Failure> {
    let mut order = String::new();
    io::stdin().read_to_string(&mut order)?;
    let answer = match Order::parse(&order).and_then(run) {
        Some(sum) => format!("{sum}\n"),
        None => "bad order\n".to_string(),
    };
    io::stdout().write_all(answer.as_bytes())?;
    Ok(())
}

fn with_race(path: &str, act: impl FnOnce(&Race) -> Result<(), Failure>) -> Result<(), Failure> {
    let this = env::current_exe()?;
    act(&Race {
        proved: Program {
            path: Path::new(path),
            arguments: &[],
        },
        plain: Program {
            path: &this,
            arguments: &[ANSWER],
        },
        map: Program {
            path: &this,
            arguments: &[MAP],
        },
    })
}
