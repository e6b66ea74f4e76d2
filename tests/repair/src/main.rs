//! The run: the program and the rules answer the same memories, and what was met is shown.

use std::env;
use std::path::PathBuf;
use std::process::ExitCode;

use repair::compare::{Cases, Tally};
use repair::run::Program;
use repair::{DEFAULT_MEMORIES, DEFAULT_SEED};

const USAGE: &str = "\
usage: repair [--seed N] [--memories N] PROGRAM
  --seed N      the seed of the random numbers
  --memories N  so many memories are made
  PROGRAM       repair_main, as it was built";

/// A line of the list of kinds has so many.
const KINDS_IN_A_LINE: usize = 5;

struct Options {
    seed: u64,
    memories: u64,
    program: PathBuf,
}

fn options() -> Result<Options, &'static str> {
    let mut seed = DEFAULT_SEED;
    let mut memories = DEFAULT_MEMORIES;
    let mut program = None;
    let mut arguments = env::args().skip(1);
    while let Some(argument) = arguments.next() {
        let mut number = || {
            arguments
                .next()
                .and_then(|text| text.parse().ok())
                .ok_or(USAGE)
        };
        match argument.as_str() {
            "--seed" => seed = number()?,
            "--memories" => memories = number()?,
            _ if argument.starts_with('-') || program.is_some() => return Err(USAGE),
            _ => program = Some(PathBuf::from(argument)),
        }
    }
    let program = program.ok_or(USAGE)?;
    Ok(Options {
        seed,
        memories,
        program,
    })
}

fn main() -> ExitCode {
    let options = match options() {
        Ok(options) => options,
        Err(usage) => {
            eprintln!("{usage}");
            return ExitCode::from(2);
        }
    };
    let cases = Cases::new(options.seed, options.memories);
    match cases.compare(&Program(options.program)) {
        Ok(tally) => {
            show(options.seed, &tally);
            ExitCode::SUCCESS
        }
        Err(failure) => {
            println!("repair: with seed {}, {failure}", options.seed);
            ExitCode::FAILURE
        }
    }
}

fn show(seed: u64, tally: &Tally) {
    let kinds: Vec<String> = tally
        .kinds
        .iter()
        .map(|(name, count)| format!("{count} {name}"))
        .collect();
    for line in kinds.chunks(KINDS_IN_A_LINE) {
        println!("  {}", line.join(", "));
    }
    println!(
        "repair: seed {seed}, {} memories, {} undamaged, {} with an unsound state: every number equal; {} repaired and given again: undamaged, and nothing changes",
        tally.memories, tally.undamaged, tally.refused, tally.again
    );
}
