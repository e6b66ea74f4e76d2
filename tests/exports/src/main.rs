//! The run: the model and the archive answer the same random calls, and what was met is shown.

use std::env;
use std::process::ExitCode;

use exports::call::{Archive, Model, Side, EXPORTS};
use exports::cases::{self, Done};
use exports::compare::{Comparison, Tally, NUMBERS};
use exports::damage::{DAMAGES, DISTURBANCES};
use exports::events::EVENTS;
use exports::faults::{Faulty, FAULTS};
use exports::{DEFAULT_CALLS, DEFAULT_SEED};

const USAGE: &str = "\
usage: exports [--seed N] [--calls N] [--counts] [--fault NAME]
  --seed N      the seed of the random numbers
  --calls N     at least so many calls are made
  --counts      shows how often each thing was met
  --fault NAME  gives the model a fault, which the run should notice; a wrong NAME lists the faults";

/// A run of the default length meets each thing at least so often.
const LEAST: u64 = 10;

struct Options {
    seed: u64,
    calls: u64,
    counts: bool,
    model: Box<dyn Side>,
}

fn options() -> Result<Options, String> {
    let mut options = Options {
        seed: DEFAULT_SEED,
        calls: DEFAULT_CALLS,
        counts: false,
        model: Box::new(Model),
    };
    let mut arguments = env::args().skip(1);
    while let Some(name) = arguments.next() {
        let mut value = || arguments.next().ok_or(USAGE);
        match name.as_str() {
            "--seed" => options.seed = value()?.parse().map_err(|_| USAGE)?,
            "--calls" => options.calls = value()?.parse().map_err(|_| USAGE)?,
            "--counts" => options.counts = true,
            "--fault" => options.model = Box::new(faulty(&value()?)?),
            _ => return Err(USAGE.to_string()),
        }
    }
    Ok(options)
}

fn faulty(wanted: &str) -> Result<Faulty, String> {
    let names = FAULTS.map(|fault| format!("{fault:?}"));
    let found = names.iter().position(|name| name == wanted);
    let found = found.ok_or_else(|| format!("the faults are\n  {}", names.join("\n  ")))?;
    Ok(Faulty(FAULTS[found]))
}

fn main() -> ExitCode {
    let options = match options() {
        Ok(options) => options,
        Err(message) => {
            eprintln!("{message}");
            return ExitCode::from(2);
        }
    };
    println!("exports: seed {}, {} calls", options.seed, options.calls);
    let mut comparison = Comparison::new(options.model.as_ref(), &Archive);
    let done = match cases::run(options.seed, options.calls, &mut comparison) {
        Ok(done) => done,
        Err(difference) => {
            println!("with seed {}, {difference}", options.seed);
            return ExitCode::FAILURE;
        }
    };
    let tally = comparison.tally();
    show_answers(tally);
    let met = met(tally, &done);
    if options.counts {
        for (what, times) in &met {
            println!("{times:>8}  {what}");
        }
    }
    let missing: Vec<_> = met.iter().filter(|(_, times)| *times < LEAST).collect();
    for (what, times) in &missing {
        println!("exports: met only {times} times: {what}");
    }
    println!(
        "exports: {} calls compared, {} in the largest buffers: every byte of every slice equal",
        comparison.calls(),
        done.in_largest_buffers
    );
    // A run that is told to be shorter cannot be asked to meet everything.
    if missing.is_empty() || options.calls < DEFAULT_CALLS {
        ExitCode::SUCCESS
    } else {
        ExitCode::FAILURE
    }
}

/// How often each export answered each number that it can answer.
fn show_answers(tally: &Tally) {
    let is_answered = |number: &u32| {
        EXPORTS
            .iter()
            .any(|(_, _, possible)| possible.contains(number))
    };
    let numbers: Vec<u32> = (0..NUMBERS as u32).filter(is_answered).collect();
    let heads: String = numbers
        .iter()
        .map(|number| format!("{number:>7}"))
        .collect();
    println!("{:<16}{heads}", "answers");
    for (export, name, possible) in EXPORTS {
        let cell = |number: &u32| match possible.contains(number) {
            true => format!("{:>7}", tally.answered(export, *number)),
            false => format!("{:>7}", "-"),
        };
        let row: String = numbers.iter().map(cell).collect();
        println!("{name:<16}{row}");
    }
}

/// All that a run should meet, and how often it did.
fn met(tally: &Tally, done: &Done) -> Vec<(String, u64)> {
    let mut all = Vec::new();
    for (export, name, possible) in EXPORTS {
        for &number in possible {
            all.push((
                format!("{name} answered {number}"),
                tally.answered(export, number),
            ));
        }
    }
    for event in EVENTS {
        all.push((format!("event: {event:?}"), tally.events(event)));
    }
    for (kind, _) in DAMAGES {
        all.push((format!("damage: {kind:?}"), done.damages[kind as usize]));
    }
    for kind in DISTURBANCES {
        let times = done.disturbances[kind as usize];
        all.push((format!("bytes: {kind:?}"), times));
    }
    let largest = "calls in the largest buffers".to_string();
    all.push((largest, done.in_largest_buffers));
    all
}
