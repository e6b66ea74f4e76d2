//! A twin of the program, written from the specification alone.
//!
//! It runs the program under test on fixed and on random scripts, each script
//! in a process of its own, and compares every byte of the output with the
//! answer of its own model. The model in turn is watched from outside by the
//! walk's promises, the plain map, the bound on a move's steps and the rule by
//! which a table grows.
//!
//! With `--fingerprint` it compares a program that answers fingerprints with its
//! own, on arrays at the ends of the numbers' range and on random ones.
//!
//! ```text
//! cargo run --release -- [--fingerprint] PATH-TO-PROGRAM [SEED] [COUNT]
//! ```
//!
//! Status 0: all agree. 1: a difference or a broken promise. 2: wrong use.

mod arrays;
mod cases;
mod cursor;
mod fingerprint;
mod line;
mod program;
mod random;
mod run;
mod store;
mod walk;

use cases::{Answer, Case};
use run::Failure;
use std::env;
use std::fs;
use std::io::{self, BufWriter, Read, Write};
use std::path::PathBuf;
use std::process::ExitCode;
use walk::Tally;

const USAGE: &str = "usage: twin [--fingerprint] PATH-TO-PROGRAM [SEED] [COUNT]";
const DEFAULT_SEED: u64 = 1;
const DEFAULT_COUNT: u64 = 3000;

/// Scripts up to this length are printed when they fail.
const PRINTED: usize = 4000;

fn main() -> ExitCode {
    let arguments: Vec<String> = env::args().skip(1).collect();
    let outcome = match &arguments[..] {
        [flag, rest @ ..] if flag == "--fingerprint" => {
            serve(rest, arrays::answer, Plan::run_arrays)
        }
        rest => serve(rest, answer, Plan::run_scripts),
    };
    match outcome {
        Ok(()) => ExitCode::SUCCESS,
        Err((status, message)) => {
            eprintln!("twin: {message}");
            ExitCode::from(status)
        }
    }
}

/// Answers as a program under test would, or runs one.
fn serve(
    arguments: &[String],
    answer: fn() -> io::Result<()>,
    run: fn(&Plan) -> Result<(), String>,
) -> Result<(), (u8, String)> {
    match arguments {
        // Left out of the usage: it makes a program under test of the twin.
        [flag] if flag == "--answer" => answer().map_err(|error| (2, error.to_string())),
        [path, numbers @ ..] if numbers.len() <= 2 => Plan::new(path, numbers)
            .map_err(|error| (2, error))
            .and_then(|plan| run(&plan).map_err(|difference| (1, difference))),
        _ => Err((2, USAGE.to_string())),
    }
}

/// Answers the script on standard input as the program does.
fn answer() -> io::Result<()> {
    let mut script = Vec::new();
    let one_too_many = program::MAX_SCRIPT as u64 + 1;
    io::stdin().take(one_too_many).read_to_end(&mut script)?;
    let mut output = BufWriter::new(io::stdout().lock());
    let mut line = Vec::new();
    for exchange in program::replies(&script) {
        line.clear();
        program::write_reply(&exchange.reply, &mut line);
        output.write_all(&line)?;
    }
    output.flush()
}

/// What to run, from the command line.
struct Plan {
    program: PathBuf,
    seed: u64,
    count: u64,
}

impl Plan {
    fn new(path: &str, numbers: &[String]) -> Result<Self, String> {
        let number = |index: usize, default: u64| match numbers.get(index) {
            Some(text) => text.parse().map_err(|_| USAGE.to_string()),
            None => Ok(default),
        };
        // A bare name means a file here, not one of the search path.
        let program = fs::canonicalize(path).map_err(|error| format!("{path}: {error}"))?;
        Ok(Plan {
            program,
            seed: number(0, DEFAULT_SEED)?,
            count: number(1, DEFAULT_COUNT)?,
        })
    }

    fn run_arrays(&self) -> Result<(), String> {
        println!("twin: seed {}, {} random arrays", self.seed, self.count);
        let arrays = arrays::all(self.seed, self.count);
        arrays::check(&self.program, &arrays)
            .map_err(|failure| format!("seed {}: {failure}", self.seed))?;
        println!(
            "twin: {} fingerprints agree, seed {}",
            arrays.len(),
            self.seed
        );
        Ok(())
    }

    fn run_scripts(&self) -> Result<(), String> {
        println!("twin: seed {}, {} random scripts", self.seed, self.count);
        let mut scripts = 0;
        let mut sum = Tally::default();
        let random = (0..self.count).map(|number| {
            let script = random::script(random::script_seed(self.seed, number));
            cases::modelled(&format!("random script {number}"), script)
        });
        for case in cases::all().into_iter().chain(random) {
            sum += self
                .check(&case)
                .map_err(|failure| self.report(&case, failure))?;
            scripts += 1;
        }
        println!(
            "twin: {} walks kept their promises, {} of them through a resize, {} as a table shrank",
            sum.ended, sum.resized, sum.shrunk
        );
        println!(
            "twin: {} keys came more than once as a table shrank, {} were added ahead of a walk",
            sum.repeated, sum.late
        );
        println!(
            "twin: {} moves ended within their steps, {} steps only passed empty buckets",
            sum.moves, sum.passing
        );
        println!(
            "twin: {} steps were taken inside an add or a delete, {} of them ended a move",
            sum.inside, sum.ended_inside
        );
        println!(
            "twin: {} tables grew by themselves, {} of them in an add whose step ended a move; {} adds found no room for it",
            sum.grown, sum.grown_at_once, sum.cramped
        );
        println!("twin: {scripts} scripts agree, seed {}", self.seed);
        Ok(())
    }

    fn check(&self, case: &Case) -> Result<Tally, Failure> {
        // The twin may err as well: an answer that it did not make binds it.
        let known = match &case.answer {
            Answer::ByHand(answer) => Some(("written by hand", answer)),
            Answer::Computed(answer) => Some(("computed apart from it", answer)),
            Answer::Modelled => None,
        };
        if let Some((origin, answer)) = known {
            if program::answer(&case.script) != *answer {
                let text = format!("the model does not give the answer {origin}");
                return Err(Failure::Broken(text));
            }
        }
        run::check(&self.program, &case.script)
    }

    /// All that is needed to look into a failure and to run it again.
    fn report(&self, case: &Case, failure: Failure) -> String {
        let Case { name, script, .. } = case;
        let mut report = format!("seed {}, {name}: {failure}\n", self.seed);
        match keep(script) {
            Ok(path) => report += &format!("  script:   {}", path.display()),
            Err(error) => report += &format!("  the script could not be kept: {error}"),
        }
        if script.len() <= PRINTED {
            for line in program::lines(script) {
                report += &format!("\n    {}", line.escape_ascii());
            }
        }
        report
    }
}

/// Writes a failed script to a file, byte for byte.
fn keep(script: &[u8]) -> io::Result<PathBuf> {
    let path = env::temp_dir().join(format!("twin-{}.script", std::process::id()));
    fs::write(&path, script)?;
    Ok(path)
}
