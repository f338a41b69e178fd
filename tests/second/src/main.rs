//! What Longhorbi must answer, worked out a second time, and compared with what it does answer.

mod answer;
mod brute;
mod build;
mod cases;
mod compare;
mod estuary;
mod geometry;
mod plan;
mod random;
mod refusal;
mod sheet;
mod table;
mod tree;
mod trials;
mod walk;

use std::env;
use std::io::{self, Read, Write};
use std::path::PathBuf;
use std::process::ExitCode;
use std::str::FromStr;
use std::time::Duration;

use compare::{Program, Report};
use plan::{LibraryPlan, ProgramPlan, Room};

const USAGE: &str = "\
second [--longhorbi PATH] [--trials PATH] [--runner PATH] [--seed N] [--cases M]
       [--examples DIRECTORY] [--keep DIRECTORY] [--batch N] [--most-bytes N] [--limit SECONDS]
    compares the programs with M random cases each, besides the lists that every run tries
second answer < sheet
    prints what the program must print for the sheet
second trials < words
    plays the program trials
second estuary SEED PLACES WANT BUDGET
    prints a made-up sheet; WANT is the word of 16 hexadecimal digits";

fn main() -> ExitCode {
    let words: Vec<String> = env::args().skip(1).collect();
    let done = match words.first().map(String::as_str) {
        Some("answer") => print(answer::answer(&input()).as_bytes()),
        Some("trials") => print(trials::play(&input()).as_bytes()),
        Some("estuary") => estuary(&words[1..]),
        _ => compare(&words),
    };
    done.unwrap_or_else(|fault| {
        eprintln!("{fault}\n{USAGE}");
        ExitCode::from(2)
    })
}

fn input() -> Vec<u8> {
    let mut bytes = Vec::new();
    io::stdin().read_to_end(&mut bytes).expect("standard input can be read");
    bytes
}

fn print(bytes: &[u8]) -> Result<ExitCode, String> {
    io::stdout().write_all(bytes).map_err(|error| error.to_string())?;
    Ok(ExitCode::SUCCESS)
}

fn estuary(words: &[String]) -> Result<ExitCode, String> {
    let [seed, places, want, budget] = words else {
        return Err("estuary takes four values".to_string());
    };
    let want = u64::from_str_radix(want, 16).map_err(|error| error.to_string())?;
    print(&estuary::sheet(number(seed)?, number(places)?, want, number(budget)?).text())
}

fn number<T: FromStr>(word: &str) -> Result<T, String> {
    word.parse().map_err(|_| format!("{word} is not a number in range"))
}

struct Options {
    longhorbi: Option<String>,
    trials: Option<String>,
    runner: Option<String>,
    examples: Option<PathBuf>,
    keep: Option<PathBuf>,
    seed: u64,
    cases: u64,
    room: Room,
    limit: u64,
}

fn options(words: &[String]) -> Result<Options, String> {
    let mut options = Options {
        longhorbi: None,
        trials: None,
        runner: None,
        examples: None,
        keep: None,
        seed: 1,
        cases: 1000,
        room: Room { cases: 500, bytes: 4_000_000 },
        limit: 120,
    };
    for pair in words.chunks(2) {
        let [name, value] = pair else {
            return Err(format!("{} takes a value", pair[0]));
        };
        match name.as_str() {
            "--longhorbi" => options.longhorbi = Some(value.clone()),
            "--trials" => options.trials = Some(value.clone()),
            "--runner" => options.runner = Some(value.clone()),
            "--examples" => options.examples = Some(value.into()),
            "--keep" => options.keep = Some(value.into()),
            "--seed" => options.seed = number(value)?,
            "--cases" => options.cases = number(value)?,
            "--batch" => options.room.cases = number(value)?,
            "--most-bytes" => options.room.bytes = number(value)?,
            "--limit" => options.limit = number(value)?,
            _ => return Err(format!("{name} is not known")),
        }
    }
    Ok(options)
}

fn compare(words: &[String]) -> Result<ExitCode, String> {
    let options = options(words)?;
    if options.longhorbi.is_none() && options.trials.is_none() {
        return Err("nothing to compare with".to_string());
    }
    let mut report = Report::new(options.keep.clone());
    let program = |path: &String| Program {
        runner: options.runner.clone(),
        path: path.clone(),
        limit: Duration::from_secs(options.limit),
    };
    if let Some(path) = &options.longhorbi {
        let program = program(path);
        let mut plan = ProgramPlan::new(&program, &mut report);
        if let Some(directory) = &options.examples {
            plan.examples(directory).map_err(|error| format!("{}: {error}", directory.display()))?;
        }
        plan.run(options.seed, options.cases);
    }
    if let Some(path) = &options.trials {
        LibraryPlan::new(&program(path), &mut report, options.room).run(options.seed, options.cases);
    }
    Ok(if report.close() { ExitCode::SUCCESS } else { ExitCode::FAILURE })
}
