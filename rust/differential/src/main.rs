//! The program `differential`: compares the proved library with the independent implementation on seeded random sheets
//! and prints what it met.
//!
//! Flags: `--sheets N`, `--seed S`, `--threads N`, `--only INDEX` (one sheet, printed in full). Status 0: no
//! difference; 1: a difference, or something that must occur did not; 2: bad flags.

#![forbid(unsafe_code)]

use differential::{check, show, Case, Found, Lent, Library, Run, Tally};
use std::process::ExitCode;
use std::time::Instant;

/// What the flags ask for.
struct Flags {
    run: Run,
    only: Option<u64>,
}

/// The flags, each with a number after it.
const FLAGS: [&str; 4] = ["--sheets", "--seed", "--threads", "--only"];

/// Reads the flags; an error says in one line what is wrong.
fn read_flags(mut words: impl Iterator<Item = String>) -> Result<Flags, String> {
    let run = Run {
        seed: 1,
        sheets: 200_000,
        threads: 2,
    };
    let mut flags = Flags { run, only: None };
    while let Some(flag) = words.next() {
        if !FLAGS.contains(&flag.as_str()) {
            return Err(format!("{flag:?} is not a flag; there are {}", FLAGS.join(", ")));
        }
        let value = words.next().ok_or_else(|| format!("{flag}: no number follows"))?;
        let number = value
            .parse()
            .map_err(|_| format!("{flag}: {value:?} is not a whole number below 2^64"))?;
        match flag.as_str() {
            "--sheets" => flags.run.sheets = number,
            "--seed" => flags.run.seed = number,
            "--threads" if (1..=1_024).contains(&number) => flags.run.threads = number,
            "--threads" => return Err(format!("--threads: {number} is not from 1 to 1024")),
            _ => flags.only = Some(number),
        }
    }
    Ok(flags)
}

/// Runs one sheet again and prints it in full.
fn run_one(seed: u64, index: u64) -> ExitCode {
    let case = Case::new(seed, index);
    match check(&Library::PROVED, &case, &mut Lent::default(), &mut Tally::default()) {
        Ok(()) => {
            print!("{}{}", show::case(&case), show::answers(&Library::PROVED, &case));
            println!("differential: seed {seed}, index {index}: 0 differences");
            ExitCode::SUCCESS
        }
        Err(difference) => {
            let found = Found { index, difference };
            print!("{}", show::difference(&Library::PROVED, seed, &case, &found));
            ExitCode::FAILURE
        }
    }
}

/// Runs all sheets, prints the counts and the time taken, and says as the last line how it ended.
fn run_all(run: Run) -> ExitCode {
    let start = Instant::now();
    match run.go(&Library::PROVED) {
        Ok(tally) => {
            print!("{tally}");
            println!(
                "seed {}, {} threads, {:.1} s",
                run.seed,
                run.threads,
                start.elapsed().as_secs_f64()
            );
            let missing = tally.missing();
            if missing.is_empty() {
                println!("differential: {} sheets, 0 differences", run.sheets);
                return ExitCode::SUCCESS;
            }
            println!(
                "differential: {} sheets, 0 differences, but missing: {}",
                run.sheets,
                missing.join("; ")
            );
        }
        Err(found) => {
            println!("seed {}, index {}: {}", run.seed, found.index, found.difference.part);
            let case = Case::new(run.seed, found.index);
            print!("{}", show::difference(&Library::PROVED, run.seed, &case, &found));
        }
    }
    ExitCode::FAILURE
}

/// Reads the flags and does what they ask for.
fn main() -> ExitCode {
    match read_flags(std::env::args().skip(1)) {
        Ok(Flags { run, only: Some(index) }) => run_one(run.seed, index),
        Ok(Flags { run, only: None }) => run_all(run),
        Err(message) => {
            eprintln!("differential: {message}");
            ExitCode::from(2)
        }
    }
}
