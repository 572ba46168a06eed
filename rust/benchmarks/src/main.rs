//! Times of the proved calculator beside a plain double-precision one and the exact independent one.
//!
//! `cargo run --release -p benchmarks` prints, as text that can stand in a README: the time per sheet of the three on
//! some sheets, with ratios; sheets per second on one core and on all; the time to read a block's sums and to convert a
//! sheet to the other unit of risk weights; how the time grows with rows and tranches; and the time of an amendment, with
//! the charge or all lines after it, of the proved one and the plain one, and against that of a fresh load, with ratios.
//! Before a sheet is timed, its answers are compared. `--quick` takes fewer rounds and shorter runs.

#![forbid(unsafe_code)]

mod agreement;
mod amendments;
mod deals;
mod growth;
mod machine;
mod table;
mod timing;
mod versions;

use std::env;
use std::process::ExitCode;
use table::{duration, table};
use timing::{Plan, Work};

/// Reads the flag and runs. Status 1: an answer of the proved version is not admitted. Status 2: another flag.
fn main() -> ExitCode {
    let arguments: Vec<String> = env::args().skip(1).collect();
    let plan = match arguments.iter().map(String::as_str).collect::<Vec<_>>()[..] {
        [] => timing::FULL,
        ["--quick"] => timing::QUICK,
        _ => {
            eprintln!("benchmarks: the only flag is --quick");
            return ExitCode::from(2);
        }
    };
    match run(&plan) {
        Ok(()) => ExitCode::SUCCESS,
        Err(difference) => {
            eprintln!("benchmarks: {difference}");
            ExitCode::FAILURE
        }
    }
}

/// Prints all parts in order. An answer of the proved version that the papers do not admit ends the run.
fn run(plan: &Plan) -> Result<(), String> {
    println!("{}", machine::description());
    compare(plan)?;
    throughput(plan);
    block_sums(plan)?;
    conversions(plan)?;
    for series in [growth::by_rows(), growth::by_tranches()] {
        println!("\n{}", series.measured(plan)?);
    }
    println!("\n{}", amendments::measured(plan)?);
    Ok(())
}

/// The time per sheet of the three versions, and the ratios of their medians. All sheets and versions are timed in turn.
fn compare(plan: &Plan) -> Result<(), String> {
    let deals = deals::compared();
    let mut remarks = Vec::new();
    for (name, sheet) in &deals {
        remarks.extend(agreement::check(name, sheet)?);
    }
    let works = deals
        .iter()
        .flat_map(|(_, sheet)| versions::ALL.map(|version| Work { version, sheet }));
    let times = timing::rounds(&works.collect::<Vec<_>>(), plan);
    let names = deals.iter().map(|(name, _)| name.to_string());
    let lines: Vec<_> = names
        .zip(times.as_chunks().0)
        .map(|(name, times)| compared(name, times))
        .collect();
    println!(
        "\nTime per sheet: median of {} rounds; sheets and versions timed in turn.",
        plan.rounds
    );
    println!("Ratios: of the medians; in brackets the quartiles of the ratio round by round.\n");
    let head = ["sheet", "proved", "plain", "exact", "proved/plain", "proved/exact"];
    print!("{}", table(&head, &lines));
    println!("\nThe proved answers are all among those that the papers admit.");
    if remarks.is_empty() {
        println!("So are the plain ones, on these sheets.");
    }
    remarks.iter().for_each(|remark| println!("{remark}"));
    Ok(())
}

/// A sheet's line of the table, from the times of its three versions.
fn compared(name: String, times: &[Vec<f64>; 3]) -> Vec<String> {
    let [proved, plain, exact] = times;
    let medians = [proved, plain, exact].map(|times| duration(timing::median(times)));
    let ratios = [plain, exact].map(|other| timing::ratio(proved, other).to_string());
    [&[name][..], &medians, &ratios].concat()
}

/// Sheets per second of the proved version, on one core and on all of them.
fn throughput(plan: &Plan) {
    let cores = machine::cores();
    println!(
        "\nProved sheets per second: median of {} runs. Other work on the machine lowers them.\n",
        plan.runs
    );
    let line = |(name, sheet): (&str, Vec<u64>)| {
        let version = versions::proved;
        let [one, all] = timing::rates(&Work { version, sheet: &sheet }, [1, cores], plan);
        let ratio = format!("{:.2}", all / one);
        vec![name.to_string(), table::grouped(one), table::grouped(all), ratio]
    };
    let lines = [("small", deals::small()), ("large", deals::large())].map(line);
    let all = format!("{cores} cores");
    print!("{}", table(&["sheet", "one core", &all, "all/one"], &lines));
}

/// The time to read the sums of a block of the large deal, by the proved version.
fn block_sums(plan: &Plan) -> Result<(), String> {
    let sheet = deals::large();
    agreement::check_blocks("large", &sheet)?;
    let version = versions::proved_block_sums;
    let times = timing::rounds(&[Work { version, sheet: &sheet }], plan);
    println!(
        "\nSums of one block of the large sheet (proved): {}; median of {} rounds.",
        duration(timing::median(&times[0])),
        plan.rounds
    );
    Ok(())
}

/// The time to convert the small and the large deal to the other unit of risk weights, by the proved version.
fn conversions(plan: &Plan) -> Result<(), String> {
    let deals = [("small", deals::small()), ("large", deals::large())];
    for (name, sheet) in &deals {
        agreement::check_conversion(name, sheet)?;
    }
    let version = versions::proved_conversion;
    let works = deals.each_ref().map(|(_, sheet)| Work { version, sheet });
    let times = timing::rounds(&works, plan);
    let [small, large] = [0, 1].map(|deal| duration(timing::median(&times[deal])));
    println!(
        "Conversion of the small sheet to hundredths (proved): {small}, of the large one {large}; median of {} rounds.",
        plan.rounds
    );
    Ok(())
}
