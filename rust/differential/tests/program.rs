//! The program's flags, what it prints, and its status.

use differential::Case;
use std::process::{Command, Output};

/// Runs the program with these flags.
fn run(flags: &[&str]) -> Output {
    let mut program = Command::new(env!("CARGO_BIN_EXE_differential"));
    program.args(flags).output().expect("the program starts")
}

/// The lines that a run printed on standard output.
fn lines(output: &Output) -> Vec<String> {
    let text = String::from_utf8(output.stdout.clone()).expect("the program prints text");
    text.lines().map(str::to_string).collect()
}

/// A run without differences that met all that must occur: status 0, and the last line says so.
#[test]
fn run_without_differences() {
    let output = run(&["--sheets", "100000", "--seed", "5", "--threads", "2"]);
    assert_eq!(
        lines(&output).last().map(String::as_str),
        Some("differential: 100000 sheets, 0 differences")
    );
    assert_eq!(output.status.code(), Some(0));
}

/// A run that is too short to meet all that must occur fails, and names what is missing.
#[test]
fn run_that_misses_something() {
    let output = run(&["--sheets", "1"]);
    let last = lines(&output).pop().unwrap_or_default();
    assert!(
        last.starts_with("differential: 1 sheets, 0 differences, but missing: "),
        "{last}"
    );
    let missing = ["refusal 13;", "refusal 18;", "refusal 19;"];
    assert!(missing.iter().all(|name| last.contains(name)), "{last}");
    assert_eq!(output.status.code(), Some(1));
}

/// One sheet is printed in full: its words can be read back.
#[test]
fn only_one_sheet() {
    let output = run(&["--seed", "9", "--only", "42"]);
    let printed = lines(&output);
    let words = printed
        .iter()
        .find_map(|line| line.strip_prefix("sheet "))
        .expect("the sheet is printed");
    let sheet: Vec<u64> = words
        .split(' ')
        .map(|word| word.parse().expect("a word is a number"))
        .collect();
    assert_eq!(sheet, Case::new(9, 42).sheet);
    assert_eq!(
        printed.last().map(String::as_str),
        Some("differential: seed 9, index 42: 0 differences")
    );
    assert_eq!(output.status.code(), Some(0));
}

/// Bad flags: one line on standard error, nothing on standard output, status 2.
#[test]
fn bad_flags() {
    let bad: [&[&str]; 8] = [
        &["5"],
        &["--sheets"],
        &["--sheets", "many"],
        &["--seed", "-1"],
        &["--seed", "18446744073709551616"],
        &["--threads", "0"],
        &["--only", "1.5"],
        &["--other", "1"],
    ];
    for flags in bad {
        let output = run(flags);
        let message = String::from_utf8_lossy(&output.stderr);
        assert_eq!(
            (output.status.code(), message.lines().count()),
            (Some(2), 1),
            "{flags:?}: {message}"
        );
        assert!(output.stdout.is_empty(), "{flags:?}");
    }
}
