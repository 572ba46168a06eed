//! Hands the compiler's version to the program, which prints it above its figures.

use std::env;
use std::process::Command;

/// Asks the compiler that Cargo names for its version.
fn main() {
    println!("cargo:rerun-if-changed=build.rs");
    let compiler = env::var("RUSTC").expect("cargo names the compiler");
    let answer = Command::new(compiler)
        .arg("--version")
        .output()
        .expect("the compiler runs");
    println!(
        "cargo:rustc-env=COMPILER={}",
        String::from_utf8_lossy(&answer.stdout).trim()
    );
}
