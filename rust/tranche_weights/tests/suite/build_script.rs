//! What the build script says of a target and of a missing archive.

#[allow(dead_code)]
#[path = "../../build.rs"]
mod script;

use script::{missing_archive, wrong_target};
use std::path::Path;

/// x86-64 Linux with pointers of 64 bits is the one target; each other one is named.
#[test]
fn other_targets_are_named() {
    assert_eq!(wrong_target("x86_64", "linux", "64"), None);
    for (architecture, system, width) in [
        ("x86_64", "linux", "32"),
        ("x86", "linux", "32"),
        ("aarch64", "linux", "64"),
        ("x86_64", "windows", "64"),
        ("x86_64", "macos", "64"),
    ] {
        let line = wrong_target(architecture, system, width).expect("the library is not for this target");
        let named = format!("not for {architecture} {system} with pointers of {width} bits");
        assert!(line.ends_with(&named), "{line}");
    }
}

/// A missing archive, also a folder in its place, is said in one line with the command that makes it.
#[test]
fn a_missing_archive_is_said_in_one_line() {
    let here = Path::new(env!("CARGO_MANIFEST_DIR"));
    assert_eq!(missing_archive(&here.join("Cargo.toml")), None);
    for missing in [here.join("libtranche_weights.a"), here.to_path_buf()] {
        let line = missing_archive(&missing).expect("no archive is there");
        assert!(
            line.starts_with(&format!("{} is not there", missing.display())),
            "{line}"
        );
        assert!(line.contains("run `sh tests/archive.sh`"), "{line}");
        assert_eq!(line.lines().count(), 1);
    }
}
