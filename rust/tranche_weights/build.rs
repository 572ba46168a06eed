//! Links the static library `libtranche_weights.a`. Another target is an error. Where the archive is not there, one
//! line says how to make it: a check or the documentation needs no archive, and a build stops when it links.

use std::env;
use std::path::{Path, PathBuf};

/// The environment variable that names the archive's folder. A relative folder counts from the crate's folder.
const FOLDER_VARIABLE: &str = "TRANCHE_WEIGHTS_LIB";

/// The archive's folder where the variable is not set: the repository's own, from the crate's folder.
const OWN_FOLDER: &str = "../../crates/tranche_weights_c/out";

/// Checks target and archive, then tells Cargo what to link and when to look again.
fn main() {
    let folder = archive_folder();
    let archive = folder.join("libtranche_weights.a");
    println!("cargo::rerun-if-changed=build.rs");
    println!("cargo::rerun-if-env-changed={FOLDER_VARIABLE}");
    println!("cargo::rerun-if-changed={}", archive.display());
    let [architecture, system, width] = ["ARCH", "OS", "POINTER_WIDTH"].map(of_target);
    if let Some(line) = wrong_target(&architecture, &system, &width) {
        println!("cargo::error={line}");
        return;
    }
    if let Some(line) = missing_archive(&archive) {
        println!("cargo::warning={line}");
    }
    println!("cargo::rustc-link-search=native={}", folder.display());
    println!("cargo::rustc-link-lib=static=tranche_weights");
}

/// The folder to link from, as a path that does not depend on where the linker runs.
fn archive_folder() -> PathBuf {
    let named = env::var_os(FOLDER_VARIABLE).unwrap_or_else(|| OWN_FOLDER.into());
    let own = PathBuf::from(env::var_os("CARGO_MANIFEST_DIR").unwrap_or_default());
    own.join(named)
}

/// What Cargo says of the target under this name.
fn of_target(name: &str) -> String {
    env::var(format!("CARGO_CFG_TARGET_{name}")).unwrap_or_default()
}

/// That the library is for another target, in one line; nothing where the target is right. Pointers of 32 bits on
/// x86-64 Linux are the target x32.
pub fn wrong_target(architecture: &str, system: &str, width: &str) -> Option<String> {
    let right = (architecture, system, width) == ("x86_64", "linux", "64");
    (!right).then(|| {
        format!(
            "the library is for x86-64 Linux with pointers of 64 bits only, not for {architecture} {system} with \
             pointers of {width} bits"
        )
    })
}

/// How to make the archive, in one line; nothing where it is there.
pub fn missing_archive(archive: &Path) -> Option<String> {
    let place = archive.display();
    (!archive.is_file()).then(|| {
        format!(
            "{place} is not there, and nothing can be linked without it: run `sh tests/archive.sh` in the \
             repository's folder, or name the archive's folder in {FOLDER_VARIABLE}"
        )
    })
}
