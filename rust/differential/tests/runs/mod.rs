//! Runs over a library with a fault, and the difference that they find.

use differential::{Asked, Difference, Found, Library, Part, Run, Tally};

/// The seed of the runs.
pub const SEED: u64 = 3;

/// A run of some sheets over this library.
pub fn run(library: Library, threads: u64) -> Result<Tally, Found> {
    let run = Run {
        seed: SEED,
        sheets: 4_000,
        threads,
    };
    run.go(&library)
}

/// The difference that a run first finds in this library. The outcome is the same on any number of threads.
pub fn first_difference(library: Library) -> Option<Difference> {
    let found = run(library, 2).err();
    assert_eq!(run(library, 1).err(), found);
    assert_eq!(run(library, 3).err(), found);
    found.map(|found| found.difference)
}

/// The part in which a run first finds this library different, in the answer to what is meant.
pub fn first_part(library: Library, meant: fn(Asked) -> bool) -> Option<Part> {
    let difference = first_difference(library)?;
    assert!(meant(difference.asked), "{difference}");
    Some(difference.part)
}
