//! The proved library agrees with the independent implementation, on fewer sheets than the program's run and from
//! another seed.

use differential::{Library, Run};

/// No difference, and all that must occur did.
#[test]
fn proved_library_agrees() {
    let run = Run {
        seed: 20_000,
        sheets: 100_000,
        threads: 2,
    };
    let tally = run.go(&Library::PROVED).unwrap_or_else(|found| panic!("{found:?}"));
    assert_eq!(tally.kinds.iter().sum::<u64>(), run.sheets);
    assert_eq!(tally.missing(), Vec::<String>::new());
}

/// The counts do not depend on the number of threads.
#[test]
fn threads_do_not_matter() {
    let counts = |threads| {
        let run = Run {
            seed: 7,
            sheets: 1_000,
            threads,
        };
        run.go(&Library::PROVED)
    };
    assert_eq!(counts(1), counts(2));
    assert_eq!(counts(1), counts(3));
}
