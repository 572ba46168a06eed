//! The STC mark (document 02, S-1).

use crate::checked_deal::{both_facts, file_of, tranche, with_rows_and_tranches, RESULTS, TEXT, WORDS};
use crate::places::with_facts;
use tranche_weights::{reply_to_words, report, Reply, SheetBuilder, SheetError};

/// The report on the checked deal with the mark. AAA of class 1 at five years is 10%, BBB below it 255% times 0.85; the
/// third tranche lies within the pool charge.
const STC_TEXT: &str = "\
charge 101000 tranches 3
1 1 200000 1000000 1000 80 7 1000
2 1 50000 200000 21675 217 18 21675
3 2 0 50000 125000 625 50 125000
total 922 75
";

/// The builder makes the checked deal with the mark, and it is weighed as an STC deal.
#[test]
fn the_builder_makes_the_checked_deal_stc() -> Result<(), SheetError> {
    let sheet = with_rows_and_tranches(SheetBuilder::stc(both_facts()), tranche)?;
    assert_eq!(sheet.words(), with_facts(&WORDS, &[1]));
    assert_eq!(report(&sheet.to_file_bytes()), STC_TEXT);
    Ok(())
}

/// A mark of 0 is the same as none: the same reply, the same results, the same report.
#[test]
fn a_mark_of_0_is_as_none() {
    let words = with_facts(&WORDS, &[0]);
    let mut results = [0; RESULTS.len()];
    assert_eq!(reply_to_words(&words, &mut results), Reply::accepting(3, 101_000));
    assert_eq!(results, RESULTS);
    assert_eq!(report(&file_of(&words)), TEXT);
}
