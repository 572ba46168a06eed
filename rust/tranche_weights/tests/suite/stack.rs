//! The stack that a call takes.

use crate::texts::{largest_file, largest_sheet};
use std::thread;
use tranche_weights::{
    reply_to_block, reply_to_conversion, reply_to_file, report_into, OpenedPool, RESULT_WORDS, SHEET_WORDS, TEXT_ROOM,
};

/// A thread with a stack of 64 KB can weigh the largest file, write the report on it, read the sums of a block of its
/// rows and convert it, and open its pool, amend that and weigh it.
#[test]
fn a_stack_of_64_kb_is_enough() {
    let (mut results, mut text) = (vec![0; RESULT_WORDS], vec![0; TEXT_ROOM]);
    let mut output = vec![0; SHEET_WORDS];
    let (file, sheet) = (largest_file(), largest_sheet());
    let calls = move || {
        let weighed = reply_to_file(&file, &mut results);
        let converted = reply_to_conversion(&sheet, &mut output);
        let numbers = [weighed.number, reply_to_block(&sheet, 0).number, converted.number];
        let mut pool = OpenedPool::open(sheet).expect("the largest sheet is opened");
        let amended = pool.reply_to_amendment(&[1, 1, 1, 0, 0]);
        let numbers = [&numbers[..], &[amended.number, pool.reply_into(&mut results).number]].concat();
        (numbers, report_into(&file, &mut text).is_ok())
    };
    let thread = thread::Builder::new().stack_size(64 * 1024).spawn(calls);
    let said = thread.expect("the thread starts").join();
    assert_eq!(said.expect("the calls return"), (vec![0; 5], true));
}
