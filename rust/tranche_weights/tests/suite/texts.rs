//! The report's text and the lent room for it (document 01, "Checked deals"; document 02, S-6).

use crate::checked_deal::{file_of, TEXT, WORDS};
use crate::places::{affirmed_on, with_irb, COMPOSITION, DUE_DILIGENCE, STC, UNIT};
use std::error::Error;
use tranche_weights::{
    report, report_into, weigh_file, Date, Deal, Refusal, FILE_BYTES, MOST_ROWS, MOST_TRANCHES, ROW_WORDS, TEXT_ROOM,
    TRANCHE_WORDS,
};

/// The report's text that documents 01 and 02 describe for an answer.
pub fn text_of(outcome: &Result<Deal, Refusal>) -> String {
    let deal = match outcome {
        Ok(deal) => deal,
        Err(refusal) => return format!("refused {} at {}\n", refusal.number(), refusal.place()),
    };
    let mut text = format!("charge {} tranches {}\n", deal.charge, deal.lines.len());
    for (line, number) in deal.lines.iter().zip(1..) {
        let approach = line.approach.word();
        let points = format!("{} {}", line.attachment, line.detachment);
        let amounts = format!("{} {} {}", line.weight, line.risk_weighted_amount, line.capital);
        text += &format!("{number} {approach} {points} {amounts} {}\n", line.least_weight);
    }
    text + &format!("total {} {}\n", deal.total_risk_weighted_amount(), deal.total_capital())
}

/// The report on the checked deal is document 01's text.
#[test]
fn the_report_on_the_checked_deal_is_the_papers() {
    assert_eq!(report(&file_of(&WORDS)), TEXT);
}

/// The report on a refused file names number and place.
#[test]
fn the_report_on_a_refused_file_names_number_and_place() {
    assert_eq!(report(&[]), "refused 1 at 0\n");
    let file = file_of(&WORDS);
    assert_eq!(report(&file[..file.len() - 1]), "refused 15 at 0\n");
}

/// The words of a deal with the most facts, rows and tranches and an IRB section, every amount, maturity and figure at
/// its limit and all of it held.
pub fn largest_sheet() -> Vec<u64> {
    let [reporting_date, maturity] = [2000, 2100].map(|year| Date::new(year, 1, 1).expect("a day of these years"));
    let rows: [[u64; ROW_WORDS]; MOST_ROWS] = [[10_000_000_000, 10_000_000_000, 125_000, 0]; MOST_ROWS];
    let tranche: [u64; TRANCHE_WORDS] = [10_000_000_000_000, 1, maturity.word(), 10_000_000_000_000, 0, 0, 0];
    let tranches = [tranche; MOST_TRANCHES];
    let counts = [rows.len() as u64, tranches.len() as u64];
    let facts = affirmed_on(reporting_date, &[DUE_DILIGENCE, COMPOSITION, STC, UNIT]);
    let pool = [&facts[..], &counts[..1], rows.as_flattened()].concat();
    let sections = [&pool, &counts[1..], tranches.as_flattened()].concat();
    with_irb(&sections, 1, [1_000_000, 1_000_000, 1_000_000, 1, 1_000_000, 125_000])
}

/// Its file.
pub fn largest_file() -> Vec<u8> {
    file_of(&largest_sheet())
}

/// The largest deal's file is the longest that is read.
#[test]
fn the_largest_deal_fills_the_longest_file() {
    assert_eq!(largest_file().len(), FILE_BYTES);
}

/// Lends a room of a longer list and holds all of the list: the text stands at its start where it fits the room, and
/// every other byte, in the room and after it, is as it was. The bytes before differ from all that a text can hold.
fn hold_room(file: &[u8], text: &str, room: usize) {
    let before: Vec<u8> = (0..=127).cycle().map(|byte| 128 + byte).take(room + 8).collect();
    let mut bytes = before.clone();
    let (answer, written) = if text.len() <= room {
        (Ok(text.len()), text.as_bytes())
    } else {
        (Err(text.len()), &[][..])
    };
    let said = report_into(file, &mut bytes[..room]).map_err(|error| error.needed());
    assert_eq!(said, answer, "room {room}");
    assert_eq!(bytes, [written, &before[written.len()..]].concat(), "room {room}");
}

/// The text is written whole where it fits, and else not begun: a refusal, a small deal's lines, the largest deal's.
#[test]
fn a_text_is_written_whole_or_not_begun() {
    let files = [(vec![], 1), (file_of(&WORDS), 5), (largest_file(), MOST_TRANCHES + 2)];
    for (file, lines) in files {
        let text = text_of(&weigh_file(&file));
        assert_eq!(text.lines().count(), lines);
        let rooms = [0, 1, text.len() - 1, text.len(), text.len() + 3, TEXT_ROOM];
        rooms.iter().for_each(|room| hold_room(&file, &text, *room));
    }
}

/// Too little room is an error that a caller can pass on, and it says what is needed.
#[test]
fn too_little_room_says_what_is_needed() {
    let error: Box<dyn Error> = report_into(&[], &mut [0; 14]).unwrap_err().into();
    assert_eq!(error.to_string(), "the report needs room for 15 bytes");
}
