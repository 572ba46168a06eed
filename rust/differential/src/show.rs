//! A sheet and what each side says to it, in full, as text.

use crate::amended::{self, Stage};
use crate::answer::{sum_words, MOST_RESULTS, SUM_WORDS};
use crate::blocks;
use crate::case::Case;
use crate::conversion;
use crate::difference::Part;
use crate::kind::{Amendment, Amendments, File, Relation};
use crate::lent::Lent;
use crate::library::{AmendmentReply, BlockReply, ConversionReply, Library, OpeningReply, Reply};
use crate::observed::Observed;
use crate::run::Found;
use crate::words::due;
use independent::{Deal, OpenedPool, Refusal};

/// Words as decimal numbers with a space between, as document 01 writes a sheet.
fn words(list: &[u64]) -> String {
    list.iter().map(u64::to_string).collect::<Vec<_>>().join(" ")
}

/// The sheet, its room and output, and the file, second sheet and amendments where there are some.
pub fn case(case: &Case) -> String {
    let mut text = format!(
        "kind {}, room {}, output {}\nsheet {}\n",
        case.kind.name(),
        case.room,
        case.output,
        words(&case.sheet)
    );
    if case.file_kind != File::Unused {
        let bytes: String = case.file.iter().map(|byte| format!("{byte:02x}")).collect();
        text += &format!("file of {} bytes {bytes}\n", case.file.len());
    }
    if case.relation != Relation::Unused {
        let name = Relation::TABLE[case.relation as usize].1;
        text += &format!("second sheet ({name}) {}\n", words(&case.second));
    }
    for (number, (kind, amendment)) in (1..).zip(case.amendment_kinds.iter().zip(&case.amendments)) {
        let name = Amendment::TABLE[*kind as usize].1;
        text += &format!("amendment {number} ({name}) {}\n", words(amendment));
    }
    text
}

/// The four numbers of a reply, as a line.
fn numbers(reply: &Reply) -> String {
    let Reply {
        number,
        place,
        count,
        charge,
        ..
    } = reply;
    format!("number {number} place {place} count {count} charge {charge}\n")
}

/// What is admitted, with a word between.
fn one_of(admitted: impl Iterator<Item = String>) -> String {
    admitted.collect::<Vec<_>>().join(" or ")
}

/// What the independent implementation answers: the four numbers, and the lines with their admitted amounts and least
/// weights.
fn independent_answer(answer: &Result<Deal, Refusal>) -> String {
    let mut text = numbers(&due(answer));
    for line in answer.iter().flat_map(|deal| &deal.lines) {
        let amounts = line.amounts.iter();
        let amounts = one_of(amounts.map(|a| format!("{} {} {}", a.weight, a.risk_weighted, a.capital)));
        let least_weights = one_of(line.least_weights.iter().map(u64::to_string));
        text += &format!(
            "  {} {} {} {amounts}, least weight {least_weights}\n",
            line.approach, line.attachment, line.detachment
        );
    }
    text
}

/// What the proved library answers in a weighing: the four numbers, and the lines that it wrote.
fn proved_answer(room: usize, weigh: impl FnOnce(&mut [u64]) -> Reply) -> String {
    let mut lent = Lent::default();
    let reply = lent.lend(room, weigh);
    weighed(&reply, &lent)
}

/// The four numbers of a reply, and the lines that it says were written to the lent results.
fn weighed(reply: &Reply, lent: &Lent) -> String {
    let lines = lent.lines_of(reply).iter().map(|line| format!("  {}\n", words(line)));
    numbers(reply) + &lines.collect::<String>()
}

/// Number, place and sums of a reply, as a line.
fn sums(reply: &BlockReply) -> String {
    let BlockReply {
        number, place, sums, ..
    } = reply;
    format!("number {number} place {place} sums {}\n", words(sums))
}

/// What both sides answer to the blocks that are asked for.
fn block_answers(library: &Library, case: &Case) -> String {
    let read = independent::sheet::read(&case.sheet);
    let pool = blocks::pool_of(&read);
    let both = blocks::numbers(pool, case.blocks).into_iter().map(|block| {
        let independent = sums(&blocks::due(pool, block));
        let proved = sums(&(library.block_sums)(&case.sheet, block));
        format!("independent, block {block}: {independent}proved, block {block}: {proved}")
    });
    both.collect()
}

/// Number, place and count of a reply, and the words that were written, as a line.
fn converted(reply: &ConversionReply, written: &[u64]) -> String {
    let ConversionReply {
        number, place, count, ..
    } = reply;
    let head = format!("number {number} place {place} count {count} words ");
    head + &words(written) + "\n"
}

/// What both sides answer to the conversions that are asked for. Of the proved library no more words are shown than it
/// says it wrote, and none on a refusal.
fn conversion_answers(library: &Library, case: &Case) -> String {
    let both = conversion::askings(case).into_iter().map(|asking| {
        let room = asking.room;
        let independent = converted(&asking.due(), asking.answer.as_deref().unwrap_or_default());
        let mut lent = Lent::default();
        let reply = lent.lend(room, |output| (library.convert)(&case.sheet, output));
        let written = if reply.number == 0 { reply.count } else { 0 };
        let proved = converted(&reply, lent.first(written));
        format!("independent, conversion to {room} words: {independent}proved, conversion to {room} words: {proved}")
    });
    both.collect()
}

/// What both sides answer to the opening of the sheet's pool.
fn opening_answers(library: &Library, case: &Case) -> String {
    let independent = match OpenedPool::open(&case.sheet) {
        Ok(pool) => format!("number 0 place 0 sums {}\n", words(&sum_words(&pool.sums()))),
        Err(Refusal { number, place }) => format!("number {number} place {place}\n"),
    };
    let mut sums = [0; SUM_WORDS];
    let OpeningReply { number, place, .. } = (library.open)(&case.sheet, &mut sums);
    let proved = format!("number {number} place {place} sums {}\n", words(&sums));
    format!("independent, opening: {independent}proved, opening: {proved}")
}

/// The words of a sheet that are not those of the sheet as given, each after its place.
fn changed_words(given: &[u64], sheet: &[u64]) -> String {
    let places = (0..).zip(given.iter().zip(sheet));
    let changed = places.filter(|(_, (old, new))| old != new);
    changed
        .map(|(place, (_, new)): (u64, _)| format!(" {place}: {new}"))
        .collect()
}

/// What the independent side has for an opened pool: number and place of the reply, sums and charge, the words of the
/// sheet that are not those of the sheet as given, and the answers.
fn independent_stage(case: &Case, due: &Stage) -> String {
    let [number, place] = due.refused.map_or([0; 2], |refused| [refused.number, refused.place]);
    let sums = words(&sum_words(&due.sums));
    let changed = changed_words(&case.sheet, due.pool.words());
    let answers: String = due.answers.iter().map(independent_answer).collect();
    let charge = due.charge;
    format!("number {number} place {place} sums {sums} charge {charge} changed words{changed}\n{answers}")
}

/// The same of the proved library.
fn proved_stage(case: &Case, said: &Observed) -> String {
    let AmendmentReply { number, place, .. } = said.reply;
    let sums = words(&said.sums);
    let changed = changed_words(&case.sheet, &said.words);
    let answers: String = said.weighed.iter().map(|(reply, lent)| weighed(reply, lent)).collect();
    let charge = said.charge;
    format!("number {number} place {place} sums {sums} charge {charge} changed words{changed}\n{answers}")
}

/// What both sides say of the opened pool after its opening and after each amendment.
fn amended_answers(library: &Library, case: &Case) -> String {
    let stages = amended::stages(case);
    let observed = (library.amend)(&case.sheet, &case.amendments, case.amended_rooms);
    let independent = stages.iter().map(|due| ("independent", independent_stage(case, due)));
    let proved = observed.iter().map(|said| ("proved", proved_stage(case, said)));
    let numbered = independent.enumerate().chain(proved.enumerate());
    let text = numbered.map(|(steps, (side, text))| format!("{side}, after {steps} amendments: {text}"));
    text.collect()
}

/// What both sides answer to the sheet, to its file where there is one, to blocks of its rows, to its conversion, to its
/// opening, and to its amendments where there are some.
pub fn answers(library: &Library, case: &Case) -> String {
    let independent = independent_answer(&independent::weigh(&case.sheet, case.room as u64));
    let proved = proved_answer(case.room, |results| (library.weigh)(&case.sheet, results));
    let text = format!("independent: {independent}proved: {proved}");
    let of_file = match case.file_kind {
        File::Unused => String::new(),
        _ => file_answers(library, case),
    };
    let amended = match case.list {
        Amendments::Unused => String::new(),
        _ => amended_answers(library, case),
    };
    let opened = opening_answers(library, case) + &amended;
    text + &of_file + &block_answers(library, case) + &conversion_answers(library, case) + &opened
}

/// What both sides answer to the sheet's file, with the room of the sheet and as a report.
fn file_answers(library: &Library, case: &Case) -> String {
    let independent = |room| independent_answer(&independent::weigh_file(&case.file, room as u64));
    let proved = proved_answer(case.room, |results| (library.weigh_file)(&case.file, results));
    let answers = format!("independent, file: {}proved, file: {proved}", independent(case.room));
    let all = independent(MOST_RESULTS);
    answers
        + &format!(
            "independent, report: {all}proved, report: {}",
            (library.report)(&case.file)
        )
}

/// A difference with its sheet and both sides' answers; its last line names seed, index and part. After a panic no side
/// is asked again.
pub fn difference(library: &Library, seed: u64, shown: &Case, found: &Found) -> String {
    let Found { index, difference } = found;
    let answers = match difference.part {
        Part::Panic => String::new(),
        _ => answers(library, shown),
    };
    let last = format!("differential: seed {seed}, index {index}: difference in {difference}\n");
    case(shown) + &answers + &last
}
