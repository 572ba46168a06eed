//! The comparison finds a wrong answer in each part of an opened pool that it compares (S-10): each test puts a function
//! with one fault in place of the proved one.

mod runs;

use differential::answer::{refusal, LineWord, SumWord, LINE_WORDS, MOST_RESULTS, SUM_WORDS};
use differential::sheet::{
    status, unit, Fact, Layout, RowWord, BLOCK_ROWS, ONE_PERCENT, POOL_AMOUNT, RISK_WEIGHT, RISK_WEIGHT_PERCENT,
};
use differential::{
    show, Amend, AmendmentReply, Asked, Case, IsOpened, Lent, Library, Observed, Open, OpeningReply, Part, Reply,
    AMENDMENT_WORDS, ROOMS,
};
use independent::block;
use runs::{first_difference, first_part, run, SEED};

/// The part in which a run first finds these openings different.
fn opened(open: Open) -> Option<Part> {
    let library = Library {
        open,
        ..Library::PROVED
    };
    first_part(library, |asked| asked == Asked::Opening)
}

/// The part in which a run first finds what is told of opened pools different.
fn told(is_opened: IsOpened) -> Option<Part> {
    let library = Library {
        is_opened,
        ..Library::PROVED
    };
    first_part(library, |asked| matches!(asked, Asked::Opening | Asked::Amendment(_)))
}

/// The part in which a run first finds these amendments different.
fn amended(amend: Amend) -> Option<Part> {
    let library = Library {
        amend,
        ..Library::PROVED
    };
    first_part(library, |asked| matches!(asked, Asked::Amendment(_)))
}

/// The proved opening, the start of each wrong one.
fn proved_opening(sheet: &[u64], sums: &mut [u64; SUM_WORDS]) -> OpeningReply {
    (Library::PROVED.open)(sheet, sums)
}

/// What the proved library tells, the start of what is told wrongly.
fn proved_told(sheet: &[u64], sums: &[u64; SUM_WORDS]) -> bool {
    (Library::PROVED.is_opened)(sheet, sums)
}

/// The proved amendments, the start of each wrong one.
fn proved_amendments(sheet: &[u64], amendments: &[Vec<u64>], rooms: [usize; ROOMS]) -> Vec<Observed> {
    (Library::PROVED.amend)(sheet, amendments, rooms)
}

/// The proved functions themselves pass, so that each fault below is found for its own sake.
#[test]
fn nothing_wrong_is_passed() {
    assert_eq!(opened(proved_opening), None);
    assert_eq!(told(proved_told), None);
    assert_eq!(amended(proved_amendments), None);
    assert_eq!(
        amended(|sheet, amendments, rooms| faulty(sheet, amendments, rooms, |_, _| {})),
        None
    );
}

/// An amendment as the proved library made or refused it.
struct Step<'a> {
    /// The places of the sheet.
    layout: Layout,
    /// Whether the sheet is of a re-securitisation.
    resecuritisation: bool,
    /// The unit of its risk weights.
    unit: u64,
    /// The words of the amendment.
    amendment: &'a [u64],
    /// What was seen before it.
    before: &'a Observed,
    /// What was seen after it.
    after: &'a Observed,
}

impl Step<'_> {
    /// Whether the amendment was made.
    fn accepted(&self) -> bool {
        self.after.reply.number == 0
    }

    /// The word at this place of the amendment; 0 where it is missing.
    fn word(&self, place: usize) -> u64 {
        self.amendment.get(place).copied().unwrap_or(0)
    }

    /// Whether the amendment is refused by this number for this word.
    fn refused_for(&self, number: u64, word: u64) -> bool {
        let AmendmentReply {
            number: said, place, ..
        } = self.after.reply;
        said == number && self.word(place as usize) == word
    }

    /// The row before an amendment that was made, and the row after it.
    fn rows(&self) -> [&[u64; RowWord::COUNT]; 2] {
        let row = self.amendment[0] as usize - 1;
        [self.before, self.after].map(|seen| &self.layout.pool(&seen.words)[row])
    }

    /// The seven sums of one row, whose status counts as this.
    fn sums_of(&self, row: &[u64; RowWord::COUNT], status: u64) -> [u64; SUM_WORDS] {
        let [exposure, nominal, weight, _] = *row;
        let three = [exposure, nominal, exposure * weight * unit::hundredths(self.unit)];
        let known = if status == status::NOT_KNOWN { [0; 3] } else { three };
        let late = if status == status::DELINQUENT { nominal } else { 0 };
        let mut sums = [0; SUM_WORDS];
        sums[..3].copy_from_slice(&three);
        sums[3..6].copy_from_slice(&known);
        sums[SumWord::LateNominal as usize] = late;
        sums
    }
}

/// The proved amendments with a fault in what is seen after each of them.
fn faulty(
    sheet: &[u64],
    amendments: &[Vec<u64>],
    rooms: [usize; ROOMS],
    fault: fn(&Step, &mut Observed),
) -> Vec<Observed> {
    let right = proved_amendments(sheet, amendments, rooms);
    let mut wrong = right.clone();
    for number in 1..right.len() {
        let layout = Layout::of_sheet(sheet);
        let step = Step {
            layout,
            resecuritisation: layout.fact_word(sheet, Fact::Resecuritisation) == 1,
            unit: layout.fact_word(sheet, Fact::Unit),
            amendment: &amendments[number - 1],
            before: &right[number - 1],
            after: &right[number],
        };
        fault(&step, &mut wrong[number]);
    }
    wrong
}

/// The part in which a run first finds amendments different with a fault in what is seen after each, given the step.
macro_rules! seen {
    ($fault:expr) => {
        amended(|sheet, amendments, rooms| faulty(sheet, amendments, rooms, $fault))
    };
}

/// The same with the fault only after amendments that are made.
macro_rules! seen_made {
    ($fault:expr) => {
        seen!(|step, wrong| {
            let fault: fn(&Step, &mut Observed) = $fault;
            if step.accepted() {
                fault(step, wrong);
            }
        })
    };
}

/// The same with the fault only after amendments that are refused.
macro_rules! seen_refused {
    ($fault:expr) => {
        seen!(|step, wrong| {
            let fault: fn(&Step, &mut Observed) = $fault;
            if !step.accepted() {
                fault(step, wrong);
            }
        })
    };
}

/// Whether the difference is in a sum.
fn is_sum(part: Option<Part>) -> bool {
    matches!(part, Some(Part::Sum(_)))
}

/// Whether the difference is in what a refusal says, or in whether there is one.
fn is_by_judgement(part: Option<Part>) -> bool {
    matches!(part, Some(Part::Outcome | Part::Number | Part::Place))
}

/// Adds sums to others.
fn add(sums: &mut [u64; SUM_WORDS], more: &[u64; SUM_WORDS]) {
    sums.iter_mut()
        .zip(more)
        .for_each(|(sum, more)| *sum = sum.wrapping_add(*more));
}

/// Takes sums from others.
fn take(sums: &mut [u64; SUM_WORDS], less: &[u64; SUM_WORDS]) {
    sums.iter_mut()
        .zip(less)
        .for_each(|(sum, less)| *sum = sum.wrapping_sub(*less));
}

/// The sums are not corrected, or by the old row alone, or by the new one alone.
#[test]
fn rows_not_taken_out_or_not_added() {
    assert!(is_sum(seen_made!(|step, wrong| wrong.sums = step.before.sums)));
    assert!(is_sum(seen_made!(|step, wrong| {
        let [old, _] = step.rows();
        add(&mut wrong.sums, &step.sums_of(old, old[RowWord::Status as usize]));
    })));
    assert!(is_sum(seen_made!(|step, wrong| {
        let [_, new] = step.rows();
        take(&mut wrong.sums, &step.sums_of(new, new[RowWord::Status as usize]));
    })));
}

/// A sum that is as it was before, the others corrected.
fn stale_sum<const WORD: usize>(sheet: &[u64], amendments: &[Vec<u64>], rooms: [usize; ROOMS]) -> Vec<Observed> {
    faulty(sheet, amendments, rooms, |step, wrong| {
        wrong.sums[WORD] = step.before.sums[WORD]
    })
}

/// Each sum alone is not corrected.
#[test]
fn one_sum_is_stale() {
    let wrong: [Amend; SUM_WORDS] = [
        stale_sum::<0>,
        stale_sum::<1>,
        stale_sum::<2>,
        stale_sum::<3>,
        stale_sum::<4>,
        stale_sum::<5>,
        stale_sum::<6>,
    ];
    for ((word, _), amend) in SumWord::TABLE.into_iter().zip(wrong) {
        assert_eq!(amended(amend), Some(Part::Sum(word)));
    }
}

/// A row counts by the status of the other: the new one is added by the old status, or the old one taken out by the new
/// status.
#[test]
fn wrong_status_of_a_row() {
    let added = seen_made!(|step, wrong| {
        let [old, new] = step.rows();
        let [from, to] = [old, new].map(|row| row[RowWord::Status as usize]);
        take(&mut wrong.sums, &step.sums_of(new, to));
        add(&mut wrong.sums, &step.sums_of(new, from));
    });
    let taken = seen_made!(|step, wrong| {
        let [old, new] = step.rows();
        let [from, to] = [old, new].map(|row| row[RowWord::Status as usize]);
        add(&mut wrong.sums, &step.sums_of(old, from));
        take(&mut wrong.sums, &step.sums_of(old, to));
    });
    assert!(is_sum(added) && is_sum(taken));
    let late = seen_made!(|step, wrong| {
        let [old, _] = step.rows();
        let sums = step.sums_of(old, old[RowWord::Status as usize]);
        wrong.sums[SumWord::LateNominal as usize] += sums[SumWord::LateNominal as usize];
    });
    assert_eq!(late, Some(Part::Sum(SumWord::LateNominal)));
    let tranche_late = seen_made!(|step, wrong| {
        let [_, new] = step.rows();
        if new[RowWord::Status as usize] == status::TRANCHE {
            wrong.sums[SumWord::LateNominal as usize] += 1;
        }
    });
    assert_eq!(tranche_late, Some(Part::Sum(SumWord::LateNominal)));
}

/// The weighted sums are corrected in the unit of the sheet, or by the nominal amount.
#[test]
fn wrong_weighted_exposure() {
    let in_percent = seen_made!(|step, wrong| {
        let [_, new] = step.rows();
        let product = new[RowWord::Exposure as usize] * new[RowWord::RiskWeight as usize];
        let right = product * unit::hundredths(step.unit);
        wrong.sums[SumWord::WeightedExposure as usize] -= right - product;
    });
    assert_eq!(in_percent, Some(Part::Sum(SumWord::WeightedExposure)));
    let by_nominal = seen_made!(|step, wrong| {
        let [_, [exposure, nominal, weight, _]] = step.rows().map(|row| *row);
        let sum = &mut wrong.sums[SumWord::WeightedExposure as usize];
        let one = unit::hundredths(step.unit);
        *sum = sum
            .wrapping_sub(exposure * weight * one)
            .wrapping_add(nominal * weight * one);
    });
    assert_eq!(by_nominal, Some(Part::Sum(SumWord::WeightedExposure)));
}

/// A refused amendment changes the sums, the sheet, or the charge all the same.
#[test]
fn changes_on_a_refusal() {
    assert!(is_sum(seen_refused!(|_, wrong| wrong.sums[0] += 1)));
    let late = seen_refused!(|_, wrong| wrong.sums[SumWord::LateNominal as usize] += 1);
    assert_eq!(late, Some(Part::Sum(SumWord::LateNominal)));
    assert_eq!(seen_refused!(|_, wrong| wrong.charge += 1), Some(Part::Charge));
    let up_to_the_bad_word = seen_refused!(|step, wrong| {
        let number = step.word(0) as usize;
        if (1..=step.layout.rows).contains(&number) {
            let good = &step.amendment[1..step.after.reply.place as usize];
            wrong.words[step.layout.row(number - 1)..][..good.len().min(RowWord::COUNT)]
                .copy_from_slice(&good[..good.len().min(RowWord::COUNT)]);
        }
    });
    assert_eq!(up_to_the_bad_word, Some(Part::Sheet));
}

/// The sheet is not changed, another row is, another word is too, or a word of the row is not.
#[test]
fn wrong_words_of_the_sheet() {
    let unchanged = seen_made!(|step, wrong| wrong.words.clone_from(&step.before.words));
    let from_zero = seen_made!(|step, wrong| {
        wrong.words.clone_from(&step.before.words);
        let [_, new] = step.rows();
        wrong.words[step.layout.row(step.amendment[0] as usize)..][..RowWord::COUNT].copy_from_slice(new);
    });
    let of_four_facts = seen_made!(|step, wrong| {
        let [_, new] = step.rows().map(|row| *row);
        wrong.words.clone_from(&step.before.words);
        let four = Layout {
            facts: 4,
            ..step.layout
        };
        wrong.words[four.row(step.amendment[0] as usize - 1)..][..RowWord::COUNT].copy_from_slice(&new);
    });
    let last_word_too = seen_made!(|_, wrong| *wrong.words.last_mut().expect("a word") += 1);
    let count_too = seen_made!(|step, wrong| wrong.words[step.layout.pool_count()] += 1);
    let without_status = seen_made!(|step, wrong| {
        let place = step.layout.row(step.amendment[0] as usize - 1) + RowWord::Status as usize;
        wrong.words[place] = step.before.words[place];
    });
    let longer = seen_made!(|_, wrong| wrong.words.push(0));
    let in_hundredths = seen_made!(|step, wrong| {
        let place = step.layout.risk_weight(step.amendment[0] as usize - 1);
        wrong.words[place] *= unit::hundredths(step.unit);
    });
    let parts = [
        unchanged,
        from_zero,
        of_four_facts,
        last_word_too,
        count_too,
        without_status,
        longer,
        in_hundredths,
    ];
    assert_eq!(parts, [Some(Part::Sheet); 8]);
}

/// The sheet is changed and nothing else is.
#[test]
fn sheet_changed_alone() {
    let part = seen_made!(|step, wrong| {
        *wrong = Observed {
            words: step.after.words.clone(),
            ..step.before.clone()
        };
        wrong.reply = step.after.reply;
    });
    assert!(is_sum(part), "{part:?}");
}

/// Accepts what is refused by this number for a word that is meant.
macro_rules! accepts {
    ($number:expr, $meant:expr) => {
        seen!(|step, wrong| {
            let meant: fn(&Step, u64) -> bool = $meant;
            let AmendmentReply { number, place, .. } = step.after.reply;
            if number == $number && meant(step, step.word(place as usize)) {
                wrong.reply = AmendmentReply::amending();
            }
        })
    };
}

/// Refuses by this number an amendment that is made and is meant.
macro_rules! refuses {
    ($number:expr, $place:expr, $meant:expr) => {
        seen_made!(|step, wrong| {
            let meant: fn(&Step) -> bool = $meant;
            if meant(step) {
                wrong.reply = AmendmentReply::refusing($number, $place);
            }
        })
    };
}

/// A word outside a limit is taken, or one at a limit is refused.
#[test]
fn wrong_limits_of_an_amendment() {
    let taken = [
        accepts!(refusal::COUNT, |_, word| word == 0),
        accepts!(refusal::COUNT, |step, word| word == step.layout.rows as u64 + 1),
        accepts!(refusal::COUNT, |step, word| (1..=step.layout.rows as u64)
            .contains(&u64::from(word as u32))),
        accepts!(refusal::POOL_AMOUNT, |_, word| word == 0),
        accepts!(refusal::POOL_AMOUNT, |_, word| word == POOL_AMOUNT + 1),
        accepts!(refusal::POOL_AMOUNT, |step, _| step.after.reply.place == 2),
        accepts!(refusal::RISK_WEIGHT, |step, word| step.unit == unit::PERCENT
            && word <= RISK_WEIGHT),
        accepts!(refusal::RISK_WEIGHT, |_, word| word == RISK_WEIGHT_PERCENT + 1),
        accepts!(refusal::RISK_WEIGHT, |_, word| word == RISK_WEIGHT + 1),
        accepts!(refusal::STATUS, |_, word| word == status::TRANCHE),
        accepts!(refusal::STATUS, |_, word| word == status::TRANCHE + 1),
        accepts!(refusal::STATUS, |step, word| step.resecuritisation
            && word == status::NOT_KNOWN),
        accepts!(refusal::STATUS, |_, word| word > u64::from(u32::MAX)),
        accepts!(refusal::MISSING, |step, _| step.amendment.len() == AMENDMENT_WORDS - 1),
        accepts!(refusal::MISSING, |step, _| step.amendment.is_empty()),
        accepts!(refusal::WORDS_FOLLOW, |_, _| true),
    ];
    assert_eq!(taken, [Some(Part::Outcome); 16]);
    let refused = [
        refuses!(refusal::COUNT, 0, |step| step.amendment[0] as usize == step.layout.rows),
        refuses!(refusal::COUNT, 0, |step| step.amendment[0] == 1),
        refuses!(refusal::POOL_AMOUNT, 1, |step| step.amendment[1] == POOL_AMOUNT),
        refuses!(refusal::POOL_AMOUNT, 2, |step| step.amendment[2] == 1),
        refuses!(refusal::RISK_WEIGHT, 3, |step| step.amendment[3]
            == unit::risk_weight(step.unit)),
        refuses!(refusal::RISK_WEIGHT, 3, |step| step.amendment[3] > RISK_WEIGHT_PERCENT),
        refuses!(refusal::NOT_WHOLE_PERCENT, 3, |step| {
            step.unit == unit::HUNDREDTHS && !step.amendment[3].is_multiple_of(ONE_PERCENT)
        }),
        refuses!(refusal::STATUS, 4, |step| step.resecuritisation),
        refuses!(refusal::THIN, 0, |step| step.after.weighed[0].0.number == refusal::THIN),
        refuses!(refusal::COUNT, 0, |step| step.before.words == step.after.words),
    ];
    assert_eq!(refused, [Some(Part::Outcome); 10]);
}

/// A missing word or one that follows is judged before a bad one, or the last bad word decides.
#[test]
fn wrong_order_of_judgement() {
    let missing_first = seen_refused!(|step, wrong| {
        if step.amendment.len() < AMENDMENT_WORDS {
            wrong.reply = AmendmentReply::refusing(refusal::MISSING, step.amendment.len() as u64);
        }
    });
    assert_eq!(missing_first, Some(Part::Number));
    let following_first = seen_refused!(|step, wrong| {
        if step.amendment.len() > AMENDMENT_WORDS {
            wrong.reply = AmendmentReply::refusing(refusal::WORDS_FOLLOW, AMENDMENT_WORDS as u64);
        }
    });
    assert_eq!(following_first, Some(Part::Number));
    let last_first = seen_refused!(|step, wrong| {
        if step.amendment.len() >= AMENDMENT_WORDS && step.word(4) > status::TRANCHE {
            wrong.reply = AmendmentReply::refusing(refusal::STATUS, 4);
        }
    });
    assert!(is_by_judgement(last_first));
    let row_first = seen_refused!(|step, wrong| {
        if step.after.reply.number == refusal::COUNT && step.word(1) == 0 && step.amendment.len() > 1 {
            wrong.reply = AmendmentReply::refusing(refusal::POOL_AMOUNT, 1);
        }
    });
    assert_eq!(row_first, Some(Part::Number));
}

/// A number or a place of a refusal that is another.
#[test]
fn wrong_reply_to_an_amendment() {
    let numbers = [
        seen_refused!(|_, wrong| wrong.reply.number += 1),
        seen_refused!(|step, wrong| {
            if step.refused_for(refusal::COUNT, 0) {
                wrong.reply.number = refusal::POOL_AMOUNT;
            }
        }),
        seen_refused!(|_, wrong| {
            if wrong.reply.number == refusal::RISK_WEIGHT {
                wrong.reply.number = refusal::POOL_AMOUNT;
            }
        }),
    ];
    assert_eq!(numbers, [Some(Part::Number); 3]);
    let places = [
        seen_refused!(|_, wrong| wrong.reply.place += 1),
        seen_refused!(|_, wrong| wrong.reply.place = 0),
        seen_refused!(|step, wrong| {
            if wrong.reply.number == refusal::MISSING {
                wrong.reply.place = AMENDMENT_WORDS as u64 - step.amendment.len() as u64;
            }
        }),
        seen_refused!(|step, wrong| {
            if wrong.reply.number == refusal::WORDS_FOLLOW {
                wrong.reply.place = step.amendment.len() as u64 - 1;
            }
        }),
        seen_refused!(|step, wrong| {
            let number = step.word(0) as usize;
            if (1..=step.layout.rows).contains(&number) {
                wrong.reply.place += step.layout.row(number - 1) as u64;
            }
        }),
        seen_made!(|_, wrong| wrong.reply.place = u64::MAX),
    ];
    assert_eq!(places, [Some(Part::Place); 6]);
}

/// The charge is that of before, 0 or unwritten, or not that of the deal's approach.
#[test]
fn wrong_charge() {
    let parts = [
        seen_made!(|step, wrong| wrong.charge = step.before.charge),
        seen_made!(|_, wrong| wrong.charge = u64::MAX),
        seen_made!(|step, wrong| {
            let sheet = independent::sheet::read(&step.after.words).expect("a good sheet");
            wrong.charge = independent::charge::pool_charge(&sheet.pool).charge;
        }),
        seen_made!(|step, wrong| {
            if step.after.weighed[0].0.number == refusal::THIN {
                wrong.charge = 0;
            }
        }),
    ];
    assert_eq!(parts, [Some(Part::Charge); 4]);
    let at_opening: Amend = |sheet, amendments, rooms| {
        let mut seen = proved_amendments(sheet, amendments, rooms);
        seen.iter_mut().take(1).for_each(|seen| seen.charge += 1);
        seen
    };
    assert_eq!(amended(at_opening), Some(Part::Charge));
}

/// The results that were lent, with a change.
fn with_results(lent: &Lent, room: usize, change: impl FnOnce(&mut [u64])) -> Lent {
    let mut changed = Lent::default();
    changed.lend(room, |results| {
        results.copy_from_slice(lent.first(room as u64));
        change(results);
    });
    changed
}

/// The proved amendments with a fault in the reply to each weighing and in the results, with so much room.
fn faulty_weighing(
    sheet: &[u64],
    amendments: &[Vec<u64>],
    rooms: [usize; ROOMS],
    fault: fn(&mut Reply, &mut [u64]),
) -> Vec<Observed> {
    let mut seen = proved_amendments(sheet, amendments, rooms);
    for look in &mut seen {
        for ((reply, lent), room) in look.weighed.iter_mut().zip(rooms) {
            *lent = with_results(lent, room, |results| fault(reply, results));
        }
    }
    seen
}

/// The part in which a run first finds amendments different with a fault in each weighing of the opened pool.
macro_rules! weighed {
    ($fault:expr) => {
        amended(|sheet, amendments, rooms| faulty_weighing(sheet, amendments, rooms, $fault))
    };
}

/// The lines are those of before, or the whole answer is.
#[test]
fn stale_lines() {
    let lines = seen_made!(|step, wrong| {
        for (number, (reply, lent)) in wrong.weighed.iter_mut().enumerate() {
            let (before, stale) = &step.before.weighed[number];
            if reply.number == 0 && before.number == 0 {
                *lent = stale.clone();
            }
        }
    });
    assert!(matches!(lines, Some(Part::Line(_))), "{lines:?}");
    let answer = seen_made!(|step, wrong| wrong.weighed.clone_from(&step.before.weighed));
    let of_answer = matches!(answer, Some(Part::Charge | Part::Line(_) | Part::Outcome));
    assert!(of_answer, "{answer:?}");
}

/// A tranche meets 13 by the charge of before: it is refused where it was, or not.
#[test]
fn stale_thin_tranche() {
    let part = seen_made!(|step, wrong| {
        let [before, after] = [step.before, step.after].map(|seen| &seen.weighed[0]);
        if [before.0.number, after.0.number].contains(&refusal::THIN) && before.0.number != after.0.number {
            wrong.weighed[0] = before.clone();
        }
    });
    assert_eq!(part, Some(Part::Outcome));
}

/// Results are written on 14 and on 13, or after the lines, or not at all.
#[test]
fn wrong_results_of_an_opened_pool() {
    let on_refusal = [
        weighed!(|reply, results| {
            if reply.number == refusal::ROOM {
                results.iter_mut().for_each(|word| *word = 0);
            }
        }),
        weighed!(|reply, results| {
            if reply.number == refusal::THIN {
                results[0] = 0;
            }
        }),
    ];
    assert_eq!(on_refusal, [Some(Part::ResultsOnRefusal); 2]);
    let after = weighed!(|reply, results| {
        let lines = LINE_WORDS * reply.count as usize;
        if reply.number == 0 && results.len() > lines {
            results[lines] = 0;
        }
    });
    assert_eq!(after, Some(Part::AfterLines));
    let word = weighed!(|reply, results| {
        if reply.number == 0 {
            results[LineWord::LeastWeight as usize] ^= 1 << 40;
        }
    });
    assert_eq!(word, Some(Part::Line(LineWord::LeastWeight)));
}

/// A reply of a weighing that is another.
#[test]
fn wrong_reply_of_an_opened_pool() {
    let unjudged_room = weighed!(|reply, _| {
        if reply.number == refusal::ROOM {
            *reply = Reply::accepting(1, 0);
        }
    });
    let unjudged_thin = weighed!(|reply, _| {
        if reply.number == refusal::THIN {
            *reply = Reply::accepting(1, 0);
        }
    });
    assert_eq!([unjudged_room, unjudged_thin], [Some(Part::Outcome); 2]);
    let place = weighed!(|reply, _| {
        if reply.number == refusal::ROOM {
            reply.place = 1;
        }
    });
    assert_eq!(place, Some(Part::Place));
    let thin_before_room = weighed!(|reply, results| {
        if reply.number == refusal::ROOM && !results.is_empty() {
            reply.number = refusal::THIN;
        }
    });
    assert_eq!(thin_before_room, Some(Part::Number));
    let count = weighed!(|reply, _| reply.count += 1);
    assert_eq!(count, Some(Part::Count));
    let charge = weighed!(|reply, _| {
        if reply.number == 0 {
            reply.charge += 1;
        }
    });
    assert_eq!(charge, Some(Part::Charge));
}

/// A pool is not opened, or opened where the sheet is refused, or no longer amended after a refusal.
#[test]
fn wrong_steps() {
    let never: Amend = |_, _, _| Vec::new();
    let not_thin: Amend = |sheet, amendments, rooms| match proved_amendments(sheet, amendments, rooms) {
        seen if seen
            .iter()
            .take(1)
            .any(|seen| seen.weighed[0].0.number == refusal::THIN) =>
        {
            Vec::new()
        }
        seen => seen,
    };
    let always: Amend = |sheet, amendments, rooms| match proved_amendments(sheet, amendments, rooms) {
        seen if seen.is_empty() => proved_amendments(&SMALLEST, amendments, rooms),
        seen => seen,
    };
    let until_refused: Amend = |sheet, amendments, rooms| {
        let mut seen = proved_amendments(sheet, amendments, rooms);
        let first = seen.iter().position(|seen| seen.reply.number != 0);
        seen.truncate(first.map_or(seen.len(), |first| first + 1));
        seen
    };
    let without_opening: Amend = |sheet, amendments, rooms| {
        let seen = proved_amendments(sheet, amendments, rooms);
        seen.into_iter().skip(1).collect()
    };
    for amend in [never, not_thin, always, until_refused, without_opening] {
        assert_eq!(amended(amend), Some(Part::Steps));
    }
}

/// A sheet that is accepted.
const SMALLEST: [u64; 18] = [4, 0, 0, 1, 1, 1, 1, 1, 0, 0, 1, 1, 1, 1, 0, 0, 0, 0];

/// The proved opening with a fault in the reply to each sheet that is refused, or else to each that is opened, and in the
/// sums.
fn faulty_opening(
    sheet: &[u64],
    sums: &mut [u64; SUM_WORDS],
    on_refusal: bool,
    fault: fn(&mut OpeningReply, &mut [u64; SUM_WORDS]),
) -> OpeningReply {
    let mut reply = proved_opening(sheet, sums);
    if (reply.number != 0) == on_refusal {
        fault(&mut reply, sums);
    }
    reply
}

/// The lines are judged on opening, with this room.
fn lines_judged(sheet: &[u64], sums: &mut [u64; SUM_WORDS], room: usize) -> OpeningReply {
    match independent::weigh(sheet, room as u64) {
        Ok(_) => proved_opening(sheet, sums),
        Err(refused) => OpeningReply::refusing(refused.number, refused.place),
    }
}

/// Words that follow the last section are not looked at.
fn without_following(sheet: &[u64]) -> &[u64] {
    match independent::sheet::read(sheet) {
        Err(refused) if refused.number == refusal::WORDS_FOLLOW => &sheet[..refused.place as usize],
        _ => sheet,
    }
}

/// A sheet is opened that is refused, or refused that is opened, or for another reason.
#[test]
fn wrong_judgement_of_an_opening() {
    let outcomes: [Open; 4] = [
        |sheet, sums| lines_judged(sheet, sums, MOST_RESULTS),
        |sheet, sums| lines_judged(sheet, sums, 0),
        |sheet, sums| proved_opening(without_following(sheet), sums),
        |sheet, sums| faulty_opening(sheet, sums, true, |reply, _| *reply = OpeningReply::opening()),
    ];
    for open in outcomes {
        assert_eq!(opened(open), Some(Part::Outcome));
    }
    let number: Open = |sheet, sums| faulty_opening(sheet, sums, true, |reply, _| reply.number += 1);
    assert_eq!(opened(number), Some(Part::Number));
    let refused_place: Open = |sheet, sums| faulty_opening(sheet, sums, true, |reply, _| reply.place += 1);
    let place: Open = |sheet, sums| faulty_opening(sheet, sums, false, |reply, _| reply.place = u64::MAX);
    assert_eq!([refused_place, place].map(opened), [Some(Part::Place); 2]);
}

/// The opening with one sum of one more, or unwritten.
fn wrong_sum<const WORD: usize, const UNWRITTEN: bool>(sheet: &[u64], sums: &mut [u64; SUM_WORDS]) -> OpeningReply {
    let before = *sums;
    faulty_opening(sheet, sums, false, |_, sums| sums[WORD] += 1);
    if UNWRITTEN {
        sums[WORD] = before[WORD];
    }
    proved_opening(sheet, &mut [0; SUM_WORDS])
}

/// Each sum of an opening alone is wrong or not written.
#[test]
fn wrong_sums_of_an_opening() {
    let wrong: [[Open; 2]; SUM_WORDS] = [
        [wrong_sum::<0, false>, wrong_sum::<0, true>],
        [wrong_sum::<1, false>, wrong_sum::<1, true>],
        [wrong_sum::<2, false>, wrong_sum::<2, true>],
        [wrong_sum::<3, false>, wrong_sum::<3, true>],
        [wrong_sum::<4, false>, wrong_sum::<4, true>],
        [wrong_sum::<5, false>, wrong_sum::<5, true>],
        [wrong_sum::<6, false>, wrong_sum::<6, true>],
    ];
    for ((word, _), opens) in SumWord::TABLE.into_iter().zip(wrong) {
        assert_eq!(opens.map(opened), [Some(Part::Sum(word)); 2]);
    }
    let first_block: Open = |sheet, sums| {
        faulty_opening(sheet, sums, false, |_, _| {});
        if let Ok(read) = independent::sheet::read(sheet) {
            if read.pool.len() as u64 > BLOCK_ROWS {
                *sums = differential::answer::sum_words(&block::sums(&read.pool, 0));
            }
        }
        proved_opening(sheet, &mut [0; SUM_WORDS])
    };
    assert!(is_sum(opened(first_block)));
}

/// Sums are written on a refusal.
#[test]
fn sums_written_on_a_refusal() {
    let zeros: Open = |sheet, sums| faulty_opening(sheet, sums, true, |_, sums| *sums = [0; SUM_WORDS]);
    let last: Open = |sheet, sums| faulty_opening(sheet, sums, true, |_, sums| sums[SUM_WORDS - 1] = 0);
    assert_eq!([zeros, last].map(opened), [Some(Part::SumsOnRefusal); 2]);
}

/// Told without a look at one sum.
fn without_sum<const WORD: usize>(sheet: &[u64], sums: &[u64; SUM_WORDS]) -> bool {
    let mut right = [0; SUM_WORDS];
    let opens = proved_opening(sheet, &mut right).number == 0;
    let mut looked_at = (0..SUM_WORDS).filter(|&word| word != WORD);
    opens && looked_at.all(|word| right[word] == sums[word])
}

/// An opened pool is told where there is none, or none where there is one.
#[test]
fn wrongly_told() {
    let wrong: [IsOpened; 15] = [
        |_, _| true,
        |_, _| false,
        |sheet, sums| !proved_told(sheet, sums),
        without_sum::<0>,
        without_sum::<1>,
        without_sum::<2>,
        without_sum::<3>,
        without_sum::<4>,
        without_sum::<5>,
        without_sum::<6>,
        |sheet, sums| proved_told(without_following(sheet), sums),
        |sheet, sums| proved_told(sheet, sums) && independent::weigh(sheet, MOST_RESULTS as u64).is_ok(),
        |sheet, sums| proved_told(sheet, sums) || independent::sheet::read(sheet).is_err(),
        |sheet, sums| proved_told(sheet, sums) && sums[SumWord::LateNominal as usize] == 0,
        |sheet, sums| proved_told(sheet, sums) && sheet[Layout::FACTS_COUNT] < 7,
    ];
    for (place, is_opened) in wrong.into_iter().enumerate() {
        assert_eq!(told(is_opened), Some(Part::IsOpened), "{place}");
    }
}

/// Sums alone are not enough: a sheet with a bad word after its pool is no opened pool, whatever its rows.
#[test]
fn told_by_the_pool_alone() {
    let library = Library {
        is_opened: |sheet, sums| {
            let refused = independent::sheet::read(sheet).err();
            let after_pool = refused.is_some_and(|refused| {
                let place = refused.place as usize;
                Layout::before(sheet, place.min(sheet.len())).is_some_and(|layout| place > layout.tranche_count())
            });
            after_pool || proved_told(sheet, sums)
        },
        ..Library::PROVED
    };
    let part = first_difference(library).map(|difference| difference.part);
    assert_eq!(part, Some(Part::IsOpened));
}

/// A function that panics ends the run as a difference.
#[test]
fn panic_on_an_opened_pool_is_a_difference() {
    let stops = [
        Library {
            open: |_, _| panic!("a side that stops"),
            ..Library::PROVED
        },
        Library {
            is_opened: |_, _| panic!("a side that stops"),
            ..Library::PROVED
        },
        Library {
            amend: |_, _, _| panic!("a side that stops"),
            ..Library::PROVED
        },
    ];
    for library in stops {
        let part = first_difference(library).map(|difference| difference.part);
        assert_eq!(part, Some(Part::Panic));
    }
}

/// A difference after an amendment is shown with the amendments and with what each side said after each of them.
#[test]
fn difference_of_an_amendment_is_shown() {
    let library = Library {
        amend: |sheet, amendments, rooms| {
            faulty(sheet, amendments, rooms, |step, wrong| {
                if step.accepted() {
                    wrong.charge += 1;
                }
            })
        },
        ..Library::PROVED
    };
    let found = run(library, 2).expect_err("another charge");
    let Asked::Amendment(steps) = found.difference.asked else {
        panic!("{found:?}");
    };
    let case = Case::new(SEED, found.index);
    let text = show::difference(&library, SEED, &case, &found);
    let words: Vec<String> = case.amendments[steps - 1].iter().map(u64::to_string).collect();
    assert!(text.contains(&format!("\namendment {steps} (")) && text.contains(&format!(") {}\n", words.join(" "))));
    let seen = &proved_amendments(&case.sheet, &case.amendments, case.amended_rooms)[steps];
    for (side, charge) in [("independent", seen.charge), ("proved", seen.charge + 1)] {
        let sums = seen.sums.map(|sum| sum.to_string()).join(" ");
        let line = format!("\n{side}, after {steps} amendments: number 0 place 0 sums {sums} charge {charge} ");
        assert!(text.contains(&line), "{line}{text}");
    }
    let last = text.lines().last().unwrap_or_default();
    let part = format!("difference in pool charge after {steps} amendments: ");
    assert!(last.contains(&part), "{text}");
}
