/*
 * Risk weights of securitisation tranches: the proved calculator for programs in C99 or later and C++ (x86-64 Linux).
 *
 * The archive is made in the repository's folder by `sh tests/archive.sh`, which proves it first and writes
 * crates/tranche_weights_c/out/libtranche_weights.a. Link it as it is; it needs nothing but memcpy and memset of the C library.
 *
 * What holds of all ten functions
 * - The caller owns all memory. Nothing is allocated, kept or freed, and no pointer outlives the call.
 * - There is no state: calls may run at the same time on different threads, also on the same sheet, as long as none of them writes to memory that another is lent.
 *   tranche_weights_amend writes to its sheet and sums: while it runs, no other call may be given either.
 * - Whatever the words or bytes are, the call ends and gives the answer described here; no input is undefined. This holds of the three calls on an opened pool
 *   (tranche_weights_amend, tranche_weights_opened_charge and tranche_weights_weigh_opened) only where they are lent one: "An opened pool", below.
 * - A list of length 0 is nothing: its pointer is not looked at and may be null (the sheet of an opened pool has words). What is lent only to be written need not be
 *   initialised.
 * - What the caller owes: any other pointer is not null and is aligned for its type, as many words or bytes as its length says stay readable (or writable, where the
 *   pointer is not const) until the call returns, and what the function writes overlaps nothing else that is passed. place, count, charge and sums are never null, and
 *   have the words that are stated below.
 * - It also owes the stack: 16 KB are enough for every function but the two that take a file, and 64 KB for these (tests/calls.c and tests/opened_calls.c run them on
 *   threads with no more).
 * - What is proved is the archive's ten functions, whose names end in the version; the functions here only hand on to them. That a caller keeps what it owes, no
 *   proof can see.
 *
 * Versions
 * - Within a version of the interface no name or sentence here changes its meaning (names may be added), and every sheet keeps its answer.
 * - A later version may add facts, sections, refusals and approaches, and words at the end of a line, and so change the limits and lengths below; it may no longer
 *   give a refusal that is listed here, and it may give a sheet another weight where the rules have changed. A refusal's number, an approach's word and the place
 *   of a word in the line and of a sum keep their meaning in all versions, and so do the units of lines and sums from version 9 on; and a number that is no longer
 *   given is not used again. So a program that goes by the names below, and takes a refusal or an approach that it does not know for what it is, need only be compiled
 *   anew. The name of a refusal that is no longer given goes with it; a program that has it must leave it out.
 * - Since version 9 weighted exposure is in currency units times hundredths of a percent, whatever the unit of the sheet; up to version 8 it was in currency units
 *   times percent, a hundredth of what it is now. A program that was written for one of those and reads it must see to that.
 * - Each function's name in the archive ends in the version. A header and an archive of two versions do not link: the linker names the function that is missing.
 */
#ifndef TRANCHE_WEIGHTS_H
#define TRANCHE_WEIGHTS_H

#include <stddef.h>
#include <stdint.h>

#ifdef __cplusplus
extern "C" {
#endif

/* The version of the interface. */
#define TRANCHE_WEIGHTS_INTERFACE 10

/*
 * The parts of a sheet: the fewest and the most facts, of one word each; the most pool rows and the words of one; the most tranches and the words of one; the words of
 * the IRB section. The facts in their order: pool kind, re-securitisation, due diligence held, pool composition known, STC mark (a simple, transparent and comparable
 * deal), reporting date, unit of the risk weights. A fact that the sheet leaves out at the end of its list counts as 0. Where the reporting date is 0, a tranche's
 * maturity is a number of months; else both are dates, written year * 10000 + month * 100 + day, and the maturity is the later one. Where the unit is 0, the risk
 * weights of the pool rows are in whole percent, up to 1250; where it is 1, they are in hundredths of a percent, up to 125000, so that 3750 is 37.5%.
 *
 * The pool kind is 0 where all loans are under the standardised approach (SA), 1 where all have a charge under the internal ratings-based approach (IRB), and 2 where
 * the pool is mixed. With 1 and 2, and only there, the IRB section follows the tranches; its count is always 1. Its words in their order: IRB charge and average loss
 * given default, in millionths; effective number of loans; retail (0 no, 1 yes); share of exposure with an IRB charge, in millionths, 1000000 with pool kind 1; IRB
 * average weight, with SA loans at their SA weights, always in hundredths of a percent. SEC-IRBA applies with due diligence held to a deal that is no
 * re-securitisation, where the share is at least 950000; any other deal is weighed as with pool kind 0. The README says what each word of a sheet may be.
 */
#define TRANCHE_WEIGHTS_FEWEST_FACTS 4
#define TRANCHE_WEIGHTS_MOST_FACTS 7
#define TRANCHE_WEIGHTS_MOST_ROWS 1000
#define TRANCHE_WEIGHTS_ROW_WORDS 4
#define TRANCHE_WEIGHTS_MOST_TRANCHES 32
#define TRANCHE_WEIGHTS_TRANCHE_WORDS 7
#define TRANCHE_WEIGHTS_IRB_WORDS 6

/* The most words that a sheet can need, with each of the four sections after its count; the bytes of a word in its file, and the most bytes of the file. */
#define TRANCHE_WEIGHTS_SHEET_WORDS                                                                                                                      \
    (1 + TRANCHE_WEIGHTS_MOST_FACTS + 1 + TRANCHE_WEIGHTS_MOST_ROWS * TRANCHE_WEIGHTS_ROW_WORDS + 1 +                                                    \
     TRANCHE_WEIGHTS_MOST_TRANCHES * TRANCHE_WEIGHTS_TRANCHE_WORDS + 1 + TRANCHE_WEIGHTS_IRB_WORDS)
#define TRANCHE_WEIGHTS_BYTES_PER_WORD 8
#define TRANCHE_WEIGHTS_FILE_BYTES (TRANCHE_WEIGHTS_BYTES_PER_WORD * TRANCHE_WEIGHTS_SHEET_WORDS)

/*
 * The places of the words in a line. Risk-weighted amount and capital come from the weight. The least weight shows how near the weight is to the exact one: what is
 * exact, after floor and cap, lies between the two or is one of them. Exact is the formula's value or the rating table's figure for points, charge, parameter and cap
 * as they are, already rounded; how far these were rounded, it does not show.
 * - By the formula the weight starts from a whole number that is no lower than the exact raw weight and less than 2 above it, and the least weight from one that is no
 *   higher than the exact raw weight and less than 1.5 below it; both from 125000 where no part of the tranche lies above the pool charge, and from 0 where all of it
 *   lies above a charge of 0.
 * - By the rating tables the weight starts from the exact figure rounded up, and the least weight from that figure rounded down.
 * - Floor and cap then act on the least weight as on the weight. In the fallback, which has neither, both are 125000.
 * So the least weight is never above the weight. It is at most 2 below it by the formula, both being worked out together (the rules alone would allow 3), and at most 1 by
 * the rating tables.
 */
enum {
    TRANCHE_WEIGHTS_WORD_APPROACH = 0,             /* an approach, as listed below */
    TRANCHE_WEIGHTS_WORD_ATTACHMENT = 1,           /* the attachment point, in millionths of the pool */
    TRANCHE_WEIGHTS_WORD_DETACHMENT = 2,           /* the detachment point, in millionths of the pool */
    TRANCHE_WEIGHTS_WORD_WEIGHT = 3,               /* the risk weight, in hundredths of a percent */
    TRANCHE_WEIGHTS_WORD_RISK_WEIGHTED_AMOUNT = 4, /* in whole currency units */
    TRANCHE_WEIGHTS_WORD_CAPITAL = 5,              /* in whole currency units */
    TRANCHE_WEIGHTS_WORD_LEAST_WEIGHT = 6          /* the weight is certainly no lower than this, in hundredths of a percent */
};

/* How many words a line has, and result words that are enough for every sheet. */
#define TRANCHE_WEIGHTS_LINE_WORDS 7
#define TRANCHE_WEIGHTS_RESULT_WORDS (TRANCHE_WEIGHTS_MOST_TRANCHES * TRANCHE_WEIGHTS_LINE_WORDS)

/* The rows of a block: the pool's rows in the sheet's order, so many to each block; only the last one may have fewer. The most blocks of a pool. */
#define TRANCHE_WEIGHTS_BLOCK_ROWS 50
#define TRANCHE_WEIGHTS_MOST_BLOCKS ((TRANCHE_WEIGHTS_MOST_ROWS + TRANCHE_WEIGHTS_BLOCK_ROWS - 1) / TRANCHE_WEIGHTS_BLOCK_ROWS)

/*
 * The places of the words in the sums of a block and of a pool. Every status but 2 is known; a row of status 1 is delinquent. Weighted exposure is exposure times
 * risk weight in hundredths of a percent, whatever the unit of the sheet: an exposure of 200 at 37.5% adds 750000. Added up over all blocks, each sum is that of the
 * pool.
 */
enum {
    TRANCHE_WEIGHTS_SUM_EXPOSURE = 0,                /* exposure of all rows, in whole currency units */
    TRANCHE_WEIGHTS_SUM_NOMINAL = 1,                 /* nominal of all rows, in whole currency units */
    TRANCHE_WEIGHTS_SUM_WEIGHTED_EXPOSURE = 2,       /* weighted exposure of all rows, in currency units times hundredths of a percent */
    TRANCHE_WEIGHTS_SUM_KNOWN_EXPOSURE = 3,          /* exposure of the rows with known status, in whole currency units */
    TRANCHE_WEIGHTS_SUM_KNOWN_NOMINAL = 4,           /* nominal of the rows with known status, in whole currency units */
    TRANCHE_WEIGHTS_SUM_KNOWN_WEIGHTED_EXPOSURE = 5, /* weighted exposure of the rows with known status, in the same unit */
    TRANCHE_WEIGHTS_SUM_LATE_NOMINAL = 6             /* nominal of the delinquent rows, in whole currency units */
};

/* How many words the sums have. */
#define TRANCHE_WEIGHTS_SUM_WORDS 7

/*
 * An opened pool is a sheet and the sums of its pool, TRANCHE_WEIGHTS_SUM_WORDS words that tranche_weights_open_pool writes. An amendment replaces one row of the
 * sheet and corrects the sums, and charge and lines come from the sums: none of the three reads the other rows again, so that their time does not grow with the pool.
 * - What the caller owes the three calls on an opened pool: the sheet and the sums are such that tranche_weights_is_opened says 1. It does so after
 *   tranche_weights_open_pool has accepted the sheet, and after every tranche_weights_amend, whether that was accepted or refused, as long as nothing else writes to
 *   either.
 * - Where that is not kept, nothing is promised: a figure may be wrong with no sign of it, words outside the lists may be read or written, and the program may be
 *   stopped, as by a sum of 0 that is divided by. Who can't be sure asks tranche_weights_is_opened first, which takes any words, in the time that it takes to open the
 *   pool.
 *
 * The places of the words in an amendment: the number of the row, counted from 1, and the row as the sheet has it, its risk weight in the sheet's unit.
 */
enum {
    TRANCHE_WEIGHTS_AMENDMENT_ROW = 0,         /* the row's number, 1 to the number of rows of the sheet */
    TRANCHE_WEIGHTS_AMENDMENT_EXPOSURE = 1,    /* exposure amount, 1 to 10^10 */
    TRANCHE_WEIGHTS_AMENDMENT_NOMINAL = 2,     /* nominal amount, 1 to 10^10 */
    TRANCHE_WEIGHTS_AMENDMENT_RISK_WEIGHT = 3, /* risk weight, in the sheet's unit */
    TRANCHE_WEIGHTS_AMENDMENT_STATUS = 4       /* status: 0, 1 or 2 in an ordinary deal, 3 in a re-securitisation */
};

/* How many words an amendment has. */
#define TRANCHE_WEIGHTS_AMENDMENT_WORDS 5

/*
 * The most digits of a number, and bytes that hold every report: the labels "charge ", "tranches " and "total " have 7, 9 and 6, and each number has one more byte
 * than digits, for the space or the newline after it. There are two numbers on the first line, two on the last, and on the line of a tranche its number and words.
 */
#define TRANCHE_WEIGHTS_NUMBER_DIGITS 20
#define TRANCHE_WEIGHTS_TEXT_BYTES                                                                                                                       \
    (7 + 9 + 6 + (2 + TRANCHE_WEIGHTS_MOST_TRANCHES * (1 + TRANCHE_WEIGHTS_LINE_WORDS) + 2) * (TRANCHE_WEIGHTS_NUMBER_DIGITS + 1))

/*
 * The approaches. An unrated tranche takes all three rating words of a rated tranche of its own class or of a junior one whose maturity in months is at least as long: of
 * several the most senior class counts, and in it the first row. It keeps its own class, maturity and thickness. A rating that was taken so is not passed on, and nothing is
 * taken in a re-securitisation, under SEC-IRBA and without due diligence. So TRANCHE_WEIGHTS_BY_SEC_ERBA on a tranche with no rating of its own says that its rating is
 * inferred.
 */
enum {
    TRANCHE_WEIGHTS_BY_FALLBACK = 0, /* the fallback of 1250% */
    TRANCHE_WEIGHTS_BY_SEC_ERBA = 1, /* the deal's rating table, by own or inferred ratings: of two the higher weight, of three the middle one */
    TRANCHE_WEIGHTS_BY_SEC_SA = 2,   /* the formula, by the standardised approach */
    TRANCHE_WEIGHTS_BY_SEC_IRBA = 3  /* the formula, by the IRB section */
};

/*
 * The numbers that a call returns, with the place where it is not that of the faulty word; 12 is no longer given. Of an amendment, where 1, 2 and 3 and 5 to 7 alone
 * are given, the place is counted in the amendment. The README says of each refusal what to do.
 */
enum {
    TRANCHE_WEIGHTS_ACCEPTED = 0,
    TRANCHE_WEIGHTS_REFUSED_MISSING_WORD = 1,      /* the sheet or the amendment ends too early; the place is its length */
    TRANCHE_WEIGHTS_REFUSED_COUNT = 2,             /* a count is outside its limits; of an amendment, the sheet has no row of that number */
    TRANCHE_WEIGHTS_REFUSED_WORDS_FOLLOW = 3,      /* words follow the last section, or the five words of an amendment */
    TRANCHE_WEIGHTS_REFUSED_FACT = 4,              /* a fact is none of its codes */
    TRANCHE_WEIGHTS_REFUSED_POOL_AMOUNT = 5,       /* an exposure or nominal amount is 0 or above 10^10 */
    TRANCHE_WEIGHTS_REFUSED_RISK_WEIGHT = 6,       /* a risk weight is above 1250%, in the sheet's unit */
    TRANCHE_WEIGHTS_REFUSED_STATUS = 7,            /* a status that the deal can't have */
    TRANCHE_WEIGHTS_REFUSED_TRANCHE_AMOUNT = 8,    /* a tranche amount is 0 or above 10^13, or more is held than there is */
    TRANCHE_WEIGHTS_REFUSED_CLASS = 9,             /* a class out of order */
    TRANCHE_WEIGHTS_REFUSED_MATURITY = 10,         /* a maturity outside 1 to 1200 months */
    TRANCHE_WEIGHTS_REFUSED_RATING = 11,           /* a rating that is not listed */
    TRANCHE_WEIGHTS_REFUSED_THIN_TRANCHE = 13,     /* a tranche too thin for the formula; the place of its amount */
    TRANCHE_WEIGHTS_REFUSED_ROOM = 14,             /* too few words for the lines or for the converted sheet; place 0 */
    TRANCHE_WEIGHTS_REFUSED_FILE_LENGTH = 15,      /* a file's length is no multiple of TRANCHE_WEIGHTS_BYTES_PER_WORD or above TRANCHE_WEIGHTS_FILE_BYTES; place 0 */
    TRANCHE_WEIGHTS_REFUSED_STC_MARK = 16,         /* an STC mark on a re-securitisation */
    TRANCHE_WEIGHTS_REFUSED_DATE = 17,             /* with a reporting date: no day of the years 2000 to 2199, or a maturity not after the reporting date */
    TRANCHE_WEIGHTS_REFUSED_IRB_FIGURE = 18,       /* a figure of the IRB section is outside its limits */
    TRANCHE_WEIGHTS_REFUSED_NOT_WHOLE_PERCENT = 19 /* in a conversion to whole percent: a risk weight that is no multiple of 100 hundredths */
};

/* The functions as the archive names them. They take what the functions below take, and no null pointer. */
uint64_t tranche_weights_weigh_v10(const uint64_t *sheet, size_t words, uint64_t *results, size_t room, uint64_t *place, uint64_t *count,
                                   uint64_t *charge);
uint64_t tranche_weights_weigh_file_v10(const uint8_t *file, size_t size, uint64_t *results, size_t room, uint64_t *place, uint64_t *count,
                                        uint64_t *charge);
uint64_t tranche_weights_report_v10(const uint8_t *file, size_t size, uint8_t *text, size_t room);
uint64_t tranche_weights_block_sums_v10(const uint64_t *sheet, size_t words, uint64_t block, uint64_t *place, uint64_t *sums);
uint64_t tranche_weights_convert_v10(const uint64_t *sheet, size_t words, uint64_t *output, size_t room, uint64_t *place, uint64_t *count);
uint64_t tranche_weights_open_pool_v10(const uint64_t *sheet, size_t words, uint64_t *place, uint64_t *sums);
uint64_t tranche_weights_is_opened_v10(const uint64_t *sheet, size_t words, const uint64_t *sums);
uint64_t tranche_weights_amend_v10(uint64_t *sheet, size_t words, uint64_t *sums, const uint64_t *amendment, size_t amendment_words,
                                   uint64_t *place);
uint64_t tranche_weights_opened_charge_v10(const uint64_t *sheet, size_t words, const uint64_t *sums);
uint64_t tranche_weights_weigh_opened_v10(const uint64_t *sheet, size_t words, const uint64_t *sums, uint64_t *results, size_t room,
                                          uint64_t *place, uint64_t *count, uint64_t *charge);

/*
 * Weighs every tranche of a deal sheet.
 *
 * sheet, words     the sheet and how many words it has; any words are allowed
 * results, room    where the lines go, and how many words may be written there
 * place, count, charge   one word each, written in every case
 *
 * Returns TRANCHE_WEIGHTS_ACCEPTED where the sheet is accepted: *count tranches, their lines at the start of results in the sheet's order, TRANCHE_WEIGHTS_LINE_WORDS
 * words each, later words as they were; *charge is the pool charge in millionths, under SEC-IRBA the mixed one; *place is 0.
 * Returns the refusal's number, any but TRANCHE_WEIGHTS_REFUSED_FILE_LENGTH and TRANCHE_WEIGHTS_REFUSED_NOT_WHOLE_PERCENT, where it is refused: *place is the place of
 * the faulty word, counted from 0 (0 for TRANCHE_WEIGHTS_REFUSED_ROOM), *count and *charge are 0, and every word of results is as it was.
 */
static inline uint64_t tranche_weights_weigh(const uint64_t *sheet, size_t words, uint64_t *results, size_t room, uint64_t *place,
                                             uint64_t *count, uint64_t *charge)
{
    uint64_t nothing = 0;
    return tranche_weights_weigh_v10(words ? sheet : &nothing, words, room ? results : &nothing, room, place, count, charge);
}

/*
 * Weighs every tranche of the deal sheet that a file holds: the sheet's words, eight bytes each, lowest byte first.
 *
 * file, size       the bytes of the file; any bytes are allowed
 *
 * Returns TRANCHE_WEIGHTS_REFUSED_FILE_LENGTH, with *place 0, where the length of the file is no multiple of TRANCHE_WEIGHTS_BYTES_PER_WORD or above
 * TRANCHE_WEIGHTS_FILE_BYTES, whatever else may be wrong; else what tranche_weights_weigh returns for its words. The other parameters are as there.
 */
static inline uint64_t tranche_weights_weigh_file(const uint8_t *file, size_t size, uint64_t *results, size_t room, uint64_t *place,
                                                  uint64_t *count, uint64_t *charge)
{
    uint8_t no_byte = 0;
    uint64_t nothing = 0;
    return tranche_weights_weigh_file_v10(size ? file : &no_byte, size, room ? results : &nothing, room, place, count, charge);
}

/*
 * Writes the report on a sheet's file: the text that the program tranche_report prints.
 *
 * file, size       the bytes of the file; any bytes are allowed
 * text, room       where the text goes, and how many bytes may be written there
 *
 * Returns the length of the text in bytes. Where that is at most room, the text stands at the start of text and later bytes are as they were; where it is more,
 * nothing was written. There is no byte 0 at the text's end. A refusal is a text too: "refused NUMBER at PLACE" and a newline.
 */
static inline uint64_t tranche_weights_report(const uint8_t *file, size_t size, uint8_t *text, size_t room)
{
    uint8_t nothing = 0;
    return tranche_weights_report_v10(size ? file : &nothing, size, room ? text : &nothing, room);
}

/*
 * Reads the sums of a block of a deal sheet's pool; no tranche is weighed.
 *
 * sheet, words     the sheet and how many words it has; any words are allowed
 * block            the block's number, counted from 0; any number is allowed
 * place, sums      one word, and TRANCHE_WEIGHTS_SUM_WORDS words, written in every case
 *
 * Returns TRANCHE_WEIGHTS_ACCEPTED where the sheet gets none of the refusals below: the sums over the block's rows stand in sums, *place is 0. Past the last block
 * every sum is 0; up to it TRANCHE_WEIGHTS_SUM_EXPOSURE and TRANCHE_WEIGHTS_SUM_NOMINAL are at least 1, since every row has both amounts, and any other sum may be
 * 0, as the known exposure where all rows have status 2.
 * Returns the refusal's number where it gets one, whatever the block: *place is the place of the faulty word, counted from 0, and every sum is 0. The refusals are
 * those of tranche_weights_weigh but TRANCHE_WEIGHTS_REFUSED_THIN_TRANCHE and TRANCHE_WEIGHTS_REFUSED_ROOM, which are not judged here.
 */
static inline uint64_t tranche_weights_block_sums(const uint64_t *sheet, size_t words, uint64_t block, uint64_t *place, uint64_t *sums)
{
    uint64_t nothing = 0;
    return tranche_weights_block_sums_v10(words ? sheet : &nothing, words, block, place, sums);
}

/*
 * Rewrites a deal sheet in the other unit of the risk weights: one in whole percent in hundredths of a percent, one in hundredths in whole percent. The list of facts is
 * filled with zeros to TRANCHE_WEIGHTS_MOST_FACTS, the unit is changed, each risk weight of a pool row is multiplied or divided by 100, and all else is as it stands, the
 * IRB average weight among it. tranche_weights_weigh gives the rewritten sheet the charge and the lines of the given one; where that one has a tranche that is too thin
 * for the formula, so has the rewritten one.
 *
 * sheet, words     the sheet and how many words it has; any words are allowed
 * output, room     where the rewritten sheet goes, and how many words may be written there; TRANCHE_WEIGHTS_SHEET_WORDS are always enough
 * place, count     one word each, written in every case
 *
 * Returns TRANCHE_WEIGHTS_ACCEPTED where the sheet gets none of the refusals below: the rewritten sheet stands at the start of output, later words as they were; *count
 * is how many words it has, those of the sheet and one for each fact that was filled in; *place is 0.
 * Returns the refusal's number where it gets one: *place is the place of the faulty word in the sheet as given, counted from 0, *count is 0, and every word of output is
 * as it was. The refusals are those of tranche_weights_block_sums; after them TRANCHE_WEIGHTS_REFUSED_NOT_WHOLE_PERCENT, at the first such risk weight; and last
 * TRANCHE_WEIGHTS_REFUSED_ROOM, with *place 0, where room is less than the words of the rewritten sheet. TRANCHE_WEIGHTS_REFUSED_THIN_TRANCHE is not judged here.
 */
static inline uint64_t tranche_weights_convert(const uint64_t *sheet, size_t words, uint64_t *output, size_t room, uint64_t *place, uint64_t *count)
{
    uint64_t nothing = 0;
    return tranche_weights_convert_v10(words ? sheet : &nothing, words, room ? output : &nothing, room, place, count);
}

/*
 * Opens a deal sheet's pool: the sums of all its rows; no tranche is weighed.
 *
 * sheet, words     the sheet and how many words it has; any words are allowed
 * place            one word, written in every case
 * sums             TRANCHE_WEIGHTS_SUM_WORDS words, written where the sheet is accepted
 *
 * Returns TRANCHE_WEIGHTS_ACCEPTED where the sheet gets none of the refusals below: sheet and sums are now an opened pool, *place is 0. A sheet in which a tranche is
 * too thin for the formula is opened all the same: tranche_weights_weigh_opened then refuses it, until an amendment mends that.
 * Returns the refusal's number where it gets one: *place is the place of the faulty word, counted from 0, and sums are as they were. The refusals are those of
 * tranche_weights_block_sums.
 */
static inline uint64_t tranche_weights_open_pool(const uint64_t *sheet, size_t words, uint64_t *place, uint64_t *sums)
{
    uint64_t nothing = 0;
    return tranche_weights_open_pool_v10(words ? sheet : &nothing, words, place, sums);
}

/*
 * Tells whether a sheet and sums are an opened pool: the sheet gets no refusal by tranche_weights_open_pool, and the sums are those that it would write.
 *
 * sheet, words     the sheet and how many words it has; any words are allowed
 * sums             TRANCHE_WEIGHTS_SUM_WORDS words; any are allowed
 *
 * Returns 1 where they are, and 0 where they are not.
 */
static inline uint64_t tranche_weights_is_opened(const uint64_t *sheet, size_t words, const uint64_t *sums)
{
    uint64_t nothing = 0;
    return tranche_weights_is_opened_v10(words ? sheet : &nothing, words, sums);
}

/*
 * Amends an opened pool: replaces one row of the sheet, and corrects the sums.
 *
 * sheet, words, sums   an opened pool, as tranche_weights_is_opened tells; both are written
 * amendment, amendment_words   the amendment and how many words it has; any words are allowed
 * place            one word, written in every case
 *
 * Returns TRANCHE_WEIGHTS_ACCEPTED where the amendment gets none of the refusals below: the four words of that row are the amendment's last four and every other word
 * of the sheet is as it was, the sums are those of the rows as they now stand, and *place is 0.
 * Returns the refusal's number where it gets one: *place is the place of the faulty word in the amendment, counted from 0, and neither sheet nor sums have changed.
 * The words are judged from the first one on: TRANCHE_WEIGHTS_REFUSED_COUNT where the sheet has no row of that number; then TRANCHE_WEIGHTS_REFUSED_POOL_AMOUNT,
 * TRANCHE_WEIGHTS_REFUSED_RISK_WEIGHT and TRANCHE_WEIGHTS_REFUSED_STATUS as in a sheet, by the unit and the kind of deal of this one;
 * TRANCHE_WEIGHTS_REFUSED_MISSING_WORD, with *place the amendment's length, where it has fewer than five words and none of them is bad; and last
 * TRANCHE_WEIGHTS_REFUSED_WORDS_FOLLOW, with *place TRANCHE_WEIGHTS_AMENDMENT_WORDS, where all five are good and more follow.
 */
static inline uint64_t tranche_weights_amend(uint64_t *sheet, size_t words, uint64_t *sums, const uint64_t *amendment, size_t amendment_words,
                                             uint64_t *place)
{
    uint64_t nothing = 0;
    return tranche_weights_amend_v10(sheet, words, sums, amendment_words ? amendment : &nothing, amendment_words, place);
}

/*
 * Gives the pool charge of an opened pool.
 *
 * sheet, words, sums   an opened pool, as tranche_weights_is_opened tells
 *
 * Returns the charge in millionths, under SEC-IRBA the mixed one: that which tranche_weights_weigh gives where it accepts the sheet. Where it would refuse a tranche that
 * is too thin for the formula, or too little room, and so give 0, the charge is given here all the same.
 */
static inline uint64_t tranche_weights_opened_charge(const uint64_t *sheet, size_t words, const uint64_t *sums)
{
    return tranche_weights_opened_charge_v10(sheet, words, sums);
}

/*
 * Weighs every tranche of an opened pool.
 *
 * sheet, words, sums   an opened pool, as tranche_weights_is_opened tells
 *
 * Returns and writes what tranche_weights_weigh returns and writes for the sheet. The only refusals are TRANCHE_WEIGHTS_REFUSED_ROOM and
 * TRANCHE_WEIGHTS_REFUSED_THIN_TRANCHE. The other parameters are as there.
 */
static inline uint64_t tranche_weights_weigh_opened(const uint64_t *sheet, size_t words, const uint64_t *sums, uint64_t *results, size_t room,
                                                    uint64_t *place, uint64_t *count, uint64_t *charge)
{
    uint64_t nothing = 0;
    return tranche_weights_weigh_opened_v10(sheet, words, sums, room ? results : &nothing, room, place, count, charge);
}

#ifdef __cplusplus
}
#endif

#endif
