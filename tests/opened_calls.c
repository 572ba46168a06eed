/*
 * Calls the header's five functions on opened pools as a program in C does, on threads with small stacks. Held here: sheets that open and sheets that do not; what
 * tranche_weights_is_opened tells of sums and of a sheet that are a word off; every kind of amendment and every refusal of one, each with the words before, beside and
 * behind the pool that must be as they were; charge and lines, which must be those of a fresh load; a pool of one thin tranche, before and after it is mended; the charge
 * of SEC-IRBA; too little room, and a null pointer for every list of length 0; and runs of amendments, good and bad ones, over pools of the most rows and tranches, held
 * to a fresh load after each. Stops with status 1 and one line where something is not what is due. tests/c_example.sh runs it.
 */
#include <string.h>

#include "trial.h"

/* The places of the count of rows and of the first row in a sheet of four facts, and of two words of the only tranche of the sheet with rows of three statuses. */
#define ROW_COUNT_PLACE 5
#define FIRST_ROW_PLACE 6
#define AMOUNT_PLACE 19
#define MONTHS_PLACE 21

/* The most that an amount may be, and a risk weight in whole percent and in hundredths of a percent. */
#define MOST_AMOUNT 10000000000
#define MOST_PERCENT 1250
#define MOST_HUNDREDTHS 125000

/* A pool in lent memory: its sheet and its sums, each with a word before it and the words behind it that no call may touch; how many words the sheet has. */
struct pool {
    uint64_t before_sheet, sheet[TRANCHE_WEIGHTS_SHEET_WORDS + 1], before_sums, sums[TRANCHE_WEIGHTS_SUM_WORDS + 1];
    size_t words;
};

/* The pool of a trial, and what it must be after a call. The small stacks have no room for them. */
static struct pool pool, due_pool;

/* What a call on tranches gave. */
struct given {
    uint64_t results[TRANCHE_WEIGHTS_RESULT_WORDS], number, place, count, charge;
};

/* What was given for the opened pool, and for its sheet loaded afresh. */
static struct given of_pool, of_sheet;

/* Lends memory for a pool, with every word as it is before a call. */
static void lend(void)
{
    uint64_t *words = (uint64_t *)&pool;
    for (size_t i = 0; i < sizeof pool / sizeof *words; i++)
        words[i] = WORD_BEFORE;
    pool.words = 0;
}

/* Puts words behind those that the sheet has. */
static void append(const uint64_t *words, size_t count)
{
    memcpy(pool.sheet + pool.words, words, count * sizeof *words);
    pool.words += count;
}

/* Adds up the sums of all blocks of the pool's sheet. */
static void add_blocks(uint64_t *sums)
{
    uint64_t place, of_block[TRANCHE_WEIGHTS_SUM_WORDS];
    memset(sums, 0, sizeof of_block);
    for (uint64_t block = 0; block < TRANCHE_WEIGHTS_MOST_BLOCKS; block++) {
        due(tranche_weights_block_sums(pool.sheet, pool.words, block, &place, of_block) == TRANCHE_WEIGHTS_ACCEPTED, "the sums of a block");
        for (size_t i = 0; i < TRANCHE_WEIGHTS_SUM_WORDS; i++)
            sums[i] += of_block[i];
    }
}

/* Whether sheet and sums are an opened pool, and nothing was written to tell it. */
static uint64_t is_opened(void)
{
    due_pool = pool;
    uint64_t told = tranche_weights_is_opened(pool.sheet, pool.words, pool.sums);
    due(memcmp(&pool, &due_pool, sizeof pool) == 0, "a pool as it was after the question whether it is one");
    return told;
}

/* What there is before a call on tranches. */
static void clear(struct given *g)
{
    uint64_t *words = (uint64_t *)g;
    for (size_t i = 0; i < sizeof *g / sizeof *words; i++)
        words[i] = WORD_BEFORE;
}

/* Weighs the opened pool with so much room, and the same words as a fresh load does; holds both answers to be the same in every word. */
static void weigh(size_t room, const char *what)
{
    clear(&of_pool);
    clear(&of_sheet);
    of_pool.number =
        tranche_weights_weigh_opened(pool.sheet, pool.words, pool.sums, of_pool.results, room, &of_pool.place, &of_pool.count, &of_pool.charge);
    of_sheet.number = tranche_weights_weigh(pool.sheet, pool.words, of_sheet.results, room, &of_sheet.place, &of_sheet.count, &of_sheet.charge);
    due(memcmp(&of_pool, &of_sheet, sizeof of_pool) == 0, what);
}

/* Holds that the pool is opened, and that charge and lines are those of a fresh load; nothing is written to the pool. */
static void as_loaded(const char *what)
{
    due(is_opened() == 1, what);
    weigh(TRANCHE_WEIGHTS_RESULT_WORDS, what);
    uint64_t charge = tranche_weights_opened_charge(pool.sheet, pool.words, pool.sums);
    due(of_sheet.number == TRANCHE_WEIGHTS_REFUSED_THIN_TRANCHE || charge == of_sheet.charge, what);
    due(memcmp(&pool, &due_pool, sizeof pool) == 0, what);
}

/* Opens the lent sheet, which must be accepted: the sums are those of all its blocks, and no other word has changed. */
static void open_lent(const char *what)
{
    uint64_t place = WORD_BEFORE;
    due_pool = pool;
    add_blocks(due_pool.sums);
    due(tranche_weights_open_pool(pool.sheet, pool.words, &place, pool.sums) == TRANCHE_WEIGHTS_ACCEPTED && place == 0, what);
    due(memcmp(&pool, &due_pool, sizeof pool) == 0, what);
    as_loaded(what);
}

/* Lends a sheet of so many words and opens it. */
static void open_sheet(const uint64_t *from, size_t words, const char *what)
{
    lend();
    append(from, words);
    open_lent(what);
}

/* Holds that a sheet of so many words is not opened: the refusal, and sums as they were. */
static void not_opened(const uint64_t *from, size_t words, uint64_t number, uint64_t place_due, const char *what)
{
    uint64_t place = WORD_BEFORE;
    lend();
    append(from, words);
    due_pool = pool;
    due(tranche_weights_open_pool(pool.sheet, pool.words, &place, pool.sums) == number && place == place_due, what);
    due(memcmp(&pool, &due_pool, sizeof pool) == 0 && is_opened() == 0, what);
}

/* Where the row of a number stands in a sheet: behind the facts, their count and that of the rows. */
static uint64_t *row_of(struct pool *of, uint64_t number)
{
    return of->sheet + of->sheet[0] + 2 + (number - 1) * TRANCHE_WEIGHTS_ROW_WORDS;
}

/* Makes an amendment that must be accepted: the row is the amendment's, the sums are those of opening it afresh, and no other word has changed. */
static void amended(const uint64_t *amendment, const char *what)
{
    uint64_t place = WORD_BEFORE;
    due_pool = pool;
    memcpy(row_of(&due_pool, amendment[TRANCHE_WEIGHTS_AMENDMENT_ROW]), amendment + 1, TRANCHE_WEIGHTS_ROW_WORDS * sizeof *amendment);
    due(tranche_weights_open_pool(due_pool.sheet, due_pool.words, &place, due_pool.sums) == TRANCHE_WEIGHTS_ACCEPTED, what);
    place = WORD_BEFORE;
    due(tranche_weights_amend(pool.sheet, pool.words, pool.sums, amendment, TRANCHE_WEIGHTS_AMENDMENT_WORDS, &place) == TRANCHE_WEIGHTS_ACCEPTED, what);
    due(place == 0 && memcmp(&pool, &due_pool, sizeof pool) == 0, what);
    as_loaded(what);
}

/* The same for a row that is given word by word. */
static void amend_row(uint64_t number, uint64_t exposure, uint64_t nominal, uint64_t risk_weight, uint64_t status, const char *what)
{
    const uint64_t amendment[TRANCHE_WEIGHTS_AMENDMENT_WORDS] = {
        [TRANCHE_WEIGHTS_AMENDMENT_ROW] = number,
        [TRANCHE_WEIGHTS_AMENDMENT_EXPOSURE] = exposure,
        [TRANCHE_WEIGHTS_AMENDMENT_NOMINAL] = nominal,
        [TRANCHE_WEIGHTS_AMENDMENT_RISK_WEIGHT] = risk_weight,
        [TRANCHE_WEIGHTS_AMENDMENT_STATUS] = status,
    };
    amended(amendment, what);
}

/* Makes an amendment of so many words that must be refused: its number and place, and neither sheet nor sums have changed. */
static void not_amended(const uint64_t *amendment, size_t words, uint64_t number, uint64_t place_due, const char *what)
{
    uint64_t place = WORD_BEFORE;
    due_pool = pool;
    due(tranche_weights_amend(pool.sheet, pool.words, pool.sums, amendment, words, &place) == number && place == place_due, what);
    due(memcmp(&pool, &due_pool, sizeof pool) == 0 && is_opened() == 1, what);
}

/* The same for the five words of an amendment. */
static void not_amend_row(uint64_t row, uint64_t exposure, uint64_t nominal, uint64_t risk_weight, uint64_t status, uint64_t number, uint64_t place)
{
    const uint64_t amendment[TRANCHE_WEIGHTS_AMENDMENT_WORDS] = {row, exposure, nominal, risk_weight, status};
    not_amended(amendment, TRANCHE_WEIGHTS_AMENDMENT_WORDS, number, place, "five words of which one is bad");
}

/* Opening: rows of every status and a re-securitisation; and sheets with a word missing, a word too many, a bad status and a bad rating, and none at all. */
static void *try_open(void *unused)
{
    uint64_t words[ROWS_SHEET_WORDS + 1] = {0}, place = WORD_BEFORE;
    open_sheet(rows_sheet, ROWS_SHEET_WORDS, "a sheet to open");
    due(memcmp(pool.sums, rows_sums, sizeof rows_sums) == 0, "the sums of an opened pool");
    open_sheet(resecuritisation, RESECURITISATION_WORDS, "a re-securitisation to open");
    due(memcmp(pool.sums, resecuritisation_sums, sizeof resecuritisation_sums) == 0, "the sums of an opened re-securitisation");
    memcpy(words, rows_sheet, sizeof rows_sheet);
    not_opened(words, ROWS_SHEET_WORDS - 1, TRANCHE_WEIGHTS_REFUSED_MISSING_WORD, ROWS_SHEET_WORDS - 1, "a sheet to open with a word missing");
    not_opened(words, ROWS_SHEET_WORDS + 1, TRANCHE_WEIGHTS_REFUSED_WORDS_FOLLOW, ROWS_SHEET_WORDS, "a sheet to open with a word too many");
    words[ROWS_SHEET_WORDS - 1] = 19;
    not_opened(words, ROWS_SHEET_WORDS, TRANCHE_WEIGHTS_REFUSED_RATING, ROWS_SHEET_WORDS - 1, "a sheet to open with a rating that is not listed");
    words[FIRST_ROW_PLACE + 3] = 3;
    not_opened(words, ROWS_SHEET_WORDS, TRANCHE_WEIGHTS_REFUSED_STATUS, FIRST_ROW_PLACE + 3, "a sheet to open with two faults");
    not_opened(words, 0, TRANCHE_WEIGHTS_REFUSED_MISSING_WORD, 0, "a sheet of no words to open");
    due(tranche_weights_open_pool(NULL, 0, &place, pool.sums) == TRANCHE_WEIGHTS_REFUSED_MISSING_WORD && place == 0, "no sheet to open");
    due(memcmp(&pool, &due_pool, sizeof pool) == 0, "the sums of no sheet");
    return unused;
}

/* Holds what is told with so much added to a word of the pool, and puts the word back. */
static void told_with(uint64_t *word, uint64_t more, uint64_t told, const char *what)
{
    *word += more;
    due(is_opened() == told, what);
    *word -= more;
}

/* Whether it is an opened pool: each sum one more and one less, words of the sheet, a sheet too short and too long, sums of 0, no sheet. A tranche is not in the sums. */
static void *try_is_opened(void *unused)
{
    static const uint64_t no_sums[TRANCHE_WEIGHTS_SUM_WORDS];
    open_sheet(rows_sheet, ROWS_SHEET_WORDS, "a sheet to ask about");
    for (size_t i = 0; i < TRANCHE_WEIGHTS_SUM_WORDS; i++) {
        told_with(pool.sums + i, 1, 0, "a sum that is one too high");
        told_with(pool.sums + i, UINT64_MAX, 0, "a sum that is one too low");
    }
    for (size_t i = ROW_COUNT_PLACE; i < AMOUNT_PLACE; i++)
        told_with(pool.sheet + i, 1, 0, "a word of the pool's rows or of the counts that is one too high");
    told_with(pool.sheet + MONTHS_PLACE, 1, 1, "another maturity");
    told_with(pool.sheet + MONTHS_PLACE, UINT64_MAX - 60, 0, "a maturity that is refused");
    told_with(pool.sheet + ROWS_SHEET_WORDS - 1, UINT64_MAX, 0, "a rating that is not listed");
    due(is_opened() == 1, "an opened pool with every word put back");
    due(tranche_weights_is_opened(pool.sheet, pool.words - 1, pool.sums) == 0, "a sheet too short");
    due(tranche_weights_is_opened(pool.sheet, pool.words + 1, pool.sums) == 0, "a sheet too long");
    due(tranche_weights_is_opened(pool.sheet, pool.words, no_sums) == 0, "sums of 0");
    due(tranche_weights_is_opened(NULL, 0, pool.sums) == 0 && tranche_weights_is_opened(NULL, 0, no_sums) == 0, "no sheet with sums");
    return unused;
}

/* Amendments of one word each, in whole percent: the first, a middle and the last row, and each status to each; then all four words at once, to their limits. */
static void *try_amend(void *unused)
{
    open_sheet(rows_sheet, ROWS_SHEET_WORDS, "a sheet to amend");
    amend_row(1, 100, 120, 100, 0, "a row as it is");
    due(memcmp(pool.sums, rows_sums, sizeof rows_sums) == 0, "the sums after a row as it is");
    amend_row(1, 90, 120, 100, 0, "an exposure");
    amend_row(2, 60, 75, 50, 1, "a nominal");
    amend_row(3, 40, 45, 150, 2, "a risk weight");
    amend_row(2, 60, 75, MOST_PERCENT, 1, "the most of a risk weight");
    for (uint64_t from = 0; from < 3; from++)
        for (uint64_t to = 0; to < 3; to++) {
            amend_row(3, 40, 45, 150, from, "the status before");
            amend_row(3, 40, 45, 150, to, "another status");
        }
    amend_row(1, 1, 1, 0, 2, "the least of a row");
    amend_row(1, MOST_AMOUNT, MOST_AMOUNT, MOST_PERCENT, 1, "the most of a row");
    amend_row(1, 100, 120, 100, 0, "the first row put back");
    amend_row(2, 60, 70, 50, 1, "the second row put back");
    amend_row(3, 40, 45, 20, 2, "the last row put back");
    due(memcmp(pool.sums, rows_sums, sizeof rows_sums) == 0, "the sums of a pool put back");
    due(memcmp(pool.sheet, rows_sheet, sizeof rows_sheet) == 0, "the sheet of a pool put back");
    return unused;
}

/* Amendments of the same deal in hundredths of a percent, and of a re-securitisation; the risk weights and statuses that these alone refuse. */
static void *try_amend_kinds(void *unused)
{
    uint64_t words[ROWS_SHEET_WORDS + TRANCHE_WEIGHTS_MOST_FACTS - TRANCHE_WEIGHTS_FEWEST_FACTS], place, count;
    due(tranche_weights_convert(rows_sheet, ROWS_SHEET_WORDS, words, sizeof words / sizeof *words, &place, &count) == TRANCHE_WEIGHTS_ACCEPTED,
        "a sheet in hundredths");
    open_sheet(words, count, "a sheet in hundredths to open");
    due(memcmp(pool.sums, rows_sums, sizeof rows_sums) == 0, "the sums of a sheet in hundredths");
    amend_row(2, 60, 70, 3750, 1, "a risk weight in hundredths");
    due(pool.sums[TRANCHE_WEIGHTS_SUM_WEIGHTED_EXPOSURE] == 1305000, "the weighted exposure after 37.5%");
    amend_row(1, 100, 120, MOST_HUNDREDTHS, 0, "the most of a risk weight in hundredths");
    not_amend_row(1, 100, 120, MOST_HUNDREDTHS + 1, 0, TRANCHE_WEIGHTS_REFUSED_RISK_WEIGHT, TRANCHE_WEIGHTS_AMENDMENT_RISK_WEIGHT);
    open_sheet(resecuritisation, RESECURITISATION_WORDS, "a re-securitisation to amend");
    amend_row(1, 90, 110, 60, 3, "a row of a re-securitisation");
    static const uint64_t other[] = {0, 1, 2, 4, UINT64_MAX};
    for (size_t i = 0; i < sizeof other / sizeof *other; i++)
        not_amend_row(1, 90, 110, 60, other[i], TRANCHE_WEIGHTS_REFUSED_STATUS, TRANCHE_WEIGHTS_AMENDMENT_STATUS);
    return unused;
}

/*
 * Refused amendments of an ordinary deal of three rows in whole percent: each bad word, of several the first, every length. Of the rows that there are not, the third,
 * cut to 32 bits, is 1; so is the fourth where its number times four is cut to 64 bits.
 */
static void *try_refused(void *unused)
{
    static const uint64_t rows[] = {0, 4, 4294967297, 4611686018427387905, UINT64_MAX}, amounts[] = {0, MOST_AMOUNT + 1, UINT64_MAX};
    static const uint64_t weights[] = {MOST_PERCENT + 1, UINT64_MAX}, statuses[] = {3, 4, UINT64_MAX};
    uint64_t words[TRANCHE_WEIGHTS_AMENDMENT_WORDS + 1] = {1, 100, 120, 100, 0, 0};
    open_sheet(rows_sheet, ROWS_SHEET_WORDS, "a sheet to amend in vain");
    for (size_t i = 0; i < sizeof rows / sizeof *rows; i++)
        not_amend_row(rows[i], 100, 120, 100, 0, TRANCHE_WEIGHTS_REFUSED_COUNT, TRANCHE_WEIGHTS_AMENDMENT_ROW);
    for (size_t i = 0; i < sizeof amounts / sizeof *amounts; i++) {
        not_amend_row(1, amounts[i], 120, 100, 0, TRANCHE_WEIGHTS_REFUSED_POOL_AMOUNT, TRANCHE_WEIGHTS_AMENDMENT_EXPOSURE);
        not_amend_row(1, 100, amounts[i], 100, 0, TRANCHE_WEIGHTS_REFUSED_POOL_AMOUNT, TRANCHE_WEIGHTS_AMENDMENT_NOMINAL);
    }
    for (size_t i = 0; i < sizeof weights / sizeof *weights; i++)
        not_amend_row(1, 100, 120, weights[i], 0, TRANCHE_WEIGHTS_REFUSED_RISK_WEIGHT, TRANCHE_WEIGHTS_AMENDMENT_RISK_WEIGHT);
    for (size_t i = 0; i < sizeof statuses / sizeof *statuses; i++)
        not_amend_row(1, 100, 120, 100, statuses[i], TRANCHE_WEIGHTS_REFUSED_STATUS, TRANCHE_WEIGHTS_AMENDMENT_STATUS);
    not_amend_row(UINT64_MAX, UINT64_MAX, UINT64_MAX, UINT64_MAX, UINT64_MAX, TRANCHE_WEIGHTS_REFUSED_COUNT, TRANCHE_WEIGHTS_AMENDMENT_ROW);
    not_amend_row(3, 0, 0, UINT64_MAX, 3, TRANCHE_WEIGHTS_REFUSED_POOL_AMOUNT, TRANCHE_WEIGHTS_AMENDMENT_EXPOSURE);
    not_amend_row(3, 1, 1, 1251, 3, TRANCHE_WEIGHTS_REFUSED_RISK_WEIGHT, TRANCHE_WEIGHTS_AMENDMENT_RISK_WEIGHT);
    not_amended(NULL, 0, TRANCHE_WEIGHTS_REFUSED_MISSING_WORD, 0, "no amendment");
    for (size_t length = 0; length < TRANCHE_WEIGHTS_AMENDMENT_WORDS; length++)
        not_amended(words, length, TRANCHE_WEIGHTS_REFUSED_MISSING_WORD, length, "an amendment with words missing");
    not_amended(words, TRANCHE_WEIGHTS_AMENDMENT_WORDS + 1, TRANCHE_WEIGHTS_REFUSED_WORDS_FOLLOW, TRANCHE_WEIGHTS_AMENDMENT_WORDS, "six words");
    words[TRANCHE_WEIGHTS_AMENDMENT_NOMINAL] = 0;
    not_amended(words, TRANCHE_WEIGHTS_AMENDMENT_WORDS + 1, TRANCHE_WEIGHTS_REFUSED_POOL_AMOUNT, TRANCHE_WEIGHTS_AMENDMENT_NOMINAL,
                "six words with a bad nominal");
    words[TRANCHE_WEIGHTS_AMENDMENT_EXPOSURE] = 0;
    not_amended(words, 2, TRANCHE_WEIGHTS_REFUSED_POOL_AMOUNT, TRANCHE_WEIGHTS_AMENDMENT_EXPOSURE, "two words with a bad exposure");
    words[TRANCHE_WEIGHTS_AMENDMENT_ROW] = 0;
    not_amended(words, 1, TRANCHE_WEIGHTS_REFUSED_COUNT, TRANCHE_WEIGHTS_AMENDMENT_ROW, "one word with a bad row number");
    return unused;
}

/* Holds that the opened pool is refused for its thin tranche, with room and with none, and has its charge all the same. */
static void is_thin(uint64_t charge, const char *what)
{
    weigh(TRANCHE_WEIGHTS_RESULT_WORDS, what);
    due(of_pool.number == TRANCHE_WEIGHTS_REFUSED_THIN_TRANCHE && of_pool.place == THIN_PLACE && of_pool.count == 0 && of_pool.charge == 0, what);
    weigh(0, "a thin tranche and no room");
    due(tranche_weights_opened_charge(pool.sheet, pool.words, pool.sums) == charge, what);
}

/*
 * A thin tranche: at half the risk weight it is still too thin. With a nominal of 9000000 the classes end at 9 and at 4 of it, from 1 millionth down to 0, so that it is
 * a millionth thick; and at 125% the charge is 100000, and no part of it lies above that.
 */
static void *try_thin(void *unused)
{
    open_sheet(thin_sheet, THIN_SHEET_WORDS, "a sheet with a thin tranche to open");
    due(memcmp(pool.sums, thin_sums, sizeof thin_sums) == 0, "the sums over a thin tranche");
    is_thin(80000, "an opened pool with a thin tranche");
    amend_row(1, 6000000, 10000000, 50, 0, "an amendment that does not mend a thin tranche");
    is_thin(40000, "a thin tranche at half the charge");
    amend_row(1, 6000000, 9000000, 100, 0, "a nominal that mends a thin tranche");
    due(of_pool.number == TRANCHE_WEIGHTS_ACCEPTED && of_pool.count == 2 && of_pool.charge == 80000, "a mended tranche");
    amend_row(1, 6000000, 10000000, 100, 0, "the thin tranche again");
    is_thin(80000, "a tranche that is thin again");
    amend_row(1, 6000000, 10000000, 125, 0, "a charge that mends a thin tranche");
    due(of_pool.number == TRANCHE_WEIGHTS_ACCEPTED && of_pool.count == 2 && of_pool.charge == 100000, "a tranche up to the charge");
    return unused;
}

/* SEC-IRBA: 95% of the charge are the section's, 5% are those of the rows, so that 200% in place of 100% adds 4000. */
static void *try_irb(void *unused)
{
    open_sheet(irb_sheet, IRB_SHEET_WORDS, "a mixed pool to open");
    due(tranche_weights_opened_charge(pool.sheet, pool.words, pool.sums) == IRB_CHARGE, "the charge of an opened mixed pool");
    amend_row(1, 100, 100, 200, 0, "a row of a mixed pool");
    due(tranche_weights_opened_charge(pool.sheet, pool.words, pool.sums) == IRB_CHARGE + 4000, "the charge of an amended mixed pool");
    due(of_pool.results[TRANCHE_WEIGHTS_WORD_APPROACH] == TRANCHE_WEIGHTS_BY_SEC_IRBA, "a SEC-IRBA line of an opened pool");
    return unused;
}

/* Just enough room, a word too little, and none with a null pointer. */
static void *try_room(void *unused)
{
    open_sheet(rows_sheet, ROWS_SHEET_WORDS, "a sheet to weigh");
    weigh(TRANCHE_WEIGHTS_LINE_WORDS, "an opened pool with just enough room");
    due(of_pool.number == TRANCHE_WEIGHTS_ACCEPTED && of_pool.count == 1 && of_pool.place == 0, "the answer with just enough room");
    weigh(TRANCHE_WEIGHTS_LINE_WORDS - 1, "an opened pool with too little room");
    due(of_pool.number == TRANCHE_WEIGHTS_REFUSED_ROOM && of_pool.place == 0 && of_pool.count == 0 && of_pool.charge == 0, "too little room");
    for (size_t i = 0; i < TRANCHE_WEIGHTS_RESULT_WORDS; i++)
        due(of_pool.results[i] == WORD_BEFORE, "results with too little room");
    clear(&of_pool);
    of_pool.number = tranche_weights_weigh_opened(pool.sheet, pool.words, pool.sums, NULL, 0, &of_pool.place, &of_pool.count, &of_pool.charge);
    due(memcmp(&of_pool, &of_sheet, sizeof of_pool) == 0, "no room");
    return unused;
}

/* The pools of the runs: their facts, and the limits of the words of a good amendment. */
struct kind {
    const char *what;
    uint64_t facts[1 + TRANCHE_WEIGHTS_MOST_FACTS], least[TRANCHE_WEIGHTS_AMENDMENT_WORDS], most[TRANCHE_WEIGHTS_AMENDMENT_WORDS];
};
#define LEAST_WITH_STATUS(status) {1, 1, 1, 0, status}
#define MOST_WITH(risk_weight, status) {TRANCHE_WEIGHTS_MOST_ROWS, MOST_AMOUNT, MOST_AMOUNT, risk_weight, status}
static const struct kind kinds[] = {
    {"a run in whole percent", {7, 0, 0, 1, 1, 0, 0, 0}, LEAST_WITH_STATUS(0), MOST_WITH(MOST_PERCENT, 2)},
    {"a run in a mixed pool in hundredths", {7, 2, 0, 1, 1, 0, 0, 1}, LEAST_WITH_STATUS(0), MOST_WITH(MOST_HUNDREDTHS, 2)},
    {"a run in a re-securitisation in hundredths", {7, 0, 1, 1, 1, 0, 0, 1}, LEAST_WITH_STATUS(3), MOST_WITH(MOST_HUNDREDTHS, 3)},
};
#define KINDS (sizeof kinds / sizeof *kinds)
#define AMENDMENTS_OF_A_RUN 1500

/* The next number of a fixed sequence, below a limit. */
static uint64_t drawn(uint64_t limit)
{
    static uint64_t state = 10;
    uint64_t mixed = state += 0x9E3779B97F4A7C15;
    mixed = (mixed ^ (mixed >> 30)) * 0xBF58476D1CE4E5B9;
    mixed = (mixed ^ (mixed >> 27)) * 0x94D049BB133111EB;
    return (mixed ^ (mixed >> 31)) % limit;
}

/* Draws the words of a good amendment; about one of four is at a limit. */
static void draw_good(const struct kind *kind, uint64_t *amendment)
{
    for (size_t i = 0; i < TRANCHE_WEIGHTS_AMENDMENT_WORDS; i++)
        switch (drawn(8)) {
        case 0:
            amendment[i] = kind->least[i];
            break;
        case 1:
            amendment[i] = kind->most[i];
            break;
        default:
            amendment[i] = kind->least[i] + drawn(kind->most[i] - kind->least[i] + 1);
        }
}

/* Makes a word of an amendment bad: one below the least, which below 0 is the most of all words; one above the most; or that most of all. */
static void spoil(const struct kind *kind, uint64_t *amendment)
{
    const size_t at = drawn(TRANCHE_WEIGHTS_AMENDMENT_WORDS);
    const uint64_t bad[] = {kind->least[at] - 1, kind->most[at] + 1, UINT64_MAX};
    amendment[at] = bad[drawn(sizeof bad / sizeof *bad)];
}

/* Makes an amendment of so many words, and holds what is due by the limits: word by word the first that is missing or bad; then that no more follow. */
static void amend_by_limits(const struct kind *kind, const uint64_t *amendment, size_t words)
{
    static const uint64_t numbers[TRANCHE_WEIGHTS_AMENDMENT_WORDS] = {
        TRANCHE_WEIGHTS_REFUSED_COUNT, TRANCHE_WEIGHTS_REFUSED_POOL_AMOUNT, TRANCHE_WEIGHTS_REFUSED_POOL_AMOUNT, TRANCHE_WEIGHTS_REFUSED_RISK_WEIGHT,
        TRANCHE_WEIGHTS_REFUSED_STATUS};
    size_t at = 0;
    while (at < TRANCHE_WEIGHTS_AMENDMENT_WORDS && at < words && amendment[at] >= kind->least[at] && amendment[at] <= kind->most[at])
        at++;
    if (at == words && at < TRANCHE_WEIGHTS_AMENDMENT_WORDS)
        not_amended(amendment, words, TRANCHE_WEIGHTS_REFUSED_MISSING_WORD, at, kind->what);
    else if (at < TRANCHE_WEIGHTS_AMENDMENT_WORDS)
        not_amended(amendment, words, numbers[at], at, kind->what);
    else if (words > TRANCHE_WEIGHTS_AMENDMENT_WORDS)
        not_amended(amendment, words, TRANCHE_WEIGHTS_REFUSED_WORDS_FOLLOW, at, kind->what);
    else
        amended(amendment, kind->what);
}

/* Lends a sheet of a kind with the most rows, drawn, and the most tranches, each its own class and the first four rated; in a mixed pool with the IRB section. */
static void draw_sheet(const struct kind *kind)
{
    const uint64_t rows = TRANCHE_WEIGHTS_MOST_ROWS, tranches = TRANCHE_WEIGHTS_MOST_TRANCHES;
    const uint64_t *section = irb_sheet + IRB_SHEET_WORDS - 1 - TRANCHE_WEIGHTS_IRB_WORDS;
    lend();
    append(kind->facts, 1 + TRANCHE_WEIGHTS_MOST_FACTS);
    append(&rows, 1);
    for (uint64_t i = 0; i < rows; i++) {
        uint64_t amendment[TRANCHE_WEIGHTS_AMENDMENT_WORDS];
        draw_good(kind, amendment);
        append(amendment + 1, TRANCHE_WEIGHTS_ROW_WORDS);
    }
    append(&tranches, 1);
    for (uint64_t i = 0; i < tranches; i++) {
        const uint64_t tranche[TRANCHE_WEIGHTS_TRANCHE_WORDS] = {150000000000, i + 1, 60, 1 + i, i < 4 ? i + 1 : 0, 0, 0};
        append(tranche, TRANCHE_WEIGHTS_TRANCHE_WORDS);
    }
    if (kind->facts[1] != 0)
        append(section, 1 + TRANCHE_WEIGHTS_IRB_WORDS);
}

/* Runs of amendments over pools of the most rows. Of three amendments about one has a bad word, and of six about one has words missing or one too many. */
static void *try_runs(void *unused)
{
    for (const struct kind *kind = kinds; kind < kinds + KINDS; kind++) {
        draw_sheet(kind);
        open_lent(kind->what);
        for (int i = 0; i < AMENDMENTS_OF_A_RUN; i++) {
            uint64_t amendment[TRANCHE_WEIGHTS_AMENDMENT_WORDS + 1] = {0};
            draw_good(kind, amendment);
            if (drawn(3) == 0)
                spoil(kind, amendment);
            amend_by_limits(kind, amendment, drawn(6) ? TRANCHE_WEIGHTS_AMENDMENT_WORDS : drawn(TRANCHE_WEIGHTS_AMENDMENT_WORDS + 2));
        }
        due(of_pool.number == TRANCHE_WEIGHTS_ACCEPTED && of_pool.count == TRANCHE_WEIGHTS_MOST_TRANCHES, kind->what);
        open_lent(kind->what);
    }
    return unused;
}

int main(void)
{
    on_stack(SHEET_STACK, try_open);
    on_stack(SHEET_STACK, try_is_opened);
    on_stack(SHEET_STACK, try_amend);
    on_stack(SHEET_STACK, try_amend_kinds);
    on_stack(SHEET_STACK, try_refused);
    on_stack(SHEET_STACK, try_thin);
    on_stack(SHEET_STACK, try_irb);
    on_stack(SHEET_STACK, try_room);
    on_stack(SHEET_STACK, try_runs);
    return 0;
}
