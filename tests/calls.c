/*
 * Calls the functions of the header as a program in C does, on threads with small stacks, and prints the report on a file's bytes. Held here: lent memory that must
 * be as it was, the answer where the room is one byte or word short and where it is just enough, the four numbers of an accepted and of a refused sheet and file,
 * the least weight, the STC mark, the reporting date, the unit of the risk weights, the IRB section, the sums of blocks, pools of two blocks and of the most rows,
 * sheets in the other unit, up to the longest, and a null pointer for every list of length 0. Stops with status 1 and one line where something is not what is due.
 * tests/c_example.sh runs it.
 */
#include <string.h>

#include "trial.h"

/* The stack, in bytes, that the header says is enough for a call on a file. */
#define FILE_STACK 65536

/* What each lent byte holds before a call. */
#define BYTE_BEFORE 0xA5

/* A sheet that is accepted, its line, and the word after it as it was; its charge. */
static const uint64_t sheet[] = {4, 0, 0, 1, 1, 1, 100, 100, 100, 0, 1, 80, 1, 60, 80, 1, 0, 0};
static const uint64_t lines[TRANCHE_WEIGHTS_LINE_WORDS + 1] = {
    [TRANCHE_WEIGHTS_WORD_APPROACH] = TRANCHE_WEIGHTS_BY_SEC_ERBA,
    [TRANCHE_WEIGHTS_WORD_ATTACHMENT] = 200000,
    [TRANCHE_WEIGHTS_WORD_DETACHMENT] = 1000000,
    [TRANCHE_WEIGHTS_WORD_WEIGHT] = 1900,
    [TRANCHE_WEIGHTS_WORD_RISK_WEIGHTED_AMOUNT] = 16,
    [TRANCHE_WEIGHTS_WORD_CAPITAL] = 2,
    [TRANCHE_WEIGHTS_WORD_LEAST_WEIGHT] = 1900,
    [TRANCHE_WEIGHTS_LINE_WORDS] = WORD_BEFORE,
};
#define WORDS (sizeof sheet / sizeof *sheet)
#define CHARGE 80000

/* The place of its maturity, and another one, at which AAA has 15 + 5 * 8 / 240 = 15.1667%; the weight and the least weight that it gives. */
#define MONTHS_PLACE 13
#define OTHER_MONTHS 14
#define OTHER_WEIGHT 1517
#define OTHER_LEAST_WEIGHT 1516

/* A deal whose class 1 is unrated, over a class 2 rated BBB that runs as long: at five years BBB has 105% in class 1; the place of its maturity. */
static const uint64_t inferring_sheet[] = {4, 0, 0, 1, 0, 1, 1000, 1000, 100, 0, 2, 800, 1, 72, 800, 0, 0, 0, 200, 2, 72, 200, 9, 0, 0};
#define INFERRING_WORDS (sizeof inferring_sheet / sizeof *inferring_sheet)
#define INFERRING_MONTHS_PLACE 13
#define INFERRED_WEIGHT 10500

/* The first sheet with a fifth fact, the STC mark, and the weight of its line; the facts of a re-securitisation with that mark, and its place. */
static const uint64_t stc_sheet[WORDS + 1] = {5, 0, 0, 1, 1, 1, 1, 100, 100, 100, 0, 1, 80, 1, 60, 80, 1, 0, 0};
#define STC_WEIGHT 1000
static const uint64_t stc_resecuritisation[] = {5, 0, 1, 1, 1, 1};
#define STC_PLACE 5

/* The same sheet with a sixth fact, the reporting date, and the maturity as a date 60 months on; the places of both. */
static const uint64_t dated_sheet[WORDS + 2] = {6, 0, 0, 1, 1, 0, 20240228, 1, 100, 100, 100, 0, 1, 80, 1, 20290131, 80, 1, 0, 0};
#define REPORTING_DATE_PLACE 6
#define MATURITY_PLACE 15

/*
 * The mixed pool is the first sheet with the IRB section after it; the places of its count, its number of loans and its share. The parameter, 3.56 / 25 - 1.85 * 0.1465 +
 * 0.55 * 0.45 + 0.07 * 4.2, is 0.412875, and the formula gives 39.0249%. The weight is no lower than that and less than 0.02% above it, the least weight no higher and
 * less than 0.015% below it: the rules leave open whether the weight is the number below or one more, and whether the least weight is the number below or one less.
 */
#define IRB_COUNT_PLACE WORDS
#define LOANS_PLACE (WORDS + 3)
#define SHARE_PLACE (WORDS + 5)
#define IRB_WEIGHT 3903
#define IRB_LEAST_WEIGHT 3902

/*
 * The first sheet with all facts, in hundredths of a percent and in whole percent; how many facts those are more; the places of the unit and of the risk weight, and
 * that of the risk weight in a row. With its loan at 37.5% the charge is 3%, and the line is that of the first sheet; at 12.34% the charge is 0.9872%, and the 19% of AAA are
 * lowered to the cap, 12.34%.
 */
#define FURTHER_FACTS (TRANCHE_WEIGHTS_MOST_FACTS - TRANCHE_WEIGHTS_FEWEST_FACTS)
#define ALL_FACTS_WORDS (WORDS + FURTHER_FACTS)
static const uint64_t hundredths_sheet[ALL_FACTS_WORDS] = {7, 0, 0, 1, 1, 0, 0, 1, 1, 100, 100, 10000, 0, 1, 80, 1, 60, 80, 1, 0, 0};
static const uint64_t percent_sheet[ALL_FACTS_WORDS] = {7, 0, 0, 1, 1, 0, 0, 0, 1, 100, 100, 100, 0, 1, 80, 1, 60, 80, 1, 0, 0};
#define UNIT_PLACE 7
#define RISK_WEIGHT_PLACE 11
#define RISK_WEIGHT_PLACE_IN_ROW 2
#define CHARGE_AT_3750 30000
#define CHARGE_AT_1234 9872

/* The place of the last status in the sheet with rows of three statuses. */
#define LAST_STATUS_PLACE 17

/*
 * A sheet with one row more than a block has: the first is delinquent, the last, alone in the second block, is not known. The sums of both blocks. main puts the sheet
 * together, with the facts and the tranche of the first sheet.
 */
static const uint64_t first_row[TRANCHE_WEIGHTS_ROW_WORDS] = {100, 120, 50, 1};
static const uint64_t next_row[TRANCHE_WEIGHTS_ROW_WORDS] = {100, 120, 50, 0};
static const uint64_t last_row[TRANCHE_WEIGHTS_ROW_WORDS] = {7, 8, 30, 2};
static const uint64_t first_block[TRANCHE_WEIGHTS_SUM_WORDS] = {5000, 6000, 25000000, 5000, 6000, 25000000, 120};
static const uint64_t last_block[TRANCHE_WEIGHTS_SUM_WORDS] = {7, 8, 21000, 0, 0, 0, 0};
#define ROW_COUNT_PLACE 5
#define WORDS_WITH_ROWS(rows) (WORDS + ((rows) - 1) * TRANCHE_WEIGHTS_ROW_WORDS)
#define TWO_BLOCKS_WORDS WORDS_WITH_ROWS(TRANCHE_WEIGHTS_BLOCK_ROWS + 1)
static uint64_t two_blocks[TWO_BLOCKS_WORDS];

/*
 * Its charge and line. Over the rows with known status the base charge is 8 * 25000000 / 5000 = 40000 and the late share 120 / 6000, 20000 millionths, which gives
 * 0.98 * 40000 + 0.02 * 500000 = 49200; with 7 of 5007 not known (5000 * 49200 + 7 * 1000000) / 5007 = 50529.3, rounded up. The attachment point is 5928 / 6008 =
 * 0.9866844, rounded down. The rest is as in the first line: AAA has 19% there, above the floor of 15% and below the cap of 25021000 / 5007 = 4997.2 hundredths.
 */
#define TWO_BLOCKS_CHARGE 50530
static const uint64_t two_blocks_line[TRANCHE_WEIGHTS_LINE_WORDS + 1] = {TRANCHE_WEIGHTS_BY_SEC_ERBA, 986684, 1000000, 1900, 16, 2, 1900, WORD_BEFORE};

/*
 * A sheet of the most rows, 20 blocks of 50. Each row of the n-th has exposure n, nominal 2 * n and a risk weight of n%; the first is delinquent, the last not
 * known. main puts it together as the one before.
 *
 * Its charge and line: 1 to 20 add up to 210, and their squares to 2870. The base charge is 800 * 2870 / 210 = 10933.3, rounded up to 10934, and the late share
 * 1 / 49, 20408.2 millionths, up to 20409; together (979591 * 10934 + 20409 * 500000) / 1000000 = 20915.3, up to 20916; with 1 of 50 not known
 * (49 * 20916 + 1000000) / 50 = 40497.7, rounded up. The attachment point is 20920 / 21000 = 0.9961905, rounded down. The 19% of AAA are lowered to the cap of
 * 2870 / 210 = 13.667%, rounded up. That makes of the 80 held a risk-weighted amount of 10.9 and a capital of 0.9, both rounded up.
 */
#define MOST_ROWS_WORDS WORDS_WITH_ROWS(TRANCHE_WEIGHTS_MOST_ROWS)
static uint64_t most_rows[MOST_ROWS_WORDS];
#define MOST_ROWS_CHARGE 40498
static const uint64_t most_rows_line[TRANCHE_WEIGHTS_LINE_WORDS + 1] = {TRANCHE_WEIGHTS_BY_SEC_ERBA, 996190, 1000000, 1367, 11, 1, 1367, WORD_BEFORE};

/*
 * A sheet of the fewest facts with all else at its most: 1,000 rows, 32 tranches and the IRB section. With all facts it has the most words of a sheet. main puts it
 * together from the rows above, the tranche of the first sheet and the section of the mixed pool. And where converted sheets go.
 */
#define LONGEST_WORDS (TRANCHE_WEIGHTS_SHEET_WORDS - FURTHER_FACTS)
static uint64_t longest[LONGEST_WORDS];
static uint64_t output[TRANCHE_WEIGHTS_SHEET_WORDS + 1];

/* The sums past the last block and of a refused sheet. */
static const uint64_t no_sums[TRANCHE_WEIGHTS_SUM_WORDS];

/* Blocks past the last of every pool. The second, cut to 32 bits, is 0; the third, times the rows of a block and cut to 64 bits, is 34. */
static const uint64_t past[] = {TRANCHE_WEIGHTS_MOST_BLOCKS, 4294967296, 368934881474191033, UINT64_MAX};
#define PAST_BLOCKS (sizeof past / sizeof *past)

/* Result words that are lent: those of two lines, the most that a sheet here has. */
#define RESULTS (2 * TRANCHE_WEIGHTS_LINE_WORDS)

static unsigned char file[TRANCHE_WEIGHTS_FILE_BYTES + 1];
static size_t size;
static unsigned char text[TRANCHE_WEIGHTS_TEXT_BYTES + 1];

/* Whether bytes from one place to another are all the pattern. */
static int untouched(size_t from, size_t to)
{
    for (size_t i = from; i < to; i++)
        if (text[i] != BYTE_BEFORE)
            return 0;
    return 1;
}

/* One call of the report with so much room, over bytes that hold a pattern. */
static uint64_t report(size_t room)
{
    memset(text, BYTE_BEFORE, sizeof text);
    return tranche_weights_report(file, size, text, room);
}

/* The report with one byte too little, with none, and with just enough. */
static void *try_report(void *unused)
{
    uint64_t length = report(TRANCHE_WEIGHTS_TEXT_BYTES);
    due(length <= TRANCHE_WEIGHTS_TEXT_BYTES, "a report longer than the most");
    due(report(length - 1) == length && untouched(0, sizeof text), "a report with a byte too little");
    due(report(0) == length && untouched(0, sizeof text), "a report with no room");
    due(report(length) == length && untouched(length, sizeof text), "a report with just enough room");
    fwrite(text, 1, length, stdout);
    return unused;
}

/* What a call gave. */
struct given {
    uint64_t results[RESULTS], number, place, count, charge;
};

/* What is there before a call; main fills in the results. */
static struct given before = {.number = 9, .place = 9, .count = 9, .charge = 9};

/* One call on so many words of a sheet, with so much room. */
static struct given weigh(const uint64_t *from, size_t words, size_t room)
{
    struct given g = before;
    g.number = tranche_weights_weigh(from, words, g.results, room, &g.place, &g.count, &g.charge);
    return g;
}

/* One call on so many bytes of a sheet's file, with so much room. x86-64 keeps the lowest byte first, as the file does. */
static struct given weigh_file(const uint64_t *from, size_t bytes, size_t room)
{
    struct given g = before;
    g.number = tranche_weights_weigh_file((const uint8_t *)from, bytes, g.results, room, &g.place, &g.count, &g.charge);
    return g;
}

/* Holds a refusal: its number and place, no count and charge, and results as they were. */
static void refused(struct given g, uint64_t number, uint64_t place, const char *what)
{
    due(g.number == number && g.place == place && g.count == 0 && g.charge == 0, what);
    due(memcmp(g.results, before.results, sizeof g.results) == 0, "results of a refused sheet");
}

/* Holds the answer to an accepted sheet of one tranche: its charge, its line and the word after it. */
static void weighed(struct given g, uint64_t charge, const uint64_t *line, const char *what)
{
    due(g.number == TRANCHE_WEIGHTS_ACCEPTED && g.place == 0 && g.count == 1 && g.charge == charge, what);
    due(memcmp(g.results, line, sizeof lines) == 0, "the line and the word after it");
}

/* Holds the answer to the first sheet. */
static void accepted(struct given g, const char *what)
{
    weighed(g, CHARGE, lines, what);
}

/* The sheet with just enough room, with a word too little, and with a word missing. */
static void *try_weigh(void *unused)
{
    accepted(weigh(sheet, WORDS, TRANCHE_WEIGHTS_LINE_WORDS), "an accepted sheet");
    refused(weigh(sheet, WORDS, TRANCHE_WEIGHTS_LINE_WORDS - 1), TRANCHE_WEIGHTS_REFUSED_ROOM, 0, "a sheet with too little room");
    refused(weigh(sheet, WORDS - 1, TRANCHE_WEIGHTS_LINE_WORDS), TRANCHE_WEIGHTS_REFUSED_MISSING_WORD, WORDS - 1, "a sheet with a word missing");
    return unused;
}

/* The STC mark, on an ordinary deal and on a re-securitisation. */
static void *try_stc(void *unused)
{
    struct given g = weigh(stc_sheet, WORDS + 1, TRANCHE_WEIGHTS_LINE_WORDS);
    due(g.number == TRANCHE_WEIGHTS_ACCEPTED && g.results[TRANCHE_WEIGHTS_WORD_WEIGHT] == STC_WEIGHT, "an STC deal");
    g = weigh(stc_resecuritisation, STC_PLACE + 1, TRANCHE_WEIGHTS_LINE_WORDS);
    refused(g, TRANCHE_WEIGHTS_REFUSED_STC_MARK, STC_PLACE, "an STC mark on a re-securitisation");
    return unused;
}

/* One call on a sheet of so many words, no more than the sheet with the IRB section has, with the word at a place replaced. */
static struct given weigh_with(const uint64_t *from, size_t count, size_t at, uint64_t word)
{
    uint64_t words[IRB_SHEET_WORDS];
    memcpy(words, from, count * sizeof *words);
    words[at] = word;
    return weigh(words, count, TRANCHE_WEIGHTS_LINE_WORDS);
}

/* The same on the sheet with a reporting date. */
static struct given weigh_dated(size_t at, uint64_t word)
{
    return weigh_with(dated_sheet, WORDS + 2, at, word);
}

/* The reporting date: the line is that of the months; a date that does not exist, months, a maturity on the reporting date, and one too many months on. */
static void *try_dates(void *unused)
{
    accepted(weigh(dated_sheet, WORDS + 2, TRANCHE_WEIGHTS_LINE_WORDS), "a sheet with a reporting date");
    refused(weigh_dated(REPORTING_DATE_PLACE, 20230229), TRANCHE_WEIGHTS_REFUSED_DATE, REPORTING_DATE_PLACE, "a reporting date that does not exist");
    refused(weigh_dated(MATURITY_PLACE, 60), TRANCHE_WEIGHTS_REFUSED_DATE, MATURITY_PLACE, "months with a reporting date");
    refused(weigh_dated(MATURITY_PLACE, dated_sheet[REPORTING_DATE_PLACE]), TRANCHE_WEIGHTS_REFUSED_DATE, MATURITY_PLACE, "a maturity on the reporting date");
    refused(weigh_dated(MATURITY_PLACE, 21991231), TRANCHE_WEIGHTS_REFUSED_MATURITY, MATURITY_PLACE, "a maturity too many months on");
    return unused;
}

/* Inferred ratings: an unrated class 1 over a rated class 2 as long takes its rating; one that is a month longer does not, and goes by the formula. */
static void *try_inferred(void *unused)
{
    struct given g = weigh(inferring_sheet, INFERRING_WORDS, RESULTS);
    due(g.number == TRANCHE_WEIGHTS_ACCEPTED && g.results[TRANCHE_WEIGHTS_WORD_APPROACH] == TRANCHE_WEIGHTS_BY_SEC_ERBA, "an inferred rating");
    due(g.results[TRANCHE_WEIGHTS_WORD_WEIGHT] == INFERRED_WEIGHT, "the weight by an inferred rating");
    uint64_t longer[INFERRING_WORDS];
    memcpy(longer, inferring_sheet, sizeof longer);
    longer[INFERRING_MONTHS_PLACE]++;
    g = weigh(longer, INFERRING_WORDS, RESULTS);
    due(g.number == TRANCHE_WEIGHTS_ACCEPTED && g.results[TRANCHE_WEIGHTS_WORD_APPROACH] == TRANCHE_WEIGHTS_BY_SEC_SA, "no rating that runs as long");
    return unused;
}

/* The least weight, where it is another than the weight. */
static void *try_least_weight(void *unused)
{
    struct given g = weigh_with(sheet, WORDS, MONTHS_PLACE, OTHER_MONTHS);
    due(g.number == TRANCHE_WEIGHTS_ACCEPTED && g.results[TRANCHE_WEIGHTS_WORD_WEIGHT] == OTHER_WEIGHT, "a weight rounded up");
    due(g.results[TRANCHE_WEIGHTS_WORD_LEAST_WEIGHT] == OTHER_LEAST_WEIGHT, "a least weight rounded down");
    return unused;
}

/* The same on the sheet in hundredths of a percent. */
static struct given weigh_in_hundredths(size_t at, uint64_t word)
{
    return weigh_with(hundredths_sheet, ALL_FACTS_WORDS, at, word);
}

/* The unit of the risk weights: the line is that of the sheet in whole percent; weights that are no whole percent; a weight above 1250%, and a unit that there is not. */
static void *try_unit(void *unused)
{
    accepted(weigh(hundredths_sheet, ALL_FACTS_WORDS, TRANCHE_WEIGHTS_LINE_WORDS), "a sheet in hundredths");
    accepted(weigh(percent_sheet, ALL_FACTS_WORDS, TRANCHE_WEIGHTS_LINE_WORDS), "a sheet in whole percent with all facts");
    weighed(weigh_in_hundredths(RISK_WEIGHT_PLACE, 3750), CHARGE_AT_3750, lines, "a risk weight of 37.5%");
    struct given g = weigh_in_hundredths(RISK_WEIGHT_PLACE, 1234);
    due(g.number == TRANCHE_WEIGHTS_ACCEPTED && g.charge == CHARGE_AT_1234 && g.results[TRANCHE_WEIGHTS_WORD_WEIGHT] == 1234, "a cap of 12.34%");
    refused(weigh_in_hundredths(RISK_WEIGHT_PLACE, 125001), TRANCHE_WEIGHTS_REFUSED_RISK_WEIGHT, RISK_WEIGHT_PLACE, "a risk weight above 1250%");
    refused(weigh_in_hundredths(UNIT_PLACE, 2), TRANCHE_WEIGHTS_REFUSED_FACT, UNIT_PLACE, "a unit that there is not");
    refused(weigh_in_hundredths(UNIT_PLACE, 0), TRANCHE_WEIGHTS_REFUSED_RISK_WEIGHT, RISK_WEIGHT_PLACE, "hundredths in a sheet in whole percent");
    return unused;
}

/* The IRB section: the line is that of SEC-IRBA, with a share below 95% that of the SA pool; a wrong count, figures outside their limits, a section too many, none. */
static void *try_irb(void *unused)
{
    struct given g = weigh(irb_sheet, IRB_SHEET_WORDS, TRANCHE_WEIGHTS_LINE_WORDS);
    due(g.number == TRANCHE_WEIGHTS_ACCEPTED && g.charge == IRB_CHARGE, "the charge of a mixed pool");
    due(g.results[TRANCHE_WEIGHTS_WORD_APPROACH] == TRANCHE_WEIGHTS_BY_SEC_IRBA, "a SEC-IRBA line");
    uint64_t weight = g.results[TRANCHE_WEIGHTS_WORD_WEIGHT], least = g.results[TRANCHE_WEIGHTS_WORD_LEAST_WEIGHT];
    due(weight == IRB_WEIGHT || weight == IRB_WEIGHT + 1, "the weight of a SEC-IRBA line");
    due(least == IRB_LEAST_WEIGHT || least == IRB_LEAST_WEIGHT - 1, "the least weight of a SEC-IRBA line");
    accepted(weigh_with(irb_sheet, IRB_SHEET_WORDS, SHARE_PLACE, 949999), "a mixed pool with a share below 95%");
    refused(weigh_with(irb_sheet, IRB_SHEET_WORDS, IRB_COUNT_PLACE, 0), TRANCHE_WEIGHTS_REFUSED_COUNT, IRB_COUNT_PLACE, "a count of no IRB section");
    refused(weigh_with(irb_sheet, IRB_SHEET_WORDS, LOANS_PLACE, 0), TRANCHE_WEIGHTS_REFUSED_IRB_FIGURE, LOANS_PLACE, "no loans");
    refused(weigh_with(irb_sheet, IRB_SHEET_WORDS, 1, 1), TRANCHE_WEIGHTS_REFUSED_IRB_FIGURE, SHARE_PLACE, "a share below 1 in an IRB pool");
    refused(weigh_with(irb_sheet, IRB_SHEET_WORDS, 1, 0), TRANCHE_WEIGHTS_REFUSED_WORDS_FOLLOW, IRB_COUNT_PLACE, "an IRB section in an SA pool");
    refused(weigh(irb_sheet, WORDS, TRANCHE_WEIGHTS_LINE_WORDS), TRANCHE_WEIGHTS_REFUSED_MISSING_WORD, WORDS, "a mixed pool without its section");
    return unused;
}

/* What a call for a block's sums gave, with the word after them. */
struct block_given {
    uint64_t sums[TRANCHE_WEIGHTS_SUM_WORDS + 1], number, place;
};

/* One call for a block of a sheet of so many words. */
static struct block_given sum_block(const uint64_t *from, size_t words, uint64_t block)
{
    struct block_given g = {.number = 9, .place = 9};
    for (size_t i = 0; i <= TRANCHE_WEIGHTS_SUM_WORDS; i++)
        g.sums[i] = WORD_BEFORE;
    g.number = tranche_weights_block_sums(from, words, block, &g.place, g.sums);
    return g;
}

/* Holds number, place and sums, and the word after them. */
static void block_is(struct block_given g, uint64_t number, uint64_t place, const uint64_t *sums, const char *what)
{
    due(g.number == number && g.place == place && memcmp(g.sums, sums, TRANCHE_WEIGHTS_SUM_WORDS * sizeof *sums) == 0, what);
    due(g.sums[TRANCHE_WEIGHTS_SUM_WORDS] == WORD_BEFORE, "the word after a block's sums");
}

/* Holds the sums of a block of an accepted sheet. */
static void summed(const uint64_t *from, size_t words, uint64_t block, const uint64_t *sums, const char *what)
{
    block_is(sum_block(from, words, block), TRANCHE_WEIGHTS_ACCEPTED, 0, sums, what);
}

/* Holds the sums of an accepted sheet past its last block, from the first one there. */
static void nothing_past(const uint64_t *from, size_t words, uint64_t first, const char *what)
{
    summed(from, words, first, no_sums, what);
    for (size_t i = 0; i < PAST_BLOCKS; i++)
        summed(from, words, past[i], no_sums, what);
}

/* The sums of blocks: every status, a sheet of one block and one of two, past the last block, and a tranche that is too thin to be weighed. */
static void *try_blocks(void *unused)
{
    summed(rows_sheet, ROWS_SHEET_WORDS, 0, rows_sums, "the sums of a block");
    nothing_past(rows_sheet, ROWS_SHEET_WORDS, 1, "the sums past the only block");
    summed(resecuritisation, RESECURITISATION_WORDS, 0, resecuritisation_sums, "the sums of a re-securitisation");
    weighed(weigh(two_blocks, TWO_BLOCKS_WORDS, TRANCHE_WEIGHTS_LINE_WORDS), TWO_BLOCKS_CHARGE, two_blocks_line, "a pool of two blocks");
    summed(two_blocks, TWO_BLOCKS_WORDS, 0, first_block, "the sums of a whole block");
    summed(two_blocks, TWO_BLOCKS_WORDS, 1, last_block, "the sums of a last block of one row");
    nothing_past(two_blocks, TWO_BLOCKS_WORDS, 2, "the sums past the last of two blocks");
    refused(weigh(thin_sheet, THIN_SHEET_WORDS, RESULTS), TRANCHE_WEIGHTS_REFUSED_THIN_TRANCHE, THIN_PLACE, "a tranche too thin to be weighed");
    summed(thin_sheet, THIN_SHEET_WORDS, 0, thin_sums, "the sums over a thin tranche");
    return unused;
}

/* The most rows: the line, and the sums of every block, of whose 50 rows 49 have known status. */
static void *try_most_rows(void *unused)
{
    weighed(weigh(most_rows, MOST_ROWS_WORDS, TRANCHE_WEIGHTS_LINE_WORDS), MOST_ROWS_CHARGE, most_rows_line, "a pool of the most rows");
    for (uint64_t n = 1; n <= TRANCHE_WEIGHTS_MOST_BLOCKS; n++) {
        const uint64_t sums[TRANCHE_WEIGHTS_SUM_WORDS] = {50 * n, 100 * n, 5000 * n * n, 49 * n, 98 * n, 4900 * n * n, 2 * n};
        summed(most_rows, MOST_ROWS_WORDS, n - 1, sums, "the sums of a block of the most rows");
    }
    nothing_past(most_rows, MOST_ROWS_WORDS, TRANCHE_WEIGHTS_MOST_BLOCKS, "the sums past the most blocks");
    return unused;
}

/* Holds the refusal of a sheet, whatever the block. */
static void blocks_refused(const uint64_t *from, size_t words, uint64_t number, uint64_t place, const char *what)
{
    block_is(sum_block(from, words, 0), number, place, no_sums, what);
    for (size_t i = 0; i < PAST_BLOCKS; i++)
        block_is(sum_block(from, words, past[i]), number, place, no_sums, what);
}

/* The sums of refused sheets: a word missing, a word too many, a rating that is not listed, and of three faults the first. */
static void *try_refused_blocks(void *unused)
{
    uint64_t words[ROWS_SHEET_WORDS + 1] = {0};
    memcpy(words, rows_sheet, sizeof rows_sheet);
    blocks_refused(words, ROWS_SHEET_WORDS - 1, TRANCHE_WEIGHTS_REFUSED_MISSING_WORD, ROWS_SHEET_WORDS - 1, "the sums with a word missing");
    blocks_refused(words, ROWS_SHEET_WORDS + 1, TRANCHE_WEIGHTS_REFUSED_WORDS_FOLLOW, ROWS_SHEET_WORDS, "the sums with a word too many");
    words[ROWS_SHEET_WORDS - 1] = 19;
    blocks_refused(words, ROWS_SHEET_WORDS, TRANCHE_WEIGHTS_REFUSED_RATING, ROWS_SHEET_WORDS - 1, "the sums with a rating that is not listed");
    words[LAST_STATUS_PLACE] = 3;
    blocks_refused(words, ROWS_SHEET_WORDS + 1, TRANCHE_WEIGHTS_REFUSED_STATUS, LAST_STATUS_PLACE, "the sums with three faults");
    return unused;
}

/* What a conversion gave, beside its output. */
struct converted {
    uint64_t number, place, count;
};

/* Sets every word of the output to what it is before a call. */
static void clear_output(void)
{
    for (size_t i = 0; i <= TRANCHE_WEIGHTS_SHEET_WORDS; i++)
        output[i] = WORD_BEFORE;
}

/* Whether the words of the output are as they were from a place on. */
static int output_untouched(size_t from)
{
    for (size_t i = from; i <= TRANCHE_WEIGHTS_SHEET_WORDS; i++)
        if (output[i] != WORD_BEFORE)
            return 0;
    return 1;
}

/* One conversion of so many words of a sheet, with so much room. */
static struct converted convert(const uint64_t *from, size_t words, size_t room)
{
    struct converted g = {.number = 9, .place = 9, .count = 9};
    clear_output();
    g.number = tranche_weights_convert(from, words, output, room, &g.place, &g.count);
    return g;
}

/* Holds a sheet that is converted to these words: with more room than they need and with just enough, and later words as they were; with a word too little, nothing. */
static void converts(const uint64_t *from, size_t words, const uint64_t *to, size_t count, const char *what)
{
    for (size_t more = 0; more < 2; more++) {
        struct converted g = convert(from, words, more ? TRANCHE_WEIGHTS_SHEET_WORDS : count);
        due(g.number == TRANCHE_WEIGHTS_ACCEPTED && g.place == 0 && g.count == count, what);
        due(memcmp(output, to, count * sizeof *to) == 0 && output_untouched(count), what);
    }
    struct converted g = convert(from, words, count - 1);
    due(g.number == TRANCHE_WEIGHTS_REFUSED_ROOM && g.place == 0 && g.count == 0 && output_untouched(0), what);
}

/* Holds the refusal of a sheet with no room at all, which comes last, and that nothing is written where there is room. */
static void not_converted(const uint64_t *from, size_t words, uint64_t number, uint64_t place, const char *what)
{
    for (size_t more = 0; more < 2; more++) {
        struct converted g = convert(from, words, more ? TRANCHE_WEIGHTS_SHEET_WORDS : 0);
        due(g.number == number && g.place == place && g.count == 0 && output_untouched(0), what);
    }
}

/* Conversions: a sheet of four facts, one in hundredths, one in whole percent with all facts; and one with a tranche that is too thin, which is not judged. */
static void *try_convert(void *unused)
{
    converts(sheet, WORDS, hundredths_sheet, ALL_FACTS_WORDS, "a sheet in whole percent");
    converts(hundredths_sheet, ALL_FACTS_WORDS, percent_sheet, ALL_FACTS_WORDS, "a sheet in hundredths to convert");
    converts(percent_sheet, ALL_FACTS_WORDS, hundredths_sheet, ALL_FACTS_WORDS, "a sheet of all facts in whole percent");
    struct converted g = convert(thin_sheet, THIN_SHEET_WORDS, TRANCHE_WEIGHTS_SHEET_WORDS);
    due(g.number == TRANCHE_WEIGHTS_ACCEPTED && g.count == THIN_SHEET_WORDS + FURTHER_FACTS, "a sheet with a thin tranche to convert");
    refused(weigh(output, g.count, RESULTS), TRANCHE_WEIGHTS_REFUSED_THIN_TRANCHE, THIN_PLACE + FURTHER_FACTS, "a thin tranche in the other unit");
    return unused;
}

/* Refused conversions: a risk weight that is no whole percent; a word too many and a rating that is not listed, which come before it; faults of a sheet of four facts. */
static void *try_not_converted(void *unused)
{
    uint64_t words[ALL_FACTS_WORDS + 1] = {0};
    memcpy(words, hundredths_sheet, sizeof hundredths_sheet);
    words[RISK_WEIGHT_PLACE] = 3750;
    not_converted(words, ALL_FACTS_WORDS, TRANCHE_WEIGHTS_REFUSED_NOT_WHOLE_PERCENT, RISK_WEIGHT_PLACE, "37.5% in whole percent");
    not_converted(words, ALL_FACTS_WORDS + 1, TRANCHE_WEIGHTS_REFUSED_WORDS_FOLLOW, ALL_FACTS_WORDS, "37.5% and a word too many");
    words[ALL_FACTS_WORDS - 1] = 19;
    not_converted(words, ALL_FACTS_WORDS, TRANCHE_WEIGHTS_REFUSED_RATING, ALL_FACTS_WORDS - 1, "37.5% and a rating that is not listed");
    memcpy(words, sheet, sizeof sheet);
    not_converted(words, WORDS - 1, TRANCHE_WEIGHTS_REFUSED_MISSING_WORD, WORDS - 1, "a sheet to convert with a word missing");
    words[RISK_WEIGHT_PLACE - FURTHER_FACTS] = 1251;
    not_converted(words, WORDS, TRANCHE_WEIGHTS_REFUSED_RISK_WEIGHT, RISK_WEIGHT_PLACE - FURTHER_FACTS, "a sheet to convert with a risk weight above 1250%");
    return unused;
}

/* The longest sheet, to hundredths and back. */
static void *try_longest(void *unused)
{
    static uint64_t all_facts[TRANCHE_WEIGHTS_SHEET_WORDS], in_hundredths[TRANCHE_WEIGHTS_SHEET_WORDS];
    const size_t first = TRANCHE_WEIGHTS_MOST_FACTS + 2, rows_end = first + TRANCHE_WEIGHTS_MOST_ROWS * TRANCHE_WEIGHTS_ROW_WORDS;
    memcpy(all_facts, longest, ROW_COUNT_PLACE * sizeof *longest);
    all_facts[0] = TRANCHE_WEIGHTS_MOST_FACTS;
    memcpy(all_facts + ROW_COUNT_PLACE + FURTHER_FACTS, longest + ROW_COUNT_PLACE, (LONGEST_WORDS - ROW_COUNT_PLACE) * sizeof *longest);
    memcpy(in_hundredths, all_facts, sizeof all_facts);
    in_hundredths[UNIT_PLACE] = 1;
    for (size_t i = first + RISK_WEIGHT_PLACE_IN_ROW; i < rows_end; i += TRANCHE_WEIGHTS_ROW_WORDS)
        in_hundredths[i] *= 100;
    converts(longest, LONGEST_WORDS, in_hundredths, TRANCHE_WEIGHTS_SHEET_WORDS, "the longest sheet in whole percent");
    converts(in_hundredths, TRANCHE_WEIGHTS_SHEET_WORDS, all_facts, TRANCHE_WEIGHTS_SHEET_WORDS, "the longest sheet in hundredths");
    return unused;
}

/* The file of the first sheet and of the one with the most rows; and a bad length, which comes before too little room. */
static void *try_weigh_file(void *unused)
{
    const size_t whole = TRANCHE_WEIGHTS_BYTES_PER_WORD * WORDS, less = whole - TRANCHE_WEIGHTS_BYTES_PER_WORD;
    accepted(weigh_file(sheet, whole, TRANCHE_WEIGHTS_LINE_WORDS), "an accepted file");
    weighed(weigh_file(most_rows, sizeof most_rows, TRANCHE_WEIGHTS_LINE_WORDS), MOST_ROWS_CHARGE, most_rows_line, "a file with the most rows");
    refused(weigh_file(sheet, whole, TRANCHE_WEIGHTS_LINE_WORDS - 1), TRANCHE_WEIGHTS_REFUSED_ROOM, 0, "a file with too little room");
    refused(weigh_file(sheet, less, TRANCHE_WEIGHTS_LINE_WORDS), TRANCHE_WEIGHTS_REFUSED_MISSING_WORD, WORDS - 1, "a file with a word missing");
    refused(weigh_file(sheet, whole - 1, 0), TRANCHE_WEIGHTS_REFUSED_FILE_LENGTH, 0, "a file of a bad length");
    return unused;
}

/* A null pointer for each list, where its length is 0. */
static void *try_null(void *unused)
{
    static const char no_file[] = "refused 1 at 0\n";
    struct given g = before;
    g.number = tranche_weights_weigh(NULL, 0, g.results, TRANCHE_WEIGHTS_LINE_WORDS, &g.place, &g.count, &g.charge);
    refused(g, TRANCHE_WEIGHTS_REFUSED_MISSING_WORD, 0, "no sheet");
    g = before;
    g.number = tranche_weights_weigh(sheet, WORDS, NULL, 0, &g.place, &g.count, &g.charge);
    refused(g, TRANCHE_WEIGHTS_REFUSED_ROOM, 0, "no results");
    g = before;
    g.number = tranche_weights_weigh_file(NULL, 0, g.results, TRANCHE_WEIGHTS_LINE_WORDS, &g.place, &g.count, &g.charge);
    refused(g, TRANCHE_WEIGHTS_REFUSED_MISSING_WORD, 0, "no file");
    g = before;
    g.number = tranche_weights_weigh_file((const uint8_t *)sheet, sizeof sheet, NULL, 0, &g.place, &g.count, &g.charge);
    refused(g, TRANCHE_WEIGHTS_REFUSED_ROOM, 0, "no results for a file");
    due(tranche_weights_report(NULL, 0, text, sizeof text) == sizeof no_file - 1 && memcmp(text, no_file, sizeof no_file - 1) == 0,
        "the report on no file");
    due(tranche_weights_report(file, size, NULL, 0) == report(sizeof text), "no room for the report");
    blocks_refused(NULL, 0, TRANCHE_WEIGHTS_REFUSED_MISSING_WORD, 0, "the sums of no sheet");
    not_converted(NULL, 0, TRANCHE_WEIGHTS_REFUSED_MISSING_WORD, 0, "no sheet to convert");
    struct converted c = {.number = 9, .place = 9, .count = 9};
    c.number = tranche_weights_convert(sheet, WORDS, NULL, 0, &c.place, &c.count);
    due(c.number == TRANCHE_WEIGHTS_REFUSED_ROOM && c.place == 0 && c.count == 0, "no room for a sheet to convert");
    return unused;
}

/* Puts a sheet of so many rows together, with the facts and the tranche of the first sheet; a function makes each row from its number, counted from 0. */
static void fill_sheet(uint64_t *to, uint64_t rows, void (*make_row)(uint64_t, uint64_t *))
{
    const uint64_t *tranches = sheet + ROW_COUNT_PLACE + 1 + TRANCHE_WEIGHTS_ROW_WORDS;
    memcpy(to, sheet, ROW_COUNT_PLACE * sizeof *sheet);
    to += ROW_COUNT_PLACE;
    *to++ = rows;
    for (uint64_t row = 0; row < rows; row++, to += TRANCHE_WEIGHTS_ROW_WORDS)
        make_row(row, to);
    memcpy(to, tranches, (size_t)(sheet + WORDS - tranches) * sizeof *sheet);
}

/* Makes a row of the sheet of two blocks. */
static void make_row_of_two_blocks(uint64_t row, uint64_t *to)
{
    memcpy(to, row == 0 ? first_row : row < TRANCHE_WEIGHTS_BLOCK_ROWS ? next_row : last_row, sizeof next_row);
}

/* Makes a row of the sheet of the most rows. */
static void make_row_of_most(uint64_t row, uint64_t *to)
{
    const uint64_t n = row / TRANCHE_WEIGHTS_BLOCK_ROWS + 1, in_block = row % TRANCHE_WEIGHTS_BLOCK_ROWS;
    to[0] = n;
    to[1] = 2 * n;
    to[2] = n;
    to[3] = in_block == 0 ? 1 : in_block == TRANCHE_WEIGHTS_BLOCK_ROWS - 1 ? 2 : 0;
}

/* Puts the longest sheet together. */
static void fill_longest(void)
{
    const uint64_t *tranche = sheet + WORDS - TRANCHE_WEIGHTS_TRANCHE_WORDS;
    const uint64_t *section = irb_sheet + IRB_COUNT_PLACE;
    uint64_t *to = longest + WORDS_WITH_ROWS(TRANCHE_WEIGHTS_MOST_ROWS) - TRANCHE_WEIGHTS_TRANCHE_WORDS;
    memcpy(longest, most_rows, sizeof most_rows);
    longest[1] = irb_sheet[1];
    to[-1] = TRANCHE_WEIGHTS_MOST_TRANCHES;
    for (int i = 0; i < TRANCHE_WEIGHTS_MOST_TRANCHES; i++, to += TRANCHE_WEIGHTS_TRANCHE_WORDS)
        memcpy(to, tranche, TRANCHE_WEIGHTS_TRANCHE_WORDS * sizeof *tranche);
    memcpy(to, section, (1 + TRANCHE_WEIGHTS_IRB_WORDS) * sizeof *section);
}

int main(int argc, char **argv)
{
    FILE *from = argc == 2 ? fopen(argv[1], "rb") : NULL;
    due(from != NULL, "the file to report on");
    size = fread(file, 1, sizeof file, from);
    fclose(from);
    for (size_t i = 0; i < RESULTS; i++)
        before.results[i] = WORD_BEFORE;
    fill_sheet(two_blocks, TRANCHE_WEIGHTS_BLOCK_ROWS + 1, make_row_of_two_blocks);
    fill_sheet(most_rows, TRANCHE_WEIGHTS_MOST_ROWS, make_row_of_most);
    fill_longest();
    on_stack(SHEET_STACK, try_weigh);
    on_stack(SHEET_STACK, try_stc);
    on_stack(SHEET_STACK, try_dates);
    on_stack(SHEET_STACK, try_inferred);
    on_stack(SHEET_STACK, try_least_weight);
    on_stack(SHEET_STACK, try_unit);
    on_stack(SHEET_STACK, try_irb);
    on_stack(SHEET_STACK, try_blocks);
    on_stack(SHEET_STACK, try_most_rows);
    on_stack(SHEET_STACK, try_refused_blocks);
    on_stack(SHEET_STACK, try_convert);
    on_stack(SHEET_STACK, try_not_converted);
    on_stack(SHEET_STACK, try_longest);
    on_stack(FILE_STACK, try_weigh_file);
    on_stack(FILE_STACK, try_null);
    on_stack(FILE_STACK, try_report);
    return 0;
}
