/*
 * Which words the library takes for a day, and how many months it counts between two days, held to the calendar of the C library, which knows the Gregorian calendar by
 * its own rules: gmtime() names each day of the years 2000 to 2199, 73,049 of them. What the library takes for a day is told by its answer to a small deal; and how
 * many months it counts by the answer to the same deal in months, whose one tranche is senior and rated AA, so that its weight grows with each month from 12 to 72.
 *
 * Stops with status 1 and one line on standard error at the first answer that is not due.
 */
#include <inttypes.h>
#include <stdio.h>
#include <stdlib.h>
#include <time.h>

#include "tranche_weights.h"

/* The deal: six facts, one pool row, one tranche; and the places of its two dates. */
static uint64_t sheet[] = {6, 0, 0, 1, 1, 0, 0, 1, 1000, 1000, 100, 0, 1, 1000, 1, 0, 1000, 3, 0, 0};
enum { REPORTING_AT = 6, MATURITY_AT = 15 };

/* A maturity that is a number of months and no date, and the most months. */
enum { MONTHS = 36, MOST_MONTHS = 1200 };

/* The days of the calendar in their order: the word of each, the number of its month, counted through the years, and its day of the month. */
enum { DAYS = 73049 };
static struct day {
    uint64_t word;
    int month, day;
} days[DAYS];

/*
 * The words that are tried, from the lowest: all below 30,000,000; then those that would name a day of the years 1999 to 2200 if only the lowest 16 or 32 bits of the
 * year, 32 of year and month, or 32 or 63 of the word counted; then the largest.
 */
#define BEFORE 19990000
#define AROUND 2020000
static const struct {
    uint64_t first, count;
} tried[] = {
    {0, 30000000},
    {(UINT64_C(10000) << 16) + BEFORE, AROUND},
    {(UINT64_C(1) << 32) + BEFORE, AROUND},
    {(UINT64_C(100) << 32) + BEFORE, AROUND},
    {(UINT64_C(10000) << 32) + BEFORE, AROUND},
    {(UINT64_C(1) << 63) + BEFORE, AROUND},
    {UINT64_MAX - UINT32_MAX + BEFORE, AROUND},
    {UINT64_MAX - (AROUND - 1), AROUND},
};

/* What a call gave; the weight is 0 where the sheet is refused. */
struct answer {
    uint64_t number, place, weight;
};

/* Weighs the deal with this reporting date, or 0, and this maturity. */
static struct answer weigh(uint64_t reporting, uint64_t maturity)
{
    uint64_t results[TRANCHE_WEIGHTS_LINE_WORDS] = {0}, count, charge;
    struct answer a;
    sheet[REPORTING_AT] = reporting;
    sheet[MATURITY_AT] = maturity;
    a.number = tranche_weights_weigh(sheet, sizeof sheet / sizeof *sheet, results, TRANCHE_WEIGHTS_LINE_WORDS, &a.place, &count, &charge);
    a.weight = results[TRANCHE_WEIGHTS_WORD_WEIGHT];
    return a;
}

/* Stops where an answer is not the one that is due for these dates. */
static void hold(uint64_t reporting, uint64_t maturity, struct answer a, struct answer due)
{
    if (a.number == due.number && a.place == due.place && a.weight == due.weight)
        return;
    fprintf(stderr, "reporting date %" PRIu64 ", maturity %" PRIu64 ": number %" PRIu64 " at %" PRIu64 ", weight %" PRIu64, reporting, maturity, a.number, a.place,
            a.weight);
    fprintf(stderr, "; due is %" PRIu64 " at %" PRIu64 ", weight %" PRIu64 "\n", due.number, due.place, due.weight);
    exit(1);
}

/* Lists the days of the years 2000 to 2199 by the C library's calendar, and stops unless there are as many as there should be. */
static void list_days(void)
{
    static const time_t first = 946684800, seconds_of_a_day = 86400; /* 1 January 2000, 0:00 */
    size_t n = 0;
    for (;; n++) {
        time_t at = first + (time_t)n * seconds_of_a_day;
        const struct tm *t = gmtime(&at);
        if (t == NULL || t->tm_year + 1900 > 2199)
            break;
        if (n < DAYS) {
            days[n].month = 12 * (t->tm_year + 1900) + t->tm_mon;
            days[n].day = t->tm_mday;
            days[n].word = 10000 * (uint64_t)(t->tm_year + 1900) + 100 * (uint64_t)(t->tm_mon + 1) + (uint64_t)t->tm_mday;
        }
    }
    if (n != DAYS || days[0].word != 20000101 || days[DAYS - 1].word != 21991231) {
        fprintf(stderr, "the C library's calendar lists %zu days, and 200 years have %d\n", n, DAYS);
        exit(1);
    }
    printf("%zu days\n", n);
}

/* The answers that are due: for a maturity that is no later day, and for one that is some months on, the last more than there may be. */
static const struct answer no_later_day = {TRANCHE_WEIGHTS_REFUSED_DATE, MATURITY_AT, 0};
static struct answer months_on[MOST_MONTHS + 2];

/* Asks for the deal in months, with each number of months: they are refused outside their limits, and the weight tells those from 12 to 72. */
static void ask_in_months(void)
{
    static const struct answer outside = {TRANCHE_WEIGHTS_REFUSED_MATURITY, MATURITY_AT, 0};
    for (uint64_t n = 0; n <= MOST_MONTHS + 1; n++)
        months_on[n] = weigh(0, n);
    hold(0, 0, months_on[0], outside);
    hold(0, MOST_MONTHS + 1, months_on[MOST_MONTHS + 1], outside);
    for (int n = 12; n < 72; n++)
        if (months_on[n].weight >= months_on[n + 1].weight) {
            fprintf(stderr, "the weight of %d months does not tell them from %d\n", n, n + 1);
            exit(1);
        }
}

/*
 * What is due for two days. The months are the fewest after which the first day's day of the month, so many months on and whether that month has it or not, is no longer
 * before the second day.
 */
static struct answer due_for(const struct day *from, const struct day *to)
{
    int n = 0;
    if (to <= from)
        return no_later_day;
    while (n <= MOST_MONTHS && (from->month + n < to->month || (from->month + n == to->month && from->day < to->day)))
        n++;
    return months_on[n];
}

/*
 * Holds every word that is tried, as a reporting date and as a maturity beside the first day. Beside a reporting date the maturity, a number of months, is refused; beside
 * 0, which is none, it is good.
 */
static void hold_words(void)
{
    static const struct answer no_reporting_date = {TRANCHE_WEIGHTS_REFUSED_DATE, REPORTING_AT, 0};
    size_t next = 0;
    for (size_t i = 0; i < sizeof tried / sizeof *tried; i++)
        for (uint64_t n = 0; n < tried[i].count; n++) {
            uint64_t word = tried[i].first + n;
            int is_day = next < DAYS && days[next].word == word;
            hold(word, MONTHS, weigh(word, MONTHS), is_day ? no_later_day : word == 0 ? months_on[MONTHS] : no_reporting_date);
            hold(days[0].word, word, weigh(days[0].word, word), is_day ? due_for(&days[0], &days[next]) : no_later_day);
            next += is_day;
        }
    printf("%zu words taken for a day\n", next);
}

/* Holds a reporting date, day `from`, with each day from `first` on to before `end` as the maturity, of those that there are; gives their number. */
static uint64_t hold_pairs(long from, long first, long end)
{
    uint64_t pairs = 0;
    for (long to = first < 0 ? 0 : first; to < end && to < DAYS; to++, pairs++)
        hold(days[from].word, days[to].word, weigh(days[from].word, days[to].word), due_for(&days[from], &days[to]));
    return pairs;
}

/*
 * Whether a day is one of the reporting dates whose pairs are held: those of 2000 and 2004, leap years, of 2100, which is none, and of 2197, from where three years run
 * past the last day; and January and December of 2099, from where 1200 months end at the last day, and of 2199.
 */
static int is_held(const struct day *day)
{
    int year = day->month / 12, month = day->month % 12;
    return year == 2000 || year == 2004 || year == 2100 || year == 2197 || ((year == 2099 || year == 2199) && (month == 0 || month == 11));
}

/* Holds pairs of days: from a month before to three years after, which the weight tells by their months from 12 on; about 1200 months later; and the last day. */
static void hold_months(void)
{
    uint64_t pairs = 0;
    for (long from = 0; from < DAYS; from++)
        if (is_held(&days[from]))
            pairs += hold_pairs(from, from - 31, from + 1130) + hold_pairs(from, from + 36480, from + 36570) + hold_pairs(from, DAYS - 1, DAYS);
    printf("%" PRIu64 " pairs of days\n", pairs);
}

int main(void)
{
    list_days();
    ask_in_months();
    hold_words();
    hold_months();
    return 0;
}
