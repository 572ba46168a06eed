/*
 * Times tranche_weights_weigh on a deal of 1,000 rows, of which some are late or of unknown status, and 32 tranches, and prints the best and the median of 31 rounds
 * in nanoseconds per call. tests/placements.sh links it with the library's code in several places.
 */
#define _POSIX_C_SOURCE 199309L
#include <stdio.h>
#include <stdlib.h>
#include <time.h>

#include "tranche_weights.h"

#define ROUNDS 31
#define CALLS 3000

static uint64_t sheet[TRANCHE_WEIGHTS_SHEET_WORDS];

/* The next number of a fixed sequence, below a limit. */
static uint64_t drawn(uint64_t limit)
{
    static uint64_t state = 1;
    state = state * 6364136223846793005u + 1442695040888963407u;
    return (state >> 33) % limit;
}

/* Writes the sheet, and returns how many words it has. */
static size_t fill(void)
{
    size_t at = 0;
    uint64_t nominal = 0;
    const uint64_t facts[] = {4, 0, 0, 1, 1, TRANCHE_WEIGHTS_MOST_ROWS};
    for (size_t i = 0; i < sizeof facts / sizeof *facts; i++)
        sheet[at++] = facts[i];
    for (int i = 0; i < TRANCHE_WEIGHTS_MOST_ROWS; i++) {
        const uint64_t amount = 1000000 + drawn(9000000), percent = 20 + drawn(130), status = drawn(100);
        const uint64_t row[] = {amount, amount, percent, status < 4 ? 1 : status < 6 ? 2 : 0};
        nominal += amount;
        for (size_t c = 0; c < TRANCHE_WEIGHTS_ROW_WORDS; c++)
            sheet[at++] = row[c];
    }
    sheet[at++] = TRANCHE_WEIGHTS_MOST_TRANCHES;
    for (uint64_t i = 0; i < TRANCHE_WEIGHTS_MOST_TRANCHES; i++) {
        const uint64_t amount = nominal / TRANCHE_WEIGHTS_MOST_TRANCHES;
        const uint64_t tranche[] = {amount, i + 1, 60, amount, i % 3 ? 1 + i % 18 : 0, 0, 0};
        for (size_t c = 0; c < TRANCHE_WEIGHTS_TRANCHE_WORDS; c++)
            sheet[at++] = tranche[c];
    }
    return at;
}

/* The time in nanoseconds. */
static double now(void)
{
    struct timespec t;
    clock_gettime(CLOCK_MONOTONIC, &t);
    return t.tv_sec * 1e9 + t.tv_nsec;
}

static int ascending(const void *a, const void *b)
{
    const double x = *(const double *)a, y = *(const double *)b;
    return (x > y) - (x < y);
}

int main(void)
{
    static uint64_t results[TRANCHE_WEIGHTS_RESULT_WORDS];
    uint64_t place, count, charge, refusals = 0;
    const size_t words = fill();
    double times[ROUNDS];
    for (int r = 0; r < ROUNDS; r++) {
        const double began = now();
        for (int c = 0; c < CALLS; c++)
            refusals += tranche_weights_weigh(sheet, words, results, TRANCHE_WEIGHTS_RESULT_WORDS, &place, &count, &charge);
        times[r] = (now() - began) / CALLS;
    }
    qsort(times, ROUNDS, sizeof *times, ascending);
    printf("best %.0f ns, median %.0f ns\n", times[0], times[ROUNDS / 2]);
    return refusals != 0;
}
