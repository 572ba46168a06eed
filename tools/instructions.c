/* Weighs one sheet a number of times, so that the instructions of a call can be counted (tools/instructions.sh).
 *
 *   instructions small|rated|large TIMES
 */
#include "tranche_weights.h"
#include <stdio.h>
#include <stdlib.h>
#include <string.h>

static uint64_t sheet[TRANCHE_WEIGHTS_FILE_BYTES / 8];
static size_t words;

static void put(uint64_t word)
{
    sheet[words++] = word;
}

/* A sheet of so many equal rows and tranches, each of a class of its own, with three ratings or none. */
static void fill(uint64_t rows, uint64_t tranches, int rated)
{
    const uint64_t facts[] = {4, 0, 0, 1, 1};
    for (size_t i = 0; i < 5; i++)
        put(facts[i]);
    put(rows);
    for (uint64_t i = 0; i < rows; i++) {
        put(1000000);
        put(1000000);
        put(100);
        put(i % 20 == 7 ? 1 : 0);
    }
    put(tranches);
    for (uint64_t i = 0; i < tranches; i++) {
        put(1000000 * rows / tranches);
        put(i + 1);
        put(60);
        put(1000000 * rows / tranches);
        for (uint64_t k = 1; k <= 3; k++)
            put(rated ? i + k : 0);
    }
}

int main(int count, char **arguments)
{
    if (count != 3) {
        fputs("usage: instructions small|rated|large TIMES\n", stderr);
        return 2;
    }
    int large = strcmp(arguments[1], "large") == 0;
    fill(large ? 1000 : 3, large ? 32 : 3, strcmp(arguments[1], "rated") == 0);
    uint64_t results[7 * 32], place, tranches, charge, sum = 0;
    for (long times = strtol(arguments[2], NULL, 10); times > 0; times--) {
        if (tranche_weights_weigh(sheet, words, results, 7 * 32, &place, &tranches, &charge) != 0)
            return 1;
        sum += results[3] + charge;
    }
    printf("%llu\n", (unsigned long long)sum);
    return 0;
}
