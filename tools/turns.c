/* Times amendments by two archives in turns, in one run, so that a machine whose speed changes does so for both:
 * batches of 2,000 calls, one archive's and then the other's. Each call writes the amendment's words and amends the
 * first of three rows. No division is among what is timed.
 *
 *   turns SHARED_OBJECT SHARED_OBJECT
 */
#include "tranche_weights.h"
#include <dlfcn.h>
#include <stdio.h>
#include <stdlib.h>
#include <x86intrin.h>

enum { ROUNDS = 4000, CALLS = 2000 };

typedef uint64_t amend_fn(uint64_t *, size_t, uint64_t *, const uint64_t *, size_t, uint64_t *);
typedef uint64_t open_fn(const uint64_t *, size_t, uint64_t *, uint64_t *);

static uint64_t sheet[] = {4, 0, 0, 1, 1, /* the facts */
                           3, 1000000, 1000000, 100, 0, 1000000, 1000000, 100, 0, 1000000, 1000000, 100, 0,
                           1, 3000000, 1, 60, 3000000, 0, 0, 0}; /* the tranches */
static uint64_t sums[TRANCHE_WEIGHTS_SUM_WORDS], place;
static volatile uint64_t exposure = 1000000;

/* The function of that name in a shared object. */
static void *function(const char *object, const char *name)
{
    void *opened = dlopen(object, RTLD_NOW | RTLD_LOCAL);
    void *found = opened ? dlsym(opened, name) : NULL;
    if (!found) {
        fprintf(stderr, "%s\n", dlerror());
        exit(1);
    }
    return found;
}

/* The cycles of a call, over a batch. */
static double batch(amend_fn *amend)
{
    uint64_t amendment[TRANCHE_WEIGHTS_AMENDMENT_WORDS], refused = 0;
    uint64_t began = __rdtsc();
    for (uint64_t i = 0; i < CALLS; i++) {
        amendment[0] = 1;
        amendment[1] = exposure + (i & 7);
        amendment[2] = exposure;
        amendment[3] = 50;
        amendment[4] = 0;
        refused += amend(sheet, sizeof sheet / sizeof *sheet, sums, amendment, TRANCHE_WEIGHTS_AMENDMENT_WORDS,
                         &place);
    }
    double cycles = (double)(__rdtsc() - began) / CALLS;
    if (refused) {
        fputs("an amendment was refused\n", stderr);
        exit(1);
    }
    return cycles;
}

static int rising(const void *a, const void *b)
{
    double x = *(const double *)a, y = *(const double *)b;
    return (x > y) - (x < y);
}

int main(int count, char **arguments)
{
    static double first[ROUNDS], second[ROUNDS], ratio[ROUNDS];
    if (count != 3) {
        fputs("usage: turns SHARED_OBJECT SHARED_OBJECT\n", stderr);
        return 2;
    }
    amend_fn *one = (amend_fn *)function(arguments[1], "tranche_weights_amend_v10");
    amend_fn *other = (amend_fn *)function(arguments[2], "tranche_weights_amend_v10");
    open_fn *open = (open_fn *)function(arguments[1], "tranche_weights_open_pool_v10");
    if (open(sheet, sizeof sheet / sizeof *sheet, &place, sums)) {
        fputs("the sheet is not opened\n", stderr);
        return 1;
    }
    for (int i = 0; i < ROUNDS; i++) {
        if (i & 1) {
            second[i] = batch(other);
            first[i] = batch(one);
        } else {
            first[i] = batch(one);
            second[i] = batch(other);
        }
        ratio[i] = second[i] / first[i];
    }
    qsort(first, ROUNDS, sizeof *first, rising);
    qsort(second, ROUNDS, sizeof *second, rising);
    qsort(ratio, ROUNDS, sizeof *ratio, rising);
    printf("an amendment, cycles at the least: %.0f by the first, %.0f by the second\n", first[0], second[0]);
    printf("second to first: %.2f (%.2f to %.2f)\n", ratio[ROUNDS / 2], ratio[ROUNDS / 4], ratio[3 * ROUNDS / 4]);
    return 0;
}
