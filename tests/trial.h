/*
 * What tests/calls.c and tests/opened_calls.c share: trials on threads with small stacks that stop with status 1 and one line where something is not what is due, and
 * the sheets that both try.
 */
#ifndef TRIAL_H
#define TRIAL_H

#include <pthread.h>
#include <stdio.h>
#include <stdlib.h>

#include "tranche_weights.h"

/* The stack, in bytes, that the header says is enough for a call on words. */
#define SHEET_STACK 16384

/* What each lent word holds before a call. */
#define WORD_BEFORE 7

/* A sheet with rows of status 0, 1 and 2, and the sums of its one block. */
static const uint64_t rows_sheet[] = {4, 0, 0, 1, 1, 3, 100, 120, 100, 0, 60, 70, 50, 1, 40, 45, 20, 2, 1, 80, 1, 60, 80, 1, 0, 0};
static const uint64_t rows_sums[TRANCHE_WEIGHTS_SUM_WORDS] = {
    [TRANCHE_WEIGHTS_SUM_EXPOSURE] = 200,
    [TRANCHE_WEIGHTS_SUM_NOMINAL] = 235,
    [TRANCHE_WEIGHTS_SUM_WEIGHTED_EXPOSURE] = 1380000,
    [TRANCHE_WEIGHTS_SUM_KNOWN_EXPOSURE] = 160,
    [TRANCHE_WEIGHTS_SUM_KNOWN_NOMINAL] = 190,
    [TRANCHE_WEIGHTS_SUM_KNOWN_WEIGHTED_EXPOSURE] = 1300000,
    [TRANCHE_WEIGHTS_SUM_LATE_NOMINAL] = 70,
};
#define ROWS_SHEET_WORDS (sizeof rows_sheet / sizeof *rows_sheet)

/* A re-securitisation, whose rows have status 3, and the sums of its block. */
static const uint64_t resecuritisation[] = {4, 0, 1, 1, 1, 1, 100, 120, 50, 3, 1, 80, 1, 60, 80, 1, 0, 0};
static const uint64_t resecuritisation_sums[TRANCHE_WEIGHTS_SUM_WORDS] = {100, 120, 500000, 100, 120, 500000, 0};
#define RESECURITISATION_WORDS (sizeof resecuritisation / sizeof *resecuritisation)

/*
 * A sheet with a tranche that is too thin for the formula: of a nominal of 10000000 the class before it leaves 1000009, and it leaves 1000004, so both its points are
 * 100000, above the charge of 80000. The place of its amount, and the sums of the block.
 */
static const uint64_t thin_sheet[] = {4, 0, 0, 1, 1, 1, 6000000, 10000000, 100, 0, 2, 8999991, 1, 60, 0, 1, 0, 0, 5, 2, 60, 5, 0, 0, 0};
static const uint64_t thin_sums[TRANCHE_WEIGHTS_SUM_WORDS] = {6000000, 10000000, 60000000000, 6000000, 10000000, 60000000000, 0};
#define THIN_SHEET_WORDS (sizeof thin_sheet / sizeof *thin_sheet)
#define THIN_PLACE 18

/* A mixed pool with its IRB section. The charge is 95% of 15% and 5% of 8%. */
static const uint64_t irb_sheet[] = {4, 2, 0, 1, 1, 1, 100, 100, 100, 0, 1, 80, 1, 60, 80, 1, 0, 0, 1, 150000, 450000, 25, 0, 950000, 12000};
#define IRB_SHEET_WORDS (sizeof irb_sheet / sizeof *irb_sheet)
#define IRB_CHARGE 146500

/* Stops where something is not what is due. */
static void due(int holds, const char *what)
{
    if (!holds) {
        printf("not what is due: %s\n", what);
        exit(1);
    }
}

/* Runs a trial on a thread with a stack of so many bytes. */
static void on_stack(size_t stack, void *(*trial)(void *))
{
    pthread_attr_t attributes;
    pthread_t thread;
    due(pthread_attr_init(&attributes) == 0 && pthread_attr_setstacksize(&attributes, stack) == 0, "a thread with a small stack");
    due(pthread_create(&thread, &attributes, trial, NULL) == 0 && pthread_join(thread, NULL) == 0, "a trial on its thread");
}

#endif
