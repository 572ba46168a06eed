/*
 * Opens the pool of a sheet's file, amends a row and prints charge and weights before and after; the file stays as it is. From the repository's root:
 *
 *     sh tests/archive.sh && mkdir -p target && cc -std=c99 -Iinclude examples/amend_row.c crates/tranche_weights_c/out/libtranche_weights.a -o target/amend_row
 *
 * Status 0: the amended deal is weighed. 1: sheet, amendment or amended deal is refused, which is printed; or one line on standard error says what else is wrong.
 */
#include <inttypes.h>
#include <stdio.h>
#include <stdlib.h>
#include <string.h>

#include "tranche_weights.h"

/* Ends the program with one line where something does not hold. */
static void need(int holds, const char *otherwise)
{
    if (!holds) {
        fprintf(stderr, "amend_row: %s\n", otherwise);
        exit(1);
    }
}

/* Prints a refusal, where there is one; returns its number. */
static uint64_t print_refusal(const char *of, uint64_t number, const uint64_t *place)
{
    if (number != TRANCHE_WEIGHTS_ACCEPTED)
        printf("%s: refused %" PRIu64 " at %" PRIu64 "\n", of, number, *place);
    return number;
}

/* Prints the charge of an opened pool and the weights of its tranches, or where one is too thin for the formula, the refusal; returns its number. */
static uint64_t print_pool(const char *when, const uint64_t *sheet, size_t words, const uint64_t *sums)
{
    uint64_t results[TRANCHE_WEIGHTS_RESULT_WORDS], place, count, charge;
    uint64_t number = tranche_weights_weigh_opened(sheet, words, sums, results, TRANCHE_WEIGHTS_RESULT_WORDS, &place, &count, &charge);
    printf("%s: pool charge %.4f%%\n", when, tranche_weights_opened_charge(sheet, words, sums) / 1e4);
    for (uint64_t i = 0; i < count; i++)
        printf("tranche %" PRIu64 ": weight %.2f%%\n", i + 1, results[TRANCHE_WEIGHTS_LINE_WORDS * i + TRANCHE_WEIGHTS_WORD_WEIGHT] / 1e2);
    return print_refusal("tranches", number, &place);
}

int main(int argc, char **argv)
{
    static uint64_t sheet[TRANCHE_WEIGHTS_SHEET_WORDS + 1], amended[TRANCHE_WEIGHTS_SHEET_WORDS + 1];
    uint64_t sums[TRANCHE_WEIGHTS_SUM_WORDS], amended_sums[TRANCHE_WEIGHTS_SUM_WORDS], amendment[TRANCHE_WEIGHTS_AMENDMENT_WORDS], place;
    need(argc == 2 + TRANCHE_WEIGHTS_AMENDMENT_WORDS, "usage: amend_row FILE ROW EXPOSURE NOMINAL WEIGHT STATUS");
    for (int i = 2; i < argc; i++) {
        need(*argv[i] != 0 && argv[i][strspn(argv[i], "0123456789")] == 0, "a row's number and its words are whole numbers");
        amendment[i - 2] = strtoull(argv[i], NULL, 10); /* UINT64_MAX where it is above that, and so refused */
    }
    FILE *file = fopen(argv[1], "rb");
    size_t bytes = file ? fread(sheet, 1, sizeof sheet, file) : 0, words = bytes / TRANCHE_WEIGHTS_BYTES_PER_WORD;
    need(file && !ferror(file) && bytes % TRANCHE_WEIGHTS_BYTES_PER_WORD == 0, "the file can't be read, or ends within a word");
    fclose(file);
    if (print_refusal("sheet", tranche_weights_open_pool(sheet, words, &place, sums), &place))
        return 1;
    memcpy(amended, sheet, sizeof sheet);
    memcpy(amended_sums, sums, sizeof sums);
    if (print_refusal("amendment", tranche_weights_amend(amended, words, amended_sums, amendment, TRANCHE_WEIGHTS_AMENDMENT_WORDS, &place), &place))
        return 1;
    print_pool("before", sheet, words, sums);
    uint64_t number = print_pool("after", amended, words, amended_sums);
    need(fflush(stdout) == 0, "the output can't be written");
    return number != TRANCHE_WEIGHTS_ACCEPTED;
}
