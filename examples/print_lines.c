/*
 * Loads a deal sheet's file, weighs it and prints a line for each tranche. From the repository's root:
 *
 *     sh tests/archive.sh && mkdir -p target && cc -std=c99 -Iinclude examples/print_lines.c crates/tranche_weights_c/out/libtranche_weights.a -o target/print_lines
 *
 * Status 0: the lines are printed. 1: the sheet is refused, and the refusal is printed. 2: the file can't be read, or the output can't be written.
 */
#include <inttypes.h>
#include <stdio.h>

#include "tranche_weights.h"

/* Reads a file's bytes, at most one more than the longest file has. Returns their number, or -1 where the file can't be read. */
static long read_file(const char *name, unsigned char *bytes)
{
    FILE *file = fopen(name, "rb");
    long size;
    if (file == NULL)
        return -1;
    size = (long)fread(bytes, 1, TRANCHE_WEIGHTS_FILE_BYTES + 1, file);
    if (ferror(file))
        size = -1;
    fclose(file);
    return size;
}

/* The name of an approach. A program meets none that it does not know before it is compiled with a later header. */
static const char *name_of(uint64_t approach)
{
    switch (approach) {
    case TRANCHE_WEIGHTS_BY_FALLBACK:
        return "fallback";
    case TRANCHE_WEIGHTS_BY_SEC_ERBA:
        return "SEC-ERBA";
    case TRANCHE_WEIGHTS_BY_SEC_SA:
        return "SEC-SA";
    case TRANCHE_WEIGHTS_BY_SEC_IRBA:
        return "SEC-IRBA";
    default:
        return "an approach without a name here";
    }
}

/* Prints the line of one tranche, points and weights in percent. */
static void print_line(uint64_t number, const uint64_t *line)
{
    printf("tranche %" PRIu64 ": %s from %.4f%% to %.4f%%, weight %.2f%%", number, name_of(line[TRANCHE_WEIGHTS_WORD_APPROACH]),
           line[TRANCHE_WEIGHTS_WORD_ATTACHMENT] / 1e4, line[TRANCHE_WEIGHTS_WORD_DETACHMENT] / 1e4, line[TRANCHE_WEIGHTS_WORD_WEIGHT] / 1e2);
    printf(", risk-weighted amount %" PRIu64 ", capital %" PRIu64 ", least weight %.2f%%\n", line[TRANCHE_WEIGHTS_WORD_RISK_WEIGHTED_AMOUNT],
           line[TRANCHE_WEIGHTS_WORD_CAPITAL], line[TRANCHE_WEIGHTS_WORD_LEAST_WEIGHT] / 1e2);
}

/* Weighs the sheet of a file's bytes and prints its lines, or the refusal. Returns the refusal's number, 0 where there is none. */
static uint64_t print_deal(const unsigned char *bytes, long size)
{
    uint64_t results[TRANCHE_WEIGHTS_RESULT_WORDS], place, count, charge;
    uint64_t number = tranche_weights_weigh_file(bytes, (size_t)size, results, TRANCHE_WEIGHTS_RESULT_WORDS, &place, &count, &charge);
    for (uint64_t i = 0; i < count; i++)
        print_line(i + 1, results + TRANCHE_WEIGHTS_LINE_WORDS * i);
    if (number == TRANCHE_WEIGHTS_ACCEPTED)
        printf("pool charge %.4f%%\n", charge / 1e4);
    else
        printf("refused %" PRIu64 " at %" PRIu64 "\n", number, place);
    return number;
}

int main(int argc, char **argv)
{
    static unsigned char bytes[TRANCHE_WEIGHTS_FILE_BYTES + 1];
    uint64_t number;
    long size;
    if (argc != 2) {
        fprintf(stderr, "usage: print_lines FILE\n");
        return 2;
    }
    size = read_file(argv[1], bytes);
    if (size < 0) {
        fprintf(stderr, "print_lines: %s can't be read\n", argv[1]);
        return 2;
    }
    number = print_deal(bytes, size);
    if (fflush(stdout) != 0) {
        fprintf(stderr, "print_lines: the output can't be written\n");
        return 2;
    }
    return number != TRANCHE_WEIGHTS_ACCEPTED;
}
