/*
 * The header's functions with a null pointer for each list of length 0, over stand-ins for the archive's functions that hold every pointer they get not to be null.
 * Stops with status 1 and one line where one is. tests/c_example.sh runs it; tests/calls.c and tests/opened_calls.c try the same on the archive. The sheet of an opened pool
 * has words, so that it is never null.
 */
#include <stdio.h>
#include <stdlib.h>

#include "tranche_weights.h"

/* Stops where a pointer is null. */
static void there(const void *pointer, const char *what)
{
    if (pointer == NULL) {
        printf("a null pointer handed on: %s\n", what);
        exit(1);
    }
}

uint64_t tranche_weights_weigh_v10(const uint64_t *sheet, size_t words, uint64_t *results, size_t room, uint64_t *place, uint64_t *count,
                                  uint64_t *charge)
{
    there(sheet, "sheet");
    there(results, "results of a sheet");
    *place = *count = *charge = 0;
    return words + room;
}

uint64_t tranche_weights_weigh_file_v10(const uint8_t *file, size_t size, uint64_t *results, size_t room, uint64_t *place, uint64_t *count,
                                       uint64_t *charge)
{
    there(file, "file");
    there(results, "results of a file");
    *place = *count = *charge = 0;
    return size + room;
}

uint64_t tranche_weights_report_v10(const uint8_t *file, size_t size, uint8_t *text, size_t room)
{
    there(file, "file of a report");
    there(text, "text");
    return size + room;
}

uint64_t tranche_weights_block_sums_v10(const uint64_t *sheet, size_t words, uint64_t block, uint64_t *place, uint64_t *sums)
{
    there(sheet, "sheet of a block");
    *place = *sums = 0;
    return words + block;
}

uint64_t tranche_weights_convert_v10(const uint64_t *sheet, size_t words, uint64_t *output, size_t room, uint64_t *place, uint64_t *count)
{
    there(sheet, "sheet to convert");
    there(output, "output");
    *place = *count = 0;
    return words + room;
}

uint64_t tranche_weights_open_pool_v10(const uint64_t *sheet, size_t words, uint64_t *place, uint64_t *sums)
{
    there(sheet, "sheet to open");
    *place = *sums = 0;
    return words;
}

uint64_t tranche_weights_is_opened_v10(const uint64_t *sheet, size_t words, const uint64_t *sums)
{
    there(sheet, "sheet that may be opened");
    return words + *sums;
}

uint64_t tranche_weights_amend_v10(uint64_t *sheet, size_t words, uint64_t *sums, const uint64_t *amendment, size_t amendment_words,
                                   uint64_t *place)
{
    there(sheet, "sheet to amend");
    there(amendment, "amendment");
    *place = 0;
    return words - *sheet + *sums + amendment_words;
}

uint64_t tranche_weights_opened_charge_v10(const uint64_t *sheet, size_t words, const uint64_t *sums)
{
    there(sheet, "sheet of a charge");
    return words - *sheet + *sums;
}

uint64_t tranche_weights_weigh_opened_v10(const uint64_t *sheet, size_t words, const uint64_t *sums, uint64_t *results, size_t room,
                                          uint64_t *place, uint64_t *count, uint64_t *charge)
{
    there(sheet, "sheet of an opened pool");
    there(results, "results of an opened pool");
    *place = *count = *charge = 0;
    return words - *sheet + *sums + room;
}

int main(void)
{
    uint64_t one_word = 1, place, count, charge, sums[TRANCHE_WEIGHTS_SUM_WORDS] = {0};
    uint64_t sizes = tranche_weights_weigh(NULL, 0, NULL, 0, &place, &count, &charge);
    sizes += tranche_weights_weigh_file(NULL, 0, NULL, 0, &place, &count, &charge);
    sizes += tranche_weights_report(NULL, 0, NULL, 0);
    sizes += tranche_weights_block_sums(NULL, 0, 0, &place, sums);
    sizes += tranche_weights_convert(NULL, 0, NULL, 0, &place, &count);
    sizes += tranche_weights_open_pool(NULL, 0, &place, sums);
    sizes += tranche_weights_is_opened(NULL, 0, sums);
    sizes += tranche_weights_amend(&one_word, 1, sums, NULL, 0, &place);
    sizes += tranche_weights_opened_charge(&one_word, 1, sums);
    sizes += tranche_weights_weigh_opened(&one_word, 1, sums, NULL, 0, &place, &count, &charge);
    return sizes != 0;
}
