/* Saved books for tests/rebates/run.
 *
 *     save BOOK SPOILT
 *
 * writes the words of a book with the reference sheet and the tiers of 20,000 mills to 100 kWh, then 15,000, in place 8, open under a
 * direction; and the same words with one changed so that they are no book. Status 3: the library takes any words with the mark. */
#include <stdio.h>
#include <string.h>

#include "slatewhim.h"

static const uint32_t four[SLATEWHIM_FIELDS - 3] = {
    0, 30000000, 0, 36000000, 0, 1000000, 0, 1000000, 1000000, 8000000, 1000000, 8000000, 5000000, 9000000, 5000000, 9000000,
    10000, 10000, 20000, 0, 400000, 0, 1000, 100, 100, 100, 100, 100, 100, 1100, 100, 105, 100, 100, 100, 100, 500000};
static const uint32_t tiers[SLATEWHIM_RECORD] = {1, 2, 20000, 16383, 3, 20000, 15000, 0, 0, 100};

static int write_words(const char *path, const uint32_t *words)
{
    FILE *file = fopen(path, "wb");

    return file != NULL && fwrite(words, sizeof *words, SLATEWHIM_WORDS, file) == SLATEWHIM_WORDS && fclose(file) == 0;
}

int main(int argc, char **argv)
{
    static uint32_t book[SLATEWHIM_WORDS];
    uint32_t fields[SLATEWHIM_FIELDS];
    size_t i;

    if (argc != 3)
        return 2;
    memcpy(fields, four, sizeof four);
    for (i = 37; i < 93; i++)
        fields[i] = i % 2 == 1 ? 2000000 : 12000000;
    fields[93] = 3000;
    fields[94] = 4000;
    fields[95] = 580;
    if (slatewhim_fresh(book, SLATEWHIM_WORDS) != 0 ||
        slatewhim_set(book, SLATEWHIM_WORDS, SLATEWHIM_ALL_REGIONS, fields, SLATEWHIM_FIELDS, 2023, 10, 3) != 0 ||
        slatewhim_put(book, SLATEWHIM_WORDS, SLATEWHIM_ALL_REGIONS, 8, tiers, SLATEWHIM_RECORD) != 0 ||
        slatewhim_direct(book, SLATEWHIM_WORDS, SLATEWHIM_ALL_REGIONS, 8) != 0 ||
        slatewhim_open(book, SLATEWHIM_WORDS, SLATEWHIM_ALL_REGIONS, 8).refusal != 0 || !write_words(argv[1], book))
        return 1;
    for (i = SLATEWHIM_WORDS - 1; i > 0; i--) {
        book[i] ^= 0x80000000u;
        if (slatewhim_check(book, SLATEWHIM_WORDS) != 0)
            return write_words(argv[2], book) ? 0 : 1;
        book[i] ^= 0x80000000u;
    }
    return 3;
}
