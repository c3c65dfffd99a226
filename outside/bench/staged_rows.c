/* The staged table where the capacity is 0: one word a cell, block by block.
 * A length-first block needs no cuts of the width, a width-first one no row before. */
#include "baseline.h"
#include <string.h>

/* Every row as the one before, with the pieces of its length, rising along the width. */
static void fill_single(const Plate *plate, uint64_t *block, size_t r)
{
    memset(block, 0, r * sizeof *block);
    for (int a = 1; a < plate->on[LENGTH].count; a++) {
        uint64_t *row = block + a * r;
        memcpy(row, row - r, r * sizeof *row);
        lay_in_row(plate, plate->on[LENGTH].at[a], row);
        for (size_t b = 1; b < r; b++)
            row[b] = greater(row[b], row[b - 1]);
    }
}

static void fill_length_first(const Positions *lengths, const uint64_t *restrict before,
                              uint64_t *restrict block, size_t r)
{
    memset(block, 0, r * sizeof *block);
    for (int a = 1; a < lengths->count; a++) {
        uint64_t *row = block + a * r;
        for (size_t b = 0; b < r; b++)
            row[b] = greater(before[a * r + b], block[(a - 1) * r + b]);
        cut_lengths(lengths, a, block, r);
    }
}

static void fill_width_first(const Plate *plate, const uint64_t *before, uint64_t *block, size_t r)
{
    uint64_t unit[MOST_SIDE + 1];
    size_t p = (size_t)plate->on[LENGTH].count;
    memcpy(block, before, p * r * sizeof *block);
    for (size_t a = 1; a < p; a++)
        cut_widths(&plate->on[WIDTH], block + a * r, unit);
}

void fill_staged_rows(const Plate *plate, int limit, uint64_t *table)
{
    size_t r = (size_t)plate->on[WIDTH].count, words = (size_t)plate->on[LENGTH].count * r;
    fill_single(plate, table, r);
    for (int stage = 1; stage <= limit; stage++) {
        uint64_t *length_first = table + (2 * stage - 1) * words, *width_first = length_first + words;
        fill_length_first(&plate->on[LENGTH], length_first - words, length_first, r);
        fill_width_first(plate, stage == 1 ? table : width_first - 3 * words, width_first, r);
    }
}
