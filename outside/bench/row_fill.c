/* The table where the capacity is 0: one word a cell.
 * A row starts as the row before; length cuts add whole rows; width cuts go out from cells that rise. */
#include "baseline.h"
#include <string.h>

/* Pieces of exactly this length and no weight; shorter ones came with the row before. */
void lay_in_row(const Plate *plate, int length, uint64_t *row)
{
    const Job *job = &plate->job;
    for (int i = 0; i < job->pieces; i++)
        if (job->size[i].length == length && job->size[i].width <= job->plate.width
            && job->weight[i] == 0) {
            uint64_t *cell = row + plate->on[WIDTH].index[job->size[i].width];
            *cell = greater(*cell, job->price[i]);
        }
}

static void add_rows(uint64_t *restrict row, const uint64_t *restrict first,
                     const uint64_t *restrict second, int count)
{
    for (int b = 0; b < count; b++)
        row[b] = greater(row[b], first[b] + second[b]);
}

/* Cuts up to the half whose remainder is normal itself; any other is worth a shorter row. */
void cut_lengths(const Positions *lengths, int a, uint64_t *table, size_t r)
{
    int length = lengths->at[a];
    for (int i = 1; 2 * lengths->at[i] <= length && i < a; i++) {
        int rest = lengths->index[length - lengths->at[i]];
        if (lengths->at[i] + lengths->at[rest] == length)
            add_rows(table + a * r, table + i * r, table + rest * r, (int)r);
    }
}

static void spread(const Positions *widths, const uint64_t *row, uint64_t *unit)
{
    memset(unit, 0, (size_t)(widths->side + 1) * sizeof *unit);
    for (int b = 0; b < widths->count; b++)
        unit[widths->at[b]] = row[b];
}

/* Over units: a cell that is not above the one before it earns nothing new as a first part. */
void cut_widths(const Positions *widths, uint64_t *row, uint64_t *unit)
{
    int side = widths->side, least = widths->count > 1 ? widths->at[1] : side;
    spread(widths, row, unit);
    for (int b = 1; b < widths->count; b++) {
        int w = widths->at[b];
        for (int x = widths->at[b - 1] + 1; x < w; x++)
            unit[x] = row[b - 1];
        if (unit[w] <= row[b - 1]) {
            row[b] = unit[w] = row[b - 1];
            continue;
        }
        row[b] = unit[w];
        int most = w < side - w ? w : side - w;
        raise_by(unit + w + least, unit[w], unit + least, most - least + 1);
    }
}

void fill_row_fill(const Plate *plate, uint64_t *table)
{
    size_t r = (size_t)plate->on[WIDTH].count;
    uint64_t unit[MOST_SIDE + 1];
    memset(table, 0, r * sizeof *table);
    for (int a = 1; a < plate->on[LENGTH].count; a++) {
        uint64_t *row = table + a * r;
        memcpy(row, row - r, r * sizeof *row);
        lay_in_row(plate, plate->on[LENGTH].at[a], row);
        cut_lengths(&plate->on[LENGTH], a, table, r);
        cut_widths(&plate->on[WIDTH], row, unit);
    }
}
