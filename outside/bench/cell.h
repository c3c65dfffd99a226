/* A cell of a table with shares: one figure for each state, a share from 0 up, and the states at which
 * it rises over a cell before it. A cut tries only pairs of those. */
#ifndef CELL_H
#define CELL_H

#include "baseline.h"

enum { MOST_STATES = 4096, STATE_BITS = 16 };

/* The directions in which a state rises over the cell before. */
enum { OVER_LENGTH = 1 << LENGTH, OVER_WIDTH = 1 << WIDTH, OVER_BOTH = OVER_LENGTH | OVER_WIDTH };

/* A figure above its state, so that one addition adds both. */
typedef uint64_t Entry;

/* The cell that is being made. Its figures never fall; those below `known` are set, and the rest are
 * equal to the last of these. Rising states are flagged, none of them above `top`. */
typedef struct {
    size_t number;
    uint64_t *figure;
    uint8_t *rises;
    int states, known, top;
} Cell;

static inline int state(Entry entry)
{
    return (int)(entry & ((1 << STATE_BITS) - 1));
}

static inline void reach(Cell *cell, int last)
{
    int end = last < cell->states ? last + 1 : cell->states;
    uint64_t constant = cell->figure[cell->known - 1];
    for (; cell->known < end; cell->known++)
        cell->figure[cell->known] = constant;
}

static inline void flag(Cell *cell, int state, int over)
{
    cell->rises[state] |= (uint8_t)over;
    if (state > cell->top)
        cell->top = state;
}

/* Raises a state, and those above it up to the first that has as much. */
static inline void raise(Cell *cell, int state, uint64_t figure)
{
    uint64_t *figures = cell->figure;
    uint8_t *rises = cell->rises;
    for (int s = state, known = cell->known; s < known && figures[s] < figure; s++) {
        figures[s] = figure;
        rises[s] = 0;
    }
    flag(cell, state, OVER_BOTH);
}

/* Flags the entries that are above another cell. */
static inline void inherit(Cell *cell, const Entry *e, const Entry *end, const uint64_t *other,
                           int over)
{
    for (; e < end; e++)
        if (other[state(*e)] < *e >> STATE_BITS)
            flag(cell, state(*e), over);
}

/* Starts a cell as the greater of two, of which the figures are constant from these states on. */
static inline void start(Cell *cell, const uint64_t *x, int x_last, const uint64_t *y, int y_last)
{
    cell->known = (x_last > y_last ? x_last : y_last) + 1;
    for (int s = 0; s < cell->known; s++)
        cell->figure[s] = greater(x[s], y[s]);
}

/* Pieces of exactly this size; smaller ones came with the cells before. */
static inline void lay_pieces(const Job *job, Cell *cell, Size size)
{
    for (int i = 0; i < job->pieces; i++) {
        int s = job->weight[i];
        if (job->size[i].length == size.length && job->size[i].width == size.width
            && s < cell->states) {
            reach(cell, s);
            if (cell->figure[s] < job->price[i])
                raise(cell, s, job->price[i]);
        }
    }
}

/* Adds the rising states of two parts, which both have some. One of the first is passed over where
 * even the greatest figure of the second gives no more than its least state has already. */
static inline void join(Cell *cell, const Entry *x, const Entry *x_end, const Entry *y,
                        const Entry *y_end)
{
    const uint64_t *figures = cell->figure;
    Entry most = y_end[-1];
    int states = cell->states, least = state(*y);
    reach(cell, state(x_end[-1]) + state(most));
    for (; x < x_end && state(*x) + least < states; x++)
        if (figures[state(*x) + least] < (*x + most) >> STATE_BITS)
            for (const Entry *e = y; e < y_end && state(*x + *e) < states; e++) {
                Entry sum = *x + *e;
                if (figures[state(sum)] < sum >> STATE_BITS)
                    raise(cell, state(sum), sum >> STATE_BITS);
            }
}

#endif
