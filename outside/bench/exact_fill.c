/* The table of short orders: a cell is one figure for each state of the remaining copies. A finished
 * cell has lists of the states at which it rises over the cell before it in each direction; a cut tries
 * only two of those. The lists stand in memory of their own. */
#include "baseline.h"
#include <stdlib.h>
#include <string.h>

enum { MOST_STATES = 4096, STATE_BITS = 13 };

/* The directions in which a state rises over the cell before. */
enum { OVER_LENGTH = 1 << LENGTH, OVER_WIDTH = 1 << WIDTH, OVER_BOTH = OVER_LENGTH | OVER_WIDTH };

/* A figure above the state's digits, each with a bit to spare, above the state, so that one addition
 * adds all. 4,096 states have 24 bits of digits at most, and figures fit above: an order of many copies
 * has few kinds. */
typedef uint64_t Entry;

typedef struct {
    uint32_t start, count;
} List;

typedef struct {
    const Plate *plate;
    uint64_t *table;
    List *lists[2]; /* of each cell: the states that rise in a direction */
    Entry *entries;
    size_t used, room;
    size_t step[2]; /* from a cell's number to that of its next neighbour in each direction */
    int states, figure_at; /* the lowest bit of the figure */
    Entry bias, spare; /* a digit that passes its radix sets its spare bit, where the bias is added */
    Entry number[MOST_STATES]; /* a state and its digits */
    uint8_t digit[MOST_STATES][MOST_DIGITS];
    uint8_t rises[MOST_STATES]; /* for the cell that is being made */
} Fill;

/* The cell that is being made. Its figures fall in no kind's copies. Rising states are flagged, none of
 * them above `top`. */
typedef struct {
    size_t number;
    uint64_t *figure;
    int top;
} Cell;

static uint64_t *figures(const Fill *fill, size_t number)
{
    return fill->table + number * (size_t)fill->states;
}

static int state(Entry entry)
{
    return (int)(entry & ((1 << STATE_BITS) - 1));
}

static void flag(Fill *fill, Cell *cell, int state, int over)
{
    fill->rises[state] |= (uint8_t)over;
    if (state > cell->top)
        cell->top = state;
}

/* Raises the states from `at` on that have no fewer copies in this digit and those below it, up to the
 * first that has as much. */
static void raise_digits(Fill *fill, uint64_t *figure, const uint8_t *digits, int d, int at,
                         uint64_t to)
{
    const Copies *copies = &fill->plate->job.copies;
    int stride = copies->stride[d], end = at + (copies->radix[d] - digits[d]) * stride;
    for (; at < end && figure[at] < to; at += stride)
        if (d > 0) {
            raise_digits(fill, figure, digits, d - 1, at, to);
        } else {
            figure[at] = to;
            fill->rises[at] = 0;
        }
}

static void raise(Fill *fill, Cell *cell, int state, uint64_t to)
{
    int last = fill->plate->job.copies.digits - 1;
    raise_digits(fill, cell->figure, fill->digit[state], last, state, to);
    flag(fill, cell, state, OVER_BOTH);
}

/* Flags the states that rise in a direction in one cell before and are above the other. */
static void inherit(Fill *fill, Cell *cell, size_t from, size_t over, int direction)
{
    const List *list = &fill->lists[direction][from];
    const uint64_t *other = figures(fill, over);
    for (const Entry *e = fill->entries + list->start, *end = e + list->count; e < end; e++)
        if (other[state(*e)] < *e >> fill->figure_at)
            flag(fill, cell, state(*e), 1 << direction);
}

/* Starts a cell from the two before it. */
static void start(Fill *fill, Cell *cell)
{
    size_t above = cell->number - fill->step[LENGTH], before = cell->number - fill->step[WIDTH];
    const uint64_t *x = figures(fill, above), *y = figures(fill, before);
    for (int s = 0; s < fill->states; s++)
        cell->figure[s] = greater(x[s], y[s]);
    inherit(fill, cell, before, above, LENGTH);
    inherit(fill, cell, above, before, WIDTH);
}

/* Pieces of exactly this size; smaller ones came with the cells before. */
static void lay_pieces(Fill *fill, Cell *cell, Size size)
{
    const Job *job = &fill->plate->job;
    for (int i = 0; i < job->pieces; i++)
        if (job->size[i].length == size.length && job->size[i].width == size.width
            && cell->figure[job->weight[i]] < job->price[i])
            raise(fill, cell, job->weight[i], job->price[i]);
}

/* Adds the rising states of two parts, those that are together within the demands. */
static void join(Fill *fill, Cell *cell, const List *first, const List *second)
{
    const Entry *x = fill->entries + first->start, *x_end = x + first->count;
    const Entry *y = fill->entries + second->start, *y_end = y + second->count;
    const uint64_t *figure = cell->figure;
    Entry bias = fill->bias, spare = fill->spare;
    int figure_at = fill->figure_at;
    for (; x < x_end; x++) {
        Entry from = *x + bias;
        for (const Entry *e = y; e < y_end; e++) {
            Entry sum = from + *e;
            if (!(sum & spare) && figure[state(sum)] < sum >> figure_at)
                raise(fill, cell, state(sum), sum >> figure_at);
        }
    }
}

/* Cuts up to the half whose two parts are normal and rise; any other is worth a cell before. */
static void cut(Fill *fill, Cell *cell, int direction, int index)
{
    const Positions *positions = &fill->plate->on[direction];
    size_t step = fill->step[direction];
    const List *origin = fill->lists[direction] + cell->number - index * step;
    int side = positions->at[index];
    for (int i = 1; i < index && 2 * positions->at[i] <= side; i++) {
        int rest = positions->index[side - positions->at[i]];
        if (positions->at[i] + positions->at[rest] == side)
            join(fill, cell, origin + i * step, origin + rest * step);
    }
}

/* Lists the flagged states and takes the flags off: those that rise in length alone, in both
 * directions, in width alone, so that each direction has its own side by side. */
static void collect(Fill *fill, const Cell *cell)
{
    static const int order[] = {OVER_LENGTH, OVER_BOTH, OVER_WIDTH};
    uint32_t count[OVER_BOTH + 1] = {0}, at[OVER_BOTH + 1];
    if (fill->used + (size_t)fill->states > fill->room) {
        fill->room *= 2;
        fill->entries = realloc(fill->entries, fill->room * sizeof *fill->entries);
    }
    for (int s = 0; s <= cell->top; s++)
        count[fill->rises[s]]++;
    uint32_t start = (uint32_t)fill->used;
    for (int i = 0; i < 3; i++) {
        at[order[i]] = (uint32_t)fill->used;
        fill->used += count[order[i]];
    }
    fill->lists[LENGTH][cell->number] = (List){start, count[OVER_LENGTH] + count[OVER_BOTH]};
    fill->lists[WIDTH][cell->number] = (List){at[OVER_BOTH], count[OVER_BOTH] + count[OVER_WIDTH]};
    for (int s = 0; s <= cell->top; s++)
        if (fill->rises[s]) {
            fill->entries[at[fill->rises[s]]++] = cell->figure[s] << fill->figure_at | fill->number[s];
            fill->rises[s] = 0;
        }
}

static void make_cell(Fill *fill, int a, int b)
{
    const Plate *plate = fill->plate;
    size_t number = a * fill->step[LENGTH] + b;
    Cell cell = {number, figures(fill, number), 0};
    start(fill, &cell);
    lay_pieces(fill, &cell, (Size){plate->on[LENGTH].at[a], plate->on[WIDTH].at[b]});
    cut(fill, &cell, LENGTH, a);
    cut(fill, &cell, WIDTH, b);
    collect(fill, &cell);
}

/* Gives each digit its place above the state, and each state its digits. */
static void place_digits(Fill *fill)
{
    const Copies *copies = &fill->plate->job.copies;
    fill->figure_at = STATE_BITS;
    for (int s = 0; s < fill->states; s++)
        fill->number[s] = (Entry)s;
    for (int d = 0; d < copies->digits; d++) {
        int bits = 1, radix = copies->radix[d];
        while (1 << bits < radix)
            bits++;
        fill->bias |= (Entry)((1 << bits) - radix) << fill->figure_at;
        fill->spare |= (Entry)1 << (fill->figure_at + bits);
        for (int s = 0; s < fill->states; s++) {
            fill->digit[s][d] = (uint8_t)(s / copies->stride[d] % radix);
            fill->number[s] |= (Entry)fill->digit[s][d] << fill->figure_at;
        }
        fill->figure_at += bits + 1;
    }
}

void fill_exact(const Plate *plate, uint64_t *table)
{
    int p = plate->on[LENGTH].count, r = plate->on[WIDTH].count;
    size_t states = (size_t)plate->job.capacity + 1, row = (size_t)r * states, cells = (size_t)p * r;
    Fill *fill = calloc(1, sizeof *fill);
    *fill = (Fill){.plate = plate, .table = table, .step = {(size_t)r, 1}, .states = (int)states};
    place_digits(fill);
    fill->lists[LENGTH] = calloc(cells, sizeof *fill->lists[LENGTH]);
    fill->lists[WIDTH] = calloc(cells, sizeof *fill->lists[WIDTH]);
    fill->room = 4 * cells + states;
    fill->entries = malloc(fill->room * sizeof *fill->entries);
    memset(table, 0, row * sizeof *table);
    for (int a = 1; a < p; a++) {
        memset(table + a * row, 0, states * sizeof *table);
        for (int b = 1; b < r; b++)
            make_cell(fill, a, b);
    }
    free(fill->lists[LENGTH]);
    free(fill->lists[WIDTH]);
    free(fill->entries);
    free(fill);
}
