/* The table of two weights a kind: a cell is one figure for each pair of shares, the second fastest.
 * A finished cell has a list of the pairs at which it rises over a cell before it; a cut tries only two
 * of those. The lists stand in memory of their own. */
#include "baseline.h"
#include <stdlib.h>
#include <string.h>

/* A figure above its pair of shares, each with a bit to spare, so that one addition adds all three. */
typedef uint64_t Entry;

typedef struct {
    uint32_t start, count;
} List;

typedef struct {
    const Plate *plate;
    const int *second; /* second weight of each piece */
    uint64_t *table;
    List *lists;
    Entry *entries;
    uint8_t *rises; /* for the cell that is being made */
    size_t states, used, room;
    size_t step[2]; /* from a cell's number to that of its next neighbour in each direction */
    int most[2];    /* both capacities */
    int bits[2];    /* of a sum of two shares */
} Fill;

/* The cell that is being made. Its figures fall in neither share. Rising pairs are flagged, none of
 * them above `top`. */
typedef struct {
    size_t number;
    uint64_t *figure;
    size_t top;
} Cell;

static uint64_t *figures(const Fill *fill, size_t number)
{
    return fill->table + number * fill->states;
}

static int first_share(const Fill *fill, Entry entry)
{
    return (int)(entry >> fill->bits[1] & ((1u << fill->bits[0]) - 1));
}

static int second_share(const Fill *fill, Entry entry)
{
    return (int)(entry & ((1u << fill->bits[1]) - 1));
}

static uint64_t figure(const Fill *fill, Entry entry)
{
    return entry >> (fill->bits[0] + fill->bits[1]);
}

static size_t state(const Fill *fill, int first, int second)
{
    return (size_t)first * (size_t)(fill->most[1] + 1) + (size_t)second;
}

static void flag(const Fill *fill, Cell *cell, size_t state)
{
    fill->rises[state] = 1;
    if (state > cell->top)
        cell->top = state;
}

/* Raises a pair, and those above it in either share up to the first that has as much. */
static void raise(const Fill *fill, Cell *cell, int first, int second, uint64_t to)
{
    size_t row = (size_t)fill->most[1] + 1, at = state(fill, first, second);
    size_t end = (size_t)(fill->most[1] - second) + 1;
    for (size_t s = at; s < fill->states && cell->figure[s] < to; s += row)
        for (size_t i = 0; i < end && cell->figure[s + i] < to; i++) {
            cell->figure[s + i] = to;
            fill->rises[s + i] = 0;
        }
    flag(fill, cell, at);
}

/* Flags the pairs of one cell before at which it is above the other. */
static void inherit(const Fill *fill, Cell *cell, size_t from, size_t over)
{
    const List *list = &fill->lists[from];
    const uint64_t *other = figures(fill, over);
    for (const Entry *e = fill->entries + list->start, *end = e + list->count; e < end; e++) {
        size_t s = state(fill, first_share(fill, *e), second_share(fill, *e));
        if (other[s] < figure(fill, *e))
            flag(fill, cell, s);
    }
}

/* Starts a cell from the two before it. */
static void start(const Fill *fill, Cell *cell)
{
    size_t above = cell->number - fill->step[LENGTH], before = cell->number - fill->step[WIDTH];
    const uint64_t *x = figures(fill, above), *y = figures(fill, before);
    for (size_t s = 0; s < fill->states; s++)
        cell->figure[s] = greater(x[s], y[s]);
    inherit(fill, cell, above, before);
    inherit(fill, cell, before, above);
}

/* Pieces of exactly this size; smaller ones came with the cells before. */
static void lay_pieces(const Fill *fill, Cell *cell, Size size)
{
    const Job *job = &fill->plate->job;
    for (int i = 0; i < job->pieces; i++) {
        int first = job->weight[i], second = fill->second[i];
        if (job->size[i].length == size.length && job->size[i].width == size.width
            && first <= fill->most[0] && second <= fill->most[1]
            && cell->figure[state(fill, first, second)] < job->price[i])
            raise(fill, cell, first, second, job->price[i]);
    }
}

/* Adds the rising pairs of two parts; the first shares of a list never fall. */
static void join(const Fill *fill, Cell *cell, const List *first, const List *second)
{
    const Entry *x = fill->entries + first->start, *x_end = x + first->count;
    const Entry *y = fill->entries + second->start, *y_end = y + second->count;
    for (; x < x_end; x++)
        for (const Entry *e = y; e < y_end; e++) {
            Entry sum = *x + *e;
            int a = first_share(fill, sum), b = second_share(fill, sum);
            if (a > fill->most[0])
                break;
            if (b <= fill->most[1] && cell->figure[state(fill, a, b)] < figure(fill, sum))
                raise(fill, cell, a, b, figure(fill, sum));
        }
}

/* Cuts up to the half whose two parts are normal and rise; any other is worth a cell before. */
static void cut(const Fill *fill, Cell *cell, int direction, int index)
{
    const Positions *positions = &fill->plate->on[direction];
    size_t step = fill->step[direction];
    const List *origin = fill->lists + cell->number - index * step;
    int side = positions->at[index];
    for (int i = 1; i < index && 2 * positions->at[i] <= side; i++) {
        int rest = positions->index[side - positions->at[i]];
        if (positions->at[i] + positions->at[rest] == side)
            join(fill, cell, origin + i * step, origin + rest * step);
    }
}

/* Lists the flagged pairs and takes the flags off. */
static List collect(Fill *fill, const Cell *cell)
{
    if (fill->used + fill->states > fill->room) {
        fill->room *= 2;
        fill->entries = realloc(fill->entries, fill->room * sizeof *fill->entries);
    }
    List list = {(uint32_t)fill->used, 0};
    size_t row = (size_t)fill->most[1] + 1;
    for (size_t s = 0; s <= cell->top; s++)
        if (fill->rises[s]) {
            Entry shares = (Entry)(s / row) << fill->bits[1] | (Entry)(s % row);
            fill->rises[s] = 0;
            fill->entries[fill->used++]
                = cell->figure[s] << (fill->bits[0] + fill->bits[1]) | shares;
        }
    list.count = (uint32_t)fill->used - list.start;
    return list;
}

static void make_cell(Fill *fill, int a, int b)
{
    const Plate *plate = fill->plate;
    size_t number = a * fill->step[LENGTH] + b;
    Cell cell = {number, figures(fill, number), 0};
    start(fill, &cell);
    lay_pieces(fill, &cell, (Size){plate->on[LENGTH].at[a], plate->on[WIDTH].at[b]});
    cut(fill, &cell, LENGTH, a);
    cut(fill, &cell, WIDTH, b);
    fill->lists[number] = collect(fill, &cell);
}

static int bits_of(int most)
{
    int bits = 1;
    while (most >> bits)
        bits++;
    return bits;
}

void fill_two(const Plate *plate, const int *second, int capacity, uint64_t *table)
{
    int p = plate->on[LENGTH].count, r = plate->on[WIDTH].count, most = plate->job.capacity;
    size_t states = (size_t)(most + 1) * (size_t)(capacity + 1), cells = (size_t)p * r;
    Fill fill = {.plate = plate, .second = second, .table = table, .states = states,
                 .step = {(size_t)r, 1}, .most = {most, capacity},
                 .bits = {bits_of(2 * most), bits_of(2 * capacity)}};
    fill.lists = calloc(cells, sizeof *fill.lists);
    fill.rises = calloc(states, 1);
    fill.room = 4 * cells + states;
    fill.entries = malloc(fill.room * sizeof *fill.entries);
    memset(table, 0, (size_t)r * states * sizeof *table);
    for (int a = 1; a < p; a++) {
        memset(table + (size_t)a * r * states, 0, states * sizeof *table);
        for (int b = 1; b < r; b++)
            make_cell(&fill, a, b);
    }
    free(fill.lists);
    free(fill.rises);
    free(fill.entries);
}
