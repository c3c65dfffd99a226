/* The table where the capacity is above 0. A finished cell has a list of the states at which it rises
 * over a cell before it. The lists stand in memory of their own. */
#include "cell.h"
#include <stdlib.h>
#include <string.h>

/* Of a cell: its rising states in order, and a state from which on its figures are one constant. */
typedef struct {
    uint32_t start;
    uint16_t count, last;
} List;

typedef struct {
    const Plate *plate;
    uint64_t *table;
    List *lists;
    Entry *entries;
    size_t states, used, room;
    size_t step[2]; /* from a cell's number to that of its next neighbour in each direction */
} Fill;

static uint64_t *figures(const Fill *fill, size_t number)
{
    return fill->table + number * fill->states;
}

static const Entry *first_of(const Fill *fill, const List *list)
{
    return fill->entries + list->start;
}

static const Entry *end_of(const Fill *fill, const List *list)
{
    return first_of(fill, list) + list->count;
}

/* Starts a cell from the two before it. */
static void start_cell(const Fill *fill, Cell *cell)
{
    size_t above = cell->number - fill->step[LENGTH], before = cell->number - fill->step[WIDTH];
    const uint64_t *x = figures(fill, above), *y = figures(fill, before);
    const List *x_list = &fill->lists[above], *y_list = &fill->lists[before];
    start(cell, x, x_list->last, y, y_list->last);
    inherit(cell, first_of(fill, x_list), end_of(fill, x_list), y, OVER_BOTH);
    inherit(cell, first_of(fill, y_list), end_of(fill, y_list), x, OVER_BOTH);
}

/* Cuts up to the half whose two parts are normal and rise; any other is worth a cell before. */
static void cut(const Fill *fill, Cell *cell, int direction, int index)
{
    const Positions *positions = &fill->plate->on[direction];
    size_t step = fill->step[direction];
    const List *origin = fill->lists + cell->number - index * step;
    int side = positions->at[index];
    for (int i = 1; i < index && 2 * positions->at[i] <= side; i++) {
        int rest = positions->index[side - positions->at[i]];
        const List *x = origin + i * step, *y = origin + rest * step;
        if (x->count > 0 && y->count > 0 && positions->at[i] + positions->at[rest] == side)
            join(cell, first_of(fill, x), end_of(fill, x), first_of(fill, y), end_of(fill, y));
    }
}

/* Lists the flagged states and takes the flags off. */
static List collect(Fill *fill, Cell *cell, int last)
{
    if (fill->used + fill->states > fill->room) {
        fill->room *= 2;
        fill->entries = realloc(fill->entries, fill->room * sizeof *fill->entries);
    }
    List list = {(uint32_t)fill->used, 0, (uint16_t)(last > cell->top ? last : cell->top)};
    for (int s = 0; s <= cell->top; s++)
        if (cell->rises[s]) {
            cell->rises[s] = 0;
            fill->entries[fill->used++] = cell->figure[s] << STATE_BITS | (Entry)s;
        }
    list.count = (uint16_t)(fill->used - list.start);
    return list;
}

static void make_cell(Fill *fill, uint8_t *rises, int a, int b)
{
    const Plate *plate = fill->plate;
    size_t number = a * fill->step[LENGTH] + b;
    Cell cell = {number, figures(fill, number), rises, (int)fill->states, 0, 0};
    start_cell(fill, &cell);
    int last = cell.known - 1;
    lay_pieces(&plate->job, &cell, (Size){plate->on[LENGTH].at[a], plate->on[WIDTH].at[b]});
    cut(fill, &cell, LENGTH, a);
    cut(fill, &cell, WIDTH, b);
    reach(&cell, cell.states - 1);
    fill->lists[number] = collect(fill, &cell, last);
}

void fill_states(const Plate *plate, uint64_t *table)
{
    int p = plate->on[LENGTH].count, r = plate->on[WIDTH].count;
    size_t states = (size_t)plate->job.capacity + 1, row = (size_t)r * states, cells = (size_t)p * r;
    Fill fill = {.plate = plate, .table = table, .states = states, .step = {(size_t)r, 1}};
    fill.lists = calloc(cells, sizeof *fill.lists);
    fill.room = 4 * cells + states;
    fill.entries = malloc(fill.room * sizeof *fill.entries);
    uint8_t rises[MOST_STATES];
    memset(rises, 0, states);
    memset(table, 0, row * sizeof *table);
    for (int a = 1; a < p; a++) {
        memset(table + a * row, 0, states * sizeof *table);
        for (int b = 1; b < r; b++)
            make_cell(&fill, rises, a, b);
    }
    free(fill.lists);
    free(fill.entries);
}
