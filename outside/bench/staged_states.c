/* The staged table where the capacity is above 0. A block starts from the one of the other direction a
 * stage before, so that there are two chains of blocks, which share the block of no cut.
 * A finished cell has in each direction a list of the states at which it rises over the cell before it;
 * the lists of a chain's last two blocks and of the block of no cut stand in memory of their own. */
#include "cell.h"
#include <stdlib.h>
#include <string.h>

typedef struct {
    uint32_t start, count;
} List;

/* Of a cell: its rising states in each direction, in order, and a state from which on its figures are
 * one constant. */
typedef struct {
    List over[2];
    int last;
} Rises;

typedef struct {
    uint64_t *figures;
    Rises *rises;
    Entry *entries;
    size_t used, room;
} Block;

typedef struct {
    const Plate *plate;
    size_t states, cells;
    size_t step[2]; /* from a cell's number to that of its next neighbour in each direction */
    uint8_t *rises; /* for the cell that is being made */
} Fill;

static uint64_t *figures(const Fill *fill, const Block *block, size_t number)
{
    return block->figures + number * fill->states;
}

/* Flags in one direction what a cell takes over from another, its start. */
static void take(const Fill *fill, Cell *cell, const Block *block, const Block *from, size_t number,
                 int direction)
{
    const List *list = &from->rises[number].over[direction];
    const Entry *first = from->entries + list->start;
    const uint64_t *before = figures(fill, block, cell->number - fill->step[direction]);
    inherit(cell, first, first + list->count, before, 1 << direction);
}

/* Starts a cell of the block of no cut from the two before it. */
static void start_single(const Fill *fill, Cell *cell, const Block *block)
{
    size_t above = cell->number - fill->step[LENGTH], before = cell->number - fill->step[WIDTH];
    start(cell, figures(fill, block, above), block->rises[above].last,
          figures(fill, block, before), block->rises[before].last);
    take(fill, cell, block, block, above, WIDTH);
    take(fill, cell, block, block, before, LENGTH);
}

/* Starts a cell from that of the block a stage before and the cell before it in its own direction. */
static void start_staged(const Fill *fill, Cell *cell, const Block *block, const Block *source,
                         int direction)
{
    size_t number = cell->number, before = number - fill->step[direction];
    start(cell, figures(fill, source, number), source->rises[number].last,
          figures(fill, block, before), block->rises[before].last);
    take(fill, cell, block, source, number, LENGTH);
    take(fill, cell, block, source, number, WIDTH);
    take(fill, cell, block, block, before, 1 - direction);
}

/* Cuts up to the half whose two parts are normal and rise; any other is worth a cell before. */
static void cut(const Fill *fill, Cell *cell, const Block *block, int direction, int index)
{
    const Positions *positions = &fill->plate->on[direction];
    size_t step = fill->step[direction];
    const Rises *origin = block->rises + cell->number - index * step;
    int side = positions->at[index];
    for (int i = 1; i < index && 2 * positions->at[i] <= side; i++) {
        int rest = positions->index[side - positions->at[i]];
        const List *x = &origin[i * step].over[direction];
        const List *y = &origin[rest * step].over[direction];
        if (x->count > 0 && y->count > 0 && positions->at[i] + positions->at[rest] == side) {
            const Entry *first = block->entries + x->start, *second = block->entries + y->start;
            join(cell, first, first + x->count, second, second + y->count);
        }
    }
}

static List collect(Block *block, const Cell *cell, int direction)
{
    List list = {(uint32_t)block->used, 0};
    for (int s = 0; s <= cell->top; s++)
        if (cell->rises[s] & 1 << direction)
            block->entries[block->used++] = cell->figure[s] << STATE_BITS | (Entry)s;
    list.count = (uint32_t)block->used - list.start;
    return list;
}

/* Lists the flagged states and takes the flags off. */
static void finish(Block *block, Cell *cell, int last)
{
    reach(cell, cell->states - 1);
    if (block->used + 2 * (size_t)cell->states > block->room) {
        block->room *= 2;
        block->entries = realloc(block->entries, block->room * sizeof *block->entries);
    }
    Rises *rises = &block->rises[cell->number];
    rises->over[LENGTH] = collect(block, cell, LENGTH);
    rises->over[WIDTH] = collect(block, cell, WIDTH);
    rises->last = last > cell->top ? last : cell->top;
    memset(cell->rises, 0, (size_t)cell->top + 1);
}

/* Makes a cell: of the block of no cut where there is no source, else with cuts of one direction. */
static void make_cell(const Fill *fill, Block *block, const Block *source, int direction, int a, int b)
{
    const Plate *plate = fill->plate;
    size_t number = a * fill->step[LENGTH] + b;
    Cell cell = {number, figures(fill, block, number), fill->rises, (int)fill->states, 0, 0};
    int last;
    if (source == NULL) {
        start_single(fill, &cell, block);
        last = cell.known - 1;
        lay_pieces(&plate->job, &cell, (Size){plate->on[LENGTH].at[a], plate->on[WIDTH].at[b]});
    } else {
        start_staged(fill, &cell, block, source, direction);
        last = cell.known - 1;
        cut(fill, &cell, block, direction, direction == LENGTH ? a : b);
    }
    finish(block, &cell, last);
}

static void fill_block(const Fill *fill, Block *block, const Block *source, int direction)
{
    size_t row = fill->step[LENGTH] * fill->states;
    block->used = 0;
    memset(block->figures, 0, row * sizeof *block->figures);
    for (int a = 1; a < fill->plate->on[LENGTH].count; a++) {
        memset(block->figures + a * row, 0, fill->states * sizeof *block->figures);
        for (int b = 1; b < fill->plate->on[WIDTH].count; b++)
            make_cell(fill, block, source, direction, a, b);
    }
}

/* Lists for a block; cells without a side have none. */
static Block lend(const Fill *fill)
{
    Block block = {.room = 4 * fill->cells + 2 * fill->states};
    block.rises = calloc(fill->cells, sizeof *block.rises);
    block.entries = malloc(block.room * sizeof *block.entries);
    return block;
}

/* The chain of blocks whose first one has cuts of this direction. */
static void fill_chain(const Fill *fill, const Block *single, Block *blocks, int direction, int limit)
{
    const Block *source = single;
    for (int stage = 1; stage <= limit; stage++, direction = 1 - direction) {
        Block *block = &blocks[stage % 2];
        size_t number = (size_t)(2 * stage - 1 + direction);
        block->figures = single->figures + number * fill->cells * fill->states;
        fill_block(fill, block, source, direction);
        source = block;
    }
}

void fill_staged_states(const Plate *plate, int limit, uint64_t *table)
{
    uint8_t rises[MOST_STATES];
    size_t r = (size_t)plate->on[WIDTH].count, cells = (size_t)plate->on[LENGTH].count * r;
    Fill fill = {plate, (size_t)plate->job.capacity + 1, cells, {r, 1}, rises};
    Block single = lend(&fill), blocks[2] = {lend(&fill), lend(&fill)};
    memset(rises, 0, fill.states);
    single.figures = table;
    fill_block(&fill, &single, NULL, LENGTH);
    fill_chain(&fill, &single, blocks, LENGTH, limit);
    fill_chain(&fill, &single, blocks, WIDTH, limit);
    Block *lent[] = {&single, &blocks[0], &blocks[1]};
    for (int i = 0; i < 3; i++) {
        free(lent[i]->rises);
        free(lent[i]->entries);
    }
}
