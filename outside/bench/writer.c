/* The plan behind the bound or the optimum, read off the table with a list of waiting rectangles.
 * A position is looked into only where both parts at the whole share could earn the value.
 * Sides have the kerf added: a second part that is no longer is none, and its cut is left out. */
#include "baseline.h"
#include <string.h>

/* A rectangle and its share, or its state. */
typedef struct {
    int side[2];
    int share;
} Part;

/* A node, and for a cut the first part's share. */
typedef struct {
    Node node;
    int share;
} Choice;

typedef struct {
    const Plate *plate;
    const uint64_t *table;
    size_t step[2]; /* words from a cell to its next neighbour in each direction */
} Tabled;

static const uint64_t *cell(const Tabled *tabled, const Part *part)
{
    const uint64_t *at = tabled->table;
    for (int d = LENGTH; d <= WIDTH; d++)
        at += tabled->plate->on[d].index[part->side[d]] * tabled->step[d];
    return at;
}

/* Whether the whole has the part: of copies, those of each kind. */
static int within(const Copies *copies, int part, int whole)
{
    for (int d = 0; d < copies->digits; d++) {
        if (part % copies->radix[d] > whole % copies->radix[d])
            return 0;
        part /= copies->radix[d];
        whole /= copies->radix[d];
    }
    return part <= whole;
}

static int find_piece(const Job *job, const Part *part, uint64_t value)
{
    Size rectangle = {part->side[LENGTH], part->side[WIDTH]};
    for (int i = 0; i < job->pieces; i++)
        if (job->price[i] == value && fits(job->size[i], rectangle)
            && within(&job->copies, job->weight[i], part->share))
            return i;
    return -1;
}

/* The first share of the first part that earns the value, or -1. */
static int find_share(const Copies *copies, const uint64_t *first, const uint64_t *second, int share,
                      uint64_t value)
{
    if (first[share] + second[share] >= value)
        for (int c = 0; c <= share; c++)
            if (first[c] + second[share - c] == value && within(copies, c, share))
                return c;
    return -1;
}

static int find_cut(const Tabled *tabled, const Part *part, int direction, uint64_t value,
                    Choice *chosen)
{
    const Positions *positions = &tabled->plate->on[direction];
    const Copies *copies = &tabled->plate->job.copies;
    size_t step = tabled->step[direction];
    int side = part->side[direction], last = positions->index[side];
    const uint64_t *origin = cell(tabled, part) - last * step;
    for (int i = 1; i < last; i++) {
        int rest = positions->index[side - positions->at[i]];
        int c = find_share(copies, origin + i * step, origin + rest * step, part->share, value);
        if (c >= 0) {
            int position = positions->at[i] - tabled->plate->job.kerf;
            *chosen = (Choice){{CUT_LENGTH + direction, position}, c};
            return 1;
        }
    }
    return 0;
}

static Choice choose(const Tabled *tabled, const Part *part)
{
    Choice chosen = {{WASTE, 0}, 0};
    uint64_t value = cell(tabled, part)[part->share];
    if (value == 0)
        return chosen;
    const Job *job = &tabled->plate->job;
    int i = find_piece(job, part, value);
    if (i >= 0)
        return (Choice){job->node[i], 0};
    if (!find_cut(tabled, part, LENGTH, value, &chosen))
        find_cut(tabled, part, WIDTH, value, &chosen);
    return chosen;
}

/* Puts the parts of a cut into the list in place of the whole, the first one last, and gives how many
 * there are: 1 where there is no second. */
static int split(Part *waiting, Choice cut, int kerf)
{
    int direction = cut.node.kind - CUT_LENGTH;
    Part first = waiting[0], second = waiting[0];
    first.side[direction] = cut.node.operand + kerf;
    first.share = cut.share;
    second.side[direction] -= first.side[direction];
    second.share -= first.share;
    int parts = second.side[direction] > kerf ? 2 : 1;
    waiting[0] = second;
    waiting[parts - 1] = first;
    return parts;
}

size_t write_nodes(const Plate *plate, const uint64_t *table, uint8_t *kinds, uint16_t *operands)
{
    const Job *job = &plate->job;
    size_t shares = (size_t)job->capacity + 1;
    Tabled tabled = {plate, table, {plate->on[WIDTH].count * shares, shares}};
    Part waiting[2 * MOST_SIDE];
    uint8_t kind[MOST_NODES];
    uint16_t operand[MOST_NODES];
    size_t count = 0;
    waiting[0] = (Part){{job->plate.length, job->plate.width}, job->capacity};
    for (int left = 1, parts; left > 0; left += parts - 1) {
        Part *part = &waiting[left - 1];
        Choice chosen = choose(&tabled, part);
        int is_cut = chosen.node.kind == CUT_LENGTH || chosen.node.kind == CUT_WIDTH;
        parts = is_cut ? split(part, chosen, job->kerf) : 0;
        if (parts != 1 && count++ < MOST_NODES) {
            kind[count - 1] = (uint8_t)chosen.node.kind;
            operand[count - 1] = (uint16_t)chosen.node.operand;
        }
    }
    if (count <= MOST_NODES) {
        memcpy(kinds, kind, count);
        memcpy(operands, operand, count * sizeof *operands);
    }
    return count;
}
