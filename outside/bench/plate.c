/* Reading a job, its capacity and its normal positions.
 * The exported calls of the baseline stand at the end. */
#include "baseline.h"
#include <string.h>

/* Two sides, with the kerf added. */
static Size sides(const uint8_t *at, int kerf)
{
    return (Size){two(at) + kerf, two(at + 2) + kerf};
}

static void add_piece(Job *job, Size size, uint64_t price, int weight, Node node)
{
    int i = job->pieces++;
    job->size[i] = size;
    job->price[i] = price;
    job->weight[i] = weight;
    job->node[i] = node;
}

/* The copies of a kind that the capacity counts: its demand, or what the plate can hold where that
 * is less and the full demand is not chosen. */
static int counted(Size plate, Size size, int demand, uint32_t choices)
{
    Size turned = {size.width, size.length};
    int held = 0;
    if (choices & FULL_DEMAND)
        return demand;
    if (!(choices & TURNING))
        held = plate.length / size.length * (plate.width / size.width);
    else if (fits(size, plate) || fits(turned, plate))
        held = plate.length * plate.width / (size.length * size.width);
    return demand < held ? demand : held;
}

static void read_job(Job *job, const uint8_t *block, uint32_t choices, const uint8_t *weights)
{
    int kinds = two(block + 4), kerf = two(block + 6);
    const uint8_t *sizes = block + 8, *pairs = sizes + 4 * kinds;
    job->plate = sides(block, kerf);
    job->kerf = kerf;
    job->pieces = job->capacity = job->copies.digits = 0;
    for (int i = 0; i < kinds; i++) {
        const uint8_t *pair = pairs + 6 * i;
        Size size = sides(sizes + 4 * i, kerf), turned = {size.width, size.length};
        uint64_t price = (uint64_t)two(pair) | (uint64_t)two(pair + 2) << 16;
        int demand = two(pair + 4);
        if (demand > 0)
            add_piece(job, size, price, weights[i], (Node){PIECE, i});
        if (demand > 0 && choices & TURNING)
            add_piece(job, turned, price, weights[i], (Node){TURNED_PIECE, i});
        job->capacity += counted(job->plate, size, demand, choices) * weights[i];
    }
}

/* Counts copies in place of weights. */
static void count_copies(Job *job, const uint8_t *block)
{
    int kinds = two(block + 4), states = 1, one[MOST_KINDS];
    const uint8_t *pairs = block + 8 + 4 * kinds;
    Copies *copies = &job->copies;
    for (int i = 0; i < kinds; i++) {
        int demand = two(pairs + 6 * i + 4);
        one[i] = states;
        if (demand > 0) {
            copies->radix[copies->digits] = demand + 1;
            copies->stride[copies->digits++] = states;
            states *= demand + 1;
        }
    }
    for (int i = 0; i < job->pieces; i++)
        job->weight[i] = one[job->node[i].operand];
    job->capacity = states - 1;
}

static void find_positions(Positions *found, int side, const uint16_t *sides, int count)
{
    uint8_t normal[MOST_SIDE + 1] = {1};
    for (int x = 0; x <= side; x++)
        if (normal[x])
            for (int i = 0; i < count; i++)
                if (sides[i] <= side - x)
                    normal[x + sides[i]] = 1;
    found->side = side;
    found->count = 0;
    for (int x = 0; x <= side; x++) {
        if (normal[x])
            found->at[found->count++] = (uint16_t)x;
        found->index[x] = (uint16_t)(found->count - 1);
    }
}

void read_plate(Plate *plate, const uint8_t *block, uint32_t choices, const uint8_t *weights)
{
    uint16_t lengths[MOST_PIECES], widths[MOST_PIECES];
    int count = 0;
    Job *job = &plate->job;
    read_job(job, block, choices, weights);
    for (int i = 0; i < job->pieces; i++)
        if (fits(job->size[i], job->plate)) {
            lengths[count] = (uint16_t)job->size[i].length;
            widths[count++] = (uint16_t)job->size[i].width;
        }
    find_positions(&plate->on[LENGTH], job->plate.length, lengths, count);
    find_positions(&plate->on[WIDTH], job->plate.width, widths, count);
}

/* Reads the plate, lists its positions and answers all but the bound. */
static void list(const uint8_t *job, uint32_t choices, const uint8_t *weights, Plate *plate,
                 uint16_t *lengths, uint16_t *widths, uint64_t *answer)
{
    read_plate(plate, job, choices, weights);
    const Positions *on = plate->on;
    memcpy(lengths, on[LENGTH].at, (size_t)on[LENGTH].count * sizeof *lengths);
    memcpy(widths, on[WIDTH].at, (size_t)on[WIDTH].count * sizeof *widths);
    answer[1] = (uint64_t)plate->job.capacity;
    answer[2] = (uint64_t)on[LENGTH].count;
    answer[3] = (uint64_t)on[WIDTH].count;
}

size_t table_words(const Plate *plate)
{
    size_t cells = (size_t)plate->on[LENGTH].count * (size_t)plate->on[WIDTH].count;
    return cells * (size_t)(plate->job.capacity + 1);
}

static void fill(const Plate *plate, uint64_t *table, uint64_t *answer)
{
    if (plate->job.capacity == 0)
        fill_row_fill(plate, table);
    else
        fill_states(plate, table);
    answer[0] = table[table_words(plate) - 1];
}

void baseline_bound(const uint8_t *job, uint32_t choices, const uint8_t *weights,
                    uint16_t *lengths, uint16_t *widths, uint64_t *table, uint64_t *answer)
{
    Plate plate;
    list(job, choices, weights, &plate, lengths, widths, answer);
    fill(&plate, table, answer);
}

void baseline_write_plan(const uint8_t *job, uint32_t choices, const uint8_t *weights,
                         uint16_t *lengths, uint16_t *widths, uint64_t *table,
                         uint8_t *kinds, uint16_t *operands, uint64_t *answer)
{
    Plate plate;
    list(job, choices, weights, &plate, lengths, widths, answer);
    fill(&plate, table, answer);
    answer[4] = write_nodes(&plate, table, kinds, operands);
}

void baseline_bound_staged(const uint8_t *job, uint32_t choices, const uint8_t *weights,
                           uint32_t limit, uint16_t *lengths, uint16_t *widths, uint64_t *table,
                           uint64_t *answer)
{
    Plate plate;
    list(job, choices, weights, &plate, lengths, widths, answer);
    if (plate.job.capacity == 0)
        fill_staged_rows(&plate, (int)limit, table);
    else
        fill_staged_states(&plate, (int)limit, table);
    size_t end = (2 * limit + 1) * table_words(&plate);
    answer[0] = greater(table[end - 1], table[end - 1 - table_words(&plate)]);
}

/* The second weights are read as the first are, by a plate of their own; its pieces are the same. */
void baseline_bound_two(const uint8_t *job, uint32_t choices, const uint8_t *first,
                        const uint8_t *second, uint16_t *lengths, uint16_t *widths, uint64_t *table,
                        uint64_t *answer)
{
    Plate plate;
    Job other;
    read_job(&other, job, choices, second);
    list(job, choices, first, &plate, lengths, widths, answer);
    fill_two(&plate, other.weight, other.capacity, table);
    answer[4] = answer[3];
    answer[3] = answer[2];
    answer[2] = (uint64_t)other.capacity;
    answer[0] = table[table_words(&plate) * (size_t)(other.capacity + 1) - 1];
}

void baseline_exact(const uint8_t *job, uint32_t choices, uint16_t *lengths, uint16_t *widths,
                    uint64_t *table, uint8_t *kinds, uint16_t *operands, uint64_t *answer)
{
    static const uint8_t no_weights[MOST_KINDS];
    Plate plate;
    list(job, choices, no_weights, &plate, lengths, widths, answer);
    count_copies(&plate.job, job);
    fill_exact(&plate, table);
    answer[0] = table[table_words(&plate) - 1];
    answer[1] = (uint64_t)plate.job.capacity + 1;
    answer[4] = write_nodes(&plate, table, kinds, operands);
}
