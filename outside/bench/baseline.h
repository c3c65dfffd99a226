/* The baseline in C: the tabled algorithm with no proofs, as fast as we know how to write it.
 * Jobs are taken as accepted, in the new block, and storage as large enough; only checks of plans, see
 * check.h, refuse. */
#ifndef BASELINE_H
#define BASELINE_H

#include <stddef.h>
#include <stdint.h>

/* The greatest side has the greatest kerf added. */
enum { MOST_KINDS = 64, MOST_PIECES = 128, MOST_SIDE = 1020, MOST_NODES = 4095 };

typedef struct {
    int length, width;
} Size;

/* A node of a plan: kinds are those of planner.h. */
typedef struct {
    int kind, operand;
} Node;

enum { WASTE, PIECE, CUT_LENGTH, CUT_WIDTH, TURNED_PIECE };

/* The choices that a piece may be turned, and that the capacity counts every demand in full. */
enum { TURNING = 1, FULL_DEMAND = 2 };

/* The copies of each ordered kind that remain, as one number of mixed radix, the first kind lowest. At
 * most 4,096 states have no more than twelve digits. */
enum { MOST_DIGITS = 12 };

typedef struct {
    int digits;
    int radix[MOST_DIGITS], stride[MOST_DIGITS];
} Copies;

/* Pieces are the kinds as they may lie, each with its node in a plan. All sides, the plate's too,
 * have the kerf added: then parts make up a whole, and only the writer knows of the kerf. Where copies
 * are counted and not weighed, a piece weighs the number of one copy, and the capacity is that of all;
 * else there are no digits. */
typedef struct {
    Size plate;
    int kerf, pieces, capacity;
    Size size[MOST_PIECES];
    uint64_t price[MOST_PIECES];
    int weight[MOST_PIECES];
    Node node[MOST_PIECES];
    Copies copies;
} Job;

/* A side's normal positions, and for each unit the index of the largest one not above it. */
typedef struct {
    int side, count;
    uint16_t at[MOST_SIDE + 1];
    uint16_t index[MOST_SIDE + 1];
} Positions;

enum { LENGTH, WIDTH };

typedef struct {
    Job job;
    Positions on[2];
} Plate;

void read_plate(Plate *plate, const uint8_t *job, uint32_t choices, const uint8_t *weights);

/* The words of a table, or of a block of it. */
size_t table_words(const Plate *plate);

void fill_row_fill(const Plate *plate, uint64_t *table);
void fill_states(const Plate *plate, uint64_t *table);
void fill_staged_rows(const Plate *plate, int limit, uint64_t *table);
void fill_staged_states(const Plate *plate, int limit, uint64_t *table);
void fill_two(const Plate *plate, const int *second, int capacity, uint64_t *table);
void fill_exact(const Plate *plate, uint64_t *table);
size_t write_nodes(const Plate *plate, const uint64_t *table, uint8_t *kinds, uint16_t *operands);

/* The steps of a row where the capacity is 0. */
void lay_in_row(const Plate *plate, int length, uint64_t *row);
void cut_lengths(const Positions *lengths, int a, uint64_t *table, size_t r);
void cut_widths(const Positions *widths, uint64_t *row, uint64_t *unit);

void baseline_bound(const uint8_t *job, uint32_t choices, const uint8_t *weights,
                    uint16_t *lengths, uint16_t *widths, uint64_t *table, uint64_t *answer);
void baseline_bound_staged(const uint8_t *job, uint32_t choices, const uint8_t *weights,
                           uint32_t limit, uint16_t *lengths, uint16_t *widths, uint64_t *table,
                           uint64_t *answer);
void baseline_write_plan(const uint8_t *job, uint32_t choices, const uint8_t *weights,
                         uint16_t *lengths, uint16_t *widths, uint64_t *table, uint8_t *kinds,
                         uint16_t *operands, uint64_t *answer);

/* A field of two bytes. */
static inline int two(const uint8_t *at)
{
    return at[0] | at[1] << 8;
}

static inline int fits(Size piece, Size rectangle)
{
    return piece.length <= rectangle.length && piece.width <= rectangle.width;
}

/* The greater of two figures, which both are below 2^63, without a comparison: 64-bit comparisons
 * are slow in SSE2. */
static inline uint64_t greater(uint64_t a, uint64_t b)
{
    int64_t over = (int64_t)(b - a);
    return a + (uint64_t)(over & ~(over >> 63));
}

/* Raises the sums of one value with each word of `second`. */
static inline void raise_by(uint64_t *restrict sums, uint64_t value,
                            const uint64_t *restrict second, int count)
{
    for (int i = 0; i < count; i++)
        sums[i] = greater(sums[i], value + second[i]);
}

#endif
