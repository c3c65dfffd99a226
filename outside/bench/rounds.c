/* Weights found in rounds, each of which writes the plan behind its bound. The lower figure is given,
 * and round 0 needs no more than is lent; a later round that needs more ends the run. */
#include "baseline.h"
#include <stdlib.h>

enum { ROUNDS = 18, MOST_WEIGHT = 255, MOST_CAPACITY = 4095 };

/* The factor of each round, in sixteenths. */
static const uint64_t FACTOR[ROUNDS] = {32, 32, 32, 16, 16, 16, 8, 8, 8, 4, 4, 4, 2, 2, 2, 1, 1, 1};

/* The copies of each kind less its demand. */
typedef struct {
    int kinds;
    int over[MOST_KINDS];
} Excess;

static Excess count_excess(const uint8_t *job, const uint8_t *kinds, const uint16_t *operands,
                           size_t nodes)
{
    Excess excess = {.kinds = two(job + 4)};
    const uint8_t *pairs = job + 8 + 4 * excess.kinds;
    for (int i = 0; i < excess.kinds; i++)
        excess.over[i] = -two(pairs + 6 * i + 4);
    for (size_t i = 0; i < nodes; i++)
        if (kinds[i] == PIECE || kinds[i] == TURNED_PIECE)
            excess.over[operands[i]]++;
    return excess;
}

static int keeps_demands(const Excess *excess)
{
    for (int i = 0; i < excess->kinds; i++)
        if (excess->over[i] > 0)
            return 0;
    return 1;
}

/* The greatest step up to the greatest weight whose square is at most distance * scale / unit. */
static int step(uint64_t distance, uint64_t scale, uint64_t unit)
{
    uint64_t x = 0;
    while (x < MOST_WEIGHT && (x + 1) * (x + 1) * unit <= distance * scale)
        x++;
    return (int)x;
}

static void adjust(const Excess *excess, uint64_t factor, uint64_t gap, uint8_t *weights)
{
    uint64_t unit = 0;
    for (int i = 0; i < excess->kinds; i++)
        unit += 16 * (uint64_t)(excess->over[i] * excess->over[i]);
    uint64_t scale = factor * gap > unit ? factor * gap : unit;
    for (int i = 0; i < excess->kinds; i++) {
        int over = excess->over[i], change = step((uint64_t)abs(over), scale, unit);
        int weight = weights[i] + (over > 0 ? change : -change);
        weights[i] = (uint8_t)(weight < 0 ? 0 : weight > MOST_WEIGHT ? MOST_WEIGHT : weight);
    }
}

/* Keeps the round's bound and weights if none before it had so low a bound. */
static void keep_least(uint64_t bound, const uint8_t *weights, int kinds, uint64_t *answer)
{
    if (answer[1]++ > 0 && answer[0] <= bound)
        return;
    answer[0] = bound;
    for (int i = 0; i < MOST_KINDS; i++)
        answer[2 + i] = i < kinds ? weights[i] : 0;
}

void baseline_find_weights(const uint8_t *job, uint32_t choices, uint64_t lower, uint16_t *lengths,
                           uint16_t *widths, uint64_t *table, size_t words, uint8_t *kinds,
                           uint16_t *operands, uint64_t *answer)
{
    uint8_t weights[MOST_KINDS] = {0};
    uint64_t written[5];
    Plate plate;
    answer[1] = 0;
    for (int round = 0; round < ROUNDS; round++) {
        read_plate(&plate, job, choices, weights);
        if (plate.job.capacity > MOST_CAPACITY || table_words(&plate) > words)
            return;
        baseline_write_plan(job, choices, weights, lengths, widths, table, kinds, operands, written);
        if (written[4] > MOST_NODES)
            return;
        Excess excess = count_excess(job, kinds, operands, (size_t)written[4]);
        keep_least(written[0], weights, excess.kinds, answer);
        if (keeps_demands(&excess))
            return;
        adjust(&excess, FACTOR[round], written[0] - lower, weights);
    }
}
