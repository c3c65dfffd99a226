/* What the checks of plans share: an order as they read it, a report, and the walk over one tree.
 * Checks take no job and no plan as accepted: they answer the refusals of planner.h, 0 for none. */
#ifndef CHECK_H
#define CHECK_H

#include "baseline.h"

enum { MOST_PLATES = 16, MOST_LIMIT = 8 };

typedef struct {
    Size plate;
    int kinds, kerf, turning;
    Size size[MOST_KINDS];
    uint32_t price[MOST_KINDS];
    int demand[MOST_KINDS];
} Order;

/* A plan's arrays, of one length. */
typedef struct {
    const uint8_t *kinds;
    const uint16_t *operands;
    size_t nodes;
} Nodes;

typedef struct {
    uint64_t profit, pieces, waste, trim, sawdust;
    int copies[MOST_KINDS];
} Report;

/* What a job is read for: a plan on its own plate, the saw, which reads no price, or a rack, which has
 * plates of its own. */
typedef enum { OFFICE, SAW, RACK } Reader;

uint32_t read_order(Order *order, const uint8_t *job, size_t bytes, uint32_t choices, Reader reader,
                    uint64_t *place);

/* Refusal 11 of the whole. */
uint32_t check_count(size_t nodes, uint64_t *place);

/* Refusals 12 to 17 of one tree, from node *next on; then *next is the node after it. */
uint32_t walk_tree(const Order *order, const Nodes *plan, size_t *next, Report *report,
                   uint64_t *place);

/* Refusal 26, among the nodes from first to before end. */
uint32_t find_idle(const uint8_t *kinds, size_t first, size_t end, uint64_t *place);

/* Refusals 11 to 18 and 26. */
uint32_t check_nodes(const Order *order, const Nodes *plan, Report *report, uint64_t *place);

uint32_t baseline_check_plan(const uint8_t *job, size_t bytes, uint32_t choices,
                             const uint8_t *kinds, const uint16_t *operands, size_t nodes,
                             uint64_t *answer);
uint32_t baseline_check_plan_staged(const uint8_t *job, size_t bytes, uint32_t choices,
                                    uint32_t limit, const uint8_t *kinds,
                                    const uint16_t *operands, size_t nodes, uint64_t *answer);

static inline int is_side(int side)
{
    return side >= 1 && side <= 1000;
}

static inline uint32_t refuse(uint32_t number, size_t at, uint64_t *place)
{
    *place = at;
    return number;
}

#endif
