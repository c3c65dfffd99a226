/* Packs the byte blocks that planner.h reads: job, grain, true sizes and plan. Small inline functions; nothing is allocated.
 * Each returns the bytes it wrote, or 0 where `space` is too small or a number does not fit its field: no byte is written then. */
#ifndef PLANNER_BLOCKS_H
#define PLANNER_BLOCKS_H

#include <stddef.h>
#include <stdint.h>

#ifdef __cplusplus
extern "C" {
#endif

/* A kind of piece: sides, price, demand; `grain` is 1 where it keeps its grain and lies upright only. */
struct planner_kind {
    uint16_t length, width;
    uint32_t price;
    uint16_t demand;
    uint8_t grain;
};

/* The true sides of a kind, for planner_check_model and planner_true_plan. */
struct planner_true_kind {
    uint32_t length, width;
};

enum {
    PLANNER_BLOCK_HEADER = 8,  /* bytes of plate, number of kinds and kerf */
    PLANNER_BLOCK_KIND = 10,   /* bytes of a kind without its grain */
    PLANNER_SIZES_HEADER = 12, /* bytes of the true plate and kerf */
    PLANNER_SIZES_KIND = 8,    /* bytes of a kind's true sides */
    PLANNER_PLAN_HEADER = 2,   /* bytes of the node count */
    PLANNER_PLAN_NODE = 3      /* bytes of a node's kind and operand */
};

/* Puts a number of 2 or 4 bytes, lowest byte first, and returns the place behind it. */
static inline uint8_t *planner_put(uint8_t *at, uint32_t number, int bytes)
{
    for (int i = 0; i < bytes; i++)
        *at++ = (uint8_t)(number >> (8 * i));
    return at;
}

/* The bytes of a job block of n kinds, with their grain (PLANNER_GRAIN) or without. */
static inline size_t planner_job_bytes(size_t n, int grain)
{
    return PLANNER_BLOCK_HEADER + (PLANNER_BLOCK_KIND + (grain ? 1 : 0)) * n;
}

/* A job block: plate, kerf and n kinds; with `grain` not 0 their grain bytes stand at its end. */
static inline size_t planner_pack_job(uint8_t *block, size_t space, uint16_t length, uint16_t width, uint16_t kerf,
                                      const struct planner_kind *kinds, size_t n, int grain)
{
    if (n > UINT16_MAX || space < planner_job_bytes(n, grain))
        return 0;
    uint8_t *at = planner_put(block, length, 2);
    at = planner_put(planner_put(planner_put(at, width, 2), (uint32_t)n, 2), kerf, 2);
    for (size_t i = 0; i < n; i++)
        at = planner_put(planner_put(at, kinds[i].length, 2), kinds[i].width, 2);
    for (size_t i = 0; i < n; i++)
        at = planner_put(planner_put(at, kinds[i].price, 4), kinds[i].demand, 2);
    for (size_t i = 0; grain && i < n; i++)
        *at++ = kinds[i].grain;
    return (size_t)(at - block);
}

/* A sizes block: the true plate and kerf, and the true sides of n kinds, in any unit of length. */
static inline size_t planner_pack_sizes(uint8_t *block, size_t space, uint32_t length, uint32_t width, uint32_t kerf,
                                        const struct planner_true_kind *kinds, size_t n)
{
    if (n > UINT16_MAX || space < PLANNER_SIZES_HEADER + PLANNER_SIZES_KIND * n)
        return 0;
    uint8_t *at = planner_put(planner_put(planner_put(block, length, 4), width, 4), kerf, 4);
    for (size_t i = 0; i < n; i++)
        at = planner_put(planner_put(at, kinds[i].length, 4), kinds[i].width, 4);
    return (size_t)(at - block);
}

/* A plan block of `nodes` nodes. */
static inline size_t planner_pack_plan(uint8_t *block, size_t space, const uint8_t *kinds, const uint16_t *operands,
                                       size_t nodes)
{
    if (nodes > UINT16_MAX || space < PLANNER_PLAN_HEADER + PLANNER_PLAN_NODE * nodes)
        return 0;
    uint8_t *at = planner_put(block, (uint32_t)nodes, 2);
    for (size_t i = 0; i < nodes; i++)
        *at++ = kinds[i];
    for (size_t i = 0; i < nodes; i++)
        at = planner_put(at, operands[i], 2);
    return (size_t)(at - block);
}

#ifdef __cplusplus
}
#endif

#endif
