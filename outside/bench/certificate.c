/* Certificates: a plan's check, then the bound, and the gap between profit and bound.
 * Weights and limit are taken as accepted, and storage as large enough. */
#include "check.h"

enum { REPORT_WORDS = 69, BOUND_WORDS = 4 };

static void judge(uint64_t bound, uint64_t profit, uint64_t *answer)
{
    answer[0] = bound - profit;
    answer[1] = bound;
    answer[2] = profit;
}

uint32_t baseline_certify(const uint8_t *job, size_t bytes, uint32_t choices,
                          const uint8_t *weights, const uint8_t *kinds, const uint16_t *operands,
                          size_t nodes, uint16_t *lengths, uint16_t *widths, uint64_t *table,
                          uint64_t *answer)
{
    uint64_t report[REPORT_WORDS], bound[BOUND_WORDS];
    uint32_t refused = baseline_check_plan(job, bytes, choices, kinds, operands, nodes, report);
    if (refused)
        return refuse(refused, report[0], answer);
    baseline_bound(job, choices, weights, lengths, widths, table, bound);
    judge(bound[0], report[0], answer);
    return 0;
}

uint32_t baseline_certify_staged(const uint8_t *job, size_t bytes, uint32_t choices,
                                 const uint8_t *weights, uint32_t limit, const uint8_t *kinds,
                                 const uint16_t *operands, size_t nodes, uint16_t *lengths,
                                 uint16_t *widths, uint64_t *table, uint64_t *answer)
{
    uint64_t report[REPORT_WORDS + 1], bound[BOUND_WORDS];
    uint32_t refused = baseline_check_plan_staged(job, bytes, choices, limit, kinds, operands,
                                                  nodes, report);
    if (refused)
        return refuse(refused, report[0], answer);
    baseline_bound_staged(job, choices, weights, limit, lengths, widths, table, bound);
    judge(bound[0], report[0], answer);
    return 0;
}
