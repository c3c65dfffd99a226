/* Whole orders and multipliers over the baseline's bound. Job, weights, multipliers and storage are taken as
 * accepted. */
#include "baseline.h"
#include <string.h>

enum { HEADER = 8, MOST_BYTES = HEADER + 10 * MOST_KINDS };

static uint64_t price(const uint8_t *pair)
{
    return (uint64_t)two(pair) | (uint64_t)two(pair + 2) << 16;
}

void baseline_plates_needed(const uint8_t *job, uint32_t choices, const uint8_t *weights, uint64_t other,
                            uint16_t *lengths, uint16_t *widths, uint64_t *table, uint64_t *answer)
{
    uint64_t told[4], worth = 0;
    baseline_bound(job, choices, weights, lengths, widths, table, told);
    int kinds = two(job + 4);
    for (const uint8_t *pair = job + HEADER + 4 * kinds, *end = pair + 6 * kinds; pair < end; pair += 6)
        worth += price(pair) * (uint64_t)two(pair + 4);
    uint64_t bound = told[0], left = worth > other ? worth - other : 0;
    answer[0] = left == 0 ? 0 : bound == 0 ? UINT64_MAX : (left - 1) / bound + 1;
    answer[1] = bound, answer[2] = worth;
}

void baseline_bound_lagrangian(const uint8_t *job, uint32_t choices, const uint8_t *weights,
                               const uint32_t *multipliers, uint16_t *lengths, uint16_t *widths,
                               uint64_t *table, uint64_t *answer)
{
    uint8_t lowered[MOST_BYTES];
    uint64_t added = 0;
    int kinds = two(job + 4);
    memcpy(lowered, job, (size_t)(HEADER + 10 * kinds));
    uint8_t *pair = lowered + HEADER + 4 * kinds;
    for (int i = 0; i < kinds; i++, pair += 6) {
        uint64_t before = price(pair), multiplier = multipliers[i];
        uint64_t after = before > multiplier ? before - multiplier : 0;
        for (int byte = 0; byte < 4; byte++)
            pair[byte] = (uint8_t)(after >> 8 * byte);
        added += (uint64_t)two(pair + 4) * multiplier;
    }
    baseline_bound(lowered, choices, weights, lengths, widths, table, answer + 1);
    answer[0] = answer[1] + added;
}
