/* The check of a rack: plans one after another, each on its own plate, that share the demands. */
#include "check.h"
#include <string.h>

/* Refusal 2, of each plate. */
static uint32_t check_sides(const uint16_t *lengths, const uint16_t *widths, size_t plates,
                            uint64_t *place)
{
    for (size_t i = 0; i < plates; i++)
        if (!is_side(lengths[i]) || !is_side(widths[i]))
            return refuse(2, i, place);
    return 0;
}

/* The plan of one plate: refusals 12 to 17, 26 and 29. */
static uint32_t check_plate(const Order *order, const Nodes *plans, size_t plate, size_t *next,
                            int *total, Report *report, uint64_t *place)
{
    size_t first = *next;
    uint32_t refused = walk_tree(order, plans, next, report, place);
    if (!refused)
        refused = find_idle(plans->kinds, first, *next, place);
    for (int i = 0; i < order->kinds && !refused; i++)
        if ((total[i] += report->copies[i]) > order->demand[i])
            refused = refuse(29, plate, place);
    return refused;
}

uint32_t baseline_check_rack(const uint8_t *job, size_t bytes, uint32_t choices,
                             const uint16_t *lengths, const uint16_t *widths, size_t plates,
                             uint64_t *profits, const uint8_t *kinds, const uint16_t *operands,
                             size_t nodes, uint64_t *answer)
{
    Order order;
    Report report;
    Nodes plans = {kinds, operands, nodes};
    uint64_t earned[MOST_PLATES];
    int total[MOST_KINDS] = {0};
    size_t next = 0;
    if (plates < 1 || plates > MOST_PLATES)
        return refuse(28, 0, answer);
    uint32_t refused = read_order(&order, job, bytes, choices, RACK, answer);
    if (!refused)
        refused = check_sides(lengths, widths, plates, answer);
    if (!refused)
        refused = check_count(nodes, answer);
    for (size_t i = 0; i < plates && !refused; i++) {
        order.plate = (Size){lengths[i], widths[i]};
        refused = check_plate(&order, &plans, i, &next, total, &report, answer);
        earned[i] = report.profit;
    }
    if (!refused && next < nodes)
        refused = refuse(18, next, answer);
    if (!refused)
        memcpy(profits, earned, plates * sizeof *profits);
    return refused;
}
