/* The neat plan of a plan that passes: one scan from the last node to the first keeps the used size of
 * each tree that is complete, and writes what remains from its end to its start. */
#include "check.h"

/* The used size of a cut whose parts both hold a piece. */
static Size join(int kind, int kerf, Size first, Size second)
{
    int length = first.length > second.length ? first.length : second.length;
    int width = first.width > second.width ? first.width : second.width;
    if (kind == CUT_LENGTH)
        return (Size){first.length + kerf + second.length, width};
    return (Size){length, first.width + kerf + second.width};
}

static void write_neat(const Order *order, const Nodes *plan, uint8_t *kinds, uint16_t *operands,
                       size_t out)
{
    Size used[MOST_NODES + 1];
    size_t n = 0;
    for (size_t k = plan->nodes; k-- > 0;) {
        int kind = plan->kinds[k], operand = plan->operands[k];
        Size size = {0, 0};
        if (kind == PIECE || kind == TURNED_PIECE) {
            Size upright = order->size[operand];
            size = kind == PIECE ? upright : (Size){upright.width, upright.length};
        } else if (kind != WASTE) {
            Size first = used[--n], second = used[--n];
            if (first.length == 0 || second.length == 0) {
                used[n++] = first.length == 0 ? second : first;
                continue;
            }
            size = join(kind, order->kerf, first, second);
            operand = kind == CUT_LENGTH ? first.length : first.width;
        }
        used[n++] = size;
        if (kind != WASTE) {
            kinds[--out] = (uint8_t)kind;
            operands[out] = (uint16_t)operand;
        }
    }
}

/* The output arrays hold so many nodes. */
uint32_t baseline_neat_plan(const uint8_t *job, size_t bytes, uint32_t choices,
                            const uint8_t *kinds, const uint16_t *operands, size_t nodes,
                            uint8_t *neat_kinds, uint16_t *neat_operands, size_t room,
                            uint64_t *answer)
{
    Order order;
    Report report;
    Nodes plan = {kinds, operands, nodes};
    uint32_t refused = read_order(&order, job, bytes, choices, OFFICE, answer);
    if (!refused)
        refused = check_nodes(&order, &plan, &report, answer);
    if (refused)
        return refused;
    size_t pieces = 0;
    for (size_t k = 0; k < nodes; k++)
        pieces += kinds[k] == PIECE || kinds[k] == TURNED_PIECE;
    size_t needed = pieces == 0 ? 1 : 2 * pieces - 1;
    answer[0] = needed;
    if (room < needed)
        return 21;
    if (pieces == 0)
        neat_kinds[0] = WASTE, neat_operands[0] = 0;
    else
        write_neat(&order, &plan, neat_kinds, neat_operands, needed);
    return 0;
}
