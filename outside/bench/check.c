/* The checks of one plan: the job, the nodes with a list of the rectangles that wait for theirs, idle
 * cuts from the last node to the first, and the stages. */
#include "check.h"
#include <string.h>

uint32_t read_order(Order *order, const uint8_t *job, size_t bytes, uint32_t choices, Reader reader,
                    uint64_t *place)
{
    if (bytes < 8)
        return refuse(1, 0, place);
    order->plate = (Size){two(job), two(job + 2)};
    order->kinds = two(job + 4);
    order->kerf = two(job + 6);
    order->turning = (choices & TURNING) != 0;
    if (reader != RACK && !(is_side(order->plate.length) && is_side(order->plate.width)))
        return refuse(2, 0, place);
    if (order->kinds < 1 || order->kinds > MOST_KINDS)
        return refuse(3, 0, place);
    if (order->kerf > 20)
        return refuse(27, 0, place);
    if (bytes != 8 + 10 * (size_t)order->kinds)
        return refuse(4, 0, place);
    const uint8_t *sizes = job + 8, *pairs = sizes + 4 * order->kinds;
    for (int i = 0; i < order->kinds; i++) {
        Size size = {two(sizes + 4 * i), two(sizes + 4 * i + 2)};
        if (!is_side(size.length) || !is_side(size.width))
            return refuse(5, (size_t)i, place);
        order->size[i] = size;
    }
    for (int i = 0; i < order->kinds; i++) {
        const uint8_t *pair = pairs + 6 * i;
        order->price[i] =
            reader == SAW ? 0 : (uint32_t)two(pair) | (uint32_t)two(pair + 2) << 16;
        order->demand[i] = two(pair + 4);
        if (order->price[i] > 1000000)
            return refuse(6, (size_t)i, place);
        if (order->demand[i] > 255)
            return refuse(7, (size_t)i, place);
    }
    return 0;
}

uint32_t check_count(size_t nodes, uint64_t *place)
{
    return nodes < 1 || nodes > MOST_NODES ? refuse(11, 0, place) : 0;
}

static uint64_t area(Size size)
{
    return (uint64_t)(size.length * size.width);
}

/* Refusals 13, 15 and 16. */
static uint32_t lay(const Order *order, int i, int turned, Size room, Report *report)
{
    if (i >= order->kinds)
        return 13;
    Size piece = order->size[i];
    if (turned)
        piece = (Size){piece.width, piece.length};
    if (!fits(piece, room))
        return 15;
    if (report->copies[i] == order->demand[i])
        return 16;
    report->copies[i]++;
    report->profit += order->price[i];
    report->pieces += area(piece);
    report->trim += area(room) - area(piece);
    return 0;
}

/* Puts the parts of a cut into the list, the first one last: refusal 14. */
static uint32_t cut(const Order *order, int at, int along_length, Size room, Size *waiting,
                    Report *report)
{
    int rest = (along_length ? room.length : room.width) - order->kerf - at;
    if (at < 1 || rest < 1)
        return 14;
    waiting[0] = along_length ? (Size){rest, room.width} : (Size){room.length, rest};
    waiting[1] = along_length ? (Size){at, room.width} : (Size){room.length, at};
    report->sawdust += (uint64_t)(order->kerf * (along_length ? room.width : room.length));
    return 0;
}

uint32_t walk_tree(const Order *order, const Nodes *plan, size_t *next, Report *report,
                   uint64_t *place)
{
    Size waiting[MOST_NODES + 1];
    size_t n = 1, k = *next;
    waiting[0] = order->plate;
    memset(report, 0, sizeof *report);
    for (; n > 0 && k < plan->nodes; k++) {
        Size room = waiting[--n];
        int kind = plan->kinds[k], operand = plan->operands[k];
        uint32_t refused = 0;
        if (kind > (order->turning ? TURNED_PIECE : CUT_WIDTH)) {
            refused = 12;
        } else if (kind == WASTE) {
            refused = operand == 0 ? 0 : 14;
            report->waste += area(room);
        } else if (kind == CUT_LENGTH || kind == CUT_WIDTH) {
            refused = cut(order, operand, kind == CUT_LENGTH, room, waiting + n, report);
            n += 2;
        } else {
            refused = lay(order, operand, kind == TURNED_PIECE, room, report);
        }
        if (refused)
            return refuse(refused, k, place);
    }
    *next = k;
    return n > 0 ? refuse(17, k, place) : 0;
}

/* Keeps how many trees at the front of the nodes read hold no piece. */
uint32_t find_idle(const uint8_t *kinds, size_t first, size_t end, uint64_t *place)
{
    size_t pieceless = 0, idle = end;
    for (size_t k = end; k-- > first;) {
        int is_cut = kinds[k] == CUT_LENGTH || kinds[k] == CUT_WIDTH;
        if (is_cut && pieceless > 1)
            idle = k;
        if (is_cut)
            pieceless -= pieceless > 0;
        else
            pieceless = kinds[k] == WASTE ? pieceless + 1 : 0;
    }
    return idle < end ? refuse(26, idle, place) : 0;
}

uint32_t check_nodes(const Order *order, const Nodes *plan, Report *report, uint64_t *place)
{
    size_t next = 0;
    uint32_t refused = check_count(plan->nodes, place);
    if (!refused)
        refused = walk_tree(order, plan, &next, report, place);
    if (!refused && next < plan->nodes)
        refused = refuse(18, next, place);
    return refused ? refused : find_idle(plan->kinds, 0, next, place);
}

/* The stages of a plan that passed, or refusal 23. A part that waits has the direction of the cut
 * above it, 0 for none, and in eighths the stages down to that cut. */
static uint32_t count_stages(const uint8_t *kinds, size_t nodes, uint32_t limit, uint64_t *stages,
                             uint64_t *place)
{
    uint8_t waiting[MOST_NODES + 1] = {0};
    size_t n = 1;
    *stages = 0;
    for (size_t k = 0; k < nodes; k++) {
        uint8_t above = waiting[--n], kind = kinds[k];
        if (kind != CUT_LENGTH && kind != CUT_WIDTH)
            continue;
        uint8_t own = (uint8_t)((above >> 3) + ((above & 7) != kind));
        if (own > limit)
            return refuse(23, k, place);
        if (own > *stages)
            *stages = own;
        waiting[n] = waiting[n + 1] = (uint8_t)(own << 3 | kind);
        n += 2;
    }
    return 0;
}

static uint64_t *put_areas(const Report *report, uint64_t *answer)
{
    *answer++ = report->pieces;
    *answer++ = report->waste;
    *answer++ = report->trim;
    for (int i = 0; i < MOST_KINDS; i++)
        *answer++ = (uint64_t)report->copies[i];
    *answer++ = report->sawdust;
    return answer;
}

static uint32_t report_plan(const Order *order, const Nodes *plan, uint64_t *answer)
{
    Report report;
    uint32_t refused = check_nodes(order, plan, &report, answer);
    if (!refused) {
        answer[0] = report.profit;
        put_areas(&report, answer + 1);
    }
    return refused;
}

uint32_t baseline_check_plan(const uint8_t *job, size_t bytes, uint32_t choices,
                             const uint8_t *kinds, const uint16_t *operands, size_t nodes,
                             uint64_t *answer)
{
    Order order;
    uint32_t refused = read_order(&order, job, bytes, choices, OFFICE, answer);
    return refused ? refused : report_plan(&order, &(Nodes){kinds, operands, nodes}, answer);
}

uint32_t baseline_check_plan_block(const uint8_t *job, size_t bytes, uint32_t choices,
                                   const uint8_t *plan, size_t plan_bytes, uint64_t *answer)
{
    uint16_t operands[MOST_NODES];
    Order order;
    uint32_t refused = read_order(&order, job, bytes, choices, OFFICE, answer);
    if (refused)
        return refused;
    size_t nodes = plan_bytes < 2 ? 0 : (size_t)two(plan);
    if (plan_bytes != 2 + 3 * nodes)
        return refuse(10, 0, answer);
    for (size_t i = 0; i < nodes && i < MOST_NODES; i++)
        operands[i] = (uint16_t)two(plan + 2 + nodes + 2 * i);
    return report_plan(&order, &(Nodes){plan + 2, operands, nodes}, answer);
}

uint32_t baseline_check_plan_staged(const uint8_t *job, size_t bytes, uint32_t choices,
                                    uint32_t limit, const uint8_t *kinds,
                                    const uint16_t *operands, size_t nodes, uint64_t *answer)
{
    Order order;
    Report report;
    uint64_t stages;
    uint32_t refused = read_order(&order, job, bytes, choices, OFFICE, answer);
    if (!refused && (limit < 1 || limit > MOST_LIMIT))
        refused = refuse(22, 0, answer);
    if (!refused)
        refused = check_nodes(&order, &(Nodes){kinds, operands, nodes}, &report, answer);
    if (!refused)
        refused = count_stages(kinds, nodes, limit, &stages, answer);
    if (!refused) {
        answer[0] = report.profit;
        *put_areas(&report, answer + 1) = stages;
    }
    return refused;
}

/* The check of the saw, which reads no price. */
static uint32_t check_at_saw(const uint8_t *job, size_t bytes, uint32_t choices, const Nodes *plan,
                             Report *report, uint64_t *place)
{
    Order order;
    uint32_t refused = read_order(&order, job, bytes, choices, SAW, place);
    return refused ? refused : check_nodes(&order, plan, report, place);
}

uint32_t baseline_saw_check(const uint8_t *job, size_t bytes, uint32_t choices,
                            const uint8_t *kinds, const uint16_t *operands, size_t nodes,
                            uint64_t *answer)
{
    Nodes plan = {kinds, operands, nodes};
    Report report;
    uint32_t refused = check_at_saw(job, bytes, choices, &plan, &report, answer);
    if (!refused)
        put_areas(&report, answer);
    return refused;
}

/* The part of an array that belongs to a node, where the plan passes. */
uint32_t baseline_saw_part(const uint8_t *job, size_t bytes, uint32_t choices, const uint8_t *kinds,
                           const uint16_t *operands, size_t nodes, uint64_t node, uint64_t *answer)
{
    Nodes plan = {kinds, operands, nodes};
    Report report;
    uint64_t place;
    int passed = check_at_saw(job, bytes, choices, &plan, &report, &place) == 0;
    size_t first = passed && node < nodes ? (size_t)node : nodes, end = first;
    for (size_t left = first < nodes; left > 0; end++)
        left += kinds[end] == CUT_LENGTH || kinds[end] == CUT_WIDTH ? 1 : (size_t)-1;
    answer[0] = first;
    answer[1] = end - first;
    return 0;
}
