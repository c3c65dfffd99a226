/* True sizes: whether a model stands for them, by the least true extent of the chains that reach each extent
 * in the model; and the neat plan at the true sizes, written in one scan from the last node to the first.
 * The sizes block is taken as accepted. */
#include "check.h"
#include <string.h>

typedef struct {
    int64_t side[2];
} Span;

typedef struct {
    Span plate, size[MOST_KINDS];
    int64_t kerf;
} Sizes;

/* What a piece takes of the true plate and of the model's, with a kerf. */
typedef struct {
    int32_t extent;
    int model;
} Way;

enum { MOST_ROOM = MOST_SIDE + 1 };

static int64_t four(const uint8_t *at)
{
    return two(at) | (int64_t)two(at + 2) << 16;
}

static Span span(const uint8_t *at)
{
    return (Span){{four(at), four(at + 4)}};
}

static void read_sizes(Sizes *sizes, const uint8_t *block, int kinds)
{
    sizes->plate = span(block);
    sizes->kerf = four(block + 8);
    for (int i = 0; i < kinds; i++)
        sizes->size[i] = span(block + 12 + 8 * i);
}

/* The ways in which a kind may lie on the true plate. */
static int list_ways(const Order *model, const Sizes *sizes, int kind, int along, Way *ways)
{
    int count = 0, own[] = {model->size[kind].length, model->size[kind].width};
    for (int turned = 0; turned <= model->turning; turned++) {
        const int64_t *side = sizes->size[kind].side;
        if (side[turned] > sizes->plate.side[0] || side[!turned] > sizes->plate.side[1])
            continue;
        int at = along ^ turned;
        ways[count++] = (Way){(int32_t)(side[at] + sizes->kerf), own[at] + model->kerf};
    }
    return count;
}

static int32_t lesser_of(int32_t a, int32_t b)
{
    return a < b ? a : b;
}

/* The chains of one table that have one piece more, laid in this way, into the other. */
static void lay(const int32_t *restrict from, int32_t *restrict to, int room, Way way)
{
    int near = way.model < room ? way.model : room;
    for (int s = 1; s <= near; s++)
        to[s] = lesser_of(to[s], way.extent);
    for (int s = near + 1; s <= room; s++)
        to[s] = lesser_of(to[s], from[s - way.model] + way.extent);
}

/* The least true extents of the chains that reach each extent in the model, and a table to make the next in.
 * Extents that the true plate has no room for count as one more than it has. */
typedef struct {
    int32_t *least, *next;
    int room;
} Chains;

/* One copy more of a kind; says whether an extent became less. */
static int add_copy(Chains *chains, const Way *ways, int count)
{
    int32_t *least = chains->next, *before = chains->least;
    size_t bytes = sizeof *least * (size_t)(chains->room + 1);
    memcpy(least, before, bytes);
    for (int w = 0; w < count; w++)
        lay(before, least, chains->room, ways[w]);
    chains->least = least, chains->next = before;
    return memcmp(least, before, bytes) != 0;
}

static void add_kind(Chains *chains, const Order *model, const Sizes *sizes, int kind, int along)
{
    Way ways[2];
    int count = list_ways(model, sizes, kind, along, ways), copies = model->demand[kind];
    while (copies-- > 0 && add_copy(chains, ways, count))
        ;
}

static int stands(const Order *model, const Sizes *sizes, int along)
{
    int32_t tables[2][MOST_ROOM + 1], most = (int32_t)(sizes->plate.side[along] + sizes->kerf) + 1;
    int side = along ? model->plate.width : model->plate.length;
    Chains chains = {tables[0], tables[1], side + model->kerf + 1};
    chains.least[0] = 0;
    for (int s = 1; s <= chains.room; s++)
        chains.least[s] = most;
    for (int i = 0; i < model->kinds; i++)
        add_kind(&chains, model, sizes, i, along);
    return chains.least[chains.room] == most;
}

uint32_t baseline_check_model(const uint8_t *job, size_t bytes, uint32_t choices,
                              const uint8_t *block, uint64_t *answer)
{
    Order model;
    Sizes sizes;
    uint32_t refused = read_order(&model, job, bytes, choices, OFFICE, answer);
    if (refused)
        return refused;
    read_sizes(&sizes, block, model.kinds);
    for (int along = 0; along < 2; along++)
        if (!stands(&model, &sizes, along))
            return refuse(33, (size_t)along, answer);
    return 0;
}

static int64_t greater_of(int64_t a, int64_t b)
{
    return a > b ? a : b;
}

static int is_piece(int kind)
{
    return kind == PIECE || kind == TURNED_PIECE;
}

/* Writes the nodes that remain, the last one before `out`, and gives the used size. */
static Span scan(const Sizes *sizes, const Nodes *plan, uint8_t *kinds, uint32_t *positions, size_t out)
{
    Span used[MOST_NODES + 1];
    size_t n = 0;
    for (size_t k = plan->nodes; k-- > 0;) {
        int kind = plan->kinds[k];
        uint32_t operand = plan->operands[k];
        Span size = {{0, 0}};
        if (is_piece(kind)) {
            const int64_t *side = sizes->size[operand].side;
            size = (Span){{side[kind == TURNED_PIECE], side[kind == PIECE]}};
        } else if (kind != WASTE) {
            Span first = used[--n], second = used[--n];
            int along = kind == CUT_WIDTH;
            if (first.side[0] == 0 || second.side[0] == 0) {
                used[n++] = first.side[0] == 0 ? second : first;
                continue;
            }
            operand = (uint32_t)first.side[along];
            size.side[along] = first.side[along] + sizes->kerf + second.side[along];
            size.side[!along] = greater_of(first.side[!along], second.side[!along]);
        }
        used[n++] = size;
        if (kind != WASTE)
            kinds[--out] = (uint8_t)kind, positions[out] = operand;
    }
    return used[0];
}

/* The output arrays hold the plan, which fits the true plate. */
uint32_t baseline_true_plan(const uint8_t *job, size_t bytes, uint32_t choices, const uint8_t *block,
                            const uint8_t *kinds, const uint16_t *operands, size_t nodes,
                            uint8_t *true_kinds, uint32_t *positions, uint64_t *answer)
{
    Order order;
    Report report;
    Sizes sizes;
    Nodes plan = {kinds, operands, nodes};
    uint32_t refused = read_order(&order, job, bytes, choices, OFFICE, answer);
    if (!refused)
        refused = check_nodes(&order, &plan, &report, answer);
    if (refused)
        return refused;
    read_sizes(&sizes, block, order.kinds);
    size_t pieces = 0;
    for (size_t k = 0; k < nodes; k++)
        pieces += (size_t)is_piece(kinds[k]);
    true_kinds[0] = WASTE, positions[0] = 0;
    answer[0] = pieces == 0 ? 1 : 2 * pieces - 1;
    Span used = scan(&sizes, &plan, true_kinds, positions, pieces == 0 ? 0 : answer[0]);
    answer[1] = (uint64_t)used.side[0], answer[2] = (uint64_t)used.side[1];
    return 0;
}
