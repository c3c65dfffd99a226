/* The guillotine cutting planner from C: one plate, up to 64 kinds of piece, edge-to-edge cuts.
 * `make install` installs it; `pkg-config --cflags --libs planner` says how to build with it. */
#ifndef PLANNER_H
#define PLANNER_H

#include <stddef.h>
#include <stdint.h>

/* The version of the interface: its second number rises with each new function, its first where an old one changes. */
#define PLANNER_VERSION "2.0.0"

#ifdef __cplusplus
extern "C" {
#endif

/* Slices. Each is a pointer, then the number of its elements. The pointer is never NULL and is
 * aligned for its element, also where the number is 0. A slice that a call writes must not overlap
 * any other slice of that call. The library keeps no pointer and allocates nothing.
 *
 * Threads. The library has no state of its own, so any number of threads may call it at a time, each with slices that
 * no other thread writes.
 *
 * Sizes that suffice. Plan arrays of 4095 entries hold every plan; lists of 1021 words hold every list. A table of one
 * word draws refusal 20 with the words needed; lend these and call again. planner_find_weights needs more in later
 * rounds and ends its run where the table is too short: lend it p * r * 4096 words, or as many as there is memory for;
 * its comment says how to see why a run ended. planner_blocks.h packs the byte blocks.
 *
 * Stack. Every function runs on a thread with a stack of 128 KiB, whatever it is given. The proof
 * does not see the stack: this is an assumption, tested from outside on the deepest and longest
 * inputs, where no function needed more than 40 KiB. Four functions recurse: the staged check and the
 * staged certificate no deeper than the limit, planner_bound_two once, planner_exact no deeper than the
 * number of kinds.
 *
 * Job block. Plate length, plate width, number n of kinds, kerf k; then n sizes (length, width); all
 * of two bytes, lowest byte first. Then n pairs of price (four bytes) and demand (two bytes).
 * 8 + 10n bytes. The old block has no kerf and 6 + 10n bytes; it is read with k = 0. With PLANNER_GRAIN
 * either block has n more bytes at its end, one for each kind: 0, the kind may be turned where the job
 * allows it; 1, the kind keeps its grain.
 * A kind of demand 0 is cancelled; it keeps its number. The others are ordered.
 *
 * Choices. A word of bits, one for each choice of the call; 0 makes none.
 *   PLANNER_TURNING      any piece may be turned, but those of a kind that keeps its grain
 *   PLANNER_FULL_DEMAND  the capacity counts every demand in full; a plan check reads no capacity
 *   PLANNER_OLD_BLOCK    the job block is the old one
 *   PLANNER_GRAIN        the job block says of each kind whether it keeps its grain
 *
 * Turning. What is said below of PLANNER_TURNING is said of the kinds that do not keep their grain. A kind
 * that keeps it has upright pieces only, and counts in every list, figure and capacity as it does without
 * PLANNER_TURNING.
 *
 * Weights. One byte for each kind. The capacity is the sum, over the kinds, of weight times the
 * lesser of the demand and the copies that the plate can hold. With PLANNER_FULL_DEMAND it is the
 * sum of weight times demand, as filed certificates may have it.
 *
 * Copies that the plate can hold, all sides taken with k added. Plate length over piece length, times
 * width over width, each rounded down. With PLANNER_TURNING plate area over piece area, rounded down,
 * or 0 if the piece fits the plate neither way. No tree on the plate has more copies of a kind.
 *
 * Plan. A tree in preorder, as two arrays of one length: the kind of each node and its operand.
 *   0 waste, operand 0
 *   1 piece, operand its number
 *   2 cut of the length, operand the first part's length
 *   3 cut of the width, operand the first part's width
 *   4 turned piece, whose length lies along the width, operand its number; with PLANNER_TURNING only
 * A plan block is the node count (two bytes), the kinds (a byte each), the operands (two bytes each).
 *
 * Kerf. The width of the blade, which each cut loses. A cut of a side at position t leaves a first
 * part of t and a second part of side - t - k, each at least 1. Its sawdust is k times the other side.
 *
 * Tree. A guillotine tree on a rectangle is waste, a piece of an ordered kind that fits there, or a
 * cut, which loses the kerf, with a guillotine tree on each part. With PLANNER_TURNING a piece is
 * upright or turned; a turned one fits where its sides exchanged fit. A tree may have any number of
 * nodes. It earns the sum of its pieces' prices, weighs the sum of their weights, and keeps every
 * demand when no kind has more copies in it, upright and turned together, than its demand.
 *
 * Cuts between the marks. Where a function says that no tree that keeps every demand earns more, within
 * a limit or without, that holds of trees cut at multiples of one m-th of a unit too, for every whole m
 * of at least 1: their pieces keep their whole sizes, and each cut loses the whole kerf.
 *
 * Normal lengths, all sides taken with k added. 0 and all sums, with repetition, of lengths of
 * ordered kinds that fit the plate, up to the plate's length; normal widths likewise. With
 * PLANNER_TURNING the sums are of the lengths of kinds that fit the plate upright and of the widths of
 * kinds that fit it turned; for normal widths the other way about.
 *
 * Storage. `lengths` needs plate length + k + 1 words, `widths` plate width + k + 1, `table` p * r *
 * (capacity + 1), where p and r are the numbers of normal lengths and widths. A call that fills them
 * leaves the p normal lengths and the r normal widths in the lists, rising, and in the table at word
 * (a * r + b) * (capacity + 1) + c the figure of the a-th normal length, the b-th normal width and
 * share c, all counted from 0: the most that a tree of weight at most c earns on the rectangle whose
 * sides are these less k, and 0 where a or b is 0. All later words keep what they held.
 *
 * Stages. Those of a tree are the most changes of direction on a path down through its cuts, plus
 * one; a tree without a cut has none. A limit is from 1 to 8.
 *
 * Storage within a limit on stages. `table` needs (2 * limit + 1) * p * r * (capacity + 1) words, blocks
 * of the layout above one after another: block 0 has the figures without a cut. Block 2j - 1 is length
 * first at stage j: a word is the greatest of that of width first with one stage fewer (block 2j - 2)
 * and of all cuts of the length between figures of its own block, the share divided in every way. Block
 * 2j is width first likewise, over length first with one stage fewer (block 2j - 3, for j = 1 block 0).
 * So a word of block 2j - 1 is the most that a tree of weight at most its share earns on its rectangle
 * that has at most j stages and first a cut of the length, or at most j - 1 and first one of the width, or
 * no cut; of block 2j with length and width exchanged. Lists and later words are as above.
 *
 * Two weights. Each kind has a first and a second weight, and there are two capacities Q and R, each
 * counted from its own weights. `table` needs p * r * (Q + 1) * (R + 1) words; word ((a * r + b) *
 * (Q + 1) + c) * (R + 1) + d has the figure of the recursion that shares out both: the greatest of 0, of
 * a piece that fits and weighs at most c and d, and of the two parts' figures over all cuts and all
 * divisions of both. It is the most that a tree of first weight at most c and second at most d earns on
 * the rectangle as above. Lists and later words are as above too.
 *
 * States. The remaining copies of every kind as one number in mixed radix, kind 0 lowest; the digit of
 * a kind has demand + 1 values, and there are S states. `table` of the exact call needs p * r * S words;
 * word (a * r + b) * S + s has the figure of the recursion over the remaining copies: the greatest of 0, of
 * a piece that fits and of which a copy remains, and of the two parts' figures over all cuts and all
 * divisions of the copies. It is the most that a tree with no more copies of any kind than remain earns
 * on the rectangle as above. Lists and later words are as above too.
 *
 * Rounds. At most 18, numbered from 0; a lower figure is given. Round 0 has all weights 0. A round
 * writes the plan behind the bound of its weights and gives each kind a step: the whole part of the
 * square root of d * s, but at most 255. Here d is how far the copies in that plan lie from the demand,
 * and s the greater of 1 and f * g / D, where D is the sum of the squares of every kind's d, g the
 * round's bound less the lower figure, and f is 2 in rounds 0 to 2 and half as much after every third
 * round. The next weight has the step added, up to 255, where the copies are more than the demand, and
 * taken off, down to 0, where they are fewer. The last round is the first whose plan keeps every demand
 * or whose next capacity would be above 4095, or round 17. A round after round 0 that planner_write_plan
 * would refuse, by 20 or 21, ends the run too and is not counted.
 *
 * Rack. From 1 to 16 plates for one order, as three slices of one length: the plates' lengths, their
 * widths, and the profits that their plans bring. The plans stand one after another in the two arrays, in
 * the order of the plates and with nodes numbered throughout; each ends where its tree does. The sides of
 * the job's own plate are not read.
 *
 * True sizes. A sizes block has the true sizes of a job, in any unit of length: plate length, plate
 * width and kerf; then n pairs of length and width, in the order of the kinds; all of four bytes, lowest
 * byte first. 12 + 8n bytes. Sides are from 1 to 100000000, the kerf from 0 to 1000000. The true job
 * has these sizes and the job block's prices, demands, turning and grain; the job block is its model. The
 * model stands for the true sizes if in both directions every row of pieces that fits the true plate fits
 * the model's plate too. A row has pieces that may lie and that fit the true plate by themselves, no more
 * copies of a kind than its demand, and a kerf between two. Then, if no tree of the model that keeps every
 * demand earns more than a number, no tree at the true sizes that keeps them does, wherever it is cut; the
 * same holds within a limit on stages.
 *
 * True plan. The preorder of a tree at the true sizes, as two arrays: the kind of each node, and a word of
 * four bytes with the true position of a cut, the number of a piece, or 0 for waste.
 *
 * Multipliers. A word of four bytes for each kind, at most 1000000. The lowered job has each price less
 * its kind's multiplier, 0 where the multiplier is more.
 *
 * Return value.
 *   0    done; `answer` holds the words that the function names; its later words are kept
 *   1 to 38
 *        refused, see below; answer[0] is the place; the other words of `answer` are kept
 *   100  `answer` has fewer words than the function names; nothing was changed
 *   101  `choices` has a bit that is no choice, and `answer` is long enough; nothing was changed
 *
 * Refusals, in the order of the checks, the first one met, with their places.
 *   28  rack not of 1 to 16 plates, or its slices not of one   0
 *       length
 *    1  job of fewer than 8 bytes, an old block of 6           0
 *    2  plate length or width outside 1 to 1000; of a rack,    0, or plate
 *       after 35, that of a plate
 *    3  number of kinds outside 1 to 64                        0
 *   27  kerf above 20                                          0
 *    4  job not 8 + 10n bytes, an old block not 6 + 10n; with  0
 *       PLANNER_GRAIN n bytes more
 *    5  a side of a kind outside 1 to 1000                     kind
 *    6  price above 1000000                                    kind
 *    7  demand above 255                                       kind
 *   35  grain byte above 1                                     kind
 *   31  sizes block not 12 + 8n bytes                          0
 *   32  a true size outside its range                          0 for plate or
 *                                                              kerf, or 1 + kind
 *   33  the model does not stand for the true sizes            0 along the length,
 *                                                              1 along the width
 *    8  not n weights                                          0
 *   24  not n second weights                                   0
 *    9  capacity above 4095, of two weights either             0
 *   25  both capacities, each plus 1, multiply to above 65536  0
 *   37  not n multipliers                                      0
 *   38  multiplier above 1000000                               kind
 *   30  the demands, each plus 1, multiply to above 4096       0
 *   22  limit on stages outside 1 to 8                         0
 *   10  plan arrays differ in length, or plan block under      0
 *       2 bytes or not 2 + 3 * count bytes
 *   11  no node, or above 4095, in a rack over all plans       0
 *   12  kind of node above 3, or above 4 with PLANNER_TURNING  node
 *   13  piece number n or more                                 node
 *   36  a turned piece of a kind that keeps its grain          node
 *   14  cut outside 1 to side - k - 1, or waste operand not 0  node
 *   15  piece does not fit                                     node
 *   16  this copy passes its demand                            node
 *   17  a node is wanted and none is left                      node count
 *   18  nodes left over, in a rack after the last plan         first of them
 *   26  an idle cut: neither of its parts holds a piece        first of them
 *   29  a kind's copies in this and all earlier plans of the   plate
 *       rack pass its demand
 *   34  the plan does not fit the plate at the true sizes      0 along the length,
 *                                                              1 along the width
 *   23  a cut whose path passes the limit on stages            first of them
 *   19  a list too short                                       0
 *   20  table too short                                        words needed
 *   21  plan needs above 4095 nodes, or more than an array     nodes needed
 *       of the plan holds
 * Two numbers are not named below: every function that gives 7 gives 35 right after it, and every one that gives 13
 * gives 36 right after it.
 * Numbers 1 to 19 and 22 to 38 change no lent memory but answer[0]. On 20 the lists are filled and the
 * table is untouched. On 21 lists and table are filled and the plan arrays untouched. */

enum {
    PLANNER_DONE = 0,
    PLANNER_ANSWER_TOO_SHORT = 100,
    PLANNER_UNKNOWN_CHOICE = 101
};

/* Bits of `choices`. */
enum {
    PLANNER_TURNING = 1,
    PLANNER_FULL_DEMAND = 2,
    PLANNER_OLD_BLOCK = 4,
    PLANNER_GRAIN = 8
};

/* Words of `answer`. */
enum {
    PLANNER_REPORT_WORDS = 69,
    PLANNER_BOUND_WORDS = 4,
    PLANNER_PLAN_WORDS = 5,
    PLANNER_CERTIFICATE_WORDS = 3,
    PLANNER_NEAT_WORDS = 1,
    PLANNER_STAGED_REPORT_WORDS = 70,
    PLANNER_TWO_WORDS = 5,
    PLANNER_EXACT_WORDS = 5,
    PLANNER_FOUND_WORDS = 66,
    PLANNER_RACK_WORDS = 1,
    PLANNER_SAW_WORDS = 68,
    PLANNER_PART_WORDS = 2,
    PLANNER_MODEL_WORDS = 1,
    PLANNER_TRUE_PLAN_WORDS = 3,
    PLANNER_PLATES_WORDS = 3,
    PLANNER_LAGRANGIAN_WORDS = 5
};

/* Checks a plan (refusals 1 to 7, 10 to 18, 26, 27). For an accepted job, known choices and a long enough
 * answer it returns 0 exactly if the arrays are the preorder of a guillotine tree on the plate that keeps
 * every demand and has at most 4095 nodes and no idle cut; the answer is that tree's own.
 * answer[0] profit, the sum of the prices; answer[1] area of the pieces, answer[2] of the waste
 * nodes, answer[3] of the trim; answer[4 + i] copies of kind i, upright and turned, 0 past the job's
 * kinds; answer[68] area of the sawdust. The four areas sum to the plate's. */
uint32_t planner_check_plan(
    const uint8_t *job, size_t job_len,
    uint32_t choices,
    const uint8_t *kinds, size_t kinds_len,
    const uint16_t *operands, size_t operands_len,
    uint64_t *answer, size_t answer_len);

/* The same for a plan block. */
uint32_t planner_check_plan_block(
    const uint8_t *job, size_t job_len,
    uint32_t choices,
    const uint8_t *plan, size_t plan_len,
    uint64_t *answer, size_t answer_len);

/* Computes the relaxed bound (refusals 1 to 9, 19, 20, 27) and fills the storage. The bound is
 * exactly the most that a guillotine tree on the plate of weight at most the capacity earns, and no
 * tree that keeps every demand earns more. With the same weights, bound and capacity are never above
 * those with PLANNER_FULL_DEMAND.
 * answer[0] bound, answer[1] capacity, answer[2] p, answer[3] r. */
uint32_t planner_bound(
    const uint8_t *job, size_t job_len,
    uint32_t choices,
    const uint8_t *weights, size_t weights_len,
    uint16_t *lengths, size_t lengths_len,
    uint16_t *widths, size_t widths_len,
    uint64_t *table, size_t table_len,
    uint64_t *answer, size_t answer_len);

/* Writes the plan behind the bound (refusals 1 to 9, 19 to 21, 27) and fills the storage. The arrays
 * hold the preorder of a guillotine tree on the plate of weight at most the capacity that earns the
 * bound, and has no idle cut. It may exceed demands. A cut whose second part would be below 1 is
 * left out. Entries of the arrays past the plan keep what they held.
 * answer[0] bound, answer[1] capacity, answer[2] p, answer[3] r, answer[4] node count. */
uint32_t planner_write_plan(
    const uint8_t *job, size_t job_len,
    uint32_t choices,
    const uint8_t *weights, size_t weights_len,
    uint16_t *lengths, size_t lengths_len,
    uint16_t *widths, size_t widths_len,
    uint64_t *table, size_t table_len,
    uint8_t *kinds, size_t kinds_len,
    uint16_t *operands, size_t operands_len,
    uint64_t *answer, size_t answer_len);

/* Writes the neat plan of a plan, which is checked first (refusals 1 to 7, 10 to 18, 26, 27); 21, with
 * the nodes needed, if an output array is shorter. Used size is nothing for waste and the piece's own
 * size, as it lies, for a piece. A cut with a pieceless part is replaced by its other part and has its
 * used size; for any other cut it is the sum along it and k, and the greater across it. Every cut that
 * remains moves to the first part's used size. A plan without a piece becomes one waste node. The neat
 * plan passes the check, earns the same, has the same copies, no more nodes and no more stages (the
 * most changes of direction on a path down through the cuts, plus one), and is its own neat plan.
 * Entries of the output arrays past it keep what they held, and all do where the call is refused.
 * answer[0] node count. */
uint32_t planner_neat_plan(
    const uint8_t *job, size_t job_len,
    uint32_t choices,
    const uint8_t *kinds, size_t kinds_len,
    const uint16_t *operands, size_t operands_len,
    uint8_t *neat_kinds, size_t neat_kinds_len,
    uint16_t *neat_operands, size_t neat_operands_len,
    uint64_t *answer, size_t answer_len);

/* Certifies a plan (refusals 1 to 20, 26, 27) and fills the storage. The gap is 0 exactly if the
 * checked profit equals the bound, and then no guillotine tree on the plate that keeps every demand
 * earns more; in any case none earns more than profit and gap together.
 * answer[0] gap, bound less profit; answer[1] bound, answer[2] profit. */
uint32_t planner_certify(
    const uint8_t *job, size_t job_len,
    uint32_t choices,
    const uint8_t *weights, size_t weights_len,
    const uint8_t *kinds, size_t kinds_len,
    const uint16_t *operands, size_t operands_len,
    uint16_t *lengths, size_t lengths_len,
    uint16_t *widths, size_t widths_len,
    uint64_t *table, size_t table_len,
    uint64_t *answer, size_t answer_len);

/* Checks a plan within a limit on stages (refusals 1 to 7, 27, 22, 10 to 18, 26, 23). For a limit from
 * 1 to 8 and a long enough answer it returns 0 exactly where planner_check_plan does and the tree has at
 * most that many stages.
 * answer[0] to answer[68] as planner_check_plan; answer[69] the tree's stages. */
uint32_t planner_check_plan_staged(
    const uint8_t *job, size_t job_len,
    uint32_t choices,
    uint32_t limit,
    const uint8_t *kinds, size_t kinds_len,
    const uint16_t *operands, size_t operands_len,
    uint64_t *answer, size_t answer_len);

/* Computes the staged bound (refusals 1 to 9, 27, 22, 19, 20) and fills the storage within the limit. The
 * bound is exactly the most that a guillotine tree on the plate of at most that many stages and of
 * weight at most the capacity earns, and no tree of at most that many stages that keeps every demand
 * earns more. With the same weights and limit, the bound is never above that with PLANNER_FULL_DEMAND.
 * answer[0] bound, answer[1] capacity, answer[2] p, answer[3] r. */
uint32_t planner_bound_staged(
    const uint8_t *job, size_t job_len,
    uint32_t choices,
    const uint8_t *weights, size_t weights_len,
    uint32_t limit,
    uint16_t *lengths, size_t lengths_len,
    uint16_t *widths, size_t widths_len,
    uint64_t *table, size_t table_len,
    uint64_t *answer, size_t answer_len);

/* Certifies a plan within a limit on stages (refusals 1 to 9, 27, 22, 10 to 18, 26, 23, 19, 20) and fills the
 * storage within the limit. The gap is 0 exactly if the checked profit equals the staged bound, and
 * then no guillotine tree on the plate of at most that many stages that keeps every demand earns more;
 * in any case none earns more than profit and gap together.
 * answer[0] gap, bound less profit; answer[1] bound, answer[2] profit. */
uint32_t planner_certify_staged(
    const uint8_t *job, size_t job_len,
    uint32_t choices,
    const uint8_t *weights, size_t weights_len,
    uint32_t limit,
    const uint8_t *kinds, size_t kinds_len,
    const uint16_t *operands, size_t operands_len,
    uint16_t *lengths, size_t lengths_len,
    uint16_t *widths, size_t widths_len,
    uint64_t *table, size_t table_len,
    uint64_t *answer, size_t answer_len);

/* Computes the bound of two weights a kind (refusals 1 to 7, 27, 8, 24, 9, 25, 19, 20) and fills the storage
 * of two weights. The bound is exactly the most that a guillotine tree on the plate within both
 * capacities earns, and no tree that keeps every demand earns more. With as many second weights as first,
 * all of them 0, the second capacity is 0, and all else is as planner_bound of the first answers and
 * leaves it. With the same weights, the bound is never above that with PLANNER_FULL_DEMAND.
 * answer[0] bound, answer[1] first capacity, answer[2] second, answer[3] p, answer[4] r. */
uint32_t planner_bound_two(
    const uint8_t *job, size_t job_len,
    uint32_t choices,
    const uint8_t *first_weights, size_t first_weights_len,
    const uint8_t *second_weights, size_t second_weights_len,
    uint16_t *lengths, size_t lengths_len,
    uint16_t *widths, size_t widths_len,
    uint64_t *table, size_t table_len,
    uint64_t *answer, size_t answer_len);

/* Computes the optimum of a short order (refusals 1 to 7, 27, 30, 19 to 21), fills the storage of states and
 * writes the plan that earns it. The plan passes planner_check_plan and earns the optimum, and no
 * guillotine tree on the plate that keeps every demand earns more; no bound of one weight or of two, for
 * the same PLANNER_TURNING, is below it. Entries of the arrays past the plan keep what they held.
 * answer[0] optimum, answer[1] states, answer[2] p, answer[3] r, answer[4] node count. */
uint32_t planner_exact(
    const uint8_t *job, size_t job_len,
    uint32_t choices,
    uint16_t *lengths, size_t lengths_len,
    uint16_t *widths, size_t widths_len,
    uint64_t *table, size_t table_len,
    uint8_t *kinds, size_t kinds_len,
    uint16_t *operands, size_t operands_len,
    uint64_t *answer, size_t answer_len);

/* Finds weights in rounds (refusals 1 to 7, 27, 10 to 18, 26, and those of round 0, 19 to 21). `kinds`
 * and `operands` are a plan, which is checked; its profit is the lower figure. The bound is the least of
 * those that the rounds met, and planner_bound answers it for the weights, which first gave it. No
 * guillotine tree on the plate that keeps every demand earns more. Each round leaves storage and written
 * arrays as planner_write_plan with its weights does, over what the round before left: at the end they
 * are as the last round begun left them, be it counted or not. Where 20 refused it, table and arrays,
 * and where 21 did, the arrays are still those of the round before.
 * Why it ended. The written arrays hold the plan of the last round counted. If that plan keeps every demand, or if 18
 * rounds were run, the run ended by its own rules. Otherwise the next round would have a capacity above 4095, which is a
 * rule of its own too, or planner_write_plan would refuse it: by 21, where its plan needs above 4095 nodes, or by 20,
 * where the table is too short. A table of p * r * 4096 words rules 20 out; with a shorter one more words may bring more
 * rounds and a lower bound.
 * answer[0] bound, answer[1] rounds run; answer[2 + i] weight of kind i, 0 past the job's kinds. */
uint32_t planner_find_weights(
    const uint8_t *job, size_t job_len,
    uint32_t choices,
    const uint8_t *kinds, size_t kinds_len,
    const uint16_t *operands, size_t operands_len,
    uint16_t *lengths, size_t lengths_len,
    uint16_t *widths, size_t widths_len,
    uint64_t *table, size_t table_len,
    uint8_t *written_kinds, size_t written_kinds_len,
    uint16_t *written_operands, size_t written_operands_len,
    uint64_t *answer, size_t answer_len);

/* Checks the plans of a rack (refusals 28, 1, 3, 27, 4 to 7, 2, 10, 11; for each plan 12 to 17, 26, 29; at
 * last 18). For an accepted job and rack, known choices and a long enough answer it returns 0 exactly if the
 * arrays are, plate after plate, the preorder of a guillotine tree on that plate without an idle cut, at most 4095
 * nodes in all, and no kind has more copies in all the trees together than its demand. Where they begin
 * with the preorders of trees on the first plates, each of which keeps every demand, and all but the last
 * of these have no idle cut and share the demands, it returns 26 with the first idle cut of the last, or,
 * if it has none and with it a demand is passed, 29 with its plate. A pass writes the profits and nothing
 * else; a refusal changes none of them. Any trees, one on each plate, that share the demands earn together
 * no more than the sum of the plates' bounds, each under weights of its own.
 * answer[0] the place of a refusal; where the rack passes it is kept. */
uint32_t planner_check_rack(
    const uint8_t *job, size_t job_len,
    uint32_t choices,
    const uint16_t *plate_lengths, size_t plate_lengths_len,
    const uint16_t *plate_widths, size_t plate_widths_len,
    uint64_t *profits, size_t profits_len,
    const uint8_t *kinds, size_t kinds_len,
    const uint16_t *operands, size_t operands_len,
    uint64_t *answer, size_t answer_len);

/* Checks a plan as the saw does: the price fields of the job are not read, so that they may hold any
 * bytes, and 6 is never given (refusals 1 to 5, 7, 27, 10 to 18, 26). Jobs that differ only in prices
 * get equal answers. Unless planner_check_plan gives 6, this returns what it returns, with the same
 * place, copies and areas.
 * answer[0] area of the pieces, answer[1] of the waste nodes, answer[2] of the trim; answer[3 + i]
 * copies of kind i; answer[67] area of the sawdust. */
uint32_t planner_saw_check(
    const uint8_t *job, size_t job_len,
    uint32_t choices,
    const uint8_t *kinds, size_t kinds_len,
    const uint16_t *operands, size_t operands_len,
    uint64_t *answer, size_t answer_len);

/* The part of `kinds` that belongs to a node of a plan which the saw passes, and to all nodes below
 * it. For a plan that does not pass, or a node past it, the part is empty and stands at the array's
 * end. Returns 0, 100 or 101; it reads no price either.
 * answer[0] first entry of the part, answer[1] number of its entries. */
uint32_t planner_saw_kinds(
    const uint8_t *job, size_t job_len,
    uint32_t choices,
    const uint8_t *kinds, size_t kinds_len,
    const uint16_t *operands, size_t operands_len,
    uint64_t node,
    uint64_t *answer, size_t answer_len);

/* The same part of `operands`. */
uint32_t planner_saw_operands(
    const uint8_t *job, size_t job_len,
    uint32_t choices,
    const uint8_t *kinds, size_t kinds_len,
    const uint16_t *operands, size_t operands_len,
    uint64_t node,
    uint64_t *answer, size_t answer_len);

/* Checks that the job is a model of true sizes (refusals 1 to 7, 27, 31 to 33). It returns 0 exactly if
 * the model stands for the true sizes; of the directions the length is tried first.
 * answer[0] the place of a refusal; where the model passes it is kept. */
uint32_t planner_check_model(
    const uint8_t *job, size_t job_len,
    uint32_t choices,
    const uint8_t *sizes, size_t sizes_len,
    uint64_t *answer, size_t answer_len);

/* Writes the neat plan of a plan at the true sizes (refusals 1 to 7, 27, 31, 32, 10 to 18, 26, 34, 21). The
 * plan is checked as the model's first. The true plan has the neat plan's nodes, and each of its cuts is at
 * the true used size of its first part. It is refused by 34 where its used length or width is more than the
 * true plate's; the length is tried first; and by 21, with the nodes needed, if an output array is shorter.
 * It is the preorder of a guillotine tree on the true plate that loses the true kerf at each cut, with the
 * same copies and profit as the plan; whether the model stands for the true sizes is not asked. Entries of
 * the output arrays past it keep what they held, and all do where the call is refused.
 * answer[0] node count, answer[1] used length, answer[2] used width, both 0 without a piece. */
uint32_t planner_true_plan(
    const uint8_t *job, size_t job_len,
    uint32_t choices,
    const uint8_t *sizes, size_t sizes_len,
    const uint8_t *kinds, size_t kinds_len,
    const uint16_t *operands, size_t operands_len,
    uint8_t *true_kinds, size_t true_kinds_len,
    uint32_t *positions, size_t positions_len,
    uint64_t *answer, size_t answer_len);

/* Says how many plates a whole order needs (refusals 1 to 9, 19, 20, 27) and fills the storage as
 * planner_bound does. The order's worth is the sum of demand times price. The plates needed are the
 * fewest whose number times the bound is at least the worth less `other`, 0 where nothing is left of it,
 * and 2^64 - 1 where the bound is 0 and something is left. No fewer of the job's plates hold the whole
 * order together with any other plates whose trees earn at most `other` in all; nor do they at true sizes
 * for which the job stands.
 * answer[0] plates needed, answer[1] bound, answer[2] the order's worth. */
uint32_t planner_plates_needed(
    const uint8_t *job, size_t job_len,
    uint32_t choices,
    const uint8_t *weights, size_t weights_len,
    uint64_t other,
    uint16_t *lengths, size_t lengths_len,
    uint16_t *widths, size_t widths_len,
    uint64_t *table, size_t table_len,
    uint64_t *answer, size_t answer_len);

/* Computes the Lagrangian bound (refusals 1 to 9, 27, 37, 38, 19, 20): the lowered job's bound plus the sum
 * of demand times multiplier. Lists and table are filled as planner_bound fills them for the lowered job. No
 * tree that keeps every demand earns more, nor does one at true sizes for which the job stands. With all
 * multipliers 0 it is the bound of planner_bound.
 * answer[0] Lagrangian bound, answer[1] the lowered job's bound, answer[2] capacity, answer[3] p,
 * answer[4] r. */
uint32_t planner_bound_lagrangian(
    const uint8_t *job, size_t job_len,
    uint32_t choices,
    const uint8_t *weights, size_t weights_len,
    const uint32_t *multipliers, size_t multipliers_len,
    uint16_t *lengths, size_t lengths_len,
    uint16_t *widths, size_t widths_len,
    uint64_t *table, size_t table_len,
    uint64_t *answer, size_t answer_len);

#ifdef __cplusplus
}
#endif

#endif
