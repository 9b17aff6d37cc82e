/* slot_draw.h: weighted draws of slots over lent memory. No allocation, no generator, no state: words come from a lent
 * pool, and every call takes any numbers, any floats and memory of any content. What it can't do it refuses.
 *
 * Link target/staticlib/libslot_draw.a, which `sh tools/archive` writes: x86-64 Linux, System V calls. It needs the
 * C library's memset and nothing else. The functions are proved; this header is tested against them. docs/RULES.md says
 * what each answers and leaves; the two lines above each function are its rule in short.
 *
 * What the caller owes, and nothing else is asked:
 *  - a pointer is not null, also where its length is 0, is aligned for its type, and points to as many elements as the
 *    length behind it or the array's size says; all have been given a value before, but for an answer, which is only
 *    written;
 *  - what a call may write (a pointer with no const) overlaps nothing else that the same call is lent, and nothing else
 *    writes what is lent while the call runs;
 *  - floats are those of C's default environment: rounding to nearest, and subnormal numbers are not flushed to zero.
 *
 * Answers. A call writes its answer into a lent array, number first: 0, or that of the refusal, and then the other
 * cells are 0. A refused call leaves all other memory as it was; only slot_draw_alias_weights leaves zeros on 13.
 * A float is handed in as a double, of any bits, and told by its bits; every NaN is told as 0x7ff8000000000000.
 *
 * The interface of the draws is not final: later versions may hand them more, or have them tell more.
 */
#ifndef SLOT_DRAW_H
#define SLOT_DRAW_H

#include <stdbool.h>
#include <stddef.h>
#include <stdint.h>

#ifdef __cplusplus
extern "C" {
#endif

/* the library takes lengths of 64 bits */
typedef char slot_draw_lengths_have_64_bits[sizeof(size_t) == 8 ? 1 : -1];

/* limits */
#define SLOT_DRAW_MOST_SLOTS 4096      /* of a tree, and of an alias table */
#define SLOT_DRAW_MOST_TRIALS 1048576  /* of a binomial setup */
#define SLOT_DRAW_TABLE_LENGTH 257     /* of the two tables of a ziggurat */

/* the cells of an answer: of most calls, of a binomial setup, of a ziggurat round */
#define SLOT_DRAW_ANSWER_CELLS 3
#define SLOT_DRAW_SETUP_CELLS 7
#define SLOT_DRAW_ROUND_CELLS 5

/* cell 1 of a setup, and of a round that is not refused */
#define SLOT_DRAW_CONSTANT 0
#define SLOT_DRAW_BINV 1
#define SLOT_DRAW_SAMPLE 1
#define SLOT_DRAW_TAIL 2
#define SLOT_DRAW_WEDGE 3

/* cell 0 of an answer */
enum slot_draw_refusal {
    SLOT_DRAW_OK = 0,
    SLOT_DRAW_INVALID_INPUT = 1,         /* an alias table of no slots */
    SLOT_DRAW_INVALID_WEIGHT = 2,        /* above 18446744073709551615 / n, rounded down */
    SLOT_DRAW_INSUFFICIENT_NON_ZERO = 3, /* the total is 0 */
    SLOT_DRAW_OVERFLOW = 4,              /* a sum of weights would exceed 64 bits */
    SLOT_DRAW_PROBABILITY_TOO_SMALL = 5, /* below 0, or a NaN */
    SLOT_DRAW_PROBABILITY_TOO_LARGE = 6, /* above 1 */
    SLOT_DRAW_BAD_COUNT = 7,             /* above 4096, or above the length of the store */
    SLOT_DRAW_BAD_INDEX = 8,             /* at or above the count */
    SLOT_DRAW_BAD_TARGET = 9,            /* at or above the total */
    SLOT_DRAW_FULL = 10,                 /* no room for the slots, or more than 4096 */
    SLOT_DRAW_EMPTY = 11,                /* pop at count 0 */
    SLOT_DRAW_OUT_OF_WORDS = 12,         /* the pool ended before the draw did */
    SLOT_DRAW_DAMAGED = 13,              /* a cell below its children's sum, a link that is no slot's */
    SLOT_DRAW_BAD_LENGTH = 14,           /* a lent length is not n, or not 257 */
    SLOT_DRAW_TOO_MANY_TRIALS = 15,      /* above 1048576 */
    SLOT_DRAW_NEEDS_BTPE = 16,           /* n times the smaller of p and 1 - p is 10 or more */
    SLOT_DRAW_NEEDS_POISSON = 17         /* 1 - p is 1 though p is not 0 */
};

/* The double of a cell that holds bits. */
static inline double slot_draw_float(uint64_t bits)
{
    union {
        uint64_t bits;
        double x;
    } cell;
    cell.bits = bits;
    return cell.x;
}

/* ---- The tree: a store of subtotals, eight bytes a slot. The count of its slots is handed in and back. */

/* Makes a tree of the weights in the store, whatever that held; cells past them stay as they were.
 * answer: 0, the count, 0. Refuses, in order: 10, 4. */
void slot_draw_tree_new(uint64_t *store, size_t store_length, const uint64_t *weights, size_t weights_length,
                        uint64_t answer[SLOT_DRAW_ANSWER_CELLS]);

/* Whether the tree can be drawn from: the count is above 0, and so is cell 0.
 * answer: 0, 1 for yes or 0 for no, 0. Refuses: 7. */
void slot_draw_tree_is_valid(const uint64_t *store, size_t store_length, size_t count,
                             uint64_t answer[SLOT_DRAW_ANSWER_CELLS]);

/* The weight of a slot: its cell less its children's.
 * answer: 0, the weight, 0. Refuses, in order: 7, 8, 13. */
void slot_draw_tree_get(const uint64_t *store, size_t store_length, size_t count, size_t index,
                        uint64_t answer[SLOT_DRAW_ANSWER_CELLS]);

/* Removes the last slot: its weight leaves every parent, and its cell is 0.
 * answer: 0, the weight, the new count. Refuses, in order: 7, 11, 13. */
void slot_draw_tree_pop(uint64_t *store, size_t store_length, size_t count,
                        uint64_t answer[SLOT_DRAW_ANSWER_CELLS]);

/* Appends a slot: its cell is the weight, which every parent gains.
 * answer: 0, the new count, 0. Refuses, in order: 7, 10, 13, 4. */
void slot_draw_tree_push(uint64_t *store, size_t store_length, size_t count, uint64_t weight,
                         uint64_t answer[SLOT_DRAW_ANSWER_CELLS]);

/* Changes the weight of a slot: its cell and every parent change by the difference.
 * answer: 0, the count, 0. Refuses, in order: 7, 8, 13, 4. */
void slot_draw_tree_update(uint64_t *store, size_t store_length, size_t count, size_t index, uint64_t weight,
                           uint64_t answer[SLOT_DRAW_ANSWER_CELLS]);

/* The slot of a target below the total: left if the target is below the left subtotal, else right by the same test.
 * answer: 0, the slot, 0. Refuses, in order: 7, 3, 9, 13. */
void slot_draw_tree_walk(const uint64_t *store, size_t store_length, size_t count, uint64_t target,
                         uint64_t answer[SLOT_DRAW_ANSWER_CELLS]);

/* The slot that a pool of words draws: the walk by the number below the total that the pool gives.
 * answer: 0, the slot, the words used; lend the rest next time. Refuses, in order: 7, 3, 12, 13. */
void slot_draw_tree_draw(const uint64_t *store, size_t store_length, size_t count, const uint64_t *pool,
                         size_t pool_length, uint64_t answer[SLOT_DRAW_ANSWER_CELLS]);

/* Whether every cell below the count is at least its children's sum.
 * answer: 0, 1 for yes or 0 for no, 0. Refuses: 7. */
void slot_draw_tree_is_sound(const uint64_t *store, size_t store_length, size_t count,
                             uint64_t answer[SLOT_DRAW_ANSWER_CELLS]);

/* ---- The alias table: odds and links, twelve bytes a slot. It can't be changed once it is made. */

/* Writes the table of the weights, whatever odds and links held; both are as long as the weights.
 * answer: 0, the weights' sum, 0. Refuses, in order: 1, 10, 14, 2, 3. */
void slot_draw_alias_new(const uint64_t *weights, size_t weights_length, uint64_t *odds, size_t odds_length,
                         uint32_t *links, size_t links_length, uint64_t answer[SLOT_DRAW_ANSWER_CELLS]);

/* The slot that a pool of words draws: a slot, then a number below the sum; at or above its odds, the slot's link.
 * answer: 0, the slot, the words used. Refuses, in order: 1, 10, 14, 3, 12, 13. */
void slot_draw_alias_draw(const uint64_t *odds, size_t odds_length, const uint32_t *links, size_t links_length,
                          uint64_t sum, const uint64_t *pool, size_t pool_length,
                          uint64_t answer[SLOT_DRAW_ANSWER_CELLS]);

/* Whether a table, whoever made it, draws each slot as often as its weight says; work is as long as the weights, and
 * holds n times each weight after yes, zeros after no. answer: 0, 1 or 0, 0. Refuses, in order: 1, 10, 14, 2, 3. */
void slot_draw_alias_check(const uint64_t *weights, size_t weights_length, const uint64_t *odds, size_t odds_length,
                           const uint32_t *links, size_t links_length, uint64_t *work, size_t work_length,
                           uint64_t answer[SLOT_DRAW_ANSWER_CELLS]);

/* Writes the weights that a table shows; output is as long as the odds, and holds zeros where the table is damaged.
 * answer: 0, the number of slots, 0. Refuses, in order: 1, 10, 14, 3, 13. */
void slot_draw_alias_weights(const uint64_t *odds, size_t odds_length, const uint32_t *links, size_t links_length,
                             uint64_t sum, uint64_t *output, size_t output_length,
                             uint64_t answer[SLOT_DRAW_ANSWER_CELLS]);

/* ---- Numbers and floats from words */

/* The number below a total that the pool's first accepted word gives: a word is accepted below 2^64 - (2^64 mod total).
 * answer: 0, the number, the place of that word counted from one. Refuses: 12, always for a total of 0. */
void slot_draw_number_below(const uint64_t *pool, size_t pool_length, uint64_t total,
                            uint64_t answer[SLOT_DRAW_ANSWER_CELLS]);

/* The floats of a word's top 52 bits k, exactly: k / 2^52, (k - 2^51) / 2^51 and (2k + 1) / 2^53.
 * Nothing is refused. */
double slot_draw_unit(uint64_t word);
double slot_draw_symmetric_u(uint64_t word);
double slot_draw_one_sided_u(uint64_t word);

/* ---- The binomial: how many of n trials of the chance p succeed */

/* The setup of n and p: a constant where p is 0 or 1, else what BINV needs. Look at cell 0 before you draw from it.
 * setup: 0, kind, n or the constant, the bits of r, s and a, 1 if flipped. Refuses, in order: 5, 6, 15, 16, 17. */
void slot_draw_binomial_new(uint64_t n, double p, uint64_t setup[SLOT_DRAW_SETUP_CELLS]);

/* The count that a setup draws. Any seven cells are one: a constant where cell 1 is 0, flipped where cell 6 is not 0;
 * cell 0 is not looked at. answer: 0, the count, the words used. Refuses, in order: 15, 12. */
void slot_draw_binomial_draw(const uint64_t setup[SLOT_DRAW_SETUP_CELLS], const uint64_t *pool, size_t pool_length,
                             uint64_t answer[SLOT_DRAW_ANSWER_CELLS]);

/* ---- One round of the ziggurat over the edges X of its layers and the densities F at them, 257 each */

/* A sample with x, a tail with u, or a wedge with x and a height: keep x if the height is below your density at x.
 * answer: 0, kind, the bits of its floats, the words used (1, 1 or 2). Refuses, in order: 14, 12. */
void slot_draw_ziggurat_round(const double *edges, size_t edges_length, const double *densities,
                              size_t densities_length, bool symmetric, const uint64_t *pool, size_t pool_length,
                              uint64_t answer[SLOT_DRAW_ROUND_CELLS]);

#ifdef __cplusplus
}
#endif

#endif
