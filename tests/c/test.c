/* The header against the library: every function is called, with good input and bad. The recorded calls at their limits
 * (docs/VECTORS.md) are replayed through the exports, then each refusal by its name, then floats of every kind of NaN.
 * Beside each answer, every cell that was lent is compared, and the cells around it.
 *
 * usage: test RECORDS. Prints how many calls were checked; the first that differs ends it with 1. */
#include <inttypes.h>
#include <stdio.h>
#include <stdlib.h>
#include <string.h>

#include "slot_draw.h"

#define LISTS 8
#define LENGTH(array) (sizeof(array) / sizeof((array)[0]))
#define CANARY UINT64_C(0x5a5aa5a5c3c33c3c)
#define END UINT32_C(4294967295)
#define NOT_A_NUMBER UINT64_C(0x7ff8000000000000)

static unsigned long checked;
static unsigned long called[18];

static void require(bool holds, const char *what, unsigned long at)
{
    if (!holds) {
        printf("test: %s differs at %lu\n", what, at);
        exit(1);
    }
}

static void same_cells(const uint64_t *got, const uint64_t *expected, size_t length, const char *what, unsigned long at)
{
    for (size_t i = 0; i < length; i++) {
        if (got[i] != expected[i])
            printf("test: cell %zu is %" PRIu64 " and not %" PRIu64 "\n", i, got[i], expected[i]);
        require(got[i] == expected[i], what, at);
    }
}

/* ---- the records */
struct list {
    size_t length;
    const uint64_t *numbers;
};

struct record {
    uint64_t call;
    struct list lists[LISTS]; /* handed in, four lent, the answer, two left */
};

static void *room(size_t bytes)
{
    void *p = malloc(bytes + 1);
    require(p != NULL, "memory", 0);
    return p;
}

/* A copy with a canary before it and one behind. */
static uint64_t *copy_of(struct list list)
{
    uint64_t *p = room((list.length + 2) * sizeof(uint64_t));
    p[0] = CANARY;
    if (list.length > 0)
        memcpy(p + 1, list.numbers, list.length * sizeof(uint64_t));
    p[list.length + 1] = CANARY;
    return p + 1;
}

static uint32_t *links_of(struct list list)
{
    uint32_t *p = room((list.length + 2) * sizeof(uint32_t));
    p[0] = END - 1;
    for (size_t i = 0; i < list.length; i++)
        p[i + 1] = (uint32_t)list.numbers[i];
    p[list.length + 1] = END - 1;
    return p + 1;
}

/* The floats of bits: copied as bytes, so that every NaN keeps its pattern. */
static double *floats_of(struct list list)
{
    double *p = room((list.length + 1) * sizeof(double));
    if (list.length > 0)
        memcpy(p, list.numbers, list.length * sizeof(double));
    return p;
}

static void cells_hold(const uint64_t *cells, struct list list, unsigned long at)
{
    same_cells(cells, list.numbers, list.length, "a lent cell", at);
    require(cells[-1] == CANARY && cells[list.length] == CANARY, "a cell beside what was lent", at);
    free((uint64_t *)cells - 1);
}

static void links_hold(const uint32_t *links, struct list list, unsigned long at)
{
    for (size_t i = 0; i < list.length; i++)
        require(links[i] == list.numbers[i], "a link", at);
    require(links[-1] == END - 1 && links[list.length] == END - 1, "a link beside what was lent", at);
    free((uint32_t *)links - 1);
}

/* The list of lent cells that a call may change is compared with the list that it is to leave, every other with itself. */
static void tree_call(const struct record *r, uint64_t *answer, unsigned long at)
{
    const uint64_t *in = r->lists[0].numbers;
    bool changes = r->call == 1 || (4 <= r->call && r->call <= 6);
    struct list lent = r->lists[1], pool = r->lists[2];
    uint64_t *store = copy_of(lent), *second = copy_of(pool);
    switch (r->call) {
    case 1: slot_draw_tree_new(store, lent.length, second, pool.length, answer); break;
    case 2: slot_draw_tree_is_valid(store, lent.length, in[0], answer); break;
    case 3: slot_draw_tree_get(store, lent.length, in[0], in[1], answer); break;
    case 4: slot_draw_tree_pop(store, lent.length, in[0], answer); break;
    case 5: slot_draw_tree_push(store, lent.length, in[0], in[1], answer); break;
    case 6: slot_draw_tree_update(store, lent.length, in[0], in[1], in[2], answer); break;
    case 7: slot_draw_tree_walk(store, lent.length, in[0], in[1], answer); break;
    case 8: slot_draw_tree_draw(store, lent.length, in[0], second, pool.length, answer); break;
    case 9: slot_draw_tree_is_sound(store, lent.length, in[0], answer); break;
    default: slot_draw_number_below(store, lent.length, in[0], answer); break;
    }
    cells_hold(store, changes ? r->lists[6] : lent, at);
    cells_hold(second, pool, at);
}

static void alias_call(const struct record *r, uint64_t *answer, unsigned long at)
{
    const struct list *l = r->lists + 1;
    const uint64_t *in = r->lists[0].numbers;
    if (r->call == 11) {
        uint64_t *weights = copy_of(l[0]), *odds = copy_of(l[1]);
        uint32_t *links = links_of(l[2]);
        slot_draw_alias_new(weights, l[0].length, odds, l[1].length, links, l[2].length, answer);
        cells_hold(weights, l[0], at);
        cells_hold(odds, r->lists[6], at);
        links_hold(links, r->lists[7], at);
    } else if (r->call == 14) {
        uint64_t *weights = copy_of(l[0]), *odds = copy_of(l[1]), *work = copy_of(l[3]);
        uint32_t *links = links_of(l[2]);
        slot_draw_alias_check(weights, l[0].length, odds, l[1].length, links, l[2].length, work, l[3].length, answer);
        cells_hold(weights, l[0], at);
        cells_hold(odds, l[1], at);
        links_hold(links, l[2], at);
        cells_hold(work, r->lists[6], at);
    } else {
        uint64_t *odds = copy_of(l[0]), *third = copy_of(l[2]);
        uint32_t *links = links_of(l[1]);
        if (r->call == 12)
            slot_draw_alias_draw(odds, l[0].length, links, l[1].length, in[0], third, l[2].length, answer);
        else
            slot_draw_alias_weights(odds, l[0].length, links, l[1].length, in[0], third, l[2].length, answer);
        cells_hold(odds, l[0], at);
        links_hold(links, l[1], at);
        cells_hold(third, r->call == 12 ? l[2] : r->lists[6], at);
    }
}

static void float_call(const struct record *r, uint64_t *answer, unsigned long at)
{
    const struct list *l = r->lists + 1;
    const uint64_t *in = r->lists[0].numbers;
    if (r->call == 15) {
        slot_draw_binomial_new(in[0], slot_draw_float(in[1]), answer);
    } else if (r->call == 16) {
        uint64_t setup[SLOT_DRAW_SETUP_CELLS] = {0};
        uint64_t *pool = copy_of(l[0]);
        memcpy(setup + 1, in, 6 * sizeof(uint64_t));
        slot_draw_binomial_draw(setup, pool, l[0].length, answer);
        same_cells(setup + 1, in, 6, "a setup", at);
        cells_hold(pool, l[0], at);
    } else {
        double *edges = floats_of(l[0]), *densities = floats_of(l[1]);
        uint64_t *pool = copy_of(l[2]);
        slot_draw_ziggurat_round(edges, l[0].length, densities, l[1].length, in[0] != 0, pool, l[2].length, answer);
        require(l[0].length == 0 || memcmp(edges, l[0].numbers, l[0].length * 8) == 0, "an edge", at);
        require(l[1].length == 0 || memcmp(densities, l[1].numbers, l[1].length * 8) == 0, "a density", at);
        cells_hold(pool, l[2], at);
        free(edges);
        free(densities);
    }
}

static void replay(const struct record *r, unsigned long at)
{
    size_t cells = r->call == 15 ? SLOT_DRAW_SETUP_CELLS : r->call == 17 ? SLOT_DRAW_ROUND_CELLS : SLOT_DRAW_ANSWER_CELLS;
    uint64_t lent[1 + SLOT_DRAW_SETUP_CELLS + 1];
    for (size_t i = 0; i < LENGTH(lent); i++)
        lent[i] = CANARY;
    if (r->call <= 10)
        tree_call(r, lent + 1, at);
    else if (r->call <= 14)
        alias_call(r, lent + 1, at);
    else
        float_call(r, lent + 1, at);
    require(r->lists[5].length == cells, "the length of an answer", at);
    same_cells(lent + 1, r->lists[5].numbers, cells, "an answer", at);
    require(lent[0] == CANARY && lent[cells + 1] == CANARY, "a cell beside the answer", at);
    called[r->call]++;
    checked++;
}

/* A number of so many bytes, the highest first. */
static bool read_number(FILE *file, size_t width, uint64_t *n)
{
    unsigned char bytes[8];
    if (width < 1 || 8 < width || fread(bytes, 1, width, file) != width)
        return false;
    *n = 0;
    for (size_t i = 0; i < width; i++)
        *n = *n << 8 | bytes[i];
    return true;
}

static void replay_all(const char *path)
{
    FILE *file = fopen(path, "rb");
    require(file != NULL, "the file of records", 0);
    uint64_t width, bytes;
    for (unsigned long at = 1; read_number(file, 1, &width); at++) {
        require(read_number(file, 3, &bytes) && 0 < width && bytes % width == 0, "a record's head", at);
        uint64_t size = bytes / width;
        uint64_t *numbers = room((size + 1) * sizeof(uint64_t));
        for (uint64_t i = 0; i < size; i++)
            require(read_number(file, width, numbers + i), "a record's end", at);
        struct record record = {.call = numbers[0]};
        uint64_t next = 2;
        for (size_t i = 0; i < LISTS; i++) {
            record.lists[i].length = numbers[next];
            record.lists[i].numbers = numbers + next + 1;
            next += 1 + numbers[next];
        }
        require(next == size && 1 <= record.call && record.call <= 17, "a record", at);
        replay(&record, at);
        free(numbers);
    }
    fclose(file);
    for (size_t call = 1; call <= 17; call++)
        require(called[call] > 0, "that a call is among the records", (unsigned long)call);
}

/* ---- each refusal by its name */
static uint64_t answer[SLOT_DRAW_ANSWER_CELLS];

static void answered(uint64_t number, uint64_t first, uint64_t second, int line)
{
    const uint64_t expected[SLOT_DRAW_ANSWER_CELLS] = {number, first, second};
    same_cells(answer, expected, SLOT_DRAW_ANSWER_CELLS, "an answer, by its line,", (unsigned long)line);
    checked++;
}

#define GIVES(call, first, second) (call, answered(SLOT_DRAW_OK, first, second, __LINE__))
#define REFUSED(call, name) (call, answered(name, 0, 0, __LINE__))

static void tree_by_name(void)
{
    uint64_t store[4] = {9, 9, 9, 9};
    const uint64_t weights[4] = {1, 2, 3, 4}, big[2] = {UINT64_MAX, 1}, pool[2] = {UINT64_MAX, 14}, made[4] = {10, 6, 3, 4};
    REFUSED(slot_draw_tree_new(store, 3, weights, 4, answer), SLOT_DRAW_FULL);
    REFUSED(slot_draw_tree_new(store, 4, big, 2, answer), SLOT_DRAW_OVERFLOW);
    REFUSED(slot_draw_tree_pop(store, 4, 0, answer), SLOT_DRAW_EMPTY);
    REFUSED(slot_draw_tree_pop(store, 4, 4, answer), SLOT_DRAW_DAMAGED);
    require(store[0] == 9 && store[1] == 9 && store[2] == 9 && store[3] == 9, "a refused store", __LINE__);
    GIVES(slot_draw_tree_new(store, 4, weights, 4, answer), 4, 0);
    same_cells(store, made, 4, "a made tree", __LINE__);
    GIVES(slot_draw_tree_is_valid(store, 4, 4, answer), 1, 0);
    GIVES(slot_draw_tree_is_sound(store, 4, 4, answer), 1, 0);
    GIVES(slot_draw_tree_get(store, 4, 4, 2, answer), 3, 0);
    REFUSED(slot_draw_tree_get(store, 4, 5, 2, answer), SLOT_DRAW_BAD_COUNT);
    REFUSED(slot_draw_tree_get(store, 4, 4, 4, answer), SLOT_DRAW_BAD_INDEX);
    for (uint64_t target = 0; target < 10; target++)
        GIVES(slot_draw_tree_walk(store, 4, 4, target, answer), target < 4 ? 3 : target < 6 ? 1 : target < 9 ? 2 : 0, 0);
    REFUSED(slot_draw_tree_walk(store, 4, 4, 10, answer), SLOT_DRAW_BAD_TARGET);
    REFUSED(slot_draw_tree_walk(store, 4, 0, 0, answer), SLOT_DRAW_INSUFFICIENT_NON_ZERO);
    GIVES(slot_draw_tree_draw(store, 4, 4, pool, 2, answer), 1, 2);
    REFUSED(slot_draw_tree_draw(store, 4, 4, pool, 1, answer), SLOT_DRAW_OUT_OF_WORDS);
    REFUSED(slot_draw_tree_push(store, 4, 4, 1, answer), SLOT_DRAW_FULL);
    GIVES(slot_draw_tree_pop(store, 4, 4, answer), 4, 3);
    REFUSED(slot_draw_tree_push(store, 4, 3, UINT64_MAX - 5, answer), SLOT_DRAW_OVERFLOW);
    GIVES(slot_draw_tree_push(store, 4, 3, 7, answer), 4, 0);
    GIVES(slot_draw_tree_update(store, 4, 4, 3, 4, answer), 4, 0);
    same_cells(store, made, 4, "a changed tree", __LINE__);
    store[1] = 3;
    REFUSED(slot_draw_tree_get(store, 4, 4, 1, answer), SLOT_DRAW_DAMAGED);
    GIVES(slot_draw_tree_is_sound(store, 4, 4, answer), 0, 0);
}

static void most_slots(void)
{
    static uint64_t store[SLOT_DRAW_MOST_SLOTS + 1], ones[SLOT_DRAW_MOST_SLOTS + 1];
    for (size_t i = 0; i < LENGTH(ones); i++)
        ones[i] = 1;
    REFUSED(slot_draw_tree_new(store, LENGTH(store), ones, SLOT_DRAW_MOST_SLOTS + 1, answer), SLOT_DRAW_FULL);
    GIVES(slot_draw_tree_new(store, LENGTH(store), ones, SLOT_DRAW_MOST_SLOTS, answer), SLOT_DRAW_MOST_SLOTS, 0);
    require(store[0] == SLOT_DRAW_MOST_SLOTS && store[SLOT_DRAW_MOST_SLOTS] == 0, "a full tree", __LINE__);
    REFUSED(slot_draw_tree_push(store, LENGTH(store), SLOT_DRAW_MOST_SLOTS, 1, answer), SLOT_DRAW_FULL);
    REFUSED(slot_draw_tree_is_valid(store, LENGTH(store), SLOT_DRAW_MOST_SLOTS + 1, answer), SLOT_DRAW_BAD_COUNT);
}

static void alias_by_name(void)
{
    uint64_t odds[2] = {8, 8}, work[2] = {8, 8}, output[2] = {8, 8};
    uint32_t links[2] = {8, 8};
    const uint64_t weights[2] = {1, 3}, zeros[2] = {0, 0}, heavy[2] = {UINT64_C(1) << 63, 1}, pool[2] = {2, 6};
    REFUSED(slot_draw_alias_new(weights, 0, odds, 0, links, 0, answer), SLOT_DRAW_INVALID_INPUT);
    REFUSED(slot_draw_alias_new(weights, 2, odds, 1, links, 2, answer), SLOT_DRAW_BAD_LENGTH);
    REFUSED(slot_draw_alias_new(heavy, 2, odds, 2, links, 2, answer), SLOT_DRAW_INVALID_WEIGHT);
    REFUSED(slot_draw_alias_new(zeros, 2, odds, 2, links, 2, answer), SLOT_DRAW_INSUFFICIENT_NON_ZERO);
    require(odds[0] == 8 && odds[1] == 8 && links[0] == 8 && links[1] == 8, "a refused table", __LINE__);
    GIVES(slot_draw_alias_new(weights, 2, odds, 2, links, 2, answer), 4, 0);
    require(odds[0] == 2 && odds[1] == 4 && links[0] == 1 && links[1] == END, "a table", __LINE__);
    GIVES(slot_draw_alias_check(weights, 2, odds, 2, links, 2, work, 2, answer), 1, 0);
    require(work[0] == 2 && work[1] == 6, "the work slice after yes", __LINE__);
    GIVES(slot_draw_alias_weights(odds, 2, links, 2, 4, output, 2, answer), 2, 0);
    same_cells(output, weights, 2, "the weights shown", __LINE__);
    GIVES(slot_draw_alias_draw(odds, 2, links, 2, 4, pool, 2, answer), 1, 2);
    REFUSED(slot_draw_alias_draw(odds, 2, links, 2, 4, pool, 1, answer), SLOT_DRAW_OUT_OF_WORDS);
    links[0] = 2;
    REFUSED(slot_draw_alias_draw(odds, 2, links, 2, 4, pool, 2, answer), SLOT_DRAW_DAMAGED);
    REFUSED(slot_draw_alias_weights(odds, 2, links, 2, 4, output, 2, answer), SLOT_DRAW_DAMAGED);
    require(output[0] == 0 && output[1] == 0, "zeros where the table is damaged", __LINE__);
    GIVES(slot_draw_alias_check(weights, 2, odds, 2, links, 2, work, 2, answer), 0, 0);
    require(work[0] == 0 && work[1] == 0, "the work slice after no", __LINE__);
}

static uint64_t bits_of(double x)
{
    uint64_t bits;
    memcpy(&bits, &x, sizeof bits);
    return bits;
}

static void floats_by_name(void)
{
    uint64_t setup[SLOT_DRAW_SETUP_CELLS];
    const uint64_t pool[1] = {UINT64_C(0xe000000000000000)}; /* the unit 0.875 */
    const uint64_t six[3] = {UINT64_MAX, UINT64_MAX - 3, UINT64_MAX - 4};
    GIVES(slot_draw_number_below(six, 3, 6, answer), 5, 3);
    REFUSED(slot_draw_number_below(six, 2, 6, answer), SLOT_DRAW_OUT_OF_WORDS);
    REFUSED(slot_draw_number_below(six, 3, 0, answer), SLOT_DRAW_OUT_OF_WORDS);
    slot_draw_binomial_new(2, 0.5, setup);
    require(setup[0] == SLOT_DRAW_OK && setup[1] == SLOT_DRAW_BINV && setup[2] == 2 && setup[6] == 0, "a setup", __LINE__);
    require(slot_draw_float(setup[3]) == 0.25 && slot_draw_float(setup[5]) == 3.0, "a setup's floats", __LINE__);
    GIVES(slot_draw_binomial_draw(setup, pool, 1, answer), 2, 1);
    REFUSED(slot_draw_binomial_draw(setup, pool, 0, answer), SLOT_DRAW_OUT_OF_WORDS);
    setup[2] = SLOT_DRAW_MOST_TRIALS + 1;
    REFUSED(slot_draw_binomial_draw(setup, pool, 1, answer), SLOT_DRAW_TOO_MANY_TRIALS);
    slot_draw_binomial_new(SLOT_DRAW_MOST_TRIALS, 1.0, setup);
    GIVES(slot_draw_binomial_draw(setup, pool, 0, answer), SLOT_DRAW_MOST_TRIALS, 0);
    const struct { uint64_t n; double p; uint64_t number; } bad[] = {
        {2, -0.25, SLOT_DRAW_PROBABILITY_TOO_SMALL}, {2, 1.25, SLOT_DRAW_PROBABILITY_TOO_LARGE},
        {SLOT_DRAW_MOST_TRIALS + 1, 0.0, SLOT_DRAW_TOO_MANY_TRIALS}, {20, 0.5, SLOT_DRAW_NEEDS_BTPE},
        {2, 1e-300, SLOT_DRAW_NEEDS_POISSON}, {2, -0.0, SLOT_DRAW_OK}};
    for (size_t i = 0; i < LENGTH(bad); i++) {
        const uint64_t expected[SLOT_DRAW_SETUP_CELLS] = {bad[i].number};
        slot_draw_binomial_new(bad[i].n, bad[i].p, setup);
        same_cells(setup, expected, SLOT_DRAW_SETUP_CELLS, "a refused setup", i);
        checked++;
    }
    const uint64_t words[] = {0, 1, 4095, 4096, UINT64_C(1) << 63, UINT64_MAX, UINT64_C(0x123456789abcdef0)};
    for (size_t i = 0; i < LENGTH(words); i++) {
        double k = (double)(words[i] >> 12), whole = 4503599627370496.0; /* 2^52 */
        require(bits_of(slot_draw_unit(words[i])) == bits_of(k / whole), "a unit", i);
        require(bits_of(slot_draw_symmetric_u(words[i])) == bits_of((k - whole / 2) / (whole / 2)), "a symmetric u", i);
        require(bits_of(slot_draw_one_sided_u(words[i])) == bits_of(k / whole + 0.5 / whole), "a one-sided u", i);
        checked += 3;
    }
}

/* ---- floats of every kind of NaN: each sign with each single bit of the payload, the highest of which makes it quiet,
 * each of these with the quiet bit, all bits, and a thousand patterns of many bits */
static void check_nan(uint64_t nan)
{
    static double edges[SLOT_DRAW_TABLE_LENGTH], densities[SLOT_DRAW_TABLE_LENGTH];
    const uint64_t refused[SLOT_DRAW_SETUP_CELLS] = {SLOT_DRAW_PROBABILITY_TOO_SMALL};
    const uint64_t high[2] = {UINT64_MAX, 0}, low[1] = {UINT64_MAX - 255};
    uint64_t setup[SLOT_DRAW_SETUP_CELLS] = {0, SLOT_DRAW_BINV, 2, nan, nan, nan, 0}, round[SLOT_DRAW_ROUND_CELLS];
    uint64_t made[SLOT_DRAW_SETUP_CELLS];
    slot_draw_binomial_new(2, slot_draw_float(nan), made);
    same_cells(made, refused, SLOT_DRAW_SETUP_CELLS, "a NaN as p", (unsigned long)nan);
    GIVES(slot_draw_binomial_draw(setup, high, 1, answer), 0, 1); /* no u is above r */
    setup[3] = bits_of(0.25);
    GIVES(slot_draw_binomial_draw(setup, high, 1, answer), 1, 1); /* r is a NaN after one step */
    for (size_t i = 0; i < SLOT_DRAW_TABLE_LENGTH; i++) {
        memcpy(edges + i, &nan, sizeof nan);
        memcpy(densities + i, &nan, sizeof nan);
    }
    for (int symmetric = 0; symmetric <= 1; symmetric++) {
        const double u = symmetric ? slot_draw_symmetric_u(low[0]) : slot_draw_one_sided_u(low[0]);
        const uint64_t tail[SLOT_DRAW_ROUND_CELLS] = {SLOT_DRAW_OK, SLOT_DRAW_TAIL, bits_of(u), 0, 1};
        const uint64_t wedge[SLOT_DRAW_ROUND_CELLS] = {SLOT_DRAW_OK, SLOT_DRAW_WEDGE, NOT_A_NUMBER, NOT_A_NUMBER, 2};
        slot_draw_ziggurat_round(edges, SLOT_DRAW_TABLE_LENGTH, densities, SLOT_DRAW_TABLE_LENGTH, symmetric, low, 1, round);
        same_cells(round, tail, SLOT_DRAW_ROUND_CELLS, "a tail with NaNs", (unsigned long)nan);
        slot_draw_ziggurat_round(edges, SLOT_DRAW_TABLE_LENGTH, densities, SLOT_DRAW_TABLE_LENGTH, symmetric, high, 2, round);
        same_cells(round, wedge, SLOT_DRAW_ROUND_CELLS, "a wedge with NaNs", (unsigned long)nan);
        checked += 2;
    }
    checked++;
}

static void nans(void)
{
    const uint64_t infinity = UINT64_C(0x7ff0000000000000), quiet = UINT64_C(1) << 51;
    for (uint64_t sign = 0; sign <= 1; sign++) {
        const uint64_t top = sign << 63 | infinity;
        for (unsigned bit = 0; bit < 52; bit++) {
            check_nan(top | UINT64_C(1) << bit);
            check_nan(top | quiet | UINT64_C(1) << bit);
        }
        check_nan(top | (quiet - 1));
        check_nan(top | quiet | (quiet - 1));
    }
    uint64_t bits = 1;
    for (int i = 0; i < 1000; i++) {
        bits = bits * UINT64_C(6364136223846793005) + UINT64_C(1442695040888963407);
        check_nan(bits | infinity | 1);
    }
}

static void ziggurat_by_name(void)
{
    static double edges[SLOT_DRAW_TABLE_LENGTH], densities[SLOT_DRAW_TABLE_LENGTH];
    const uint64_t pool[2] = {UINT64_C(0xc000000000000001), UINT64_C(0x8000000000000000)}; /* layer 1, u = 0.5; v = 0.5 */
    uint64_t round[SLOT_DRAW_ROUND_CELLS];
    edges[1] = 4.0;
    edges[2] = 3.0;
    densities[1] = 1.0;
    densities[2] = 3.0;
    const uint64_t sample[SLOT_DRAW_ROUND_CELLS] = {SLOT_DRAW_OK, SLOT_DRAW_SAMPLE, bits_of(2.0), 0, 1};
    const uint64_t wedge[SLOT_DRAW_ROUND_CELLS] = {SLOT_DRAW_OK, SLOT_DRAW_WEDGE, bits_of(2.0), bits_of(2.0), 2};
    const uint64_t few[SLOT_DRAW_ROUND_CELLS] = {SLOT_DRAW_OUT_OF_WORDS}, length[SLOT_DRAW_ROUND_CELLS] = {SLOT_DRAW_BAD_LENGTH};
    slot_draw_ziggurat_round(edges, SLOT_DRAW_TABLE_LENGTH, densities, SLOT_DRAW_TABLE_LENGTH, true, pool, 1, round);
    same_cells(round, sample, SLOT_DRAW_ROUND_CELLS, "a sample", __LINE__);
    edges[2] = 2.0;
    slot_draw_ziggurat_round(edges, SLOT_DRAW_TABLE_LENGTH, densities, SLOT_DRAW_TABLE_LENGTH, true, pool, 2, round);
    same_cells(round, wedge, SLOT_DRAW_ROUND_CELLS, "a wedge", __LINE__);
    slot_draw_ziggurat_round(edges, SLOT_DRAW_TABLE_LENGTH, densities, SLOT_DRAW_TABLE_LENGTH, true, pool, 1, round);
    same_cells(round, few, SLOT_DRAW_ROUND_CELLS, "a round with too few words", __LINE__);
    slot_draw_ziggurat_round(edges, SLOT_DRAW_TABLE_LENGTH - 1, densities, SLOT_DRAW_TABLE_LENGTH, true, pool, 2, round);
    same_cells(round, length, SLOT_DRAW_ROUND_CELLS, "a table too short", __LINE__);
    checked += 4;
}

int main(int argc, char **argv)
{
    require(argc == 2, "the number of arguments", 0);
    replay_all(argv[1]);
    unsigned long replayed = checked;
    tree_by_name();
    most_slots();
    alias_by_name();
    floats_by_name();
    ziggurat_by_name();
    nans();
    printf("%lu calls checked through the header, %lu of them recorded\n", checked, replayed);
    return 0;
}
