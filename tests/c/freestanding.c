/* The header alone, as firmware includes it: compiled with -ffreestanding and -std=c99, and never run. Every function is
 * named, so that a declaration that is missing or that can't be called does not compile. */
#include "slot_draw.h"

uint64_t slot_draw_uses_every_function(uint64_t *cells, uint32_t *links, double *floats, size_t n);

uint64_t slot_draw_uses_every_function(uint64_t *cells, uint32_t *links, double *floats, size_t n)
{
    uint64_t answer[SLOT_DRAW_ANSWER_CELLS], setup[SLOT_DRAW_SETUP_CELLS], round[SLOT_DRAW_ROUND_CELLS];
    slot_draw_tree_new(cells, n, cells + n, n, answer);
    slot_draw_tree_is_valid(cells, n, n, answer);
    slot_draw_tree_get(cells, n, n, 0, answer);
    slot_draw_tree_pop(cells, n, n, answer);
    slot_draw_tree_push(cells, n, n, 1, answer);
    slot_draw_tree_update(cells, n, n, 0, 1, answer);
    slot_draw_tree_walk(cells, n, n, 0, answer);
    slot_draw_tree_draw(cells, n, n, cells, n, answer);
    slot_draw_tree_is_sound(cells, n, n, answer);
    slot_draw_alias_new(cells, n, cells + n, n, links, n, answer);
    slot_draw_alias_draw(cells, n, links, n, 1, cells, n, answer);
    slot_draw_alias_check(cells, n, cells, n, links, n, cells + n, n, answer);
    slot_draw_alias_weights(cells, n, links, n, 1, cells + n, n, answer);
    slot_draw_number_below(cells, n, 6, answer);
    floats[0] = slot_draw_unit(1) + slot_draw_symmetric_u(1) + slot_draw_one_sided_u(1);
    slot_draw_binomial_new(2, floats[0], setup);
    slot_draw_binomial_draw(setup, cells, n, answer);
    slot_draw_ziggurat_round(floats, n, floats, n, true, cells, n, round);
    floats[1] = slot_draw_float(round[2]);
    return answer[0] == SLOT_DRAW_OK ? round[1] : SLOT_DRAW_MOST_SLOTS + SLOT_DRAW_MOST_TRIALS + SLOT_DRAW_TABLE_LENGTH;
}
