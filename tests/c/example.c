/* The example of the README: a tree is made, changed and drawn from. */
#include <inttypes.h>
#include <stdio.h>

#include "slot_draw.h"

int main(void)
{
    uint64_t store[8] = {0}, answer[SLOT_DRAW_ANSWER_CELLS];
    const uint64_t weights[] = {72, 18, 128}, words[] = {0x9e3779b97f4a7c15, 3};
    slot_draw_tree_new(store, 8, weights, 3, answer);   /* 0, 3, 0: the count */
    slot_draw_tree_push(store, 8, 3, 32, answer);       /* 0, 4, 0 */
    slot_draw_tree_draw(store, 8, 4, words, 2, answer); /* 0, the slot, the words used */
    if (answer[0] == SLOT_DRAW_OK)
        printf("slot %" PRIu64 ", words used: %" PRIu64 "\n", answer[1], answer[2]);
    slot_draw_tree_get(store, 8, 4, 9, answer);
    printf("slot 9 is refused with %" PRIu64 ", a bad index: %d\n", answer[0], answer[0] == SLOT_DRAW_BAD_INDEX);
    return 0;
}
