/* Undecided, and what the normal form does about it: merged axes are fewer, and may be decided. */
#include <stdio.h>

#include "strided.h"

/* The verdict as a word. None of the verdicts here needs scratch. */
static const char *verdict(const strided_layout *layout) {
    static const char *const words[] = {"refused", "distinct", "repeated", "undecided"};
    strided_found found = {0, 0};
    strided_values values = {0, 0};
    uint8_t answer = strided_is_injective(layout->axes, layout->rank, NULL, 0, &found, &values);
    return words[answer == STRIDED_DONE ? found.verdict : 0];
}

static void ask(const char *name, const uint64_t *extents, const int64_t *strides) {
    strided_layout layout = {.len = INT64_MAX, .offset = 0};
    uint8_t answer = strided_new(&layout, extents, 4, strides, 4);
    if (answer != STRIDED_DONE) {
        printf("%s: refused %d\n", name, answer);
        return;
    }
    printf("%s: %zu axes, %s", name, layout.rank, verdict(&layout));
    answer = strided_normal_form(&layout);
    if (answer == STRIDED_DONE) printf("; normal form: %zu axes, %s\n", layout.rank, verdict(&layout));
}

int main(void) {
    /* Axes 0 and 1 go on one where the other ends, and so do axes 2 and 3. The normal form has two axes, and the verdict of
     * two axes is always found. It holds for the layout too: both read the same cells in the same order. */
    const uint64_t tiles[] = {2000, 2000, 2000, 2000};
    const int64_t tile_strides[] = {4000003, 8000006000, 4000007, 8000014000};
    ask("tiles", tiles, tile_strides);

    /* Nothing merges here. Whoever gets Undecided does not know whether two positions share a cell, and does not write. */
    const uint64_t apart[] = {1449, 1449, 1449, 1449};
    const int64_t apart_strides[] = {10000000000, 10000000001, 10000000002, 10000000003};
    ask("apart", apart, apart_strides);
    return 0;
}
