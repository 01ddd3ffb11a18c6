/* How much scratch to lend: none at first, and if the answer is 9, as many scratch words as the refusal says. */
#include <stdio.h>
#include <stdlib.h>

#include "strided.h"

/* The verdict of a layout, with as much scratch as it needs. */
static uint8_t judge(const strided_layout *layout, strided_found *found, strided_values *values) {
    uint8_t answer = strided_is_injective(layout->axes, layout->rank, NULL, 0, found, values);
    if (answer != STRIDED_SHORT_SCRATCH) return answer;
    uint64_t *scratch = calloc(values->first, sizeof *scratch); /* at most STRIDED_SCRATCH, of 8 bytes */
    if (scratch == NULL) return answer;
    answer = strided_is_injective(layout->axes, layout->rank, scratch, values->first, found, values);
    free(scratch);
    return answer;
}

int main(void) {
    strided_layout layout = {.len = 708587, .offset = 0};
    strided_values values = {0, 0};
    strided_found found = {0, 0};
    const uint64_t extents[] = {3, 3, 3, 3, 3, 3, 3, 3, 3, 3, 3, 3};
    const int64_t strides[] = {2, 6, 18, 54, 162, 486, 1458, 4374, 13122, 39366, 118098, 177147};

    uint8_t answer = strided_new(&layout, extents, 12, strides, 12);
    if (answer != STRIDED_DONE) return answer;
    answer = strided_is_injective(layout.axes, layout.rank, NULL, 0, &found, &values);
    printf("refused %d: %zu words of scratch are needed\n", answer, values.first);
    size_t words = values.first;

    answer = judge(&layout, &found, &values);
    if (answer != STRIDED_DONE) return answer;
    printf("with %zu words: %s\n", words, found.verdict == STRIDED_DISTINCT ? "distinct" : "not distinct");
    return 0;
}
