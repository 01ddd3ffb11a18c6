/* Checks before a write: readings are written through a layout only if no two positions share a cell. */
#include <stdio.h>

#include "strided.h"

enum { READINGS = 24 };

/* The verdict, or 0 if the call is refused. Two axes never need scratch. */
static int verdict(const strided_layout *layout) {
    strided_found found = {0, 0};
    strided_values values = {0, 0};
    return strided_is_injective(layout->axes, layout->rank, NULL, 0, &found, &values) ? 0 : found.verdict;
}

/* Numbers the readings of a layout of two axes, row by row, in the order of its second axis. */
static void number(const strided_layout *layout, int *buffer) {
    strided_values values = {0, 0};
    int next = 0;
    for (uint64_t row = 0; row < layout->axes[1].extent; row++)
        for (uint64_t column = 0; column < layout->axes[0].extent; column++) {
            const uint64_t index[] = {column, row};
            int64_t offset = 0;
            if (strided_indexed_offset(layout, index, 2, &offset, &values) == STRIDED_DONE) buffer[offset] = next++;
        }
}

static void try_rows(int64_t apart) {
    strided_layout rows = {.len = READINGS, .offset = 0};
    const uint64_t extents[] = {4, 6}; /* six rows of four */
    const int64_t strides[] = {1, apart};
    int buffer[READINGS] = {0};

    uint8_t answer = strided_new(&rows, extents, 2, strides, 2);
    if (answer != STRIDED_DONE) {
        printf("rows %d apart: refused %d: an offset would lie outside the buffer, or a number does not fit 64 bits\n", (int)apart,
               answer);
    } else if (verdict(&rows) != STRIDED_DISTINCT) {
        printf("rows %d apart: two positions share a cell, nothing is written\n", (int)apart);
    } else {
        number(&rows, buffer);
        printf("rows %d apart:", (int)apart);
        for (int i = 0; i < READINGS; i++) printf(" %d", buffer[i]);
        printf("\n");
    }
}

int main(void) {
    try_rows(4); /* one row behind the other */
    try_rows(3); /* a slip: the rows overlap */
    try_rows(5); /* the last row would end past the buffer */
    return 0;
}
