/* Copies a shot list onto a plan sheet: the same readings, column after column in place of row after row. */
#include <inttypes.h>
#include <stdio.h>

#include "strided.h"

enum { SHOTS = 6 };

/* Checks in two columns of three rows. */
static uint8_t check_in(strided_layout *layout, int64_t column, int64_t row) {
    const uint64_t extents[] = {2, 3};
    const int64_t strides[] = {column, row};
    layout->len = (uint64_t)(column + 2 * row + 1);
    layout->offset = 0;
    return strided_new(layout, extents, 2, strides, 2);
}

/* Tries a plan sheet whose columns are so many readings apart. Two axes never need scratch. */
static void try_columns(int64_t apart) {
    const int32_t shots[SHOTS] = {11, 12, 21, 22, 31, 32};
    int32_t sheet[SHOTS] = {0};
    strided_layout list, plan;
    strided_values values = {0, 0};

    uint8_t answer = check_in(&list, 1, 2);
    if (answer == STRIDED_DONE) answer = check_in(&plan, apart, 1);
    if (answer == STRIDED_DONE) answer = strided_copy(&list, shots, SHOTS, &plan, sheet, SHOTS, NULL, 0, &values);
    printf("columns %d apart:", (int)apart);
    if (answer == STRIDED_DONE)
        for (int i = 0; i < SHOTS; i++) printf(" %" PRId32, sheet[i]);
    else
        printf(" refused %d: %s", answer,
               answer == STRIDED_NOT_DISTINCT ? "the verdict on the destination is not distinct"
                                              : "a buffer is shorter than its layout needs");
    printf("\n");
}

int main(void) {
    try_columns(3); /* one column behind the other */
    try_columns(2); /* a slip: the columns overlap */
    try_columns(4); /* the last shot would stand past the sheet */
    return 0;
}
