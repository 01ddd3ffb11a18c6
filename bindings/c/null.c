/* NULL with length 0 for each slice of each call: the answers are those of an empty list, an empty output or no scratch.
 * Prints each difference, then a count; the status is 0 only without a difference. Valid as C99 and as C++. */
#include <stdio.h>
#include <string.h>

#include "strided.h"

static int tries = 0, differences = 0;

static void want(const char *call, size_t got, size_t wanted) {
    tries++;
    if (got == wanted) return;
    differences++;
    printf("%s answers %zu, not %zu\n", call, got, wanted);
}

/* Two numbers: the answer of a call, or the first of its values with the second behind it. */
#define WANT(call, wanted) want(#call, call, wanted)
#define WANT_VALUES(call, wanted, one, other) \
    (values.first = values.second = 99, WANT(call, wanted), want(#call ", first value", values.first, one), \
     want(#call ", second value", values.second, other))

int main(void) {
    strided_layout point, sheet, before;
    strided_values values = {99, 99};
    strided_found found = {0, 99};
    int64_t offset = 0;
    uint8_t record[STRIDED_RECORD];
    const uint64_t extents[] = {2, 3};
    const int64_t strides[] = {1, 2};
    strided_axis threes[12];
    memset(&point, 0, sizeof point);
    memset(&sheet, 0, sizeof sheet);
    point.len = 1;
    sheet.len = 6;
    for (size_t i = 0; i < 12; i++) {
        threes[i].extent = 3;
        threes[i].stride = (int64_t)(100000 + i);
    }

    WANT(strided_new(&point, NULL, 0, NULL, 0), STRIDED_DONE);
    want("the rank of a point", point.rank, 0);
    WANT(strided_new(&sheet, NULL, 0, strides, 2), STRIDED_LENGTHS_DIFFER);
    WANT(strided_new(&sheet, extents, 2, NULL, 0), STRIDED_LENGTHS_DIFFER);
    WANT(strided_new(&sheet, extents, 2, strides, 2), STRIDED_DONE);
    WANT(strided_validate_bounds(1, 0, NULL, 0, NULL, 0), STRIDED_DONE);
    WANT(strided_validate_bounds(1, 1, NULL, 0, NULL, 0), STRIDED_OUT_OF_RANGE);

    before = sheet;
    WANT_VALUES(strided_permute(&sheet, NULL, 0, &values), STRIDED_WRONG_LENGTH, 0, 2);
    WANT_VALUES(strided_diagonal_view(&sheet, NULL, 0, &values), STRIDED_DONE, 99, 99);
    WANT_VALUES(strided_broadcast(&sheet, NULL, 0, &values), STRIDED_WRONG_LENGTH, 2, 0);
    WANT_VALUES(strided_indexed_offset(&sheet, NULL, 0, &offset, &values), STRIDED_WRONG_LENGTH, 0, 2);
    want("a layout after these calls differs", (size_t)memcmp(&sheet, &before, sizeof sheet), 0);
    WANT_VALUES(strided_permute(&point, NULL, 0, &values), STRIDED_DONE, 99, 99);
    WANT_VALUES(strided_broadcast(&point, NULL, 0, &values), STRIDED_DONE, 99, 99);
    WANT_VALUES(strided_indexed_offset(&point, NULL, 0, &offset, &values), STRIDED_DONE, 99, 99);

    WANT_VALUES(strided_is_injective(NULL, 0, NULL, 0, &found, &values), STRIDED_DONE, 99, 99);
    want("the verdict of no axes", found.verdict, STRIDED_DISTINCT);
    WANT_VALUES(strided_is_injective(threes, 12, NULL, 0, &found, &values), STRIDED_SHORT_SCRATCH, 37503, 99);

    {
        strided_layout none;
        const int32_t shots[] = {1, 2, 3, 4, 5, 6};
        int32_t plan[] = {0, 0, 0, 0, 0, 0};
        memset(&none, 0, sizeof none);
        none.rank = 1; /* an extent of 0 */
        WANT_VALUES(strided_copy(&none, NULL, 0, &none, NULL, 0, NULL, 0, &values), STRIDED_DONE, 99, 99);
        WANT_VALUES(strided_copy(&sheet, NULL, 0, &sheet, plan, 6, NULL, 0, &values), STRIDED_SHORT_READINGS, 99, 99);
        WANT_VALUES(strided_copy(&sheet, shots, 6, &sheet, NULL, 0, NULL, 0, &values), STRIDED_SHORT_READINGS, 99, 99);
        want("a reading that no call writes", (size_t)plan[0], 0);
        WANT_VALUES(strided_copy(&sheet, shots, 6, &sheet, plan, 6, NULL, 0, &values), STRIDED_DONE, 99, 99);
        want("the copies differ", (size_t)memcmp(plan, shots, sizeof plan), 0);
    }

    {
        strided_layout none = sheet; /* two columns of no row */
        const int32_t faces[] = {105, 106, -104, -105, 220, 220};
        int32_t means[] = {7, 7, 7, 7};
        const int32_t after[] = {106, -105, 220, 7};
        none.axes[1].extent = 0;
        WANT_VALUES(strided_means(&none, 0, NULL, 0, NULL, 0, &values), STRIDED_DONE, 0, 99);
        WANT_VALUES(strided_means(&none, 1, NULL, 0, NULL, 0, &values), STRIDED_SHORT_OUTPUT, 2, 99);
        WANT_VALUES(strided_means(&none, 1, NULL, 0, means, 4, &values), STRIDED_EMPTY_AXIS, 99, 99);
        WANT_VALUES(strided_means(&none, 2, NULL, 0, NULL, 0, &values), STRIDED_BAD_AXIS, 2, 2);
        WANT_VALUES(strided_means(&sheet, 0, NULL, 0, means, 4, &values), STRIDED_SHORT_READINGS, 99, 99);
        WANT_VALUES(strided_means(&sheet, 0, faces, 6, NULL, 0, &values), STRIDED_SHORT_OUTPUT, 3, 99);
        none.axes[0].extent = 65537;
        WANT_VALUES(strided_means(&none, 0, NULL, 0, NULL, 0, &values), STRIDED_LONG_AXIS, 99, 99);
        want("a mean that no call writes", (size_t)means[0], 7);
        WANT_VALUES(strided_means(&sheet, 0, faces, 6, means, 4, &values), STRIDED_DONE, 3, 99);
        want("the means differ", (size_t)memcmp(means, after, sizeof means), 0);
    }

    WANT_VALUES(strided_write(&sheet, NULL, 0, NULL, 0, &values), STRIDED_SHORT_OUTPUT, 29, 99);
    WANT_VALUES(strided_write(&sheet, record, sizeof record, NULL, 0, &values), STRIDED_DONE, 29, 99);
    WANT_VALUES(strided_read(&point, NULL, 0, NULL, 0, &values), STRIDED_NOT_A_RECORD, 99, 99);
    WANT_VALUES(strided_read(&point, record, 29, NULL, 0, &values), STRIDED_DONE, 99, 99);
    want("the extent that is read", point.axes[0].extent, 6);
    WANT(strided_step(NULL, 0), 0);

    {
        size_t order = 99;
        int64_t dense = 99;
        WANT(strided_index_order(NULL, 0, NULL, 0), STRIDED_DONE);
        WANT(strided_index_order(strides, 2, NULL, 0), STRIDED_LENGTHS_DIFFER);
        WANT(strided_index_order(NULL, 0, &order, 1), STRIDED_LENGTHS_DIFFER);
        WANT(strided_column_strides(NULL, 0, NULL, 0), STRIDED_DONE);
        WANT(strided_column_strides(NULL, 0, &dense, 1), STRIDED_DONE);
        WANT(strided_column_strides(extents, 2, NULL, 0), STRIDED_SHORT_BUFFER);
        WANT(strided_row_strides(NULL, 0, NULL, 0), STRIDED_DONE);
        WANT(strided_row_strides(NULL, 0, &dense, 1), STRIDED_DONE);
        WANT(strided_row_strides(extents, 2, NULL, 0), STRIDED_SHORT_BUFFER);
        want("a place that no call writes", order, 99);
        want("a stride that no call writes", (size_t)dense, 99);
    }
    printf("NULL with length 0: %d answers, differences: %d\n", tries, differences);
    return differences != 0;
}
