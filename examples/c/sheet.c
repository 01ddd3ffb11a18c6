/* A sheet of six readings: checked in, transposed, judged, and written as a record. */
#include <inttypes.h>
#include <stdio.h>

#include "strided.h"

int main(void) {
    strided_layout sheet = {.len = 6, .offset = 0};
    strided_values values = {0, 0};
    strided_found found = {0, 0};
    uint8_t record[STRIDED_RECORD];
    const uint64_t extents[] = {2, 3}; /* two columns of three */
    const int64_t strides[] = {1, 2};
    const size_t turn[] = {1, 0}, wrong[] = {0, 2};

    uint8_t answer = strided_new(&sheet, extents, 2, strides, 2);
    if (answer != STRIDED_DONE) return answer;

    answer = strided_permute(&sheet, turn, 2, &values);
    if (answer != STRIDED_DONE) return answer;
    const strided_axis *axes = sheet.axes;
    printf("transposed: %" PRIu64 " by %" PRIu64 ", strides %" PRId64 " and %" PRId64 "\n", axes[0].extent,
           axes[1].extent, axes[0].stride, axes[1].stride);

    answer = strided_permute(&sheet, wrong, 2, &values);
    printf("refused %d: axis %zu is outside the rank %zu, or named twice\n", answer, values.first, values.second);

    answer = strided_is_injective(axes, sheet.rank, NULL, 0, &found, &values); /* two axes need no scratch */
    if (answer != STRIDED_DONE) return answer;
    printf("verdict: %s\n", found.verdict == STRIDED_DISTINCT ? "distinct" : "not distinct");

    answer = strided_write(&sheet, record, sizeof record, NULL, 0, &values);
    if (answer != STRIDED_DONE) return answer;
    printf("record: %zu bytes:", values.first);
    for (size_t i = 0; i < values.first; i++) printf(" %02x", record[i]);
    printf("\n");
    return 0;
}
