/* Means over the two faces of an instrument: each point is read in both, in tenths of a millimetre. */
#include <inttypes.h>
#include <stdio.h>

#include "strided.h"

enum { POINTS = 3 };

int main(void) {
    /* A point's second face stands right behind its first. */
    const int32_t readings[2 * POINTS] = {105, 106, -104, -105, 220, 220};
    const uint64_t extents[] = {2, POINTS}; /* the first axis is the face */
    const int64_t strides[] = {1, 2};
    strided_layout faces = {.len = 2 * POINTS, .offset = 0};
    strided_values values = {0, 0};
    int32_t means[POINTS];

    uint8_t answer = strided_new(&faces, extents, 2, strides, 2);
    if (answer != STRIDED_DONE) return answer;

    answer = strided_means(&faces, 0, readings, 2 * POINTS, means, POINTS, &values);
    if (answer != STRIDED_DONE) return answer;
    printf("%zu means in tenths of a millimetre:", values.first);
    for (size_t i = 0; i < values.first; i++) printf(" %" PRId32, means[i]);
    printf("\n");

    answer = strided_means(&faces, 0, readings, 2 * POINTS, means, POINTS - 1, &values); /* a place too few */
    printf("2 places: refused %d: an output of %zu is needed, in bytes of a record or in readings of means\n", answer,
           values.first);
    answer = strided_means(&faces, 2, readings, 2 * POINTS, means, POINTS, &values);
    printf("axis 2: refused %d: axis %zu is outside the rank %zu, or named twice\n", answer, values.first, values.second);
    return 0;
}
