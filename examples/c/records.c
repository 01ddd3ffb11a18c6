/* A file of records, read by stepping from each to the next; one of them is damaged, and the others are still found. */
#include <inttypes.h>
#include <stdio.h>

#include "strided.h"

#define FILE_NAME "records.bin"

/* Appends the record of a layout of two axes. Two axes never need scratch. */
static void append(FILE *file, const uint64_t *extents, const int64_t *strides) {
    strided_layout layout = {.len = 24, .offset = 0};
    strided_values values = {0, 0};
    uint8_t record[STRIDED_RECORD];
    if (strided_new(&layout, extents, 2, strides, 2) == STRIDED_DONE &&
        strided_write(&layout, record, sizeof record, NULL, 0, &values) == STRIDED_DONE)
        fwrite(record, 1, values.first, file);
}

int main(void) {
    const uint64_t whole[] = {4, 6}, half[] = {4, 3}, turned[] = {6, 4};
    const int64_t rows[] = {1, 4}, every_other[] = {1, 8}, columns[] = {4, 1};
    FILE *file = fopen(FILE_NAME, "wb");
    if (file == NULL) return 1;
    append(file, whole, rows);
    append(file, half, every_other);
    append(file, turned, columns);
    fclose(file);

    uint8_t bytes[1024];
    file = fopen(FILE_NAME, "rb");
    if (file == NULL) return 1;
    size_t length = fread(bytes, 1, sizeof bytes, file);
    fclose(file);
    bytes[29 + 3] = STRIDED_REPEATED; /* the verdict of the second record, which begins at byte 29, is now false */

    for (size_t at = 0; at < length;) {
        strided_layout layout;
        strided_values values = {0, 0};
        size_t step = strided_step(bytes + at, length - at);
        uint8_t answer = strided_read(&layout, bytes + at, length - at, NULL, 0, &values);
        printf("%zu bytes at %zu:", step, at);
        if (answer != STRIDED_DONE) printf(" refused %d", answer);
        for (size_t i = 0; answer == STRIDED_DONE && i < layout.rank; i++)
            printf(" (extent %" PRIu64 ", stride %" PRId64 ")", layout.axes[i].extent, layout.axes[i].stride);
        printf("\n");
        at += step;
    }
    return 0;
}
