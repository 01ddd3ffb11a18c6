/* The time of strided_is_injective from C. bench/numpy compiles this with our library, and calls both. */
#include <time.h>

#include "strided.h"

/* The nanoseconds of a call, of a run of so many. */
double nanoseconds(const strided_axis *axes, size_t rank, uint64_t *scratch, size_t words, size_t calls) {
    strided_found found = {0, 0};
    strided_values values = {0, 0};
    struct timespec start, end;

    clock_gettime(CLOCK_MONOTONIC, &start);
    for (size_t i = 0; i < calls; i++) strided_is_injective(axes, rank, scratch, words, &found, &values);
    clock_gettime(CLOCK_MONOTONIC, &end);
    return ((double)(end.tv_sec - start.tv_sec) * 1e9 + (double)(end.tv_nsec - start.tv_nsec)) / (double)calls;
}
