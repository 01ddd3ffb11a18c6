/* Strided layouts over one buffer of readings: the calls of the static library libstrided.a, for C99 and C++.
 *
 * Every call but strided_step answers with one number:
 *   0         the call is done
 *   1 to 16   the call is refused; the number says why (STRIDED_* below)
 *   255       the output is too short; only the two calls for dense strides answer it
 * A call that is not done leaves everything as it was, except that a refusal may write its values. There are two more
 * exceptions: if strided_read finds a false verdict (refusal 11), or if strided_copy finds that the verdict on the destination
 * is not distinct (refusal 14), the scratch words that the verdict needs may change.
 *
 * Units: a buffer length, an offset and a stride count readings, never bytes. scratch_len counts scratch words of 64 bits.
 * The output of strided_write and the bytes of a record are counted in bytes. A reading is a signed number of 32 bits in a unit
 * of the caller's, as tenths of a millimetre at a station. Copies and means of readings are in that unit too.
 *
 * A slice is a pointer and a length: X_len is how many entries X has. A slice of length 0 may have any pointer, also NULL.
 * Any numbers may stand in a layout: every call has an answer to them. Two things are the caller's to keep true, and no
 * call can test them:
 *   - each pointer is aligned, and points to its struct, or to as many entries as its length says;
 *   - what a call writes does not overlap anything else that the call is handed. */
#ifndef STRIDED_H
#define STRIDED_H

#include <stddef.h>
#include <stdint.h>

/* The version of the library (CHANGELOG.md). */
#define STRIDED_VERSION "0.4.0"
#define STRIDED_VERSION_MAJOR 0
#define STRIDED_VERSION_MINOR 4
#define STRIDED_VERSION_PATCH 0

#if SIZE_MAX != UINT64_MAX
#error "the library needs a size_t of 64 bits"
#endif

#ifdef __cplusplus
extern "C" {
#endif

enum {
    STRIDED_DONE = 0,
    STRIDED_TOO_MANY_AXES = 1,       /* more than 16 axes or entries */
    STRIDED_LENGTHS_DIFFER = 2,      /* the lists, or a list and its output, differ in length */
    STRIDED_OUT_OF_RANGE = 3,        /* an offset would lie outside the buffer, or a number does not fit 64 bits */
    STRIDED_WRONG_LENGTH = 4,        /* the list's length is not the rank; values: both lengths */
    STRIDED_BAD_AXIS = 5,            /* an axis is outside the rank, or is named twice; values: the axis, the rank */
    STRIDED_BAD_EXTENT = 6,          /* an extent is neither its target nor 1; values: the axis */
    STRIDED_BAD_INDEX = 7,           /* an index is not below its extent; values: the axis */
    STRIDED_TOO_MANY_POSITIONS = 8,  /* there are more than 2^64-1 positions */
    STRIDED_SHORT_SCRATCH = 9,       /* too few scratch words; values: how many are needed */
    STRIDED_SHORT_OUTPUT = 10,       /* the output is too short; values: how many bytes of a record, or means, it needs */
    STRIDED_NOT_A_RECORD = 11,       /* the bytes do not begin with a record, or its verdict is false */
    STRIDED_EXTENTS_DIFFER = 12,     /* the two layouts differ in extents */
    STRIDED_SHORT_READINGS = 13,     /* a buffer is shorter than its layout needs */
    STRIDED_NOT_DISTINCT = 14,       /* the verdict on the destination is not distinct */
    STRIDED_EMPTY_AXIS = 15,         /* the extent along the axis is 0 */
    STRIDED_LONG_AXIS = 16,          /* the extent along the axis is above 65,536 */
    STRIDED_SHORT_BUFFER = 255       /* the output has fewer places than there are extents */
};

enum { STRIDED_DISTINCT = 1, STRIDED_REPEATED = 2, STRIDED_UNDECIDED = 3 };

/* The most axes of a layout, and the bytes of the longest record. */
enum { STRIDED_AXES = 16, STRIDED_RECORD = 269 };

/* The most scratch words that a verdict can need: 128 MiB and 8 bytes. */
enum { STRIDED_SCRATCH = 16777217 };

typedef struct {
    uint64_t extent;
    int64_t stride; /* in readings */
} strided_axis;

/* A layout of a buffer of `len` readings. The first `rank` axes count; the others may hold anything. */
typedef struct {
    uint64_t len;
    int64_t offset; /* in readings */
    size_t rank;
    strided_axis axes[STRIDED_AXES];
} strided_layout;

/* The values of a refusal. A refusal with one value writes `first`; a refusal with two writes both. A field without a value
 * keeps what it held. A call that is done writes neither, except that strided_write and strided_means write `first`. */
typedef struct {
    size_t first;
    size_t second;
} strided_values;

/* A verdict (STRIDED_DISTINCT, STRIDED_REPEATED or STRIDED_UNDECIDED), and how many difference vectors the search looked
 * at: 0 if it looked at none. */
typedef struct {
    uint8_t verdict;
    uint64_t count;
} strided_found;

/* ---- check-in */

/* Checks a layout in. Set `len` and `offset` in the struct before the call; the call stores rank and axes. The axes past
 * the rank keep what they held. Refusals: 1, 2, 3. */
uint8_t strided_new(strided_layout *layout, const uint64_t *extents, size_t extents_len, const int64_t *strides,
                    size_t strides_len);

/* Answers what check-in would answer, and stores nothing. `len` and `offset` are in readings. Refusals: 1, 2, 3. */
uint8_t strided_validate_bounds(uint64_t len, int64_t offset, const uint64_t *extents, size_t extents_len,
                                const int64_t *strides, size_t strides_len);

/* ---- calls on a layout. Each refuses a layout with more than 16 axes (1) and a layout that is not accepted (3). The three
 * views change `layout` in place; the axes past its new rank keep what they held. */

/* Puts the axes in the order of the list. The values of refusal 4 are the list's length and the rank.
 * Refusals: 1, 3, 4, 5. */
uint8_t strided_permute(strided_layout *layout, const size_t *order, size_t order_len, strided_values *values);

/* Makes one axis of the axes that are tied. Two numbers of `pairs` are a pair; an odd last number is passed over.
 * Refusals: 1, 3, 5, 3. */
uint8_t strided_diagonal_view(strided_layout *layout, const size_t *pairs, size_t pairs_len, strided_values *values);

/* Stretches each axis of extent 1 to its target, with stride 0. An axis whose extent is its target stays. The values of
 * refusal 4 are the rank and the number of targets. Refusals: 1, 3, 4, 6. */
uint8_t strided_broadcast(strided_layout *layout, const uint64_t *targets, size_t targets_len, strided_values *values);

/* Stores the offset of an index vector, in readings. The values of refusal 4 are the number of indices and the rank. After
 * that the call looks axis by axis for 7 and 3. Refusals: 1, 3, 4, 7 or 3. */
uint8_t strided_indexed_offset(const strided_layout *layout, const uint64_t *index, size_t index_len, int64_t *offset,
                               strided_values *values);

/* Puts the layout into its normal form, in place. The axes past its new rank may then hold anything. Refusals: 1, 3, 8. */
uint8_t strided_normal_form(strided_layout *layout);

/* ---- the verdict */

/* Stores whether two positions of these axes share an offset. The first scratch words, as many as the verdict needs,
 * may then hold anything. How many it needs: lend none, and if the answer is 9, lend `values->first` of them and call again.
 * Refusals: 1, 8, 3, 9. */
uint8_t strided_is_injective(const strided_axis *axes, size_t axes_len, uint64_t *scratch, size_t scratch_len,
                             strided_found *found, strided_values *values);

/* ---- readings */

/* Copies signed readings of 32 bits from one buffer through `source` into another through `destination`: for each index vector
 * the reading at its offset in `source` is stored at its offset in `destination`. Every other reading of `to` keeps what it
 * held. The two buffers must not overlap; the two layouts may be one struct. from_len and to_len say how long the buffers are.
 * The `len` of a layout counts for refusal 3 alone. The call looks for the refusals in this order:
 *   1   a layout has more than 16 axes
 *   3   a layout is not accepted
 *   12  the extents of the two layouts differ, as lists
 *   13  a buffer is shorter than its layout's highest offset + 1; never if an extent is 0
 *   8   there are more than 2^64-1 positions
 *   9   the verdict on `destination` needs more scratch words; values: how many
 *   14  the verdict on `destination`, by its own extents and strides, is Repeated or Undecided
 * After a refusal all of `to` is as it was. Scratch is lent as for the verdict: after 0 and after 14 the first words, as many
 * as the verdict needs, may hold anything. Refusals: 1, 3, 12, 13, 8, 9, 14. */
uint8_t strided_copy(const strided_layout *source, const int32_t *from, size_t from_len, const strided_layout *destination,
                     int32_t *to, size_t to_len, uint64_t *scratch, size_t scratch_len, strided_values *values);

/* Stores the mean of the readings along an axis, for each position of the remaining axes: all axes but this one, in their order.
 * The means stand in the first places of `out` in position order: the index of the first remaining axis changes fastest.
 * `values->first` is how many they are; the places behind them keep what they held. The readings of a mean are summed whole and
 * divided once, to the nearest whole number, halves away from zero. readings_len and out_len count readings, and the `len` of
 * the layout counts for refusal 3 alone. `out` must not overlap `readings`, nor the layout. The call looks for the refusals in
 * this order:
 *   1   the layout has more than 16 axes
 *   3   the layout is not accepted
 *   5   the axis is not below the rank; values: the axis, the rank
 *   8   the remaining axes have more than 2^64-1 positions
 *   13  `readings` is shorter than the layout's highest offset + 1; never if an extent is 0
 *   10  `out` has fewer places than the remaining axes have positions; values: how many positions
 *   15  the extent along the axis is 0, also if no mean is to be stored
 *   16  the extent along the axis is above 65,536, also if no mean is to be stored
 * After a refusal all of `out` is as it was. Scratch is not needed. Refusals: 1, 3, 5, 8, 13, 10, 15, 16. */
uint8_t strided_means(const strided_layout *layout, size_t axis, const int32_t *readings, size_t readings_len, int32_t *out,
                      size_t out_len, strided_values *values);

/* ---- the record */

/* Writes the record of the layout's normal form to the first bytes of the output, and how many bytes it has to
 * `values->first`: at most STRIDED_RECORD. The bytes behind it keep what they held. Scratch is lent as for the verdict.
 * Refusals: 1, 3, 8, 10, 9. */
uint8_t strided_write(const strided_layout *layout, uint8_t *out, size_t out_len, uint64_t *scratch, size_t scratch_len,
                      strided_values *values);

/* Stores the layout of the record that the bytes begin with, in the shortest buffer that accepts it. The axes past its rank
 * may then hold anything. Scratch is lent as for the verdict; the second 11 is a false verdict. Refusals: 11, 9, 11. */
uint8_t strided_read(strided_layout *layout, const uint8_t *bytes, size_t bytes_len, uint64_t *scratch,
                     size_t scratch_len, strided_values *values);

/* Answers at which byte the next record begins: behind as many bytes as the length in the first two says. It answers
 * bytes_len if that length is missing, below 13 or past the end. It looks at nothing else. Refusals: none. */
size_t strided_step(const uint8_t *bytes, size_t bytes_len);

/* ---- strides */

/* Stores a number for each stride: 1 for stride 0, and for any other 1 more than there are strides of smaller absolute value
 * that are not 0. It refuses 2 if the output is not as long as the strides, also if it is longer. Refusals: 1, 2. */
uint8_t strided_index_order(const int64_t *strides, size_t strides_len, size_t *out, size_t out_len);

/* Stores dense strides, in readings, in the first places of the output; the first axis is the densest. The places behind
 * them keep what they held. Refusals: 255, 1, 3. */
uint8_t strided_column_strides(const uint64_t *extents, size_t extents_len, int64_t *strides, size_t strides_len);

/* The same; the last axis is the densest. Refusals: 255, 1, 3. */
uint8_t strided_row_strides(const uint64_t *extents, size_t extents_len, int64_t *strides, size_t strides_len);

/* ---- NULL with length 0. The library takes no null pointer. So a call with slices goes through an inline function, which
 * replaces the pointer of a slice of length 0 by one to a variable of its own; nothing reads or writes it. A program that
 * calls the library without this header has to do the same. */

static inline uint8_t strided_new_inline(strided_layout *layout, const uint64_t *extents, size_t extents_len,
                                         const int64_t *strides, size_t strides_len) {
    const uint64_t no_extents = 0;
    const int64_t no_strides = 0;
    return strided_new(layout, extents_len ? extents : &no_extents, extents_len, strides_len ? strides : &no_strides,
                       strides_len);
}
#define strided_new strided_new_inline

static inline uint8_t strided_validate_bounds_inline(uint64_t len, int64_t offset, const uint64_t *extents,
                                                     size_t extents_len, const int64_t *strides, size_t strides_len) {
    const uint64_t no_extents = 0;
    const int64_t no_strides = 0;
    return strided_validate_bounds(len, offset, extents_len ? extents : &no_extents, extents_len,
                                   strides_len ? strides : &no_strides, strides_len);
}
#define strided_validate_bounds strided_validate_bounds_inline

static inline uint8_t strided_permute_inline(strided_layout *layout, const size_t *order, size_t order_len,
                                             strided_values *values) {
    const size_t no_order = 0;
    return strided_permute(layout, order_len ? order : &no_order, order_len, values);
}
#define strided_permute strided_permute_inline

static inline uint8_t strided_diagonal_view_inline(strided_layout *layout, const size_t *pairs, size_t pairs_len,
                                                   strided_values *values) {
    const size_t no_pairs = 0;
    return strided_diagonal_view(layout, pairs_len ? pairs : &no_pairs, pairs_len, values);
}
#define strided_diagonal_view strided_diagonal_view_inline

static inline uint8_t strided_broadcast_inline(strided_layout *layout, const uint64_t *targets, size_t targets_len,
                                               strided_values *values) {
    const uint64_t no_targets = 0;
    return strided_broadcast(layout, targets_len ? targets : &no_targets, targets_len, values);
}
#define strided_broadcast strided_broadcast_inline

static inline uint8_t strided_indexed_offset_inline(const strided_layout *layout, const uint64_t *index, size_t index_len,
                                                    int64_t *offset, strided_values *values) {
    const uint64_t no_index = 0;
    return strided_indexed_offset(layout, index_len ? index : &no_index, index_len, offset, values);
}
#define strided_indexed_offset strided_indexed_offset_inline

static inline uint8_t strided_is_injective_inline(const strided_axis *axes, size_t axes_len, uint64_t *scratch,
                                                  size_t scratch_len, strided_found *found, strided_values *values) {
    const strided_axis no_axes = {0, 0};
    uint64_t no_scratch = 0;
    return strided_is_injective(axes_len ? axes : &no_axes, axes_len, scratch_len ? scratch : &no_scratch, scratch_len,
                                found, values);
}
#define strided_is_injective strided_is_injective_inline

static inline uint8_t strided_copy_inline(const strided_layout *source, const int32_t *from, size_t from_len,
                                          const strided_layout *destination, int32_t *to, size_t to_len, uint64_t *scratch,
                                          size_t scratch_len, strided_values *values) {
    const int32_t no_from = 0;
    int32_t no_to = 0;
    uint64_t no_scratch = 0;
    return strided_copy(source, from_len ? from : &no_from, from_len, destination, to_len ? to : &no_to, to_len,
                        scratch_len ? scratch : &no_scratch, scratch_len, values);
}
#define strided_copy strided_copy_inline

static inline uint8_t strided_means_inline(const strided_layout *layout, size_t axis, const int32_t *readings,
                                           size_t readings_len, int32_t *out, size_t out_len, strided_values *values) {
    const int32_t no_readings = 0;
    int32_t no_out = 0;
    return strided_means(layout, axis, readings_len ? readings : &no_readings, readings_len, out_len ? out : &no_out, out_len,
                         values);
}
#define strided_means strided_means_inline

static inline uint8_t strided_write_inline(const strided_layout *layout, uint8_t *out, size_t out_len, uint64_t *scratch,
                                           size_t scratch_len, strided_values *values) {
    uint8_t no_out = 0;
    uint64_t no_scratch = 0;
    return strided_write(layout, out_len ? out : &no_out, out_len, scratch_len ? scratch : &no_scratch, scratch_len,
                         values);
}
#define strided_write strided_write_inline

static inline uint8_t strided_read_inline(strided_layout *layout, const uint8_t *bytes, size_t bytes_len, uint64_t *scratch,
                                          size_t scratch_len, strided_values *values) {
    const uint8_t no_bytes = 0;
    uint64_t no_scratch = 0;
    return strided_read(layout, bytes_len ? bytes : &no_bytes, bytes_len, scratch_len ? scratch : &no_scratch, scratch_len,
                        values);
}
#define strided_read strided_read_inline

static inline size_t strided_step_inline(const uint8_t *bytes, size_t bytes_len) {
    const uint8_t no_bytes = 0;
    return strided_step(bytes_len ? bytes : &no_bytes, bytes_len);
}
#define strided_step strided_step_inline

static inline uint8_t strided_index_order_inline(const int64_t *strides, size_t strides_len, size_t *out, size_t out_len) {
    const int64_t no_strides = 0;
    size_t no_out = 0;
    return strided_index_order(strides_len ? strides : &no_strides, strides_len, out_len ? out : &no_out, out_len);
}
#define strided_index_order strided_index_order_inline

static inline uint8_t strided_column_strides_inline(const uint64_t *extents, size_t extents_len, int64_t *strides,
                                                    size_t strides_len) {
    const uint64_t no_extents = 0;
    int64_t no_strides = 0;
    return strided_column_strides(extents_len ? extents : &no_extents, extents_len, strides_len ? strides : &no_strides,
                                  strides_len);
}
#define strided_column_strides strided_column_strides_inline

static inline uint8_t strided_row_strides_inline(const uint64_t *extents, size_t extents_len, int64_t *strides,
                                                 size_t strides_len) {
    const uint64_t no_extents = 0;
    int64_t no_strides = 0;
    return strided_row_strides(extents_len ? extents : &no_extents, extents_len, strides_len ? strides : &no_strides,
                               strides_len);
}
#define strided_row_strides strided_row_strides_inline

#ifdef __cplusplus
}
#endif

#endif
