/* Satmegwo: sweeps over a part of the combinations (component functions) of an S-box, for
 * nonlinearity, autocorrelation, dynamic distance and the sum of boxes. With them a long
 * sweep can be divided among cores and machines, watched, stopped and resumed. The words
 * "box", "combination", "limit", "lent array" and "first" are those of satmegwo.h, and so
 * are the numbers of the refusals (error codes).
 *
 * A PART is all combinations c from `first` to `last`, 1 <= first <= last <= 2^m - 1. A
 * call over a part covers those of them that lie within the limit i. What it finds goes
 * to the lent array `part`:
 *    part[0]   1; or 0 if no combination within the limit lies in the part, and then all
 *              other elements are 0 too
 *    part[1]   the figure, and after it the witness, as the plain call gives them:
 *              part[2] is c, the first combination of the part that reaches the figure
 *
 * MERGING. Two parts that were found with the same arguments, except for `first` and
 * `last`, are merged into what would be found over the combinations of both:
 * satmegwo_merge_least for the nonlinearity and the sum, satmegwo_merge_largest for
 * autocorrelation and dynamic distance. It is proved that parts which together cover 1 to
 * 2^m - 1, merged in any order and grouping, give the figure and the witness of the plain
 * call; parts may overlap, and a part may be merged twice.
 *
 *    uint32_t part[5], all[5] = {0};
 *    for (each part from first to last)
 *        if (satmegwo_nonlinearity_between(8, 32, rows, 256, 32, first, last, part, 5) ||
 *            satmegwo_merge_least(all, 5, part, 5, merged, 5)) ..
 *
 * This is libsatmegwo_parts.a, which can be linked beside libsatmegwo.a; libsatmegwo.so
 * has these calls too. What satmegwo.h says about threads, arrays and stack holds here.
 */
#ifndef SATMEGWO_PARTS_H
#define SATMEGWO_PARTS_H
#include "satmegwo.h"

#ifdef __cplusplus
extern "C" {
#endif

/* The nonlinearity over a part of the combinations: see satmegwo_nonlinearity.
 *   rows   read, 2^n elements below 2^m
 *   i      1 to m
 *   first  1 to 2^m - 1
 *   last   first to 2^m - 1
 *   part   written, 5 elements: 1, the nonlinearity over the part, c, w, b; or zeros
 * Refusals: 1, 2, 3, 4, 6 (i), 6 (first), 6 (last), 7. */
SATMEGWO_MUST_USE
uint32_t satmegwo_nonlinearity_between(
    uint32_t n, uint32_t m, const uint32_t *rows, size_t rows_len, uint32_t i,
    uint32_t first, uint32_t last, uint32_t *part, size_t part_len);

/* The absolute indicator (largest autocorrelation) over a part of the combinations: see
 * satmegwo_autocorrelation.
 *   rows   read, 2^n elements below 2^m
 *   i      1 to m
 *   first  1 to 2^m - 1
 *   last   first to 2^m - 1
 *   part   written, 4 elements: 1, the largest |r(s)|, c, s; or zeros
 * Refusals: 1, 2, 3, 4, 6 (i), 6 (first), 6 (last), 7. */
SATMEGWO_MUST_USE
uint32_t satmegwo_autocorrelation_between(
    uint32_t n, uint32_t m, const uint32_t *rows, size_t rows_len, uint32_t i,
    uint32_t first, uint32_t last, uint32_t *part, size_t part_len);

/* The dynamic distance of order (i, j), doubled, over a part of the combinations: see
 * satmegwo_dynamic_distance.
 *   rows   read, 2^n elements below 2^m
 *   i      1 to m
 *   j      1 to n
 *   first  1 to 2^m - 1
 *   last   first to 2^m - 1
 *   part   written, 4 elements: 1, the doubled distance, c, d; or zeros
 * Refusals: 1, 2, 3, 4, 6 (i), 6 (j), 6 (first), 6 (last), 7. */
SATMEGWO_MUST_USE
uint32_t satmegwo_dynamic_distance_between(
    uint32_t n, uint32_t m, const uint32_t *rows, size_t rows_len, uint32_t i, uint32_t j,
    uint32_t first, uint32_t last, uint32_t *part, size_t part_len);

/* The nonlinearity of a sum (XOR) of S-boxes over a part of the combinations: see
 * satmegwo_sum_nonlinearity.
 *   count  the number of boxes, 1 to 4
 *   rows1  read, 2^n1 elements below 2^m1; the same for each of the first `count` boxes
 *   i      1 to m1
 *   first  1 to 2^m1 - 1
 *   last   first to 2^m1 - 1
 *   part   written, 4 + count elements: 1, the nonlinearity, c, an input mask for each
 *          box from box 1 on, b; or zeros
 * Refusals: 11, then 1, 2, 3, 4 of box 1, then of box 2, 3, 4 up to `count`, then 12,
 * 6 (i), 6 (first), 6 (last), 7. */
SATMEGWO_MUST_USE
uint32_t satmegwo_sum_nonlinearity_between(
    uint32_t count,
    uint32_t n1, uint32_t m1, const uint32_t *rows1, size_t rows1_len,
    uint32_t n2, uint32_t m2, const uint32_t *rows2, size_t rows2_len,
    uint32_t n3, uint32_t m3, const uint32_t *rows3, size_t rows3_len,
    uint32_t n4, uint32_t m4, const uint32_t *rows4, size_t rows4_len,
    uint32_t i, uint32_t first, uint32_t last, uint32_t *part, size_t part_len);

/* Merges two parts of a nonlinearity, or of the nonlinearity of a sum, and keeps the
 * smaller figure; if the figures are equal, the one whose combination comes first (see
 * FIRST in satmegwo.h). A part without a combination (part[0] is 0) adds nothing.
 *   x, y    read, both of the same length, 3 elements or more, the first of them 0 or 1
 *   merged  written, as many elements as x has; it must not overlap x or y
 * Refusals: 3 (x), 3 (y), 4 (x), 4 (y), 7. */
SATMEGWO_MUST_USE
uint32_t satmegwo_merge_least(
    const uint32_t *x, size_t x_len, const uint32_t *y, size_t y_len,
    uint32_t *merged, size_t merged_len);

/* Merges two parts of an autocorrelation (absolute indicator) or of a dynamic distance in
 * the same way, but keeps the larger figure.
 * Refusals: 3 (x), 3 (y), 4 (x), 4 (y), 7. */
SATMEGWO_MUST_USE
uint32_t satmegwo_merge_largest(
    const uint32_t *x, size_t x_len, const uint32_t *y, size_t y_len,
    uint32_t *merged, size_t merged_len);

#ifdef __cplusplus
}
#endif

#endif
