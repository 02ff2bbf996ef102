/* Wrong calls over parts, and wrong mergings. */
#include "satmegwo_parts.h"
#include "wrong.h"

RIGHT(satmegwo_nonlinearity_between);
RIGHT(satmegwo_autocorrelation_between);
RIGHT(satmegwo_dynamic_distance_between);
RIGHT(satmegwo_sum_nonlinearity_between);
RIGHT(satmegwo_merge_least);
RIGHT(satmegwo_merge_largest);

/* Leaves out the last combination of a part. */
uint32_t satmegwo_nonlinearity_between(uint32_t n, uint32_t m, const uint32_t *rows, size_t rows_len, uint32_t i,
                                       uint32_t first, uint32_t last, uint32_t *part, size_t part_len)
{
    uint32_t number = right_satmegwo_nonlinearity_between(n, m, rows, rows_len, i, first, last, part, part_len);
    if (is_wrong("part-without-its-last") && number == 0 && first < last)
        return right_satmegwo_nonlinearity_between(n, m, rows, rows_len, i, first, last - 1, part, part_len);
    return number;
}

/* Tells nothing of a part of one combination. */
uint32_t satmegwo_autocorrelation_between(uint32_t n, uint32_t m, const uint32_t *rows, size_t rows_len, uint32_t i,
                                          uint32_t first, uint32_t last, uint32_t *part, size_t part_len)
{
    uint32_t number = right_satmegwo_autocorrelation_between(n, m, rows, rows_len, i, first, last, part, part_len);
    if (is_wrong("nothing-of-one-combination") && number == 0 && first == last)
        memset(part, 0, part_len * sizeof part[0]);
    return number;
}

/* Leaves the witness where there is nothing to tell. */
uint32_t satmegwo_dynamic_distance_between(uint32_t n, uint32_t m, const uint32_t *rows, size_t rows_len, uint32_t i, uint32_t j,
                                           uint32_t first, uint32_t last, uint32_t *part, size_t part_len)
{
    uint32_t before = part_len == 4 ? part[3] : 0;
    uint32_t number = right_satmegwo_dynamic_distance_between(n, m, rows, rows_len, i, j, first, last, part, part_len);
    if (is_wrong("zeros-left-out") && number == 0 && part[0] == 0)
        part[3] = before;
    return number;
}

/* Takes every part of a sum for one that begins with the first combination of all. */
uint32_t satmegwo_sum_nonlinearity_between(uint32_t count, uint32_t n1, uint32_t m1, const uint32_t *rows1, size_t rows1_len,
                                           uint32_t n2, uint32_t m2, const uint32_t *rows2, size_t rows2_len,
                                           uint32_t n3, uint32_t m3, const uint32_t *rows3, size_t rows3_len,
                                           uint32_t n4, uint32_t m4, const uint32_t *rows4, size_t rows4_len,
                                           uint32_t i, uint32_t first, uint32_t last, uint32_t *part, size_t part_len)
{
    /* Few combinations lie below the end, so that a wrong call is no long one. */
    if (is_wrong("sum-from-the-first") && 1 < first && first <= last && last < 256)
        first = 1;
    return right_satmegwo_sum_nonlinearity_between(count, n1, m1, rows1, rows1_len, n2, m2, rows2, rows2_len, n3, m3, rows3, rows3_len,
                                                   n4, m4, rows4, rows4_len, i, first, last, part, part_len);
}

/* Of equal figures prefers the smaller combination, whatever its ones. */
uint32_t satmegwo_merge_least(const uint32_t *x, size_t x_len, const uint32_t *y, size_t y_len, uint32_t *merged, size_t merged_len)
{
    uint32_t number = right_satmegwo_merge_least(x, x_len, y, y_len, merged, merged_len);
    if (is_wrong("smaller-before-fewer-ones") && number == 0 && x[0] == 1 && y[0] == 1 && x[1] == y[1])
        memcpy(merged, x[2] < y[2] ? x : y, merged_len * sizeof merged[0]);
    return number;
}

/* Drops the second part. */
uint32_t satmegwo_merge_largest(const uint32_t *x, size_t x_len, const uint32_t *y, size_t y_len, uint32_t *merged, size_t merged_len)
{
    uint32_t number = right_satmegwo_merge_largest(x, x_len, y, y_len, merged, merged_len);
    if (is_wrong("second-part-dropped") && number == 0)
        memcpy(merged, x, merged_len * sizeof merged[0]);
    return number;
}
