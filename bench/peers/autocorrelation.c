/* Document 01, Autocorrelation, and Dynamic distance of order (i, j) with j above 1: both are read off
 * the sums r(s) of each combination, the distance as half of the largest |r(s)| with 1 to j ones in s.
 *
 * By the rule of Wiener and Khinchin the transform of the squares of W(w) is 2^n times r(s). Here the
 * squares are those of W(w) / 2. They add up to 2^(2n-2) by Parseval's equation, and no sum of some of
 * them with signs is larger: at n = 8 that is 16,384, so that 16 bits are enough. */
#include <stdlib.h>
#include "distance.h"
#include "peers.h"
#include "spectra.h"

/* The halving rule for the lowest bit of the index, which becomes the highest one. */
FOR_EACH_WIDTH void turn(const int16_t *restrict from, int16_t *restrict to, uint32_t half)
{
    for (uint32_t k = 0; k < half; k++) {
        int16_t u = from[2 * k], v = from[2 * k + 1];
        to[k] = (int16_t)(u + v);
        to[k + half] = (int16_t)(u - v);
    }
}

/* Where r(s) stands after three turns: the lowest three bits are the highest. */
static uint32_t place_of(uint32_t n, uint32_t s)
{
    return s >> 3 | (s & 7) << (n - 3);
}

/* Writes r(s) x 2^n / 4 for each s to its place; 0 where `counted`, if given, has 0 and not -1, and
 * else for s = 0. Returns the largest magnitude. */
FOR_EACH_WIDTH int32_t correlate(uint32_t n, const struct table *table, const int16_t *counted, int16_t *values)
{
    _Alignas(16) int16_t squares[MOST_ROWS];
    uint32_t count = 1u << n;
    write_spectrum(n, table, squares);
    for (uint32_t w = 0; w < count; w++) {
        int16_t half = (int16_t)(squares[w] >> 1);
        squares[w] = (int16_t)(half * half);
    }
    combine_eights(count, squares);
    turn(squares, values, count / 2);
    turn(values, squares, count / 2);
    turn(squares, values, count / 2);
    if (counted == NULL)
        values[0] = 0;
    else
        for (uint32_t k = 0; k < count; k++)
            values[k] &= counted[k];
    return largest_magnitude(count, values);
}

static int32_t largest_correlation(uint32_t n, const struct table *table, const int16_t *counted, int16_t *values)
{
    return n == 8 ? correlate(8, table, counted, values) : correlate(n, table, counted, values);
}

/* The largest |r(s)| over the combinations within the limit and the changes that count. */
static void largest_of_all(uint32_t n, uint32_t m, const uint32_t *rows, uint32_t i, const int16_t *counted,
                           uint32_t *figures)
{
    struct table columns[MOST_OUTPUTS], highest[MOST_OUTPUTS + 1];
    _Alignas(16) int16_t values[MOST_ROWS];
    struct best best = NONE_YET;
    write_columns(n, m, rows, columns);
    highest[0] = (struct table){{0}};
    for (uint64_t c = 1; c >> m == 0;) {
        uint32_t outputs = ones(c);
        highest[outputs] = sum(&highest[outputs - 1], &columns[lowest(c)]);
        offer(&best, largest_correlation(n, &highest[outputs], counted, values), c, outputs);
        c = next_combination(c, outputs, i);
    }

    struct table found = combination(columns, best.c);
    largest_correlation(n, &found, counted, values);
    uint32_t s = 1;
    while (abs(values[place_of(n, s)]) != best.figure)
        s++;
    figures[0] = (uint32_t)best.figure * 4 >> n;
    figures[1] = best.c;
    figures[2] = s;
}

void peer_autocorrelation(uint32_t n, uint32_t m, const uint32_t *rows, uint32_t i, uint32_t *figures)
{
    largest_of_all(n, m, rows, i, NULL, figures);
}

void peer_distance(uint32_t n, uint32_t m, const uint32_t *rows, uint32_t i, uint32_t j, uint32_t *figures)
{
    int16_t counted[MOST_ROWS];
    if (j == 1) {
        distance_by_single_changes(n, m, rows, i, figures);
        return;
    }
    for (uint32_t s = 0; s < 1u << n; s++)
        counted[place_of(n, s)] = s != 0 && ones(s) <= j ? -1 : 0;
    largest_of_all(n, m, rows, i, j == n ? NULL : counted, figures);
    figures[0] /= 2;
}
