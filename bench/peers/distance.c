/* Document 01, Dynamic distance of order (i, 1): SAC with i = 1, BIC with i = 2. Where a combination
 * changes under an input bit is the sum of where its outputs do; so the changes of each column are
 * kept as packed tables, one for each input bit, and their ones are counted 64 at a time. */
#include "distance.h"
#include <stdlib.h>
#include "spectra.h"

/* Where a function changes under each input bit. */
struct changes {
    struct table under[8];
};

/* The table of f(x XOR 2^k): neighbouring groups of 2^k values change places. */
static struct table flipped(const struct table *table, uint32_t k)
{
    static const uint64_t LOWER[6] = {0x5555555555555555, 0x3333333333333333, 0x0f0f0f0f0f0f0f0f,
                                      0x00ff00ff00ff00ff, 0x0000ffff0000ffff, 0x00000000ffffffff};
    struct table after;
    for (uint32_t q = 0; q < MOST_ROWS / 64; q++) {
        if (k < 6)
            after.words[q] = (table->words[q] >> (1u << k) & LOWER[k]) | (table->words[q] & LOWER[k]) << (1u << k);
        else
            after.words[q] = table->words[q ^ 1u << (k - 6)];
    }
    return after;
}

/* The changes of a column. Past 2^n values there is nothing to count. */
static void write_changes(uint32_t n, const struct table *column, struct changes *changes)
{
    uint64_t used = n < 6 ? ((uint64_t)1 << (1u << n)) - 1 : ~(uint64_t)0;
    for (uint32_t k = 0; k < n; k++) {
        struct table after = flipped(column, k);
        changes->under[k] = sum(column, &after);
        for (uint32_t q = 0; q < MOST_ROWS / 64; q++)
            changes->under[k].words[q] &= used;
    }
}

/* Adds the changes of one more column, and counts: |2^(n-1) - number of changes| under input bit k. */
static int32_t distance_under(uint32_t n, uint32_t k, const struct changes *others, const struct changes *column,
                              struct changes *both)
{
    uint32_t words = n > 6 ? 1u << (n - 6) : 1;
    int32_t changed = 0;
    for (uint32_t q = 0; q < words; q++) {
        both->under[k].words[q] = others->under[k].words[q] ^ column->under[k].words[q];
        changed += (int32_t)ones(both->under[k].words[q]);
    }
    return abs((1 << (n - 1)) - changed);
}

void distance_by_single_changes(uint32_t n, uint32_t m, const uint32_t *rows, uint32_t i, uint32_t *figures)
{
    struct table columns[MOST_OUTPUTS];
    struct changes changes[MOST_OUTPUTS], highest[MOST_OUTPUTS + 1];
    struct best best = NONE_YET;
    uint32_t best_bit = 0;
    write_columns(n, m, rows, columns);
    for (uint32_t j = 0; j < m; j++)
        write_changes(n, &columns[j], &changes[j]);
    memset(&highest[0], 0, sizeof highest[0]);
    for (uint64_t c = 1; c >> m == 0;) {
        uint32_t outputs = ones(c);
        for (uint32_t k = 0; k < n; k++) {
            int32_t figure =
                distance_under(n, k, &highest[outputs - 1], &changes[lowest(c)], &highest[outputs]);
            if (is_better(&best, figure, outputs))
                best_bit = k;
            offer(&best, figure, c, outputs);
        }
        c = next_combination(c, outputs, i);
    }
    figures[0] = (uint32_t)best.figure;
    figures[1] = best.c;
    figures[2] = 1u << best_bit;
}
