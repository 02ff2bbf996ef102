/* Document 01, Nonlinearity: 2^(n-1) less half the largest |W(w)| of a combination. */
#include "peers.h"
#include "spectra.h"

/* The tables of the highest one, two, three .. outputs of the combination that is examined are kept:
 * the next one's is one of them and one column. */
void peer_nonlinearity(uint32_t n, uint32_t m, const uint32_t *rows, uint32_t i, uint32_t *figures)
{
    struct table columns[MOST_OUTPUTS], highest[MOST_OUTPUTS + 1];
    _Alignas(16) int16_t values[MOST_ROWS];
    struct best best = NONE_YET;
    write_columns(n, m, rows, columns);
    highest[0] = (struct table){{0}};
    for (uint64_t c = 1; c >> m == 0;) {
        uint32_t outputs = ones(c);
        highest[outputs] = sum(&highest[outputs - 1], &columns[lowest(c)]);
        offer(&best, peak(n, &highest[outputs], values), c, outputs);
        c = next_combination(c, outputs, i);
    }

    struct table nearest = combination(columns, best.c);
    peak(n, &nearest, values);
    uint32_t w = first_place(values, best.figure);
    figures[0] = ((1u << n) - (uint32_t)best.figure) / 2;
    figures[1] = best.c;
    figures[2] = w;
    figures[3] = values[w] < 0;
}
