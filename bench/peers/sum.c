/* Document 02, section 4: the nonlinearity of four boxes added together, by the product of their
 * largest magnitudes. */
#include "peers.h"
#include "spectra.h"

#define BOXES 4

/* The largest product so far, as `struct best` has a figure. */
struct best_product {
    uint64_t product;
    uint32_t c, outputs;
};

/* One mask for each box, the first that reaches its own largest magnitude, and the product's sign. */
static void write_witness(uint32_t n, struct table (*columns)[MOST_OUTPUTS], uint32_t c, uint32_t *figures)
{
    _Alignas(16) int16_t values[MOST_ROWS];
    uint32_t negative = 0;
    figures[1] = c;
    for (int k = 0; k < BOXES; k++) {
        struct table table = combination(columns[k], c);
        uint32_t w = first_place(values, peak(n, &table, values));
        figures[2 + k] = w;
        negative ^= values[w] < 0;
    }
    figures[2 + BOXES] = negative;
}

void peer_sum_of_four(uint32_t n, uint32_t m, const uint32_t *rows, uint32_t i, uint32_t *figures)
{
    struct table columns[BOXES][MOST_OUTPUTS], highest[BOXES][MOST_OUTPUTS + 1];
    _Alignas(16) int16_t values[MOST_ROWS];
    struct best_product best = {0, 0, 0};
    for (int k = 0; k < BOXES; k++) {
        write_columns(n, m, rows + ((uint32_t)k << n), columns[k]);
        highest[k][0] = (struct table){{0}};
    }
    for (uint64_t c = 1; c >> m == 0;) {
        uint32_t outputs = ones(c);
        uint64_t product = 1;
        for (int k = 0; k < BOXES; k++) {
            highest[k][outputs] = sum(&highest[k][outputs - 1], &columns[k][lowest(c)]);
            product *= (uint64_t)peak(n, &highest[k][outputs], values);
        }
        if (product > best.product || (product == best.product && outputs < best.outputs))
            best = (struct best_product){product, (uint32_t)c, outputs};
        c = next_combination(c, outputs, i);
    }
    figures[0] = (uint32_t)((((uint64_t)1 << BOXES * n) - best.product) / 2);
    write_witness(n, columns, best.c, figures);
}
