#include "peers.h"
#include "spectra.h"

int16_t spectra_of_eight[256][8];

/* Document 01, "How the spectrum is reached": the rule of the fixed table is the definition. */
void peer_prepare(void)
{
    for (uint32_t function = 0; function < 256; function++)
        for (uint32_t w = 0; w < 8; w++) {
            int16_t total = 0;
            for (uint32_t x = 0; x < 8; x++)
                total = (int16_t)(total + ((function >> x & 1) == parity(w & x) ? 1 : -1));
            spectra_of_eight[function][w] = total;
        }
}

void write_columns(uint32_t n, uint32_t m, const uint32_t *rows, struct table *columns)
{
    memset(columns, 0, m * sizeof columns[0]);
    for (uint32_t x = 0; x < 1u << n; x++)
        for (uint32_t j = 0; j < m; j++)
            columns[j].words[x / 64] |= (uint64_t)(rows[x] >> j & 1) << x % 64;
}

struct table combination(const struct table *columns, uint64_t c)
{
    struct table table = {{0}};
    for (; c != 0; c &= c - 1)
        table = sum(&table, &columns[lowest(c)]);
    return table;
}
