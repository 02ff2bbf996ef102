/* Document 02, section 10: the smallest swap of two unlike rows that raises the nonlinearity.
 *
 * A nearest pair is a combination and an affine function (w, b) that differ at as few inputs as any:
 * |W(w)| is the largest magnitude of all spectra. A swap raises the nonlinearity exactly if no value is
 * that large afterwards. All spectra are written once, and each swap is tried twice: on twelve of the
 * nearest pairs, which turn nearly all swaps down, and then on every value. */
#include <stdlib.h>
#include "peers.h"
#include "spectra.h"

#define MOST_COMBINATIONS 256
#define MOST_TRIED 12

/* Of each combination the truth table, W(w) for each w, and the largest magnitude among these. */
static struct table tables[MOST_COMBINATIONS];
static int16_t spectra[MOST_COMBINATIONS][MOST_ROWS];
static int32_t peaks[MOST_COMBINATIONS];

/* The nearest pairs, in ascending order. */
static struct {
    uint8_t c, w;
} nearest[MOST_COMBINATIONS * MOST_ROWS];

/* For the pairs that are tried first, and each input: 0 where the two differ, and else 1 and the
 * combination's value. A swap takes the pair apart, so that it differs at two inputs more, exactly if
 * it agrees at both and the combination's values there are unlike: if the two numbers add up to 3. */
static uint8_t agreements[MOST_TRIED][MOST_ROWS];

/* The value of combination c for input x. */
static uint32_t value_at(uint32_t c, uint32_t x)
{
    return (uint32_t)(tables[c].words[x / 64] >> x % 64 & 1);
}

/* Tables, spectra and peaks; returns the largest magnitude of all. */
static int32_t write_spectra(uint32_t n, uint32_t m, const uint32_t *rows)
{
    struct table columns[MOST_OUTPUTS];
    int32_t largest = 0;
    write_columns(n, m, rows, columns);
    tables[0] = (struct table){{0}};
    for (uint32_t c = 1; c < 1u << m; c++) {
        tables[c] = sum(&tables[c & (c - 1)], &columns[lowest(c)]);
        peaks[c] = peak(n, &tables[c], spectra[c]);
        largest = peaks[c] > largest ? peaks[c] : largest;
    }
    return largest;
}

static uint32_t write_nearest(uint32_t n, uint32_t m, int32_t largest)
{
    uint32_t number = 0;
    for (uint32_t c = 1; c < 1u << m; c++)
        for (uint32_t w = 0; w < 1u << n; w++)
            if (abs(spectra[c][w]) == largest) {
                nearest[number].c = (uint8_t)c;
                nearest[number++].w = (uint8_t)w;
            }
    return number;
}

/* Some of the pairs, as far apart in the list as can be; returns how many. */
static uint32_t write_agreements(uint32_t n, uint32_t number)
{
    uint32_t tried = number < MOST_TRIED ? number : MOST_TRIED;
    for (uint32_t k = 0; k < tried; k++) {
        uint32_t c = nearest[k * number / tried].c, w = nearest[k * number / tried].w, b = spectra[c][w] < 0;
        for (uint32_t x = 0; x < 1u << n; x++) {
            uint32_t value = value_at(c, x);
            agreements[k][x] = (uint8_t)(value == (parity(w & x) ^ b) ? 1 + value : 0);
        }
    }
    return tried;
}

static int takes_all_apart(uint32_t tried, uint32_t x, uint32_t y)
{
    for (uint32_t k = 0; k < tried; k++)
        if (agreements[k][x] + agreements[k][y] != 3)
            return 0;
    return 1;
}

/* Whether a combination has a value of the largest magnitude or more once rows x and y have changed
 * places. Where it has like values there it stays; else each W(w) loses its summands at x and y, and
 * they come back with the signs of w.y and w.x. */
static int stays_near(uint32_t n, int32_t largest, uint32_t c, uint32_t x, uint32_t y)
{
    if (value_at(c, x) == value_at(c, y))
        return peaks[c] == largest;
    int32_t moved = value_at(c, x) ? 2 : -2;
    for (uint32_t w = 0; w < 1u << n; w++) {
        int32_t sign_x = parity(w & x) ? -1 : 1, sign_y = parity(w & y) ? -1 : 1;
        if (abs(spectra[c][w] + moved * (sign_x - sign_y)) >= largest)
            return 1;
    }
    return 0;
}

static int raises(uint32_t n, uint32_t m, int32_t largest, uint32_t x, uint32_t y)
{
    for (uint32_t c = 1; c < 1u << m; c++)
        if (stays_near(n, largest, c, x, y))
            return 0;
    return 1;
}

static uint32_t figure_after(uint32_t n, uint32_t m, const uint32_t *rows, uint32_t x, uint32_t y)
{
    uint32_t swapped[MOST_ROWS], figures[4];
    memcpy(swapped, rows, sizeof rows[0] << n);
    swapped[x] = rows[y];
    swapped[y] = rows[x];
    peer_nonlinearity(n, m, swapped, m, figures);
    return figures[0];
}

/* Swaps are tried by their inputs, and one that was found must differ in fewer bits to be replaced. */
void peer_raising_swap(uint32_t n, uint32_t m, const uint32_t *rows, uint32_t *figures)
{
    int32_t largest = write_spectra(n, m, rows);
    uint32_t tried = write_agreements(n, write_nearest(n, m, largest)), fewest = m + 1;
    memset(figures, 0, 4 * sizeof figures[0]);
    for (uint32_t x = 0; x < 1u << n; x++)
        for (uint32_t y = x + 1; y < 1u << n; y++) {
            if (!takes_all_apart(tried, x, y))
                continue;
            uint32_t bits = ones(rows[x] ^ rows[y]);
            if (bits != 0 && bits < fewest && raises(n, m, largest, x, y)) {
                fewest = bits;
                figures[1] = x;
                figures[2] = y;
            }
        }
    if (fewest <= m) {
        figures[0] = 1;
        figures[3] = figure_after(n, m, rows, figures[1], figures[2]);
    }
}
