/* Truth tables with eight values to a byte, and their spectra in 16 bits: what most peers share. */
#ifndef SPECTRA_H
#define SPECTRA_H
#include <stdint.h>
#include <string.h>
#include "bits.h"

#define MOST_ROWS 256
#define MOST_OUTPUTS 32

/* So that a function is made anew where its width is known, with loops of fixed lengths. */
#define FOR_EACH_WIDTH static inline __attribute__((always_inline))

/* A truth table: the value for input x is bit x % 64 of word x / 64. */
struct table {
    uint64_t words[MOST_ROWS / 64];
};

/* W(0) to W(7) of each function of three inputs, whose truth table is the index. */
extern int16_t spectra_of_eight[256][8];

/* The columns of a box. */
void write_columns(uint32_t n, uint32_t m, const uint32_t *rows, struct table *columns);

/* The truth table of combination c. */
struct table combination(const struct table *columns, uint64_t c);

static inline struct table sum(const struct table *one, const struct table *other)
{
    struct table both;
    for (int k = 0; k < MOST_ROWS / 64; k++)
        both.words[k] = one->words[k] ^ other->words[k];
    return both;
}

/* One step of the halving rule: sums to the lower half and differences to the upper. */
FOR_EACH_WIDTH void butterfly(int16_t *restrict low, int16_t *restrict high, uint32_t half)
{
    for (uint32_t x = 0; x < half; x++) {
        int16_t u = low[x], v = high[x];
        low[x] = (int16_t)(u + v);
        high[x] = (int16_t)(u - v);
    }
}

/* The steps that double blocks of eight values until they are the whole. */
FOR_EACH_WIDTH void combine_eights(uint32_t count, int16_t *values)
{
    for (uint32_t half = 8; half < count; half *= 2)
        for (uint32_t start = 0; start < count; start += 2 * half)
            butterfly(values + start, values + start + half, half);
}

/* W(w) for each w, as document 01 defines it: eight values of the table at a time are looked up, and
 * put together by the halving rule. A function of one or two inputs is looked up as one of three
 * inputs that does not depend on the others; its values are four times or twice as large there. */
FOR_EACH_WIDTH void write_spectrum(uint32_t n, const struct table *table, int16_t *values)
{
    const uint8_t *bytes = (const uint8_t *)table;
    uint32_t count = 1u << n;
    if (n < 3) {
        uint32_t wide = n == 2 ? bytes[0] * 0x11u : bytes[0] * 0x55u;
        for (uint32_t w = 0; w < count; w++)
            values[w] = (int16_t)(spectra_of_eight[wide][w] >> (3 - n));
        return;
    }
    for (uint32_t k = 0; k < count / 8; k++)
        memcpy(values + 8 * k, spectra_of_eight[bytes[k]], sizeof spectra_of_eight[0]);
    combine_eights(count, values);
}

FOR_EACH_WIDTH int32_t largest_magnitude(uint32_t count, const int16_t *values)
{
    int16_t largest = 0;
    for (uint32_t w = 0; w < count; w++) {
        int16_t value = values[w], negated = (int16_t)-value;
        int16_t magnitude = value > negated ? value : negated;
        largest = magnitude > largest ? magnitude : largest;
    }
    return largest;
}

/* The largest |W(w)|; boxes of eight inputs have a copy of their own. */
static inline int32_t peak(uint32_t n, const struct table *table, int16_t *values)
{
    if (n == 8) {
        write_spectrum(8, table, values);
        return largest_magnitude(256, values);
    }
    write_spectrum(n, table, values);
    return largest_magnitude(1u << n, values);
}

/* The first place of a magnitude that is there. */
static inline uint32_t first_place(const int16_t *values, int32_t magnitude)
{
    uint32_t place = 0;
    while (values[place] != magnitude && values[place] != -magnitude)
        place++;
    return place;
}

#endif
