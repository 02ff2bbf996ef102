/* Document 01, XOR table: the largest cell, and the list of all that reach it.
 *
 * For each a the output differences of the 2^(n-1) pairs x, x XOR a are counted, each pair once: a cell
 * is twice its count. Counts stand in an array with a place for every beta up to 16 outputs, and in a
 * hash table above. The largest count is kept as a running value while the counts rise (document 02,
 * section 5); its beta is looked for afterwards, and only where the row beats all rows before it. */
#include <stdlib.h>
#include <string.h>
#include "bits.h"
#include "peers.h"

#define MOST_PAIRS 128
#define MOST_COUNTED_OUTPUTS 16
#define HASH_BITS 11
#define HASH_PLACES (1u << HASH_BITS)

/* So that a function is made anew for the array and for the hash table. */
#define FOR_EACH_WAY static inline __attribute__((always_inline))

/* The pairs under one input difference. */
struct pairs {
    uint32_t a, number;
    uint32_t differences[MOST_PAIRS];
};

/* The array; all counts are 0 between two rows. */
static uint8_t counts[1u << MOST_COUNTED_OUTPUTS];

/* The hash table: a place is valid for one a and free for every other, so that it needs no clearing. */
static struct {
    uint32_t beta;
    uint16_t a;
    uint8_t count;
} places[HASH_PLACES];

/* Of each pair the input without the highest bit of a comes first. */
static void write_differences(uint32_t n, const uint32_t *rows, uint32_t a, struct pairs *pairs)
{
    uint32_t top = 1u << (31 - __builtin_clz(a)), rest = a ^ top, number = 0;
    for (uint32_t start = 0; start < 1u << n; start += 2 * top)
        for (uint32_t x = 0; x < top; x++)
            pairs->differences[number++] = rows[start + x] ^ rows[start + top + (x ^ rest)];
    pairs->a = a;
    pairs->number = number;
}

/* The count of beta: in the hash table from the place on that a product points to, whose highest bits
 * all bits of beta move. */
FOR_EACH_WAY uint8_t *count_of(int hashed, uint32_t beta, uint32_t a)
{
    if (!hashed)
        return &counts[beta];
    uint32_t place = beta * 0x9E3779B9u >> (32 - HASH_BITS);
    while (places[place].a == a && places[place].beta != beta)
        place = (place + 1) % HASH_PLACES;
    if (places[place].a != a) {
        places[place].beta = beta;
        places[place].a = (uint16_t)a;
        places[place].count = 0;
    }
    return &places[place].count;
}

/* Lets the counts rise, and returns the largest. */
FOR_EACH_WAY uint32_t count_pairs(int hashed, const struct pairs *pairs)
{
    uint32_t largest = 0;
    for (uint32_t y = 0; y < pairs->number; y++) {
        uint32_t count = ++*count_of(hashed, pairs->differences[y], pairs->a);
        if (count > largest)
            largest = count;
    }
    return largest;
}

FOR_EACH_WAY uint32_t smallest_with(int hashed, uint32_t count, const struct pairs *pairs)
{
    uint32_t smallest = UINT32_MAX;
    for (uint32_t y = 0; y < pairs->number; y++) {
        uint32_t beta = pairs->differences[y];
        if (*count_of(hashed, beta, pairs->a) == count && beta < smallest)
            smallest = beta;
    }
    return smallest;
}

/* Makes the array's counts 0 again: all of them where they are few. */
static void clear(uint32_t m, const struct pairs *pairs)
{
    if (m <= 8)
        memset(counts, 0, 256);
    else if (m <= MOST_COUNTED_OUTPUTS)
        for (uint32_t y = 0; y < pairs->number; y++)
            counts[pairs->differences[y]] = 0;
}

FOR_EACH_WAY void largest_cell(int hashed, uint32_t n, uint32_t m, const uint32_t *rows, uint32_t *figures)
{
    struct pairs pairs;
    uint32_t largest = 0;
    for (uint32_t a = 1; a < 1u << n; a++) {
        write_differences(n, rows, a, &pairs);
        uint32_t count = count_pairs(hashed, &pairs);
        if (count > largest) {
            largest = count;
            figures[1] = a;
            figures[2] = smallest_with(hashed, count, &pairs);
        }
        clear(m, &pairs);
    }
    figures[0] = 2 * largest;
}

void peer_largest_cell(uint32_t n, uint32_t m, const uint32_t *rows, uint32_t *figures)
{
    if (m <= MOST_COUNTED_OUTPUTS) {
        largest_cell(0, n, m, rows, figures);
    } else {
        memset(places, 0, sizeof places);
        largest_cell(1, n, m, rows, figures);
    }
}

static int compare(const void *one, const void *other)
{
    uint32_t x = *(const uint32_t *)one, y = *(const uint32_t *)other;
    return x < y ? -1 : x > y;
}

/* The beta that have the count, in ascending order; returns how many. Up to 8 outputs all beta are
 * looked at, and else the differences, of which each that was found is made 0 and not found again. */
FOR_EACH_WAY uint32_t all_with(int hashed, uint32_t m, uint32_t count, const struct pairs *pairs, uint32_t *found)
{
    uint32_t number = 0;
    if (m <= 8) {
        for (uint32_t beta = 0; beta < 256; beta++)
            if (counts[beta] == count)
                found[number++] = beta;
        return number;
    }
    for (uint32_t y = 0; y < pairs->number; y++) {
        uint8_t *cell = count_of(hashed, pairs->differences[y], pairs->a);
        if (*cell == count) {
            *cell = 0;
            found[number++] = pairs->differences[y];
        }
    }
    if (number > 1)
        qsort(found, number, sizeof found[0], compare);
    return number;
}

FOR_EACH_WAY uint32_t largest_cells(int hashed, uint32_t n, uint32_t m, const uint32_t *rows, uint64_t *list)
{
    struct pairs pairs;
    uint32_t largest = 0, listed = 0, found[MOST_PAIRS];
    for (uint32_t a = 1; a < 1u << n; a++) {
        write_differences(n, rows, a, &pairs);
        uint32_t count = count_pairs(hashed, &pairs);
        if (count > largest) {
            largest = count;
            listed = 0;
        }
        if (count == largest) {
            uint32_t number = all_with(hashed, m, count, &pairs, found);
            for (uint32_t k = 0; k < number; k++)
                list[listed++] = ((uint64_t)a << 32) + found[k];
        }
        clear(m, &pairs);
    }
    return listed;
}

uint32_t peer_largest_cells(uint32_t n, uint32_t m, const uint32_t *rows, uint64_t *list)
{
    if (m <= MOST_COUNTED_OUTPUTS)
        return largest_cells(0, n, m, rows, list);
    memset(places, 0, sizeof places);
    return largest_cells(1, n, m, rows, list);
}
