/* Ones of a number, and the walk over combinations. */
#ifndef BITS_H
#define BITS_H
#include <stdint.h>

/* How many ones: neighbouring groups are added, twice as wide each time. Not every x86-64 processor
 * has an instruction for it. */
static inline uint32_t ones(uint64_t bits)
{
    bits -= bits >> 1 & 0x5555555555555555;
    bits = (bits & 0x3333333333333333) + (bits >> 2 & 0x3333333333333333);
    bits = (bits + (bits >> 4)) & 0x0f0f0f0f0f0f0f0f;
    return (uint32_t)(bits * 0x0101010101010101 >> 56);
}

/* Whether the ones are odd in number: the upper half is added to the lower until four bits are
 * left, whose parity is looked up in a number. */
static inline uint32_t parity(uint32_t bits)
{
    bits ^= bits >> 16;
    bits ^= bits >> 8;
    bits ^= bits >> 4;
    return 0x6996u >> (bits & 15) & 1;
}

/* The place of the lowest one, from 0. */
static inline uint32_t lowest(uint64_t bits)
{
    return (uint32_t)__builtin_ctzll(bits);
}

/* The next larger combination within the limit, of one that has so many outputs. Of the two, the
 * outputs that lie above the lowest one of the later are the highest of the earlier. */
static inline uint64_t next_combination(uint64_t c, uint32_t outputs, uint32_t limit)
{
    return outputs < limit ? c + 1 : c + (c & -c);
}

/* The largest figure so far, with its combination; of equal figures that of fewest outputs, and of
 * those the first, as document 02, section 6 has it. Combinations are offered in ascending order. */
struct best {
    int32_t figure;
    uint32_t c, outputs;
};

static const struct best NONE_YET = {-1, 0, 0};

static inline int is_better(const struct best *best, int32_t figure, uint32_t outputs)
{
    return figure > best->figure || (figure == best->figure && outputs < best->outputs);
}

static inline void offer(struct best *best, int32_t figure, uint64_t c, uint32_t outputs)
{
    if (is_better(best, figure, outputs))
        *best = (struct best){figure, (uint32_t)c, outputs};
}

#endif
