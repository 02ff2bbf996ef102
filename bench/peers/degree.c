/* Document 01, Normal form, and document 02, section 1: the least degree of a combination. */
#include "bits.h"
#include "peers.h"
#include <string.h>

#define MOST_ROWS 256

/* The words of the normal form, those of most ones in u first: word u has the coefficient at u of each
 * column, so the coefficient of combination c is the parity of (word AND c). */
struct normal_form {
    uint32_t number;
    uint32_t words[MOST_ROWS];
    uint8_t degrees[MOST_ROWS];
};

/* The normal forms of all columns at once, by the halving rule with XOR in place of sums. */
static void transform(uint32_t n, uint32_t *words)
{
    for (uint32_t half = 1; half < 1u << n; half *= 2)
        for (uint32_t start = 0; start < 1u << n; start += 2 * half)
            for (uint32_t x = start; x < start + half; x++)
                words[x + half] ^= words[x];
}

static void write_normal_form(uint32_t n, const uint32_t *rows, struct normal_form *form)
{
    uint32_t coefficients[MOST_ROWS];
    memcpy(coefficients, rows, sizeof rows[0] << n);
    transform(n, coefficients);
    form->number = 0;
    for (uint32_t degree = n + 1; degree-- > 0;)
        for (uint32_t u = 0; u < 1u << n; u++)
            if (ones(u) == degree) {
                form->words[form->number] = coefficients[u];
                form->degrees[form->number++] = (uint8_t)degree;
            }
}

/* Drops each word that is a sum of words before it: where those have even parity, so has it. What is
 * left are at most 32. */
static void keep_independent(struct normal_form *form)
{
    uint32_t with_top[32] = {0}, kept = 0;
    for (uint32_t q = 0; q < form->number; q++) {
        uint32_t rest = form->words[q], top = 0;
        while (rest != 0 && with_top[top = 31 - (uint32_t)__builtin_clz(rest)] != 0)
            rest ^= with_top[top];
        if (rest != 0) {
            with_top[top] = rest;
            form->words[kept] = form->words[q];
            form->degrees[kept++] = form->degrees[q];
        }
    }
    form->number = kept;
}

static uint32_t degree_of(const struct normal_form *form, uint32_t c)
{
    for (uint32_t q = 0; q < form->number; q++)
        if (parity(form->words[q] & c))
            return form->degrees[q];
    return 0;
}

void peer_degree(uint32_t n, uint32_t m, const uint32_t *rows, uint32_t i, uint32_t *figures)
{
    struct normal_form form;
    struct best best = NONE_YET;
    write_normal_form(n, rows, &form);
    keep_independent(&form);
    for (uint64_t c = 1; c >> m == 0;) {
        uint32_t outputs = ones(c);
        offer(&best, (int32_t)(n - degree_of(&form, (uint32_t)c)), c, outputs);
        c = next_combination(c, outputs, i);
    }
    figures[0] = n - (uint32_t)best.figure;
    figures[1] = best.c;
}

/* Keeps of a space of combinations those that find a word even: `space` is a basis of them. Returns its
 * new dimension. */
static uint32_t keep_even(uint32_t word, uint32_t *space, uint32_t dimension)
{
    uint32_t odd = 0;
    while (odd < dimension && !parity(space[odd] & word))
        odd++;
    if (odd == dimension)
        return dimension;
    for (uint32_t k = odd + 1; k < dimension; k++)
        if (parity(space[k] & word))
            space[k] ^= space[odd];
    space[odd] = space[dimension - 1];
    return dimension - 1;
}

/* The first of all combinations of a space, which are gone through with one basis member changed at a
 * time. */
static uint32_t first_of_space(const uint32_t *space, uint32_t dimension)
{
    uint32_t c = 0, first = 0, fewest = 33;
    for (uint64_t step = 1; step >> dimension == 0; step++) {
        c ^= space[lowest(step)];
        if (ones(c) < fewest || (ones(c) == fewest && c < first)) {
            fewest = ones(c);
            first = c;
        }
    }
    return first;
}

/* The combinations of degree below d are those that find each word of degree d and more even: a space,
 * whose equations are solved for one degree after the other, until none is left but 0. */
void peer_degree_by_equations(uint32_t n, uint32_t m, const uint32_t *rows, uint32_t *figures)
{
    struct normal_form form;
    uint32_t space[32], left = m, last[32], dimension = m, degree = n, q = 0;
    write_normal_form(n, rows, &form);
    for (uint32_t j = 0; j < m; j++)
        space[j] = last[j] = 1u << j;
    while (degree > 0) {
        for (; q < form.number && form.degrees[q] == degree; q++)
            left = keep_even(form.words[q], space, left);
        if (left == 0)
            break;
        memcpy(last, space, sizeof space);
        dimension = left;
        degree--;
    }
    figures[0] = degree;
    figures[1] = first_of_space(last, dimension);
}
