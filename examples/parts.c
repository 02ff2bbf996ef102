/* A sweep in parts: reads a box file from standard input, and counts the nonlinearity within a
 * limit in four parts, as four machines would, each of which tells what it found. The parts
 * are merged in another order than that of their combinations, and the result is compared
 * with the plain call, over all combinations at once.
 *
 *     parts LIMIT
 *
 * With the library built, from this directory:
 *
 *     gcc parts.c -I../include -L../target/staticlib -lsatmegwo_parts -lsatmegwo -o parts
 *     ./parts 2 < des-s1.box
 */
#include <stdint.h>
#include <stdio.h>
#include <string.h>
#include "common.h"
#include "satmegwo.h"
#include "satmegwo_parts.h"

#define PARTS 4u

/* The first and the last combination of part k, 0 to 3: the last part has what is left over. */
static uint32_t first_of(uint32_t most, uint32_t k) { return 1 + k * (most / PARTS); }
static uint32_t last_of(uint32_t most, uint32_t k) { return k + 1 == PARTS ? most : (k + 1) * (most / PARTS); }

static void print_part(const char *name, const uint32_t *part)
{
    if (part[0] == 0)
        printf("%s: nothing\n", name);
    else
        printf("%s: nonlinearity %u, combination %u against w = %u, b = %u\n", name,
               (unsigned)part[1], (unsigned)part[2], (unsigned)part[3], (unsigned)part[4]);
}

/* What each part has, in turn. Returns 0 or the number of a refusal. */
static uint32_t sweep(const struct box *box, uint32_t i, uint32_t most, uint32_t found[PARTS][5])
{
    for (uint32_t k = 0; k < PARTS; k++) {
        char name[40];
        uint32_t first = first_of(most, k), last = last_of(most, k);
        uint32_t number = satmegwo_nonlinearity_between(box->n, box->m, box->rows, box->size, i, first, last, found[k], 5);
        if (number != 0)
            return number;
        snprintf(name, sizeof name, "%u to %u", (unsigned)first, (unsigned)last);
        print_part(name, found[k]);
    }
    return 0;
}

/* Any order will do, and a part that comes twice does no harm. */
static uint32_t merge(uint32_t found[PARTS][5], uint32_t all[5])
{
    static const uint32_t order[] = {2, 0, 3, 1, 0};
    memset(all, 0, 5 * sizeof all[0]);
    for (size_t k = 0; k < sizeof order / sizeof order[0]; k++) {
        uint32_t merged[5];
        uint32_t number = satmegwo_merge_least(all, 5, found[order[k]], 5, merged, 5);
        if (number != 0)
            return number;
        memcpy(all, merged, sizeof merged);
    }
    return 0;
}

/* What is not a part: combinations from 0 on, past the last, and backwards; and arrays that are
 * not two parts of the same figure. */
static void print_refusals(const struct box *box, uint32_t most)
{
    const uint32_t ends[3][2] = {{0, 1}, {1, most + 1}, {2, 1}};
    const uint32_t one[5] = {1, 0, 1, 0, 0}, other[4] = {1, 0, 1, 0}, broken[5] = {2, 0, 1, 0, 0};
    uint32_t part[5];
    for (size_t k = 0; k < 3; k++) {
        char name[40];
        snprintf(name, sizeof name, "%u to %u", (unsigned)ends[k][0], (unsigned)ends[k][1]);
        refused(name, satmegwo_nonlinearity_between(box->n, box->m, box->rows, box->size, 1, ends[k][0], ends[k][1], part, 5));
    }
    refused("parts of 5 and of 4 elements", satmegwo_merge_least(one, 5, other, 4, part, 5));
    refused("a part that begins with 2", satmegwo_merge_least(one, 5, broken, 5, part, 5));
}

int main(int count, char **words)
{
    struct file file;
    struct box box;
    uint32_t i, number, most, found[PARTS][5], all[5], plain[4];
    if (count != 2 || !read_number(words[1], &i)) {
        printf("usage: parts LIMIT < FILE\n");
        return 2;
    }
    file = read_file(stdin);
    number = box_of(&file, &box);
    if (number != 0)
        return refused("box", number);
    /* Four parts of a combination each are the fewest; and 2^32 - 1 has nothing behind it. */
    if (box.m < 3 || box.m > 16)
        return refused("outputs", SATMEGWO_REFUSED_OUTPUT_WIDTH);
    most = (1u << box.m) - 1;
    number = sweep(&box, i, most, found);
    if (number != 0)
        return refused("part", number);
    number = merge(found, all);
    if (number != 0)
        return refused("merging", number);
    print_part("merged", all);
    number = satmegwo_nonlinearity(box.n, box.m, box.rows, box.size, i, plain, 4);
    if (number != 0)
        return refused("nonlinearity", number);
    if (all[0] != 1 || memcmp(all + 1, plain, sizeof plain) != 0)
        return 1;
    printf("the plain call gives the same\n");
    print_refusals(&box, most);
    return 0;
}
