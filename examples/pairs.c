/* What to repair in a box: reads a box file from standard input, and prints its nonlinearity
 * within a limit and all pairs of a combination and an affine function that reach it (its
 * best linear approximations). The first of them is the witness of the nonlinearity; to
 * improve the box, every one of them must go.
 *
 *     pairs LIMIT
 *
 * With the library built, from this directory:
 *
 *     gcc pairs.c -I../include -L../target/staticlib -lsatmegwo -o pairs
 *     ./pairs 4 < des-s4.box
 */
#include <stdint.h>
#include <stdio.h>
#include "common.h"
#include "satmegwo.h"

/* Enough for all combinations of eight outputs. */
#define MOST_PAIRS (255u * SATMEGWO_PAIRS_OF_A_COMBINATION)

static uint64_t list[MOST_PAIRS];

int main(int count, char **words)
{
    struct file file;
    struct box box;
    uint32_t i, number, least[4];
    uint64_t pairs[1];
    if (count != 2 || !read_number(words[1], &i)) {
        printf("usage: pairs LIMIT < FILE\n");
        return 2;
    }
    file = read_file(stdin);
    number = box_of(&file, &box);
    if (number != 0)
        return refused("box", number);
    number = satmegwo_nonlinearity(box.n, box.m, box.rows, box.size, i, least, 4);
    if (number != 0)
        return refused("nonlinearity", number);
    number = satmegwo_nearest_pairs(box.n, box.m, box.rows, box.size, i, list, MOST_PAIRS, pairs, 1);
    if (number != 0)
        return refused("nearest pairs", number);
    printf("nonlinearity %u; pairs that reach it: %u\n", (unsigned)least[0], (unsigned)pairs[0]);
    for (uint64_t k = 0; k < pairs[0]; k++)
        printf("combination %u against w = %u, b = %u\n",
               (unsigned)(list[k] / 512), (unsigned)(list[k] / 2 % 256), (unsigned)(list[k] % 2));
    return 0;
}
