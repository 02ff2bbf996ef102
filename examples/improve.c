/* Improves a weak box: reads a box file of at most eight outputs from standard input, and swaps
 * two of its rows as long as a swap raises its nonlinearity, each time the smallest such swap.
 * Prints the nonlinearity, and for each step both inputs and the nonlinearity afterwards.
 *
 * With the library built, from this directory:
 *
 *     gcc improve.c -I../include -L../target/staticlib -lsatmegwo -o improve
 *     ./improve < des-s1.box
 */
#include <stdint.h>
#include <stdio.h>
#include "common.h"
#include "satmegwo.h"

static void swap(uint32_t *rows, uint32_t low, uint32_t high)
{
    uint32_t row = rows[low];
    rows[low] = rows[high];
    rows[high] = row;
}

int main(void)
{
    struct file file = read_file(stdin);
    struct box box;
    uint32_t least[4], step[4];
    uint32_t number = box_of(&file, &box);
    if (number != 0)
        return refused("box", number);

    /* The swap comes first: it refuses a box of more than eight outputs at once, whose
     * nonlinearity over all combinations may take half an hour. */
    number = satmegwo_raising_swap(box.n, box.m, box.rows, box.size, step, 4);
    if (number != 0)
        return refused("raising swap", number);
    number = satmegwo_nonlinearity(box.n, box.m, box.rows, box.size, box.m, least, 4);
    if (number != 0)
        return refused("nonlinearity", number);
    printf("nonlinearity %u\n", (unsigned)least[0]);
    while (step[0] != 0) {
        swap(box.rows, step[1], step[2]);
        printf("swap %u %u, nonlinearity %u\n", (unsigned)step[1], (unsigned)step[2], (unsigned)step[3]);
        number = satmegwo_raising_swap(box.n, box.m, box.rows, box.size, step, 4);
        if (number != 0)
            return refused("raising swap", number);
    }
    printf("no swap raises it\n");
    return 0;
}
