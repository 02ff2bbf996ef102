/* The nonlinearity of the S-box 3 1 4 0 2 5 6 7 within two limits, its differential uniformity
 * (largest XOR cell), its degree, the nonlinearity of two boxes added together, and refusals.
 *
 * With the library built, from this directory:
 *
 *     gcc example.c -I../include -L../target/staticlib -lsatmegwo -o example && ./example
 */
#include <stdint.h>
#include <stdio.h>
#include "common.h"
#include "satmegwo.h"

/* The nonlinearity over the combinations of at most i outputs. */
static int print_nonlinearity(const uint32_t *rows, uint32_t i)
{
    uint32_t f[4];
    uint32_t number = satmegwo_nonlinearity(3, 3, rows, 8, i, f, 4);
    if (number != 0)
        return refused("nonlinearity", number);
    printf("nonlinearity %u with at most %u outputs: combination %u against w = %u, b = %u\n",
           (unsigned)f[0], (unsigned)i, (unsigned)f[1], (unsigned)f[2], (unsigned)f[3]);
    return 0;
}

/* Three figures are written here, so three elements are lent. */
static int print_largest_cell(const uint32_t *rows)
{
    uint32_t f[3];
    uint32_t number = satmegwo_largest_cell(3, 3, rows, 8, f, 3);
    if (number != 0)
        return refused("largest cell", number);
    printf("largest XOR cell %u: a = %u, beta = %u\n", (unsigned)f[0], (unsigned)f[1], (unsigned)f[2]);
    return 0;
}

static int print_degree(const uint32_t *rows)
{
    uint32_t f[2];
    uint32_t number = satmegwo_degree(3, 3, rows, 8, 3, f, 2);
    if (number != 0)
        return refused("degree", number);
    printf("degree %u: combination %u\n", (unsigned)f[0], (unsigned)f[1]);
    return 0;
}

/* The box and a second one with two inputs, added together: a box of five inputs. */
static int print_sum(const uint32_t *rows)
{
    const uint32_t second[4] = {0, 5, 3, 6};
    const satmegwo_box boxes[2] = {{3, 3, rows, 8}, {2, 3, second, 4}};
    uint32_t f[5];
    uint32_t number = satmegwo_sum_of_boxes(boxes, 2, 1, f, 5);
    if (number != 0)
        return refused("sum", number);
    printf("sum of two boxes %u with at most 1 output: combination %u against w = %u and %u, b = %u\n",
           (unsigned)f[0], (unsigned)f[1], (unsigned)f[2], (unsigned)f[3], (unsigned)f[4]);
    return 0;
}

/* Five boxes are too many, and none is read: the first array has one box, and the second is NULL. */
static int print_too_many(const uint32_t *rows)
{
    const satmegwo_box one[1] = {{3, 3, rows, 8}};
    uint32_t f[8];
    uint32_t number = satmegwo_sum_of_boxes(one, 5, 1, f, 8);
    if (number != SATMEGWO_REFUSED_BOX_COUNT || satmegwo_sum_of_boxes(NULL, 5, 1, f, 8) != number)
        return 1;
    refused("sum of five boxes", number);
    return 0;
}

int main(void)
{
    const uint32_t rows[8] = {3, 1, 4, 0, 2, 5, 6, 7};
    uint32_t figures[4], number;

    /* All three outputs together are affine; no two of them are. */
    if (print_nonlinearity(rows, 3) != 0 || print_nonlinearity(rows, 2) != 0)
        return 1;
    if (print_largest_cell(rows) != 0 || print_degree(rows) != 0 || print_sum(rows) != 0 || print_too_many(rows) != 0)
        return 1;

    /* With two outputs the first row that is not below 4 stops the call. */
    number = satmegwo_nonlinearity(3, 2, rows, 8, 2, figures, 4);
    if (number != SATMEGWO_REFUSED_VALUE)
        return 1;
    refused("with m = 2", number);
    return 0;
}
