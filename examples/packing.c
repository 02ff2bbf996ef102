/* A box for the mask shop: reads a box file from standard input, packs its columns, and
 * prints the bytes of each column in hexadecimal, column 1 first. Before it prints it
 * unpacks them again and compares the rows.
 *
 * With the library built, from this directory:
 *
 *     gcc packing.c -I../include -L../target/staticlib -lsatmegwo -o packing
 *     ./packing < aes.box
 */
#include <stdint.h>
#include <stdio.h>
#include <string.h>
#include "common.h"
#include "satmegwo.h"

/* The bytes of column j, of which there are `size`. */
static void print_column(const uint8_t *packed, size_t size, uint32_t j)
{
    printf("column %u ", (unsigned)j);
    for (size_t k = 0; k < size; k++)
        printf("%02x", packed[(j - 1) * size + k]);
    printf("\n");
}

int main(void)
{
    struct file file = read_file(stdin);
    struct box box;
    uint8_t packed[SATMEGWO_PACKED_BYTES];
    uint32_t back[SATMEGWO_MOST_ROWS];
    uint32_t number = box_of(&file, &box);
    if (number != 0)
        return refused("box", number);

    size_t column = box.size < 8 ? 1 : box.size / 8;
    number = satmegwo_pack_columns(box.n, box.m, box.rows, box.size, packed, box.m * column);
    if (number != 0)
        return refused("packing", number);
    number = satmegwo_unpack_columns(box.n, box.m, packed, box.m * column, back, box.size);
    if (number != 0)
        return refused("unpacking", number);
    if (memcmp(box.rows, back, box.size * sizeof back[0]) != 0)
        return 1;
    for (uint32_t j = 1; j <= box.m; j++)
        print_column(packed, column, j);
    return 0;
}
