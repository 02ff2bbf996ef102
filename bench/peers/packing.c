/* Document 02, section 8: columns packed for the mask, and back, in blocks of eight rows by eight
 * columns. A block is one number of 64 bits, and is turned over as a whole. */
#include <string.h>
#include "peers.h"

/* Bit t of byte k becomes bit k of byte t: single bits change places first, then squares of two by two,
 * then of four by four. */
static uint64_t turned_over(uint64_t block)
{
    uint64_t change = (block ^ block >> 7) & 0x00AA00AA00AA00AA;
    block ^= change ^ change << 7;
    change = (block ^ block >> 14) & 0x0000CCCC0000CCCC;
    block ^= change ^ change << 14;
    change = (block ^ block >> 28) & 0x00000000F0F0F0F0;
    return block ^ change ^ change << 28;
}

static uint32_t bytes_of_a_column(uint32_t n)
{
    return n < 3 ? 1 : 1u << (n - 3);
}

static uint32_t rows_of_a_block(uint32_t n)
{
    return n < 3 ? 1u << n : 8;
}

void peer_pack(uint32_t n, uint32_t m, const uint32_t *rows, uint8_t *packed)
{
    uint32_t size = bytes_of_a_column(n), height = rows_of_a_block(n);
    for (uint32_t first = 0; first < m; first += 8)
        for (uint32_t y = 0; y < size; y++) {
            uint64_t block = 0;
            for (uint32_t k = 0; k < height; k++)
                block |= (uint64_t)(rows[8 * y + k] >> first & 255) << 8 * k;
            block = turned_over(block);
            for (uint32_t j = 0; j < 8 && first + j < m; j++)
                packed[(first + j) * size + y] = (uint8_t)(block >> 8 * j);
        }
}

void peer_unpack(uint32_t n, uint32_t m, const uint8_t *packed, uint32_t *rows)
{
    uint32_t size = bytes_of_a_column(n), height = rows_of_a_block(n);
    memset(rows, 0, sizeof rows[0] << n);
    for (uint32_t first = 0; first < m; first += 8)
        for (uint32_t y = 0; y < size; y++) {
            uint64_t block = 0;
            for (uint32_t j = 0; j < 8 && first + j < m; j++)
                block |= (uint64_t)packed[(first + j) * size + y] << 8 * j;
            block = turned_over(block);
            for (uint32_t k = 0; k < height; k++)
                rows[8 * y + k] |= (uint32_t)(block >> 8 * k & 255) << first;
        }
}
