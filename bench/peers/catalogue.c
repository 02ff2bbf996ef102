/* Document 02, section 7: boxes in one buffer. Each call checks the whole catalogue first, in one pass
 * from record to record, eight bytes of a gap at a time; then whole parts are moved or cleared. */
#include <string.h>
#include "peers.h"

#define FIRST 258
#define LONGEST 65535
#define MOST_RECORDS 64

enum { ACCEPTED = 0, NO_BOX = 10, NO_CATALOGUE = 13, NO_ROOM = 14, NO_RECORD = 15 };

static uint32_t word(const uint8_t *bytes)
{
    return bytes[0] + 256u * bytes[1];
}

static void set_word(uint8_t *bytes, size_t number)
{
    bytes[0] = (uint8_t)number;
    bytes[1] = (uint8_t)(number >> 8);
}

/* A place of the directory: offset, then length. */
static size_t place(uint32_t index)
{
    return 2 + 4 * (size_t)index;
}

static int all_zero(const uint8_t *bytes, size_t size)
{
    size_t k = 0;
    for (; k + 8 <= size; k += 8) {
        uint64_t eight;
        memcpy(&eight, bytes + k, sizeof eight);
        if (eight != 0)
            return 0;
    }
    for (; k < size; k++)
        if (bytes[k] != 0)
            return 0;
    return 1;
}

/* All rows are below 2^m if their OR is; with 32 outputs any are. */
static int is_box(const uint8_t *file, size_t length)
{
    if (length < 2 || file[0] < 1 || file[0] > 8 || file[1] < 1 || file[1] > 32)
        return 0;
    uint32_t n = file[0], m = file[1], all = 0;
    if (length != 2 + ((size_t)4 << n))
        return 0;
    if (m == 32)
        return 1;
    for (uint32_t x = 0; x < 1u << n; x++) {
        uint32_t row;
        memcpy(&row, file + 2 + 4 * x, sizeof row);
        all |= row;
    }
    return all >> m == 0;
}

static int is_catalogue(const uint8_t *catalogue, size_t size)
{
    if (size < FIRST || size > LONGEST)
        return 0;
    uint32_t records = word(catalogue);
    if (records > MOST_RECORDS || !all_zero(catalogue + place(records), FIRST - place(records)))
        return 0;
    size_t end = FIRST;
    for (uint32_t k = 0; k < records; k++) {
        size_t offset = word(catalogue + place(k)), length = word(catalogue + place(k) + 2);
        if (offset < end || offset + length > size || !all_zero(catalogue + end, offset - end) ||
            !is_box(catalogue + offset, length))
            return 0;
        end = offset + length;
    }
    return all_zero(catalogue + end, size - end);
}

uint32_t peer_check_catalogue(const uint8_t *catalogue, size_t size, uint32_t *records)
{
    if (!is_catalogue(catalogue, size))
        return NO_CATALOGUE;
    *records = word(catalogue);
    return ACCEPTED;
}

uint32_t peer_add_record(uint8_t *catalogue, size_t size, const uint8_t *file, size_t length, uint32_t *index)
{
    if (!is_catalogue(catalogue, size))
        return NO_CATALOGUE;
    if (!is_box(file, length))
        return NO_BOX;
    uint32_t records = word(catalogue), k = 0;
    if (records == MOST_RECORDS)
        return NO_ROOM;
    size_t start = FIRST;
    for (; k < records && word(catalogue + place(k)) - start < length; k++)
        start = word(catalogue + place(k)) + word(catalogue + place(k) + 2);
    if (k == records && size - start < length)
        return NO_ROOM;
    memmove(catalogue + place(k + 1), catalogue + place(k), 4 * (records - k));
    set_word(catalogue + place(k), start);
    set_word(catalogue + place(k) + 2, length);
    set_word(catalogue, records + 1);
    memcpy(catalogue + start, file, length);
    *index = k;
    return ACCEPTED;
}

uint32_t peer_remove_record(uint8_t *catalogue, size_t size, uint32_t index)
{
    if (!is_catalogue(catalogue, size))
        return NO_CATALOGUE;
    uint32_t records = word(catalogue);
    if (index >= records)
        return NO_RECORD;
    memset(catalogue + word(catalogue + place(index)), 0, word(catalogue + place(index) + 2));
    memmove(catalogue + place(index), catalogue + place(index + 1), 4 * (records - 1 - index));
    memset(catalogue + place(records - 1), 0, 4);
    set_word(catalogue, records - 1);
    return ACCEPTED;
}

uint32_t peer_compact_catalogue(uint8_t *catalogue, size_t size)
{
    if (!is_catalogue(catalogue, size))
        return NO_CATALOGUE;
    size_t next = FIRST, end = FIRST;
    for (uint32_t k = 0; k < word(catalogue); k++) {
        size_t offset = word(catalogue + place(k)), length = word(catalogue + place(k) + 2);
        memmove(catalogue + next, catalogue + offset, length);
        set_word(catalogue + place(k), next);
        next += length;
        end = offset + length;
    }
    memset(catalogue + next, 0, end - next);
    return ACCEPTED;
}
