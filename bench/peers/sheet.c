/* Document 01, Complete and Bijective: what the sheet asks beside the figures. */
#include "peers.h"

uint32_t peer_complete(uint32_t n, uint32_t m, const uint32_t *rows)
{
    for (uint32_t k = 0; k < n; k++) {
        uint32_t changed = 0;
        for (uint32_t x = 0; x < 1u << n; x++)
            changed |= rows[x] ^ rows[x ^ 1u << k];
        if (changed != UINT32_MAX >> (32 - m))
            return 0;
    }
    return 1;
}

uint32_t peer_bijective(uint32_t n, uint32_t m, const uint32_t *rows)
{
    uint8_t seen[256] = {0};
    if (n != m)
        return 0;
    for (uint32_t x = 0; x < 1u << n; x++) {
        if (seen[rows[x]])
            return 0;
        seen[rows[x]] = 1;
    }
    return 1;
}
