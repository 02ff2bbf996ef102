/* Dynamic distance of order (i, 1). Figures: the figure, c, d. */
#ifndef DISTANCE_H
#define DISTANCE_H
#include <stdint.h>

void distance_by_single_changes(uint32_t n, uint32_t m, const uint32_t *rows, uint32_t i, uint32_t *figures);

#endif
