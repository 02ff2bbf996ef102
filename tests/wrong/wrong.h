/* A layer over a library that makes it wrong in one way, which the environment names. The calls
 * below it have the names right_..; tests/wrong/run puts the two together. */
#ifndef WRONG_H
#define WRONG_H
#include <stdlib.h>
#include <string.h>

/* The right call of this name. */
#define RIGHT(call) extern __typeof__(call) right_##call

static inline int is_wrong(const char *fault)
{
    const char *chosen = getenv("SATMEGWO_WRONG");
    return chosen != NULL && strcmp(chosen, fault) == 0;
}

#endif
