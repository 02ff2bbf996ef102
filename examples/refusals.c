/* The error codes of the library (its refusals): prints 0, each number from 1 to 19, and the
 * first and the last number that is no refusal, with its text.
 *
 * The text is in the header, so that no library is linked. From this directory:
 *
 *     gcc refusals.c -I../include -o refusals && ./refusals
 */
#include <stdint.h>
#include <stdio.h>
#include "satmegwo.h"

static void print_text(uint32_t number)
{
    printf("%u %s\n", (unsigned)number, satmegwo_refusal_text(number));
}

int main(void)
{
    for (uint32_t number = 0; number <= SATMEGWO_REFUSED_PLACE_STATE + 1u; number++)
        print_text(number);
    print_text(UINT32_MAX);
    return 0;
}
