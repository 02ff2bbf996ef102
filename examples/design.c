/* A tuning run: a box is tuned by swaps and by an addition to a column, its nonlinearity is
 * looked at after each step, and a step that did not raise it is taken back.
 *
 * With both libraries built, from this directory:
 *
 *     gcc design.c -I../include -L../target/staticlib -lsatmegwo_design -lsatmegwo -o design
 *     ./design
 */
#include <stdint.h>
#include <stdio.h>
#include "satmegwo.h"
#include "satmegwo_design.h"

#define BEST 1
#define START 2

static satmegwo_design design;

/* Takes over the design of an operation, and says why if it was refused. */
static uint32_t take(const char *step, satmegwo_design_outcome outcome)
{
    design = outcome.design;
    if (outcome.status != 0)
        printf("%-16s refused %u: %s\n", step, (unsigned)outcome.status, satmegwo_refusal_text(outcome.status));
    return outcome.status;
}

/* The nonlinearity of the design's box over all combinations; its rows on the same line. */
static uint32_t look(const char *step)
{
    uint32_t rows[16], widths[2], figures[4];
    if (satmegwo_design_read(design, rows, 16, widths, 2) != 0
        || satmegwo_nonlinearity(widths[0], widths[1], rows, 16, widths[1], figures, 4) != 0)
        return 0;
    printf("%-16s nonlinearity %u at (%u, %u, %u):", step, (unsigned)figures[0], (unsigned)figures[1], (unsigned)figures[2], (unsigned)figures[3]);
    for (size_t x = 0; x < 16; x++)
        printf(" %u", (unsigned)rows[x]);
    printf("\n");
    return figures[0];
}

int main(void)
{
    static const uint32_t rows[16] = {0, 1, 2, 3, 4, 5, 6, 7, 8, 9, 10, 11, 12, 13, 15, 14};
    if (take("begin", satmegwo_design_begin(4, 4, rows, 16)) != 0)
        return 1;
    take("return to 1", satmegwo_design_return(design, BEST));
    take("mark 17", satmegwo_design_mark(design, 17));
    take("mark 2", satmegwo_design_mark(design, START));
    take("mark 1", satmegwo_design_mark(design, BEST));
    uint32_t best = look("begin");

    static const uint32_t swaps[][2] = {{0, 3}, {5, 6}, {1, 10}, {2, 12}, {7, 9}, {4, 15}, {0, 16}};
    for (size_t i = 0; i < sizeof swaps / sizeof swaps[0]; i++) {
        char step[32];
        snprintf(step, sizeof step, "swap %u and %u", (unsigned)swaps[i][0], (unsigned)swaps[i][1]);
        if (take(step, satmegwo_design_swap(design, swaps[i][0], swaps[i][1])) != 0)
            continue;
        uint32_t found = look(step);
        if (found > best) {
            best = found;
            take("mark 1", satmegwo_design_mark(design, BEST));
        } else if (found < best) {
            take("return to 1", satmegwo_design_return(design, BEST));
        }
    }
    take("add to column 2", satmegwo_design_add(design, 2, 5, 1));
    look("add to column 2");
    take("return to 1", satmegwo_design_return(design, BEST));
    look("return to 1");
    take("return to 2", satmegwo_design_return(design, START));
    look("return to 2");
    return 0;
}
