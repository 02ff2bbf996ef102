/* Wrong calls on a design. */
#include "satmegwo_design.h"
#include "wrong.h"

RIGHT(satmegwo_design_begin);
RIGHT(satmegwo_design_swap);
RIGHT(satmegwo_design_return);
RIGHT(satmegwo_design_mark);

/* Leaves something in a mark that is not set. */
satmegwo_design_outcome satmegwo_design_begin(uint32_t n, uint32_t m, const uint32_t *rows, size_t rows_len)
{
    satmegwo_design_outcome outcome = right_satmegwo_design_begin(n, m, rows, rows_len);
    if (is_wrong("unset-mark-used") && outcome.status == 0)
        outcome.design.marks[15].rows[0] = 1;
    return outcome;
}

/* Changes the design when it refuses. */
satmegwo_design_outcome satmegwo_design_swap(satmegwo_design design, uint32_t x, uint32_t y)
{
    satmegwo_design_outcome outcome = right_satmegwo_design_swap(design, x, y);
    if (is_wrong("design-changed-when-refused") && outcome.status != 0)
        outcome.design.rows[255] ^= 1;
    return outcome;
}

static volatile uint32_t seen;

/* Reads behind a design. */
satmegwo_design_outcome satmegwo_design_mark(satmegwo_design design, uint32_t k)
{
    if (is_wrong("reads-behind-a-design"))
        seen = (&design.n)[4 + sizeof design / sizeof design.n];
    return right_satmegwo_design_mark(design, k);
}

/* Forgets the mark that it returns to. */
satmegwo_design_outcome satmegwo_design_return(satmegwo_design design, uint32_t k)
{
    satmegwo_design_outcome outcome = right_satmegwo_design_return(design, k);
    if (is_wrong("mark-forgotten") && outcome.status == 0)
        outcome.design.marks[k - 1].taken = 0;
    return outcome;
}
