/* Satmegwo: a design, which is one S-box with marks to return to while it is tuned.
 *
 * A DESIGN is a box (see satmegwo.h) and marks 1 to 16; at first no mark is set. It is
 * passed to each operation by value, and the operation gives it back as a whole. Setting
 * a mark keeps the box of that moment, and setting it again replaces that box. Returning
 * to a mark brings its box back; all marks remain set, including that one. So directly
 * after a return every figure is the one that the box had when the mark was last set.
 *
 * ANSWERS. The outcome of an operation holds the design and, as `status`, 0 or the number
 * of a refusal (error code). A refused operation gives the design back unchanged, every
 * byte of it. An operation is refused by
 *
 *    6  where a mark, input, column, mask or constant is outside its range
 *   17  where the mark was never set in this design (checked after 6)
 *
 * and the checks of a box, 1 to 4, are those of satmegwo.h.
 *
 * NO BOX. Where satmegwo_design_begin is refused, the design that it gives has no box: n
 * and m are 0, and so is everything else in it. Every operation on such a design is
 * refused by 6 and leaves it as it is, and reading it is refused by 7.
 *
 * NOTHING ELSE. A design that these calls made holds its box and its marks and nothing
 * else: the elements after the rows of the box, and after those of a mark that is set,
 * are 0, and a mark that is not set is 0 throughout. So two such designs with the same
 * box and the same marks are equal, byte for byte.
 *
 * ANY BYTES. A design that other code has made or changed may be passed as well. The
 * answer is then unspecified, but the call reads nothing outside the design, a refused
 * operation gives it back unchanged, and a refused reading writes to no array.
 *
 * This is libsatmegwo_design.a, which can be linked beside libsatmegwo.a; libsatmegwo.so
 * has these calls too. The words, and what is said about threads and arrays, are those of
 * satmegwo.h.
 */
#ifndef SATMEGWO_DESIGN_H
#define SATMEGWO_DESIGN_H
#include "satmegwo.h"

#ifdef __cplusplus
extern "C" {
#endif

/* STACK. As in satmegwo.h: measured on x86-64 (examples/stack.c), no call needs more than
 * this many bytes of stack. Each call passes a design of 17,480 bytes over it. */
#define SATMEGWO_DESIGN_STACK 75000u

/* The number of marks, which are numbered from 1. */
#define SATMEGWO_DESIGN_MARKS 16u

/* A mark: set if `taken` is 1, not set if it is 0. The rows of its S-box are the first
 * 2^n elements of `rows`. */
typedef struct satmegwo_design_snapshot {
    uint32_t taken;
    uint32_t rows[SATMEGWO_MOST_ROWS];
} satmegwo_design_snapshot;

/* A design. The rows of its S-box are the first 2^n elements of `rows`; mark k is
 * marks[k - 1]. A caller may read the fields. A design whose fields a caller has written
 * is no longer one that these calls made. */
typedef struct satmegwo_design {
    uint32_t n;
    uint32_t m;
    uint32_t rows[SATMEGWO_MOST_ROWS];
    satmegwo_design_snapshot marks[SATMEGWO_DESIGN_MARKS];
} satmegwo_design;

/* The design after an operation, and 0 or the number of the refusal. */
typedef struct satmegwo_design_outcome {
    satmegwo_design design;
    uint32_t status;
} satmegwo_design_outcome;

SATMEGWO_ASSERT(sizeof(satmegwo_design_snapshot) == 1028, "a mark has another size");
SATMEGWO_ASSERT(sizeof(satmegwo_design) == 17480, "a design has another size");
SATMEGWO_ASSERT(sizeof(satmegwo_design_outcome) == 17484, "an outcome has another size");

/* Begins a design of this S-box, with no mark set. If it is refused, the design has no
 * box (see NO BOX).
 * Refusals: 1, 2, 3, 4. */
SATMEGWO_MUST_USE
satmegwo_design_outcome satmegwo_design_begin(
    uint32_t n, uint32_t m, const uint32_t *rows, size_t rows_len);

/* Swaps the rows of inputs x and y, which may be the same input or have equal rows. As
 * long as there are only swaps, and marks that are set, each output value is given by as
 * many inputs as before.
 * Refusals: 6. */
SATMEGWO_MUST_USE
satmegwo_design_outcome satmegwo_design_swap(
    satmegwo_design design, uint32_t x, uint32_t y);

/* Adds the affine function (w, b) to column j (a coordinate function): bit j of row x is
 * XORed with w.x XOR b.
 * Refusals: 6. */
SATMEGWO_MUST_USE
satmegwo_design_outcome satmegwo_design_add(
    satmegwo_design design, uint32_t j, uint32_t w, uint32_t b);

/* Sets mark k: it keeps the box of this moment.
 * Refusals: 6. */
SATMEGWO_MUST_USE
satmegwo_design_outcome satmegwo_design_mark(satmegwo_design design, uint32_t k);

/* Returns to mark k: brings back the box of the moment when it was last set.
 * Refusals: 6, 17. */
SATMEGWO_MUST_USE
satmegwo_design_outcome satmegwo_design_return(satmegwo_design design, uint32_t k);

/* Reads the S-box of a design. Nothing is written unless both output arrays have the
 * right length. Returns 0 or the number of a refusal.
 *   rows     written, 2^n elements
 *   figures  written, 2 elements: n, m
 * Refusals: 7. */
SATMEGWO_MUST_USE
uint32_t satmegwo_design_read(
    satmegwo_design design, uint32_t *rows, size_t rows_len,
    uint32_t *figures, size_t figures_len);

#ifdef __cplusplus
}
#endif
#endif
