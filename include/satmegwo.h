/* Satmegwo: a proved analyser of substitution boxes (S-boxes).
 *
 * WORDS.
 *    box              n inputs (1 to 8), m outputs (1 to 32) and 2^n rows
 *    row              rows[x], the output for input x, below 2^m; bit 1 is the lowest
 *    column           column j, from 1 to m, is bit j of the rows
 *    combination      c, from 1 to 2^m - 1: the parity of the ones in (rows[x] & c)
 *    affine function  w.x XOR b, with w below 2^n and b 0 or 1; w.x is the parity of the
 *                     ones in (w & x)
 *    pair             a combination and an affine function; it differs at the inputs
 *                     where the two give different values
 *    truth table      2^n bytes, each 0 or 1
 *    lent array       a buffer of the caller's: a pointer, and the number of its
 *                     elements. One that a call writes to is an output buffer
 *    figure           a number that a call finds; figures go to a lent array
 *    witness          where a figure is reached: c, w, b, a, .., after it in the array
 *    refusal          an error code: a number from 1 to 19 that a call returns when it
 *                     gives no result
 *
 * THE FIELD'S NAMES, and what they are called here.
 *    S-box                     box
 *    component function        combination; c is its output mask
 *    coordinate function       column
 *    Walsh spectrum            spectrum, but its values are half of Walsh's W(w)
 *    linear approximation      satmegwo_component_spectrum gives the entries for output
 *      table (LAT)             mask c, one for each input mask w
 *    linearity                 2^n - 2d, where d is the nonlinearity
 *    difference distribution   XOR table; satmegwo_xor_row gives the row of input
 *      table (DDT)             difference a
 *    differential uniformity   the largest cell of the XOR table
 *    absolute indicator        autocorrelation
 *    algebraic degree          degree, but the LEAST over the combinations (Sage's
 *                              min_degree), where others give the largest
 *    SAC, BIC                  dynamic distance of order (1, 1) and (2, 1). BIC is not
 *                              the correlation of Webster and Tavares
 *
 * THE LIMIT. A combination within the limit i, from 1 to m, has at most i outputs: c has
 * 1 to i ones. With i = m these are all combinations. A call over combinations visits
 * each one within its limit: 41,448 at 32 outputs with i = 4, and 4,294,967,295 with
 * i = 32. The nonlinearity takes about 0.1 microseconds for each at 8 inputs, so 7 to 10
 * minutes for the last; autocorrelation and dynamic distance take six times as long, the
 * degree far less. A call cannot be stopped: satmegwo_parts.h has the same calls over a
 * part of the combinations. With i below m a combination of more outputs may be nearer:
 * the nonlinearity and the degree over all combinations are at most those within i,
 * autocorrelation and dynamic distance at least.
 *
 * FIRST. Among equal figures the combination of fewer outputs comes first, and among
 * those of equally many the smaller c: 1, 2, 4, 3, 5, 6, 7 with three outputs. "The first
 * combination" below means the first in this order.
 *
 * ARRAYS. Every lent array is a pointer and its number of elements (not bytes). An array
 * that is written must not overlap any other array of the same call. An array of no
 * elements may have any pointer, including NULL. The library keeps no pointer after a
 * call has returned.
 *
 * THREADS. Calls share nothing: they keep no state and ask the system for nothing. Any
 * number may run at once, in any threads, as long as no array that one of them writes is
 * used by another.
 *
 * ANSWERS. Every function but satmegwo_version and satmegwo_refusal_text returns 0, or
 * the number of a refusal (enum satmegwo_refusal). A refused call has written to no
 * array. Figures are written to a lent array, which must be exactly as long as the number
 * of figures. The checks run in the order of the numbers (those of a box file, of packed
 * columns, of a sum and of a catalogue in an order of their own, which is given there),
 * and the first that applies gives the number. All lengths (3) are checked before any
 * value (4). Each function below names the refusals it can give, in the order in which
 * it checks for them.
 */
#ifndef SATMEGWO_H
#define SATMEGWO_H
#include <stddef.h>
#include <stdint.h>

#ifdef __cplusplus
extern "C" {
#endif

/* The version of the headers; satmegwo_version tells that of the library. */
#define SATMEGWO_VERSION_MAJOR 1
#define SATMEGWO_VERSION_MINOR 0
#define SATMEGWO_VERSION_PATCH 0
#define SATMEGWO_VERSION 10000u

/* The refusals, which are error codes; satmegwo_refusal_text below has the sentence of
 * each. 17 to 19 are given only by the calls on designs and servers (satmegwo_design.h,
 * satmegwo_server.h), each in a library of its own; 16 is checked at the place of 4. */
enum satmegwo_refusal {
    SATMEGWO_REFUSED_INPUT_WIDTH = 1,
    SATMEGWO_REFUSED_OUTPUT_WIDTH = 2,
    SATMEGWO_REFUSED_READ_LENGTH = 3,
    SATMEGWO_REFUSED_VALUE = 4,
    SATMEGWO_REFUSED_PERMUTATION = 5,
    SATMEGWO_REFUSED_PARAMETER = 6,
    SATMEGWO_REFUSED_WRITTEN_LENGTH = 7,
    SATMEGWO_REFUSED_NO_FUNCTION = 8,
    SATMEGWO_REFUSED_LIST_TOO_SHORT = 9,
    SATMEGWO_REFUSED_FILE_LENGTH = 10,
    SATMEGWO_REFUSED_BOX_COUNT = 11,
    SATMEGWO_REFUSED_OUTPUT_WIDTHS = 12,
    SATMEGWO_REFUSED_CATALOGUE = 13,
    SATMEGWO_REFUSED_NO_ROOM = 14,
    SATMEGWO_REFUSED_NO_RECORD = 15,
    SATMEGWO_REFUSED_UNUSED_BIT = 16,
    SATMEGWO_REFUSED_UNSET_MARK = 17,
    SATMEGWO_REFUSED_NO_PLACE = 18,
    SATMEGWO_REFUSED_PLACE_STATE = 19
};

/* Lengths that are enough for every box, and other bounds. */
#define SATMEGWO_MOST_INPUTS 8u
#define SATMEGWO_MOST_OUTPUTS 32u
#define SATMEGWO_MOST_ROWS 256u              /* rows, truth tables and spectra */
#define SATMEGWO_MOST_COUNTS 65536u          /* a row of the XOR table */
#define SATMEGWO_MOST_CELLS 32640u           /* the list of the largest cells */
#define SATMEGWO_PAIRS_OF_A_COMBINATION 256u /* the nearest pairs of one combination */
#define SATMEGWO_FILE_BYTES 1026u            /* the longest box file */
#define SATMEGWO_PACKED_BYTES 1024u          /* packed columns */
#define SATMEGWO_SHEET_BYTES 332u            /* a sheet; lend exactly this many */
#define SATMEGWO_MOST_BOXES 4u               /* the boxes of a sum */
#define SATMEGWO_CATALOGUE_LEAST 258u        /* a catalogue; its records begin there */
#define SATMEGWO_CATALOGUE_MOST 65535u       /* a catalogue */
#define SATMEGWO_MOST_RECORDS 64u            /* the records of a catalogue */

/* STACK. No proof speaks of the machine's stack. Measured on x86-64 (examples/stack.c, at
 * the widest boxes), no call needs more than this many bytes of it. */
#define SATMEGWO_STACK 52000u

/* What is checked when a program is compiled, from C11 and C++11 on. */
#if defined(__STDC_VERSION__) && __STDC_VERSION__ >= 201112L
#define SATMEGWO_ASSERT(condition, text) _Static_assert(condition, text)
#elif defined(__cplusplus) && __cplusplus >= 201103L
#define SATMEGWO_ASSERT(condition, text) static_assert(condition, text)
#else
#define SATMEGWO_ASSERT(condition, text) struct satmegwo_not_looked_at
#endif

/* What a call returns must be used: gcc, clang and every compiler of C23 and C++17 warn
 * where it is not. A refused call leaves its arrays as they were, so a program that does
 * not check the status may take the previous box's figures for those of this one. */
#if defined(__cplusplus) && __cplusplus >= 201703L
#define SATMEGWO_MUST_USE [[nodiscard]]
#elif defined(__STDC_VERSION__) && __STDC_VERSION__ >= 202311L
#define SATMEGWO_MUST_USE [[nodiscard]]
#elif defined(__GNUC__)
#define SATMEGWO_MUST_USE __attribute__((warn_unused_result))
#else
#define SATMEGWO_MUST_USE
#endif

/* ---- Refusals ---------------------------------------------------------- */

/* The text of an error code: the sentence that says when a call is refused by this
 * number. 0 and numbers that are no refusal have a text too. The text is constant. */
SATMEGWO_MUST_USE
static inline const char *satmegwo_refusal_text(uint32_t number)
{
    static const char *const texts[] = {
        /* 0 */ "accepted",
        /* 1 */ "n is not 1 to 8 (in the two enlargements not 1 to 7, in the bent form "
                "not 2, 4, 6 or 8)",
        /* 2 */ "m is not 1 to 32 (for a row of the XOR table and on a server not 1 to "
                "16, for the raising swap not 1 to 8)",
        /* 3 */ "an array that is read does not have 2^n elements (in the bent form "
                "2^(n/2); packed columns and parts have their own length)",
        /* 4 */ "a row is not below 2^m, or a truth value is above 1",
        /* 5 */ "the permutation of the bent form is not a permutation",
        /* 6 */ "c, w, a, b, k, i, j, an end of a part, or an input or mark of a design "
                "is outside its range",
        /* 7 */ "an output array (other than a list) is not exactly as long as the "
                "result",
        /* 8 */ "no function has this spectrum",
        /* 9 */ "a list is shorter than the number of its cells or pairs",
        /* 10 */ "a box file has a wrong length",
        /* 11 */ "the number of boxes in a sum is not 1 to 4",
        /* 12 */ "the boxes of a sum have different numbers of outputs",
        /* 13 */ "a catalogue breaks one of its rules",
        /* 14 */ "a catalogue has no gap that is long enough, or has 64 records",
        /* 15 */ "a catalogue has no record of this index",
        /* 16 */ "an unused bit of a packed column is set",
        /* 17 */ "a mark of a design was never set",
        /* 18 */ "the place of a server is not 1 to 8",
        /* 19 */ "the place is taken on putting, or empty on asking or withdrawing"
    };
    const size_t count = sizeof texts / sizeof texts[0];
    return number < count ? texts[number] : "no refusal has this number";
}

/* ---- Version ----------------------------------------------------------- */

/* The version of the library: 10000 * major + 100 * minor + patch. */
uint32_t satmegwo_version(void);

/* ---- Spectrum ---------------------------------------------------------- */

/* The Walsh spectrum of a Boolean function, halved: its linear approximation values.
 * out[w] is the number of inputs x where table[x] equals w.x, less 2^(n-1). It lies
 * between -2^(n-1) and 2^(n-1), and is half of Walsh's W(w), the sum over all x of +1
 * where table[x] equals w.x and -1 elsewhere.
 *   table  read, 2^n values of 0 or 1
 *   out    written, 2^n elements
 * Refusals: 1, 3, 4, 7. */
SATMEGWO_MUST_USE
uint32_t satmegwo_spectrum(
    uint32_t n, const uint8_t *table, size_t table_len, int32_t *out, size_t out_len);

/* The inverse Walsh transform: the only truth table that has these spectrum values.
 *   values  read, 2^n elements, any numbers
 *   table   written, 2^n values of 0 or 1
 * Refusals: 1, 3, 7, 8 (no function has these values). */
SATMEGWO_MUST_USE
uint32_t satmegwo_inverse_spectrum(
    uint32_t n, const int32_t *values, size_t values_len,
    uint8_t *table, size_t table_len);

/* The Walsh spectrum, halved, of a component function: the entries of the linear
 * approximation table (LAT) for output mask c. out[w] is the entry for input mask w.
 *   rows  read, 2^n elements below 2^m
 *   c     1 to 2^m - 1
 *   out   written, 2^n elements
 * Refusals: 1, 2, 3, 4, 6, 7. */
SATMEGWO_MUST_USE
uint32_t satmegwo_component_spectrum(
    uint32_t n, uint32_t m, const uint32_t *rows, size_t rows_len, uint32_t c,
    int32_t *out, size_t out_len);

/* ---- Nonlinearity ------------------------------------------------------ */

/* The nonlinearity of an S-box: the least number of inputs at which a combination
 * (component function) within the limit i differs from an affine function, over all such
 * combinations and all affine functions. The linearity is 2^n - 2 * figures[0].
 *   rows     read, 2^n elements below 2^m
 *   i        1 to m
 *   figures  written, 4 elements:
 *              figures[0]  the nonlinearity
 *              figures[1]  c, the first combination that reaches it
 *              figures[2]  w, the first for this c
 *              figures[3]  b, the first for this c and w
 * Refusals: 1, 2, 3, 4, 6, 7. */
SATMEGWO_MUST_USE
uint32_t satmegwo_nonlinearity(
    uint32_t n, uint32_t m, const uint32_t *rows, size_t rows_len, uint32_t i,
    uint32_t *figures, size_t figures_len);

/* All best linear approximations: the pairs of a combination (component function) within
 * the limit i and an affine function that differ at exactly as many inputs as the
 * nonlinearity within i says. To improve a box, every one of these pairs must go, and not
 * the first alone. Each is in the list once, as c * 512 + 2 * w + b: b is the entry's
 * lowest bit, w its next 8 bits, and c the rest. They are in the order of the
 * combinations (see FIRST), then by ascending w, then by ascending b; so the list begins
 * with the witness of satmegwo_nonlinearity. Entries after the last pair are left as they
 * were. A combination has at most 2^n such pairs: 256 entries for each combination within
 * the limit are enough, and there is at least one pair. The call takes about as long as
 * five to six calls of satmegwo_nonlinearity, or fourteen where every combination has
 * such pairs.
 *   rows     read, 2^n elements below 2^m
 *   i        1 to m
 *   list     written, at least as many elements as there are pairs
 *   figures  written, 1 element of 64 bits: the number of pairs
 * Refusals: 1, 2, 3, 4, 6, 7 (figures), 9 (the list is too short; the number of pairs is
 * not told). */
SATMEGWO_MUST_USE
uint32_t satmegwo_nearest_pairs(
    uint32_t n, uint32_t m, const uint32_t *rows, size_t rows_len, uint32_t i,
    uint64_t *list, size_t list_len, uint64_t *figures, size_t figures_len);

/* Adds an affine function to one coordinate function (column): bit j of out[x] is bit j
 * of rows[x] XOR w.x XOR b, and the other bits stay as they are. This leaves the
 * nonlinearity the same, with every i.
 *   rows  read, 2^n elements below 2^m
 *   j     the column, 1 to m
 *   w     below 2^n
 *   b     0 or 1
 *   out   written, 2^n elements
 * Refusals: 1, 2, 3, 4, 6, 7. */
SATMEGWO_MUST_USE
uint32_t satmegwo_add_to_column(
    uint32_t n, uint32_t m, const uint32_t *rows, size_t rows_len, uint32_t j, uint32_t w,
    uint32_t b, uint32_t *out, size_t out_len);

/* ---- XOR table --------------------------------------------------------- */

/* One row of the difference distribution table (DDT), here called XOR table, of a box of
 * at most 16 outputs: counts[beta] is the number of x with rows[x] XOR rows[x XOR a] =
 * beta.
 *   m       1 to 16
 *   rows    read, 2^n elements below 2^m
 *   a       1 to 2^n - 1
 *   counts  written, 2^m elements
 * Refusals: 1, 2, 3, 4, 6, 7. */
SATMEGWO_MUST_USE
uint32_t satmegwo_xor_row(
    uint32_t n, uint32_t m, const uint32_t *rows, size_t rows_len, uint32_t a,
    uint16_t *counts, size_t counts_len);

/* The differential uniformity: the largest cell of the XOR table (DDT), over all a from 1
 * to 2^n - 1 and all beta.
 *   rows     read, 2^n elements below 2^m
 *   figures  written, 3 elements:
 *              figures[0]  the largest count
 *              figures[1]  a, the first that reaches it
 *              figures[2]  beta, the first for this a
 * Refusals: 1, 2, 3, 4, 7. */
SATMEGWO_MUST_USE
uint32_t satmegwo_largest_cell(
    uint32_t n, uint32_t m, const uint32_t *rows, size_t rows_len,
    uint32_t *figures, size_t figures_len);

/* All cells of the XOR table (DDT) that reach the largest count. Each is in the list
 * once, as a * 4294967296 + beta, by ascending a, then by ascending beta. Entries after
 * the last cell are left as they were. 32,640 entries are enough for every box.
 *   rows     read, 2^n elements below 2^m
 *   list     written, at least as many elements as there are cells
 *   figures  written, 1 element: the number of cells
 * Refusals: 1, 2, 3, 4, 7 (figures), 9 (the list is too short; the number of cells is
 * not told). */
SATMEGWO_MUST_USE
uint32_t satmegwo_largest_cells(
    uint32_t n, uint32_t m, const uint32_t *rows, size_t rows_len,
    uint64_t *list, size_t list_len, uint32_t *figures, size_t figures_len);

/* ---- Autocorrelation and dynamic distance ------------------------------- */

/* The absolute indicator: the largest |r(s)| of the autocorrelation r, over all
 * combinations (component functions) within the limit i and all s from 1 to 2^n - 1. r(s)
 * is the sum over x of +1 where the combination is equal at x and x XOR s, and -1
 * elsewhere.
 *   rows     read, 2^n elements below 2^m
 *   i        1 to m
 *   figures  written, 3 elements:
 *              figures[0]  the largest |r(s)|
 *              figures[1]  c, the first combination that reaches it
 *              figures[2]  s, the first for this c
 * Refusals: 1, 2, 3, 4, 6, 7. */
SATMEGWO_MUST_USE
uint32_t satmegwo_autocorrelation(
    uint32_t n, uint32_t m, const uint32_t *rows, size_t rows_len, uint32_t i,
    uint32_t *figures, size_t figures_len);

/* The dynamic distance of order (i, j), which measures the strict avalanche criterion
 * (SAC) and the bit independence criterion (BIC), doubled so that it is a whole number:
 * the largest |2^(n-1) - (number of x at which combination c changes when the bits of d
 * are flipped)| over all combinations c within the limit i and all d with 1 to j ones.
 * SAC holds when order (1, 1) gives 0, and BIC when order (2, 1) does. This BIC is not
 * the correlation of avalanche variables of Webster and Tavares.
 *   rows     read, 2^n elements below 2^m
 *   i        1 to m
 *   j        1 to n
 *   figures  written, 3 elements:
 *              figures[0]  the doubled distance
 *              figures[1]  c, the first combination that reaches it
 *              figures[2]  d, the first for this c
 * Refusals: 1, 2, 3, 4, 6, 7. */
SATMEGWO_MUST_USE
uint32_t satmegwo_dynamic_distance(
    uint32_t n, uint32_t m, const uint32_t *rows, size_t rows_len, uint32_t i, uint32_t j,
    uint32_t *figures, size_t figures_len);

/* ---- Normal form, completeness, bijectivity ----------------------------- */

/* The algebraic normal form (ANF): out[u] is the XOR of table[x] over all x whose ones
 * lie within u. Applied to its own result, the function gives the truth table back.
 *   table  read, 2^n values of 0 or 1
 *   out    written, 2^n elements
 * Refusals: 1, 3, 4, 7. */
SATMEGWO_MUST_USE
uint32_t satmegwo_normal_form(
    uint32_t n, const uint8_t *table, size_t table_len, uint8_t *out, size_t out_len);

/* The least algebraic degree of all combinations (component functions) within the limit i
 * (Sage's min_degree; what others call the algebraic degree of an S-box is the largest).
 * The degree of a combination is the most ones in any u at which its normal form has the
 * coefficient 1, and 0 if there is none: a constant has degree 0.
 *   rows     read, 2^n elements below 2^m
 *   i        1 to m
 *   figures  written, 2 elements:
 *              figures[0]  the degree
 *              figures[1]  c, the first combination that has it
 * Refusals: 1, 2, 3, 4, 6, 7. */
SATMEGWO_MUST_USE
uint32_t satmegwo_degree(
    uint32_t n, uint32_t m, const uint32_t *rows, size_t rows_len, uint32_t i,
    uint32_t *figures, size_t figures_len);

/* Completeness: whether every input bit changes every column (coordinate function) at
 * some x.
 *   rows     read, 2^n elements below 2^m
 *   figures  written, 1 element: 1 for yes, 0 for no
 * Refusals: 1, 2, 3, 4, 7. */
SATMEGWO_MUST_USE
uint32_t satmegwo_complete(
    uint32_t n, uint32_t m, const uint32_t *rows, size_t rows_len,
    uint32_t *figures, size_t figures_len);

/* Bijectivity, whether the S-box is a permutation: whether n = m and no two rows are
 * equal.
 *   rows     read, 2^n elements below 2^m
 *   figures  written, 1 element: 1 for yes, 0 for no
 * Refusals: 1, 2, 3, 4, 7. */
SATMEGWO_MUST_USE
uint32_t satmegwo_bijective(
    uint32_t n, uint32_t m, const uint32_t *rows, size_t rows_len,
    uint32_t *figures, size_t figures_len);

/* ---- Boxes made from boxes ---------------------------------------------- */

/* A Boolean function with one more input: for x below 2^n, out[x] is table[x] and
 * out[2^n + x] is table[x XOR 2^(k-1)] XOR a.
 *   n      1 to 7
 *   table  read, 2^n values of 0 or 1
 *   k      1 to n
 *   a      0 or 1
 *   out    written, 2^(n+1) elements
 * Refusals: 1, 3, 4, 6, 7. */
SATMEGWO_MUST_USE
uint32_t satmegwo_enlarge_column(
    uint32_t n, const uint8_t *table, size_t table_len, uint32_t k, uint32_t a,
    uint8_t *out, size_t out_len);

/* An S-box of n inputs and n outputs becomes one of n + 1 inputs and n + 1 outputs: its
 * columns are enlarged by the same k with constant 0, and the new highest output bit is
 * the truth table enlarged by k with constant 1. A bijective box gives a bijective one.
 *   n      1 to 7
 *   rows   read, 2^n elements below 2^n
 *   table  read, 2^n values of 0 or 1
 *   k      1 to n
 *   out    written, 2^(n+1) elements
 * Refusals: 1, 3 (either), 4 (either), 6, 7. */
SATMEGWO_MUST_USE
uint32_t satmegwo_enlarge_box(
    uint32_t n, const uint32_t *rows, size_t rows_len,
    const uint8_t *table, size_t table_len, uint32_t k, uint32_t *out, size_t out_len);

/* A bent function, by the construction of Maiorana and McFarland. With h = n / 2,
 * out[x * 2^h + y] is the parity of the ones in (permutation[x] & y), XOR table[x]. Every
 * value of its spectrum is 2^(h-1) or -2^(h-1).
 *   n            2, 4, 6 or 8
 *   permutation  read, 2^h elements: each of 0 to 2^h - 1 once
 *   table        read, 2^h values of 0 or 1
 *   out          written, 2^n elements
 * Refusals: 1, 3 (either), 4 (table), 5 (also for an entry that is too large), 7. */
SATMEGWO_MUST_USE
uint32_t satmegwo_bent_function(
    uint32_t n, const uint8_t *permutation, size_t permutation_len,
    const uint8_t *table, size_t table_len, uint8_t *out, size_t out_len);

/* ---- Box files ----------------------------------------------------------- */

/* Checks whether n, m and rows are an S-box: the checks 1 to 4 of a box of 1 to 32
 * outputs.
 *   rows  read, 2^n elements below 2^m
 * Refusals: 1, 2, 3, 4. */
SATMEGWO_MUST_USE
uint32_t satmegwo_check_box(
    uint32_t n, uint32_t m, const uint32_t *rows, size_t rows_len);

/* Reads an S-box from the bytes of a box file: n and m in a byte each, then the 2^n rows,
 * four bytes each, low byte first.
 *   file     read, 2 + 4 * 2^n bytes
 *   rows     written, 2^n elements; file[0] is n
 *   figures  written, 2 elements: n, m
 * Refusals: 10 (under 2 bytes), 1, 2, 10 (another length), 4, 7 (rows), 7 (figures). */
SATMEGWO_MUST_USE
uint32_t satmegwo_read_box(
    const uint8_t *file, size_t file_len, uint32_t *rows, size_t rows_len,
    uint32_t *figures, size_t figures_len);

/* Writes the box file of an S-box. What either call gives is accepted by the other, which
 * gives back what was there before.
 *   rows  read, 2^n elements below 2^m
 *   file  written, 2 + 4 * 2^n bytes
 * Refusals: 1, 2, 3, 4, 7. */
SATMEGWO_MUST_USE
uint32_t satmegwo_write_box(
    uint32_t n, uint32_t m, const uint32_t *rows, size_t rows_len,
    uint8_t *file, size_t file_len);

/* The sheet of a box file, with all figures of the S-box, as the program boxsheet prints
 * it: nine lines; or, for a file that is not a box file, the one line `refused N`, which
 * is not a refusal of this call. No zero byte follows the text, and the bytes after it
 * are left as they were.
 *   file     read, any bytes
 *   text     written, 332 bytes
 *   figures  written, 1 element: the length of the sheet in bytes
 * Refusals: 7 (text), 7 (figures). */
SATMEGWO_MUST_USE
uint32_t satmegwo_sheet(
    const uint8_t *file, size_t file_len, uint8_t *text, size_t text_len,
    uint32_t *figures, size_t figures_len);

/* ---- Boxes added together ------------------------------------------------ */

/* The nonlinearity of the sum (XOR) of one to four S-boxes: a box whose inputs are all
 * their inputs, N of them, up to 32. The lowest n1 bits of the sum's input x are the
 * input of box 1, the next n2 that of box 2, and so on; the sum's output is the XOR of
 * their rows. The figure is the least number of inputs, of all 2^N, at which a
 * combination of the sum within the limit i differs from an affine function of N inputs.
 * It is computed as 2^(N-1) less half the largest product of the boxes' largest
 * magnitudes of Walsh's W(w), and proved to be that least number. Boxes after the first
 * `count` are not read: the outcome does not depend on their arguments. Lend NULL and 0
 * for their rows.
 *   count    the number of boxes, 1 to 4
 *   rows1    read, 2^n1 elements below 2^m1; the same for each of the first `count` boxes
 *   i        1 to m1
 *   figures  written, 3 + count elements:
 *              figures[0]          the nonlinearity of the sum, at most 2^31
 *              figures[1]          c, the first combination that reaches it
 *              figures[2]          the input mask of box 1, the first for this c
 *              ..                  then those of box 2, 3, 4, up to `count`
 *              figures[2 + count]  b
 *            The mask of the affine function has box 1's mask in its lowest n1 bits, box
 *            2's in the next n2, and so on.
 * Refusals: 11, then 1, 2, 3, 4 of box 1, then of box 2, 3, 4 up to `count`, then 12, 6,
 * 7. */
SATMEGWO_MUST_USE
uint32_t satmegwo_sum_nonlinearity(
    uint32_t count,
    uint32_t n1, uint32_t m1, const uint32_t *rows1, size_t rows1_len,
    uint32_t n2, uint32_t m2, const uint32_t *rows2, size_t rows2_len,
    uint32_t n3, uint32_t m3, const uint32_t *rows3, size_t rows3_len,
    uint32_t n4, uint32_t m4, const uint32_t *rows4, size_t rows4_len,
    uint32_t i, uint32_t *figures, size_t figures_len);

/* An S-box, for satmegwo_sum_of_boxes. */
typedef struct satmegwo_box {
    uint32_t n;
    uint32_t m;
    const uint32_t *rows;
    size_t rows_len;
} satmegwo_box;

/* satmegwo_sum_nonlinearity of the first `count` boxes of an array. No box after them is
 * read, and none at all where `count` is not 1 to 4: then the call is refused by 11,
 * whatever the pointer. */
SATMEGWO_MUST_USE
static inline uint32_t satmegwo_sum_of_boxes(
    const satmegwo_box *boxes, uint32_t count, uint32_t i,
    uint32_t *figures, size_t figures_len)
{
    const satmegwo_box none = {0, 0, NULL, 0};
    satmegwo_box four[SATMEGWO_MOST_BOXES];
    uint32_t number, k;
    for (k = 0; k < SATMEGWO_MOST_BOXES; k++)
        four[k] = count <= SATMEGWO_MOST_BOXES && k < count ? boxes[k] : none;
    number = satmegwo_sum_nonlinearity(count,
        four[0].n, four[0].m, four[0].rows, four[0].rows_len,
        four[1].n, four[1].m, four[1].rows, four[1].rows_len,
        four[2].n, four[2].m, four[2].rows, four[2].rows_len,
        four[3].n, four[3].m, four[3].rows, four[3].rows_len,
        i, figures, figures_len);
    return number;
}

/* ---- Catalogues ----------------------------------------------------------- */

/* A catalogue keeps the box files of up to 64 S-boxes in one buffer of 258 to 65,535
 * bytes. It begins with the count of its records, two bytes, low byte first; then come 64
 * places for an offset and a length, two bytes each, low byte first. The first places, as
 * many as the count says, are used and sorted by offset; the others are zero. Each record
 * is a box file that is accepted. Records lie at 258 or above, end inside the buffer and
 * do not overlap, and all bytes outside count, places and records are zero: so a buffer
 * of zeros is an empty catalogue. A buffer that breaks one of these rules is refused by
 * 13, which every call below checks first. An index counts the records from 0 in the
 * order of the places. */

/* Checks a catalogue.
 *   catalogue  read
 *   figures    written, 1 element: the number of records
 * Refusals: 13, 7. */
SATMEGWO_MUST_USE
uint32_t satmegwo_check_catalogue(
    const uint8_t *catalogue, size_t catalogue_len,
    uint32_t *figures, size_t figures_len);

/* Adds a box file, at the start of the lowest gap that is long enough.
 *   catalogue  read and written
 *   file       read, a box file
 *   figures    written, 1 element: the index of the new record
 * Refusals: 13, then those of the file (10, 1, 2, 10, 4), 7 (figures), 14. */
SATMEGWO_MUST_USE
uint32_t satmegwo_add_record(
    uint8_t *catalogue, size_t catalogue_len, const uint8_t *file, size_t file_len,
    uint32_t *figures, size_t figures_len);

/* Removes a record: its bytes are cleared, and the index of each record after it becomes
 * one lower. A record that is added and then removed at once leaves the catalogue as it
 * was before.
 *   catalogue  read and written
 * Refusals: 13, 15. */
SATMEGWO_MUST_USE
uint32_t satmegwo_remove_record(uint8_t *catalogue, size_t catalogue_len, uint32_t index);

/* Where a record lies: its bytes are catalogue[offset] to catalogue[offset + length - 1],
 * and satmegwo_read_box takes them as they stand.
 *   catalogue  read
 *   figures    written, 2 elements: offset, length
 * Refusals: 13, 15, 7. */
SATMEGWO_MUST_USE
uint32_t satmegwo_fetch_record(
    const uint8_t *catalogue, size_t catalogue_len, uint32_t index,
    uint32_t *figures, size_t figures_len);

/* Moves the records down to start at 258 without gaps; their order and their bytes stay.
 * Directly after this call, adding an accepted box file is refused by 14 only if there
 * are 64 records or too few free bytes in all.
 *   catalogue  read and written
 * Refusals: 13. */
SATMEGWO_MUST_USE
uint32_t satmegwo_compact_catalogue(uint8_t *catalogue, size_t catalogue_len);

/* ---- Packed columns ------------------------------------------------------ */

/* The coordinate functions (columns) of an S-box, packed for the mask: column 1 first,
 * the truth values in input order, eight to a byte, lowest bit first. A column takes
 * 2^n / 8 bytes; with n below 3 it takes one byte, whose unused high bits are 0. With s
 * bytes to a column, the value of column j at input x is bit (x mod 8) of byte
 * (j - 1) * s + x / 8, where bit 0 is the lowest.
 *   rows    read, 2^n elements below 2^m
 *   packed  written, m * s bytes
 * Refusals: 1, 2, 3, 4, 7. */
SATMEGWO_MUST_USE
uint32_t satmegwo_pack_columns(
    uint32_t n, uint32_t m, const uint32_t *rows, size_t rows_len,
    uint8_t *packed, size_t packed_len);

/* The S-box of packed columns: the inverse of satmegwo_pack_columns. What either call
 * gives is accepted by the other, which gives back what was there before.
 *   packed  read, m * s bytes; with n below 3 only the lowest 2^n bits of each may be set
 *   rows    written, 2^n elements
 * Refusals: 1, 2, 3 (the packed array has another length), 16, 7. */
SATMEGWO_MUST_USE
uint32_t satmegwo_unpack_columns(
    uint32_t n, uint32_t m, const uint8_t *packed, size_t packed_len,
    uint32_t *rows, size_t rows_len);

/* ---- Improving a box ----------------------------------------------------- */

/* The smallest swap of two different rows that raises the nonlinearity over all
 * combinations. Swaps are ordered by the number of bits in which the two rows differ,
 * then by the lower input, then by the higher; the call gives the first one after which
 * the nonlinearity is higher. It gives "none" exactly when no swap of two different rows
 * raises it. The call does not change `rows`; the caller makes the swap.
 *   m        1 to 8
 *   rows     read, 2^n elements below 2^m
 *   figures  written, 4 elements: 1, the lower input, the higher input, the new figure;
 *            or for "none" 0, 0, 0, 0
 * Refusals: 1, 2, 3, 4, 7. */
SATMEGWO_MUST_USE
uint32_t satmegwo_raising_swap(
    uint32_t n, uint32_t m, const uint32_t *rows, size_t rows_len,
    uint32_t *figures, size_t figures_len);

#ifdef __cplusplus
}
#endif

#endif
