/* Satmegwo: an evaluation server, which analyses up to eight S-boxes for their
 * nonlinearity, one combination (component function) a step. The words "box",
 * "combination" and "first" are those of satmegwo.h, and so are the numbers of the
 * refusals (error codes).
 *
 * A server is a value: it is passed to a call, the call gives it back, and the library
 * keeps nothing of it. At first it is empty. Its places are 1 to 8.
 *
 * A STEP examines one combination, not examined before, of the next unfinished box after
 * the place last served, in a circle, from place 1 at the start; with none unfinished it
 * does nothing. A box that is not withdrawn is finished within 8 x (2^m - 1) steps of
 * being put there, whatever is called for other places, and then has the figure and the
 * witness that satmegwo_nonlinearity gives with the limit m.
 *
 * A server that other code has made or changed may hold any bytes. No call reads or
 * writes outside of it and of the array that the call is lent, and a refused call gives
 * it back as it was. It still terminates: a place with invalid widths counts as finished,
 * so after 8 x 65,535 steps nothing is unfinished. But its figures may be those of no
 * box.
 *
 * Refusals: 18, the place is not 1 to 8; then 19, the place is taken (on putting) or
 * empty (on asking and withdrawing); then those of a box, where 2 means that m is not 1
 * to 16. A refused call gives the server back as it was, every field of it, and writes to
 * no array.
 *
 * This is libsatmegwo_server.a, which can be linked beside libsatmegwo.a; libsatmegwo.so
 * has these calls too. What satmegwo.h says about threads and arrays holds here.
 */
#ifndef SATMEGWO_SERVER_H
#define SATMEGWO_SERVER_H
#include "satmegwo.h"

#ifdef __cplusplus
extern "C" {
#endif

/* STACK. Measured as for satmegwo.h (examples/stack.c): a call needs at most this many
 * bytes of stack, including the servers that it is passed and returns by value. */
#define SATMEGWO_SERVER_STACK 60000u

/* The number of places, which are numbered from 1; the most outputs of a box on them. */
#define SATMEGWO_SERVER_PLACES 8u
#define SATMEGWO_SERVER_MOST_OUTPUTS 16u

/* A place: it has an S-box if `taken` is 1, and otherwise none. It holds the widths and
 * rows of the box; in `examined` how many of its combinations were examined (1, 2, 3 and
 * so on, up to this number); and in `count` the least count among exactly those, with its
 * first witness c, w, b. Before the first combination is examined, `count` is 2^n + 1,
 * which no pair has, and c, w and b are 0. The elements after the 2^n rows are 0. A place
 * with no box holds zeros in every field: nothing is left of a box that was withdrawn. */
typedef struct satmegwo_server_place {
    uint32_t taken;
    uint32_t n;
    uint32_t m;
    uint32_t rows[SATMEGWO_MOST_ROWS];
    uint32_t examined;
    uint32_t count;
    uint32_t c;
    uint32_t w;
    uint32_t b;
} satmegwo_server_place;

/* A server. Place p is places[p - 1]; `last` is the place last served, and 0 at the
 * start. A caller may read the fields. */
typedef struct satmegwo_server {
    satmegwo_server_place places[SATMEGWO_SERVER_PLACES];
    uint32_t last;
} satmegwo_server;

/* The server after a call that may be refused, and 0 or the number of the refusal. */
typedef struct satmegwo_server_outcome {
    satmegwo_server server;
    uint32_t status;
} satmegwo_server_outcome;

SATMEGWO_ASSERT(sizeof(satmegwo_server_place) == 1056, "a place has another size");
SATMEGWO_ASSERT(sizeof(satmegwo_server) == 8452, "a server has another size");
SATMEGWO_ASSERT(sizeof(satmegwo_server_outcome) == 8456, "an outcome has another size");

/* Begins an empty server. */
SATMEGWO_MUST_USE
satmegwo_server satmegwo_server_begin(void);

/* Puts an S-box on a place. This examines no combination.
 *   rows  read, 2^n elements below 2^m
 * Refusals: 18, 19, 1, 2, 3, 4. */
SATMEGWO_MUST_USE
satmegwo_server_outcome satmegwo_server_put(
    satmegwo_server server, uint32_t place, uint32_t n, uint32_t m,
    const uint32_t *rows, size_t rows_len);

/* Takes the box off a place, finished or not: the place is empty again, all zeros.
 * Refusals: 18, 19. */
SATMEGWO_MUST_USE
satmegwo_server_outcome satmegwo_server_withdraw(satmegwo_server server, uint32_t place);

/* Makes one step. If no box is unfinished, the server comes back as it was, every field
 * of it. */
SATMEGWO_MUST_USE
satmegwo_server satmegwo_server_step(satmegwo_server server);

/* Makes `budget` steps, one after the other. It returns early if no box is unfinished,
 * after 8 x 65,535 steps at the latest, so that a budget of 4294967295 means "to the
 * end". */
SATMEGWO_MUST_USE
satmegwo_server satmegwo_server_run(satmegwo_server server, uint32_t budget);

/* Asks for the nonlinearity of the S-box on a place. A finished box keeps its result
 * until it is withdrawn.
 *   figures  written, 5 elements: 1, the nonlinearity over all combinations, and c, w and
 *            b of its first witness; or five zeros until all combinations were examined
 * Returns 0 or the number of a refusal.
 * Refusals: 18, 19, 7. */
SATMEGWO_MUST_USE
uint32_t satmegwo_server_ask(
    satmegwo_server server, uint32_t place, uint32_t *figures, size_t figures_len);

#ifdef __cplusplus
}
#endif
#endif
