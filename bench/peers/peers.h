/* Plain C peers of the library's calls: what the benchmark measures the library against.
 *
 * Each is what one would write in C for the same figure and witness, for one thread and for any
 * x86-64 processor (gcc -O3 -march=x86-64), without intrinsics. They are outside of the proofs and
 * none of the library's code. The figures stand in the order of include/satmegwo.h, and the
 * benchmark fails where they differ from the library's.
 *
 * No peer looks at its arguments, the catalogue's excepted, whose checks are the call itself. A
 * box has n inputs, m outputs and 2^n rows below 2^m; a combination is within the limit i if it has
 * at most i outputs. "Document 01" and "document 02" are those that docs/PROMISES.md goes through.
 */
#ifndef PEERS_H
#define PEERS_H
#include <stddef.h>
#include <stdint.h>
#include "satmegwo_server.h"

/* Fills the fixed table of spectra of width 3. To be called once, before all others. */
void peer_prepare(void);

/* Document 01, Nonlinearity. Figures: the figure, c, w, b. */
void peer_nonlinearity(uint32_t n, uint32_t m, const uint32_t *rows, uint32_t i, uint32_t *figures);

/* Document 01, Autocorrelation, for n from 3 on. Figures: the figure, c, s. */
void peer_autocorrelation(uint32_t n, uint32_t m, const uint32_t *rows, uint32_t i, uint32_t *figures);

/* Document 01, Dynamic distance of order (i, j), for n from 3 on. Figures: the figure, c, d. */
void peer_distance(uint32_t n, uint32_t m, const uint32_t *rows, uint32_t i, uint32_t j, uint32_t *figures);

/* Document 01, XOR table, and document 02, section 5. Figures: the largest count, a, beta. */
void peer_largest_cell(uint32_t n, uint32_t m, const uint32_t *rows, uint32_t *figures);

/* Document 02, section 3. Writes the cells to a list of 32,640 or more and returns their number;
 * entries past that number may be written too. */
uint32_t peer_largest_cells(uint32_t n, uint32_t m, const uint32_t *rows, uint64_t *list);

/* Document 01, Normal form, and document 02, sections 1 and 2. Figures: the degree, c. The second
 * one solves equations, and knows no limit. */
void peer_degree(uint32_t n, uint32_t m, const uint32_t *rows, uint32_t i, uint32_t *figures);
void peer_degree_by_equations(uint32_t n, uint32_t m, const uint32_t *rows, uint32_t *figures);

/* Document 01, Complete and Bijective: 1 or 0. */
uint32_t peer_complete(uint32_t n, uint32_t m, const uint32_t *rows);
uint32_t peer_bijective(uint32_t n, uint32_t m, const uint32_t *rows);

/* Document 02, section 4, of four boxes of equal widths whose rows stand one after the other.
 * Figures: the figure, c, four masks, b. */
void peer_sum_of_four(uint32_t n, uint32_t m, const uint32_t *rows, uint32_t i, uint32_t *figures);

/* Document 02, section 10. Figures: 1, both inputs, the new figure; or four zeros. */
void peer_raising_swap(uint32_t n, uint32_t m, const uint32_t *rows, uint32_t *figures);

/* Document 02, section 8, both ways. */
void peer_pack(uint32_t n, uint32_t m, const uint32_t *rows, uint8_t *packed);
void peer_unpack(uint32_t n, uint32_t m, const uint8_t *packed, uint32_t *rows);

/* Document 02, section 7: each returns 0 or the number of a refusal. The check gives the number of
 * records, adding the new record's index. */
uint32_t peer_check_catalogue(const uint8_t *catalogue, size_t size, uint32_t *records);
uint32_t peer_add_record(uint8_t *catalogue, size_t size, const uint8_t *file, size_t length, uint32_t *index);
uint32_t peer_remove_record(uint8_t *catalogue, size_t size, uint32_t index);
uint32_t peer_compact_catalogue(uint8_t *catalogue, size_t size);

/* Document 02, section 14, on a server of include/satmegwo_server.h that is changed in place. A
 * place that is put to is empty, and of a place that is asked the box is finished. Figures: 1, the
 * figure, c, w, b. */
void peer_server_begin(satmegwo_server *server);
void peer_server_put(satmegwo_server *server, uint32_t place, uint32_t n, uint32_t m, const uint32_t *rows);
void peer_server_run(satmegwo_server *server, uint32_t steps);
void peer_server_ask(const satmegwo_server *server, uint32_t place, uint32_t *figures);

#endif
