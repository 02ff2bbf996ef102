/* How much stack the calls of the libraries need: each is run on a stack that was painted
 * before, and what is no longer painted was used. Prints the largest need in bytes, and
 * the call that has it, for each library; fails if it is above what that library's header
 * states.
 *
 * No proof speaks of the machine's stack, so this is measured.
 */
#ifndef _GNU_SOURCE
#define _GNU_SOURCE /* for mmap without a file; C++ has it from the start */
#endif
#include <pthread.h>
#include <stdint.h>
#include <stdio.h>
#include <string.h>
#include <sys/mman.h>
#include "satmegwo.h"
#include "satmegwo_parts.h"
#include "satmegwo_design.h"
#include "satmegwo_server.h"

#define SIZE (1u << 20)
#define PAINT 0xA5
#define LENGTH(array) (sizeof(array) / sizeof((array)[0]))

struct measured { const char *name; uint32_t (*call)(void); };

static uint32_t rows[256], narrow_rows[256], square_rows[256], half_rows[128], out_rows[256], figures[4], sum_figures[7], part[8], other_part[8] = {1}, merged_part[8],
    standing[5];
static uint16_t counts[65536];
static uint8_t table[256], out_table[256], permutation[16], file[SATMEGWO_FILE_BYTES], catalogue[SATMEGWO_CATALOGUE_MOST];
static int32_t values[256];
/* The nearest pairs of all combinations of at most two of 32 outputs: there are 528. */
#define MOST_PAIRS (528u * SATMEGWO_PAIRS_OF_A_COMBINATION)
static uint64_t list[SATMEGWO_MOST_CELLS], pairs[MOST_PAIRS], number_of_pairs[1];
static uint8_t packed[SATMEGWO_PACKED_BYTES], text[SATMEGWO_SHEET_BYTES];

static uint32_t spectrum(void) { return satmegwo_spectrum(8, table, 256, values, 256); }
static uint32_t inverse(void) { return satmegwo_inverse_spectrum(8, values, 256, out_table, 256); }
static uint32_t component(void) { return satmegwo_component_spectrum(8, 32, rows, 256, 4294967295u, values, 256); }
static uint32_t nonlinearity(void) { return satmegwo_nonlinearity(8, 32, rows, 256, 2, figures, 4); }
static uint32_t nearest_pairs(void) { return satmegwo_nearest_pairs(8, 32, rows, 256, 2, pairs, MOST_PAIRS, number_of_pairs, 1); }
static uint32_t add_to_column(void) { return satmegwo_add_to_column(8, 32, rows, 256, 32, 255, 1, out_rows, 256); }
static uint32_t xor_row(void) { return satmegwo_xor_row(8, 16, narrow_rows, 256, 255, counts, 65536); }
static uint32_t largest_cell(void) { return satmegwo_largest_cell(8, 32, rows, 256, figures, 3); }
static uint32_t largest_cells(void) { return satmegwo_largest_cells(8, 32, rows, 256, list, SATMEGWO_MOST_CELLS, figures, 1); }
static uint32_t autocorrelation(void) { return satmegwo_autocorrelation(8, 32, rows, 256, 2, figures, 3); }
static uint32_t distance(void) { return satmegwo_dynamic_distance(8, 32, rows, 256, 2, 8, figures, 3); }
static uint32_t normal_form(void) { return satmegwo_normal_form(8, table, 256, out_table, 256); }
static uint32_t degree(void) { return satmegwo_degree(8, 32, rows, 256, 2, figures, 2); }
static uint32_t complete(void) { return satmegwo_complete(8, 32, rows, 256, figures, 1); }
static uint32_t bijective(void) { return satmegwo_bijective(8, 8, square_rows, 256, figures, 1); }
static uint32_t enlarge_column(void) { return satmegwo_enlarge_column(7, table, 128, 7, 1, out_table, 256); }
static uint32_t enlarge_box(void) { return satmegwo_enlarge_box(7, half_rows, 128, table, 128, 7, out_rows, 256); }
static uint32_t bent_function(void) { return satmegwo_bent_function(8, permutation, 16, table, 16, out_table, 256); }
static uint32_t check_box(void) { return satmegwo_check_box(8, 32, rows, 256); }
static uint32_t write_box(void) { return satmegwo_write_box(8, 32, rows, 256, file, 1026); }
static uint32_t read_box(void) { return satmegwo_read_box(file, 1026, out_rows, 256, figures, 2); }
static uint32_t sheet(void) { return satmegwo_sheet(file, 1026, text, 332, figures, 1); }
static uint32_t version(void) { return satmegwo_version() == SATMEGWO_VERSION ? 0 : 1; }
static uint32_t sum(void) { return satmegwo_sum_nonlinearity(4, 8, 32, rows, 256, 8, 32, rows, 256, 8, 32, rows, 256, 8, 32, rows, 256, 2, sum_figures, 7); }

static uint32_t nonlinearity_between(void) { return satmegwo_nonlinearity_between(8, 32, rows, 256, 32, 4294967000u, 4294967295u, part, 5); }
static uint32_t autocorrelation_between(void) { return satmegwo_autocorrelation_between(8, 32, rows, 256, 32, 4294967000u, 4294967295u, part, 4); }
static uint32_t distance_between(void) { return satmegwo_dynamic_distance_between(8, 32, rows, 256, 32, 8, 4294967000u, 4294967295u, part, 4); }
static uint32_t sum_between(void) { return satmegwo_sum_nonlinearity_between(4, 8, 32, rows, 256, 8, 32, rows, 256, 8, 32, rows, 256, 8, 32, rows, 256, 32, 4294967000u, 4294967295u, part, 8); }
static uint32_t merge_least(void) { return satmegwo_merge_least(part, 8, other_part, 8, merged_part, 8); }
static uint32_t merge_largest(void) { return satmegwo_merge_largest(part, 8, other_part, 8, merged_part, 8); }

static uint32_t add_record(void) { return satmegwo_add_record(catalogue, 65535, file, 1026, figures, 1); }
static uint32_t check_catalogue(void) { return satmegwo_check_catalogue(catalogue, 65535, figures, 1); }
static uint32_t fetch_record(void) { return satmegwo_fetch_record(catalogue, 65535, 1, figures, 2); }
static uint32_t remove_record(void) { return satmegwo_remove_record(catalogue, 65535, 0); }
static uint32_t compact_catalogue(void) { return satmegwo_compact_catalogue(catalogue, 65535); }
static uint32_t pack_columns(void) { return satmegwo_pack_columns(8, 32, rows, 256, packed, 1024); }
static uint32_t raising_swap(void) { return satmegwo_raising_swap(8, 8, square_rows, 256, figures, 4); }
static uint32_t unpack_columns(void) { return satmegwo_unpack_columns(8, 32, packed, 1024, out_rows, 256); }

static const struct measured calls[] = {
    {"spectrum", spectrum}, {"inverse_spectrum", inverse}, {"component_spectrum", component}, {"nonlinearity", nonlinearity},
    {"nearest_pairs", nearest_pairs},
    {"add_to_column", add_to_column}, {"xor_row", xor_row}, {"largest_cell", largest_cell}, {"largest_cells", largest_cells},
    {"autocorrelation", autocorrelation}, {"dynamic_distance", distance}, {"normal_form", normal_form}, {"degree", degree},
    {"complete", complete}, {"bijective", bijective}, {"enlarge_column", enlarge_column}, {"enlarge_box", enlarge_box},
    {"bent_function", bent_function}, {"check_box", check_box}, {"write_box", write_box}, {"read_box", read_box}, {"sheet", sheet},
    {"version", version}, {"sum_nonlinearity", sum},
    {"nonlinearity_between", nonlinearity_between}, {"autocorrelation_between", autocorrelation_between},
    {"dynamic_distance_between", distance_between}, {"sum_nonlinearity_between", sum_between},
    {"merge_least", merge_least}, {"merge_largest", merge_largest},
    {"add_record", add_record}, {"add_record", add_record},
    {"check_catalogue", check_catalogue}, {"fetch_record", fetch_record}, {"remove_record", remove_record},
    {"compact_catalogue", compact_catalogue},
    {"pack_columns", pack_columns}, {"unpack_columns", unpack_columns},
    {"raising_swap", raising_swap},
};

static satmegwo_design_outcome now;

static uint32_t design_begin(void) { return (now = satmegwo_design_begin(8, 32, rows, 256)).status; }
static uint32_t design_mark(void) { return (now = satmegwo_design_mark(now.design, 16)).status; }
static uint32_t design_swap(void) { return (now = satmegwo_design_swap(now.design, 255, 0)).status; }
static uint32_t design_add(void) { return (now = satmegwo_design_add(now.design, 32, 255, 1)).status; }
static uint32_t design_return(void) { return (now = satmegwo_design_return(now.design, 16)).status; }
static uint32_t design_read(void) { return satmegwo_design_read(now.design, out_rows, 256, figures, 2); }

static const struct measured design_calls[] = {
    {"design_begin", design_begin}, {"design_mark", design_mark}, {"design_swap", design_swap}, {"design_add", design_add},
    {"design_return", design_return}, {"design_read", design_read},
};

/* The server's: a server by value is on the caller's stack, and counted here too. */
static satmegwo_server server;
static uint32_t kept(satmegwo_server_outcome outcome) { server = outcome.server; return outcome.status; }
static uint32_t server_begin(void) { server = satmegwo_server_begin(); return 0; }
static uint32_t server_put(void) { return kept(satmegwo_server_put(server, 8, 8, 16, narrow_rows, 256)); }
static uint32_t server_step(void) { server = satmegwo_server_step(server); return 0; }
static uint32_t server_run(void) { server = satmegwo_server_run(server, 100); return 0; }
static uint32_t server_ask(void) { return satmegwo_server_ask(server, 8, standing, 5); }
static uint32_t server_withdraw(void) { return kept(satmegwo_server_withdraw(server, 8)); }

static const struct measured server_calls[] = {
    {"server_begin", server_begin}, {"server_put", server_put}, {"server_step", server_step}, {"server_run", server_run},
    {"server_ask", server_ask}, {"server_withdraw", server_withdraw},
};

static uint32_t (*current)(void);
static uint8_t *top;
static uint32_t reply;

static void *run(void *unused)
{
    uint8_t here;
    top = &here;
    reply = current();
    return unused;
}

/* The bytes of a painted stack that a call uses, or 0 where the call could not be run. */
static size_t need(uint8_t *stack, uint32_t (*call)(void))
{
    pthread_attr_t attributes;
    pthread_t thread;
    size_t at = 0;
    memset(stack, PAINT, SIZE);
    current = call;
    if (pthread_attr_init(&attributes) != 0 || pthread_attr_setstack(&attributes, stack, SIZE) != 0
        || pthread_create(&thread, &attributes, run, NULL) != 0 || pthread_join(thread, NULL) != 0 || reply != 0)
        return 0;
    while (stack[at] == PAINT)
        at++;
    return (size_t)(top - (stack + at));
}

/* Whether each of these calls needs no more stack than its header states. */
static int within(uint8_t *stack, const struct measured *calls, size_t count, size_t stated)
{
    size_t largest = 0, which = 0;
    for (size_t i = 0; i < count; i++) {
        size_t bytes = need(stack, calls[i].call);
        if (bytes == 0) {
            printf("%s could not be run\n", calls[i].name);
            return 0;
        }
        printf("%-24s %zu\n", calls[i].name, bytes);
        if (largest < bytes) {
            largest = bytes;
            which = i;
        }
    }
    printf("the largest need of stack is %zu bytes (%s); the header states %zu\n", largest, calls[which].name, stated);
    return largest <= stated;
}

int main(void)
{
    void *mapped = mmap(NULL, SIZE, PROT_READ | PROT_WRITE, MAP_PRIVATE | MAP_ANONYMOUS, -1, 0);
    uint8_t *stack = (uint8_t *)mapped;
    if (mapped == MAP_FAILED)
        return 1;
    for (uint32_t x = 0; x < 256; x++) {
        rows[x] = x * 2654435769u;
        narrow_rows[x] = rows[x] >> 16;
        square_rows[x] = x;
        half_rows[x % 128] = x % 128;
        table[x] = (uint8_t)((x * x / 8) % 2);
        permutation[x % 16] = (uint8_t)(x % 16);
    }
    if (!within(stack, calls, LENGTH(calls), SATMEGWO_STACK))
        return 1;
    if (!within(stack, design_calls, LENGTH(design_calls), SATMEGWO_DESIGN_STACK))
        return 1;
    return within(stack, server_calls, LENGTH(server_calls), SATMEGWO_SERVER_STACK) ? 0 : 1;
}
