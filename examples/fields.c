/* The structs of the headers: what lies where in them, which is looked at when this is compiled,
 * and what a few calls leave in their fields, which is printed.
 *
 * With the libraries built, from this directory:
 *
 *     gcc fields.c -I../include -L../target/staticlib -lsatmegwo_design -lsatmegwo_server -lsatmegwo -o fields
 *     ./fields
 */
#include <stddef.h>
#include <stdint.h>
#include <stdio.h>
#include "common.h"
#include "satmegwo.h"
#include "satmegwo_design.h"
#include "satmegwo_server.h"

#define LIES(type, field, place) SATMEGWO_ASSERT(offsetof(type, field) == (place), #type " has " #field " elsewhere")

LIES(satmegwo_design_snapshot, taken, 0);
LIES(satmegwo_design_snapshot, rows, 4);
LIES(satmegwo_design, n, 0);
LIES(satmegwo_design, m, 4);
LIES(satmegwo_design, rows, 8);
LIES(satmegwo_design, marks, 1032);
LIES(satmegwo_design_outcome, design, 0);
LIES(satmegwo_design_outcome, status, 17480);
LIES(satmegwo_server_place, taken, 0);
LIES(satmegwo_server_place, n, 4);
LIES(satmegwo_server_place, m, 8);
LIES(satmegwo_server_place, rows, 12);
LIES(satmegwo_server_place, examined, 1036);
LIES(satmegwo_server_place, count, 1040);
LIES(satmegwo_server_place, c, 1044);
LIES(satmegwo_server_place, w, 1048);
LIES(satmegwo_server_place, b, 1052);
LIES(satmegwo_server, places, 0);
LIES(satmegwo_server, last, 8448);
LIES(satmegwo_server_outcome, server, 0);
LIES(satmegwo_server_outcome, status, 8452);

static const uint32_t rows[8] = {3, 1, 4, 0, 2, 5, 6, 7};

static void print_rows(const char *name, const uint32_t *kept)
{
    printf("%s", name);
    for (size_t x = 0; x < 8; x++)
        printf(" %u", (unsigned)kept[x]);
    printf("\n");
}

/* A design with mark 16 set, and its rows swapped after that. */
static int print_design(void)
{
    satmegwo_design_outcome now = satmegwo_design_begin(3, 3, rows, 8);
    if (now.status == 0)
        now = satmegwo_design_mark(now.design, 16);
    if (now.status == 0)
        now = satmegwo_design_swap(now.design, 0, 7);
    if (now.status != 0)
        return refused("design", now.status);
    printf("design of %u inputs and %u outputs, marks 15 and 16: %u %u\n", (unsigned)now.design.n, (unsigned)now.design.m,
           (unsigned)now.design.marks[14].taken, (unsigned)now.design.marks[15].taken);
    print_rows("rows", now.design.rows);
    print_rows("mark 16", now.design.marks[15].rows);
    return 0;
}

/* A server with the box on place 8, six of its seven combinations examined. */
static int print_server(void)
{
    satmegwo_server_outcome now = satmegwo_server_put(satmegwo_server_begin(), 8, 3, 3, rows, 8);
    const satmegwo_server_place *place = &now.server.places[7];
    if (now.status != 0)
        return refused("server", now.status);
    now.server = satmegwo_server_run(now.server, 6);
    printf("server, last served %u; place 7 taken %u\n", (unsigned)now.server.last, (unsigned)now.server.places[6].taken);
    printf("place 8 taken %u, %u inputs, %u outputs, %u examined, count %u, c %u, w %u, b %u\n", (unsigned)place->taken,
           (unsigned)place->n, (unsigned)place->m, (unsigned)place->examined, (unsigned)place->count, (unsigned)place->c,
           (unsigned)place->w, (unsigned)place->b);
    print_rows("rows", place->rows);
    return 0;
}

int main(void)
{
    return print_design() != 0 || print_server() != 0;
}
