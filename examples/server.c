/* A short evaluation run: boxes are put on places of a server, which examines one combination
 * a step, in turns; one box is withdrawn and another takes its place.
 *
 *     server FILE FILE FILE
 *
 * With the libraries built, from this directory:
 *
 *     gcc server.c -I../include -L../target/staticlib -lsatmegwo_server -lsatmegwo -o server
 *     ./server example.box des-s1.box present.box
 */
#include <stdint.h>
#include <stdio.h>
#include "common.h"
#include "satmegwo.h"
#include "satmegwo_server.h"

static satmegwo_server server;

static void refused_at(uint32_t place, uint32_t number)
{
    char name[24];
    snprintf(name, sizeof name, "place %u", (unsigned)place);
    refused(name, number);
}

/* Puts the box of a file on a place. */
static int put_file(uint32_t place, const char *name)
{
    struct file file;
    struct box box;
    FILE *input = fopen(name, "rb");
    if (input == NULL) {
        printf("%s: cannot be opened\n", name);
        return 1;
    }
    file = read_file(input);
    fclose(input);
    uint32_t number = box_of(&file, &box);
    if (number == 0) {
        satmegwo_server_outcome outcome = satmegwo_server_put(server, place, box.n, box.m, box.rows, box.size);
        server = outcome.server;
        number = outcome.status;
    }
    printf("put %s on ", name);
    if (number != 0)
        refused_at(place, number);
    else
        printf("place %u: %u by %u\n", (unsigned)place, (unsigned)box.n, (unsigned)box.m);
    return 0;
}

static void ask(uint32_t place)
{
    uint32_t f[5];
    uint32_t number = satmegwo_server_ask(server, place, f, 5);
    if (number != 0)
        refused_at(place, number);
    else if (f[0] == 0)
        printf("place %u: unfinished\n", (unsigned)place);
    else
        printf("place %u: nonlinearity %u, c %u, w %u, b %u\n", (unsigned)place, (unsigned)f[1], (unsigned)f[2], (unsigned)f[3], (unsigned)f[4]);
}

static void run(uint32_t budget)
{
    server = satmegwo_server_run(server, budget);
    printf("%u steps, the last on place %u\n", (unsigned)budget, (unsigned)server.last);
}

int main(int argc, char **argv)
{
    if (argc != 4) {
        printf("usage: server FILE FILE FILE\n");
        return 2;
    }
    server = satmegwo_server_begin();
    if (put_file(1, argv[1]) || put_file(4, argv[2]))
        return 1;
    run(14);
    ask(1);
    ask(4);
    if (put_file(1, argv[3])) /* refused: a box is there */
        return 1;
    server = satmegwo_server_withdraw(server, 1).server;
    ask(1);
    if (put_file(1, argv[3]))
        return 1;
    run(8 * 15); /* enough for any box of four outputs */
    ask(1);
    ask(4);
    return 0;
}
