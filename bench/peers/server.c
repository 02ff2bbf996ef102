/* Document 02, section 14: boxes under analysis in turns, one combination a step. A server holds no
 * more than include/satmegwo_server.h says; `run` makes the columns of each box anew, once. */
#include "peers.h"
#include "spectra.h"

#define PLACES 8
#define MOST_SERVED_OUTPUTS 16

/* What a run works with for one box: its columns, and the tables of the highest one, two, three .. outputs
 * of the combination last examined. */
struct work {
    struct table columns[MOST_SERVED_OUTPUTS], highest[MOST_SERVED_OUTPUTS + 1];
};

void peer_server_begin(satmegwo_server *server)
{
    memset(server, 0, sizeof *server);
}

void peer_server_put(satmegwo_server *server, uint32_t place, uint32_t n, uint32_t m, const uint32_t *rows)
{
    satmegwo_server_place *held = &server->places[place - 1];
    held->taken = 1;
    held->n = n;
    held->m = m;
    memcpy(held->rows, rows, sizeof rows[0] << n);
    held->count = (1u << n) + 1;
}

static int is_unfinished(const satmegwo_server_place *held)
{
    return held->taken && held->examined + 1 < 1u << held->m;
}

static void prepare(const satmegwo_server_place *held, struct work *work)
{
    write_columns(held->n, held->m, held->rows, work->columns);
    work->highest[0] = (struct table){{0}};
    for (uint32_t c = held->examined; c != 0; c &= c - 1)
        work->highest[ones(c)] = combination(work->columns, c);
}

/* The next combination, in ascending order: it replaces what was found if it is nearer, or as near and
 * has fewer outputs. */
static void examine_next(satmegwo_server_place *held, struct work *work)
{
    _Alignas(16) int16_t values[MOST_ROWS];
    uint32_t c = ++held->examined, outputs = ones(c);
    work->highest[outputs] = sum(&work->highest[outputs - 1], &work->columns[lowest(c)]);
    int32_t magnitude = peak(held->n, &work->highest[outputs], values);
    uint32_t count = ((1u << held->n) - (uint32_t)magnitude) / 2;
    if (count < held->count || (count == held->count && outputs < ones(held->c))) {
        held->count = count;
        held->c = c;
        held->w = first_place(values, magnitude);
        held->b = values[held->w] < 0;
    }
}

/* The next place with an unfinished box, counted from 0, after the one last served; PLACES if none. */
static uint32_t next_place(const satmegwo_server *server)
{
    for (uint32_t k = 0; k < PLACES; k++) {
        uint32_t place = (server->last + k) % PLACES;
        if (is_unfinished(&server->places[place]))
            return place;
    }
    return PLACES;
}

void peer_server_run(satmegwo_server *server, uint32_t steps)
{
    struct work work[PLACES];
    for (uint32_t place = 0; place < PLACES; place++)
        if (is_unfinished(&server->places[place]))
            prepare(&server->places[place], &work[place]);
    for (; steps > 0; steps--) {
        uint32_t place = next_place(server);
        if (place == PLACES)
            return;
        examine_next(&server->places[place], &work[place]);
        server->last = place + 1;
    }
}

void peer_server_ask(const satmegwo_server *server, uint32_t place, uint32_t *figures)
{
    const satmegwo_server_place *held = &server->places[place - 1];
    figures[0] = !is_unfinished(held);
    figures[1] = held->count;
    figures[2] = held->c;
    figures[3] = held->w;
    figures[4] = held->b;
}
