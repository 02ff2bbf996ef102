/* Wrong calls on an evaluation server. */
#include "satmegwo_server.h"
#include "wrong.h"

RIGHT(satmegwo_server_put);
RIGHT(satmegwo_server_withdraw);
RIGHT(satmegwo_server_ask);

/* Looks at the lowest bits of its arguments alone; or begins with a count that no pair has yet. */
satmegwo_server_outcome satmegwo_server_put(satmegwo_server server, uint32_t place, uint32_t n,
                                                   uint32_t m, const uint32_t *rows, size_t rows_len)
{
    if (is_wrong("place-cut"))
        place = (uint8_t)place;
    if (is_wrong("widths-cut")) {
        n = (uint16_t)n;
        m = (uint8_t)m;
    }
    satmegwo_server_outcome outcome = right_satmegwo_server_put(server, place, n, m, rows, rows_len);
    if (is_wrong("count-before-the-first-step") && outcome.status == 0)
        outcome.server.places[place - 1].count = 0;
    return outcome;
}

static volatile uint32_t seen;

/* Reads behind a server; or keeps the box that is withdrawn. */
satmegwo_server_outcome satmegwo_server_withdraw(satmegwo_server server, uint32_t place)
{
    if (is_wrong("reads-behind-a-server"))
        seen = (&server.last)[4];
    satmegwo_server_outcome outcome = right_satmegwo_server_withdraw(server, place);
    if (is_wrong("withdrawn-box-kept") && outcome.status == 0) {
        outcome.server.places[place - 1] = server.places[place - 1];
        outcome.server.places[place - 1].taken = 0;
    }
    return outcome;
}

/* Says that a box is finished one combination too early. */
uint32_t satmegwo_server_ask(satmegwo_server server, uint32_t place, uint32_t *figures, size_t figures_len)
{
    uint32_t number = right_satmegwo_server_ask(server, place, figures, figures_len);
    if (is_wrong("finished-too-early") && number == 0 && figures[0] == 0) {
        satmegwo_server_place *held = &server.places[place - 1];
        if (held->examined + 2 == 1u << held->m) {
            figures[0] = 1;
            figures[1] = held->count;
        }
    }
    return number;
}
