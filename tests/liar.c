/* Stands in for the library, for the tests of `jolvente check`, which leans on nothing that a walk says: LIE names what this walk says
 * falsely, on a plan that it always calls read, or the number with which it refuses. */
#include <stdlib.h>
#include <string.h>

#include "jolvente.h"

static int lies(const char *lie)
{
    const char *asked = getenv("LIE");
    return asked && strcmp(asked, lie) == 0;
}

static void put(uint8_t *record, int i, uint32_t value)
{
    memset(record + 4 * i, 0, 4);
    record[4 * i] = (uint8_t)value;
}

uint32_t jolvente_write_plan(const uint8_t *wiring, size_t wiring_len, uint8_t *plan, size_t plan_len, uint8_t *record, size_t record_len)
{
    (void)wiring, (void)wiring_len, (void)plan, (void)plan_len, (void)record, (void)record_len;
    return 1;
}

uint32_t jolvente_read_plan(const uint8_t *plan, size_t plan_len, uint8_t *record, size_t record_len)
{
    (void)plan, (void)plan_len, (void)record, (void)record_len;
    return lies("reading") ? 13 : 0;
}

/* The number that LIE is, or 0 where it is a word. */
static uint32_t lied_number(void)
{
    const char *asked = getenv("LIE");
    return asked ? (uint32_t)strtoul(asked, NULL, 10) : 0;
}

/* Right for caller 0, for two cards and one link, and for cards 0 and 1 of the ring of four, but for the lie. */
uint32_t jolvente_walk(const uint8_t *plan, size_t plan_len, uint32_t from, uint32_t goal, uint32_t caller, uint8_t *met, size_t met_len, uint8_t *record, size_t record_len)
{
    uint32_t hops = lies("hops") ? 3 : lies("many") ? 4000000000u : lies("none") ? 0 : 1;
    (void)plan, (void)plan_len, (void)record_len;
    memset(met, 0, met_len);
    met[0] = (uint8_t)(lies("start") ? from + 2 : from);
    met[2] = (uint8_t)(lies("end") ? from + 3 : goal);
    met[3] = (uint8_t)lies("far");
    met[4] = (uint8_t)from;
    met[6] = (uint8_t)goal;
    put(record, 0, !lies("stuck"));
    put(record, 1, hops);
    if (lies("many"))
        memset(record + 4, 0xff, 4);
    put(record, 2, (uint32_t)record[8] + !lies("frames"));
    put(record, 3, (uint32_t)record[12] + (lies("counts") ? 2 : hops));
    return caller != 0 ? 18 : lied_number();
}
