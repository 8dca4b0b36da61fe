/* What records and plan files hold: numbers, sizes, links and addresses. The library decides whether a plan is read. */
#include "client.h"

uint32_t number_at(const uint8_t *bytes, size_t place)
{
    return bytes[place] + 256u * bytes[place + 1];
}

uint32_t number_of(const uint8_t *record, int i)
{
    const uint8_t *b = record + 4 * i;
    return b[0] | (uint32_t)b[1] << 8 | (uint32_t)b[2] << 16 | (uint32_t)b[3] << 24;
}

int load_plan(const char *name, struct plan *plan, uint32_t *answer)
{
    uint8_t record[JOLVENTE_RECORD_BYTES];
    int has_sizes, status = read_file(name, plan->bytes, sizeof plan->bytes, &plan->length);
    if (status != DONE)
        return status;
    *answer = jolvente_read_plan(plan->bytes, plan->length, record, sizeof record);
    has_sizes = *answer == 0 || *answer == 13;
    plan->cards = has_sizes ? number_at(plan->bytes, 0) : 0;
    plan->links = has_sizes ? number_at(plan->bytes, 2) : 0;
    plan->columns = has_sizes ? number_at(plan->bytes, 4) : 0;
    return DONE;
}

uint32_t first_end(const struct plan *plan, uint32_t link)
{
    return number_at(plan->bytes, 6 + 2 * (size_t)link);
}

uint32_t second_end(const struct plan *plan, uint32_t link)
{
    return number_at(plan->bytes, 6 + 2 * (size_t)plan->links + 2 * (size_t)link);
}

int address_bit(const struct plan *plan, uint32_t card, uint32_t j)
{
    size_t addresses = 6 + 4 * (size_t)plan->links;
    size_t size = (plan->columns + 7) / 8;
    return plan->bytes[addresses + card * size + j / 8] >> j % 8 & 1;
}
