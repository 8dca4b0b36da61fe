/* tests/firmware FILE..: compares the C of docs/FIRMWARE.md, given as page.c, with the library: the table with ones counted bit by bit, all pairs of
 * bytes, addresses of every number of columns with noise in their spare bits, and on the plan of each wiring file the hops between each
 * two cards with a search of its own. */
#include <stdio.h>
#include <stdlib.h>
#include <string.h>

#include "jolvente.h"
#include "page.c"

/* 12, 14 or 0; how many places differ, 1 for a column or 0 for none, and the column. */
uint32_t test_plan_places(const uint8_t *plan, size_t plan_len, uint32_t a, uint32_t b, uint32_t *answer, size_t answer_len);

enum { MOST_CARDS = 256, MOST_COLUMNS = 255, SPARE_ROUNDS = 200 };

static unsigned long counted;

static void fail(const char *what, unsigned at)
{
    fprintf(stderr, "firmware: %s, at %u\n", what, at);
    exit(1);
}

static unsigned number_at(const uint8_t *bytes, size_t at)
{
    return bytes[at] + 256u * bytes[at + 1];
}

static uint8_t noise(void)
{
    static uint32_t state = 2463534242u;
    state ^= state << 13;
    state ^= state >> 17;
    state ^= state << 5;
    return (uint8_t)(state >> 11);
}

/* The places in which k bits differ, bit by bit. */
static unsigned by_bits(const uint8_t *x, const uint8_t *y, unsigned k)
{
    unsigned sum = 0;
    for (unsigned j = 0; j < k; j++)
        sum += (x[j / 8] >> j % 8 & 1) != (y[j / 8] >> j % 8 & 1);
    return sum;
}

/* The library's count of two cards of a plan. */
static unsigned by_library(const uint8_t *plan, size_t length, unsigned a, unsigned b)
{
    uint32_t answer[3] = {0};
    if (test_plan_places(plan, length, a, b, answer, 3) != 0)
        fail("the library refuses a plan", a);
    counted++;
    return answer[0];
}

/* Two cards, no link, k columns, and these addresses: a layout, read or not. */
static unsigned by_library_of(const uint8_t *x, const uint8_t *y, unsigned k)
{
    uint8_t plan[6 + 2 * 32] = {2, 0, 0, 0, (uint8_t)k, 0};
    size_t size = (k + 7) / 8;
    memcpy(plan + 6, x, size);
    memcpy(plan + 6 + size, y, size);
    return by_library(plan, 6 + 2 * size, 0, 1);
}

static void table(void)
{
    const uint8_t none[1] = {0};
    for (unsigned z = 0; z < 256; z++) {
        const uint8_t byte[1] = {(uint8_t)z};
        if (ones[z] != by_bits(byte, none, 8))
            fail("the table's entry is wrong", z);
    }
}

/* A bit differs in half of all pairs. */
static void pairs_of_bytes(void)
{
    unsigned long sum = 0;
    for (unsigned x = 0; x < 256; x++)
        for (unsigned y = 0; y < 256; y++) {
            const uint8_t first[1] = {(uint8_t)x}, second[1] = {(uint8_t)y};
            unsigned places = by_library_of(first, second, 8);
            if (places != differing_places(first, second, 8) || places != by_bits(first, second, 8))
                fail("two bytes are counted otherwise", 256 * x + y);
            sum += places;
        }
    if (sum != 8ul * 256 * 256 / 2)
        fail("all pairs of bytes do not differ in half of all places", 0);
}

static void numbers_of_columns(void)
{
    unsigned long spare = 0;
    for (unsigned k = 0; k <= MOST_COLUMNS; k++)
        for (int round = 0; round < SPARE_ROUNDS; round++) {
            uint8_t x[32], y[32];
            for (size_t t = 0; t < sizeof x; t++) {
                x[t] = noise();
                y[t] = round % 2 ? noise() : x[t];
            }
            if (k % 8 != 0)
                y[k / 8] ^= noise();
            unsigned places = by_library_of(x, y, k);
            if (places != differing_places(x, y, k) || places != by_bits(x, y, k))
                fail("addresses are counted otherwise", k);
            spare += hops_between(x, y, k) != places;
        }
    if (spare == 0)
        fail("no spare bit was ever set", 0);
}

/* Hops from a card over the links of a plan, by spreading. */
static void search(const uint8_t *plan, unsigned from, unsigned *hops)
{
    unsigned n = number_at(plan, 0), m = number_at(plan, 2), moved = 1;
    for (unsigned c = 0; c < n; c++)
        hops[c] = c == from ? 0 : n;
    while (moved) {
        moved = 0;
        for (unsigned i = 0; i < m; i++) {
            unsigned p = number_at(plan, 6 + 2 * i), q = number_at(plan, 6 + 2 * (m + i));
            if (hops[p] + 1 < hops[q]) {
                hops[q] = hops[p] + 1;
                moved = 1;
            }
            if (hops[q] + 1 < hops[p]) {
                hops[p] = hops[q] + 1;
                moved = 1;
            }
        }
    }
}

/* 1 where the rack has a plan, on which the page's sum over all bytes is the hops between each two cards. */
static unsigned plan_of(const char *name)
{
    static uint8_t wiring[JOLVENTE_WIRING_BYTES + 1], plan[JOLVENTE_PLAN_BYTES], record[JOLVENTE_RECORD_BYTES];
    unsigned hops[MOST_CARDS];
    FILE *file = fopen(name, "rb");
    if (file == NULL)
        fail(name, 0);
    size_t length = fread(wiring, 1, sizeof wiring, file);
    fclose(file);
    if (jolvente_write_plan(wiring, length, plan, sizeof plan, record, sizeof record) != 0)
        return 0;
    length = number_at(record, 0);
    unsigned n = number_at(plan, 0), k = number_at(plan, 4), size = (k + 7) / 8;
    const uint8_t *addresses = plan + 6 + 4 * number_at(plan, 2);
    for (unsigned a = 0; a < n; a++) {
        search(plan, a, hops);
        for (unsigned b = 0; b < n; b++) {
            const uint8_t *x = addresses + a * size, *y = addresses + b * size;
            if (hops_between(x, y, k) != hops[b] || differing_places(x, y, k) != hops[b] || by_library(plan, length, a, b) != hops[b])
                fail(name, MOST_CARDS * a + b);
        }
    }
    return 1;
}

int main(int count, char **names)
{
    unsigned plans = 0;
    table();
    pairs_of_bytes();
    numbers_of_columns();
    for (int i = 1; i < count; i++)
        plans += plan_of(names[i]);
    if (plans == 0)
        fail("no rack had a plan", 0);
    printf("firmware: %lu counts of the library, on %u plans among them, as the page has them\n", counted, plans);
    return 0;
}
