/* `check`: walks every pair of cards of a plan, both ways, as the office does before labels are printed. What a walk says is held to
 * the plan's own links alone: the cards met are a way, and it has as many links as a breadth-first search finds are needed. */
#define _XOPEN_SOURCE 700
#include <stdio.h>
#include <string.h>
#include <time.h>
#include <unistd.h>

#include "client.h"

/* A walk may meet every card of the largest rack, a number of 16 bits each; no way has so many links. */
enum { CARDS = JOLVENTE_MET_BYTES / 2, NO_WAY = CARDS };

struct check {
    struct plan plan;
    uint8_t linked[CARDS][CARDS];
    uint32_t needed[CARDS]; /* the fewest links from the card that frames are sent from */
    uint8_t met[JOLVENTE_MET_BYTES];
    uint8_t record[JOLVENTE_RECORD_BYTES];
    uint32_t frames, hops, longest;
    int shown; /* a line of progress */
};

/* Notes which cards are linked. A link with an end that is no card joins none. */
static void note_links(struct check *c)
{
    uint32_t i;
    memset(c->linked, 0, sizeof c->linked);
    for (i = 0; i < c->plan.links; i++) {
        uint32_t p = first_end(&c->plan, i), q = second_end(&c->plan, i);
        if (p < c->plan.cards && q < c->plan.cards)
            c->linked[p][q] = c->linked[q][p] = 1;
    }
}

/* The fewest links from a card to each card, breadth first. */
static void count_needed(struct check *c, uint32_t from)
{
    uint32_t found[CARDS], count = 1, next, card;
    for (card = 0; card < CARDS; card++)
        c->needed[card] = NO_WAY;
    found[0] = from;
    c->needed[from] = 0;
    for (next = 0; next < count; next++)
        for (card = 0; card < c->plan.cards; card++)
            if (c->linked[found[next]][card] && c->needed[card] == NO_WAY) {
                c->needed[card] = c->needed[found[next]] + 1;
                found[count++] = card;
            }
}

/* Whether the cards met lead from the one card to the other, each linked to the next. */
static int is_way(const struct check *c, uint32_t from, uint32_t to, uint32_t hops)
{
    uint32_t i, card = number_at(c->met, 0);
    if (hops >= CARDS || card != from)
        return 0;
    for (i = 1; i <= hops; i++) {
        uint32_t far = number_at(c->met, 2 * (size_t)i);
        if (far >= CARDS || !c->linked[card][far])
            return 0;
        card = far;
    }
    return card == to;
}

/* On a terminal, and after half a second, says how far the check is. */
static void show_progress(struct check *c, uint32_t from)
{
    if (!isatty(STDERR_FILENO) || clock() < CLOCKS_PER_SEC / 2)
        return;
    fprintf(stderr, "\rwalked from %u of %u cards", (unsigned)from, (unsigned)c->plan.cards);
    c->shown = 1;
}

/* Clears the line for what is said next. */
static void clear_progress(const struct check *c)
{
    if (c->shown)
        fprintf(stderr, "\r\033[K");
}

/* Says the first pair that fails. */
static int failed(const struct check *c, uint32_t from, uint32_t to, const char *how)
{
    clear_progress(c);
    printf("from %u to %u: %s after %u hops; ", (unsigned)from, (unsigned)to, how, (unsigned)number_of(c->record, 1));
    if (c->needed[to] == NO_WAY)
        printf("there is no way\n");
    else
        printf("links needed: %u\n", (unsigned)c->needed[to]);
    return REFUSED;
}

/* Walks one frame of caller 0 and adds it to the counts; the library's own counts have to agree. */
static int walk_pair(struct check *c, uint32_t from, uint32_t to)
{
    uint32_t hops, answer;
    answer = jolvente_walk(c->plan.bytes, c->plan.length, from, to, 0, c->met, sizeof c->met, c->record, sizeof c->record);
    if (answer != 0) {
        clear_progress(c);
        return refused(answer);
    }
    hops = number_of(c->record, 1);
    if (number_of(c->record, 0) == 0)
        return failed(c, from, to, "stuck");
    if (!is_way(c, from, to, hops))
        return failed(c, from, to, "by no way");
    if (hops != c->needed[to])
        return failed(c, from, to, "arrived");
    c->frames++;
    c->hops += hops;
    if (hops > c->longest)
        c->longest = hops;
    if (number_of(c->record, 2) != c->frames || number_of(c->record, 3) != c->hops)
        return failed(c, from, to, "counted wrongly");
    return DONE;
}

static int walk_pairs(struct check *c)
{
    uint32_t from, to;
    for (from = 0; from < c->plan.cards; from++) {
        show_progress(c, from);
        count_needed(c, from);
        for (to = 0; to < c->plan.cards; to++) {
            int status = from == to ? DONE : walk_pair(c, from, to);
            if (status != DONE)
                return status;
        }
    }
    clear_progress(c);
    printf("frames %u\nhops %u\nlongest %u\n", (unsigned)c->frames, (unsigned)c->hops, (unsigned)c->longest);
    return DONE;
}

int check_plan(char **words)
{
    static struct check c;
    uint32_t answer;
    int read, status = load_plan(words[0], &c.plan, &answer);
    if (status != DONE)
        return status;
    read = answer == 0 ? DONE : refused(answer);
    if (answer == 13)
        fprintf(stderr, "every pair is walked all the same\n");
    else if (answer != 0)
        return read;
    note_links(&c);
    status = walk_pairs(&c);
    return status == DONE ? read : status;
}
