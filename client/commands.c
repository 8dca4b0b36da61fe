/* The client's commands, but for `check`. */
#include <stdio.h>

#include "client.h"

/* Whether a plan may take the place of a file: of a plan, also one that 13 refuses, or of an empty file. */
static int may_replace(const char *name)
{
    struct plan old;
    uint32_t answer;
    int status = load_plan(name, &old, &answer);
    if (status == DONE && answer == 12 && old.length > 0)
        return trouble("cannot write", name, "it is no plan file; remove it first");
    return status;
}

int plan_wiring(char **words)
{
    uint8_t wiring[JOLVENTE_WIRING_BYTES + 1];
    uint8_t bytes[JOLVENTE_PLAN_BYTES];
    uint8_t record[JOLVENTE_RECORD_BYTES];
    uint32_t answer;
    size_t length;
    int status;
    if (same_file(words[0], words[1]))
        return trouble("cannot write", words[1], "it is the wiring file itself");
    status = read_file(words[0], wiring, sizeof wiring, &length);
    if (status != DONE)
        return status;
    answer = jolvente_write_plan(wiring, length, bytes, sizeof bytes, record, sizeof record);
    if (answer != 0)
        return refused(answer);
    if (is_file(words[1]))
        status = may_replace(words[1]);
    if (status == DONE)
        status = write_file(words[1], bytes, number_of(record, 0));
    if (status == DONE)
        printf("plan of %u bytes\n", (unsigned)number_of(record, 0));
    return status;
}

/* Reads a plan file, and says why where it is refused. */
static int open_plan(const char *name, struct plan *plan)
{
    uint32_t answer;
    int status = load_plan(name, plan, &answer);
    return status == DONE && answer != 0 ? refused(answer) : status;
}

static void put_sizes(const struct plan *plan)
{
    printf("cards %u\nlinks %u\ncolumns %u\n", (unsigned)plan->cards, (unsigned)plan->links, (unsigned)plan->columns);
}

/* A card's line, as the listing has it. */
static void put_card(const struct plan *plan, uint32_t card)
{
    uint32_t j;
    printf("card %u ", (unsigned)card);
    for (j = 0; j < plan->columns; j++)
        putchar('0' + address_bit(plan, card, j));
    puts(plan->columns == 0 ? "-" : "");
}

int read_plan(char **words)
{
    struct plan plan;
    int status = open_plan(words[0], &plan);
    if (status == DONE)
        put_sizes(&plan);
    return status;
}

int list_plan(char **words)
{
    struct plan plan;
    uint32_t card;
    int status = open_plan(words[0], &plan);
    if (status != DONE)
        return status;
    put_sizes(&plan);
    for (card = 0; card < plan.cards; card++)
        put_card(&plan, card);
    return DONE;
}

/* Whether a word is a number of 32 bits in decimal, and that number. */
static int is_number(const char *word, uint32_t *number)
{
    unsigned long long value = 0;
    const char *digit = word;
    while ('0' <= *digit && *digit <= '9' && value <= UINT32_MAX)
        value = 10 * value + (unsigned)(*digit++ - '0');
    *number = (uint32_t)value;
    return digit != word && *digit == '\0' && value <= UINT32_MAX;
}

/* A card number; TROUBLE where the word is none. */
static int card_number(const char *word, uint32_t *card)
{
    return is_number(word, card) ? DONE : trouble("no card number", word, "a card is a number from 0 to 4294967295");
}

/* A caller's number, 0 where no word is given; TROUBLE where the word is none. The library tells one that is over 15. */
static int caller_number(const char *word, uint32_t *caller)
{
    *caller = 0;
    return !word || is_number(word, caller) ? DONE : trouble("no caller's number", word, "a caller is a number from 0 to 15");
}

int say_address(char **words)
{
    struct plan plan;
    uint32_t card;
    int status = card_number(words[1], &card);
    if (status == DONE)
        status = open_plan(words[0], &plan);
    if (status != DONE)
        return status;
    if (card >= plan.cards)
        return refused(14);
    put_card(&plan, card);
    return DONE;
}

int walk_frame(char **words)
{
    uint8_t bytes[JOLVENTE_PLAN_BYTES + 1];
    uint8_t met[JOLVENTE_MET_BYTES];
    uint8_t record[JOLVENTE_RECORD_BYTES] = {0};
    uint32_t from, to = 0, caller = 0, answer, i;
    size_t length = 0;
    int status = card_number(words[1], &from);
    if (status == DONE)
        status = card_number(words[2], &to);
    if (status == DONE)
        status = caller_number(words[3], &caller);
    if (status == DONE)
        status = read_file(words[0], bytes, sizeof bytes, &length);
    if (status != DONE)
        return status;
    answer = jolvente_walk(bytes, length, from, to, caller, met, sizeof met, record, sizeof record);
    if (answer != 0)
        return refused(answer);
    printf("%s after %u hops:", number_of(record, 0) ? "arrived" : "stuck", (unsigned)number_of(record, 1));
    for (i = 0; i <= number_of(record, 1); i++)
        printf(" %u", (unsigned)number_at(met, 2 * (size_t)i));
    printf("\n");
    return number_of(record, 0) ? DONE : REFUSED;
}
