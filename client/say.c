/* What the client says: refusals by number and sentence, and files that cannot be used, with the system's reason. */
#include <stdio.h>

#include "client.h"

/* The numbers of refusals are below this. */
enum { NUMBERS = 27 };

/* What a refusal means, by its number, for each that the header lists, in its words. */
static const char *const MEANING[NUMBERS] = {
    [1] = "a lent buffer is not as long as the header says",
    [2] = "the wiring file has fewer than 4 bytes",
    [3] = "the wiring file says no card or more than 256; it may be no wiring file",
    [4] = "the wiring file says more than 2,048 links",
    [5] = "the wiring file is not 4 + 4 x links bytes long; it may be cut, or no wiring file",
    [6] = "this link has an end that is no card",
    [7] = "this link has both ends at one card",
    [8] = "this link is a third one between the same two cards",
    [9] = "this card cannot be reached from card 0",
    [10] = "this link closes a loop of an odd number of links, so no addresses exist",
    [11] = "no addresses exist, though no loop is odd; look for two cards with three common neighbours",
    [12] = "the plan's sizes or its length are wrong; it may be no plan file",
    [13] = "the plan is not the one that the planner writes for its wiring",
    [14] = "a card number is not below the number of cards",
    [15] = "a traffic count would pass 4,294,967,295",
    [18] = "a caller's number is over 15",
};

static const char *meaning(uint32_t number)
{
    return number < NUMBERS && MEANING[number] ? MEANING[number] : "not a number of this client's header";
}

int refused(uint32_t answer)
{
    uint32_t number = answer % 256;
    fprintf(stderr, "refused %u", (unsigned)number);
    if (number == 9)
        fprintf(stderr, " card %u", (unsigned)(answer / 256));
    else if (number == 10 || (6 <= number && number <= 8))
        fprintf(stderr, " link %u", (unsigned)(answer / 256));
    fprintf(stderr, ": %s\n", meaning(number));
    return REFUSED;
}

int trouble(const char *what, const char *name, const char *reason)
{
    fprintf(stderr, "jolvente: %s %s: %s\n", what, name, reason);
    return TROUBLE;
}
