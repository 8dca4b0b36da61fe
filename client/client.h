/* What the files of the client share: its exit status, what it says, files, and plan files. */
#ifndef CLIENT_H
#define CLIENT_H

#include <stddef.h>
#include <stdint.h>

#include "jolvente.h"

/* The exit status. REFUSED is also a frame that is stuck or takes more links than needed. */
enum { DONE = 0, REFUSED = 1, TROUBLE = 2 };

/* say.c */

/* Says a refusal, by its number, the link or card that it carries, and a sentence; REFUSED. */
int refused(uint32_t answer);

/* Says what cannot be done with a file, and why; TROUBLE. */
int trouble(const char *what, const char *name, const char *reason);

/* files.c */

/* Reads a file, at most room bytes of it, and tells its length. A longer one is cut, and then refused by its length. */
int read_file(const char *name, uint8_t *bytes, size_t room, size_t *length);

/* Writes a file whole or not at all. What stood there is lost only to the whole file, which then has its rights. */
int write_file(const char *name, const uint8_t *bytes, size_t length);

/* Whether a regular file has this name. */
int is_file(const char *name);

/* Whether both names are names of one file. */
int same_file(const char *one, const char *other);

/* plans.c */

/* The number of 16 bits at a place in a file, and number i of a record, of 32 bits. */
uint32_t number_at(const uint8_t *bytes, size_t place);
uint32_t number_of(const uint8_t *record, int i);

/* A plan file, cut one byte past the longest plan, and the sizes in it, which are 0 with 12. */
struct plan {
    uint8_t bytes[JOLVENTE_PLAN_BYTES + 1];
    size_t length;
    uint32_t cards, links, columns;
};

/* Reads a plan file, and tells what the library answers to it: 0, 12 or 13. */
int load_plan(const char *name, struct plan *plan, uint32_t *answer);

/* The ends of a link. */
uint32_t first_end(const struct plan *plan, uint32_t link);
uint32_t second_end(const struct plan *plan, uint32_t link);

/* Bit j of a card's address. */
int address_bit(const struct plan *plan, uint32_t card, uint32_t j);

/* commands.c and check.c: a command gets the words behind its name, as many as it takes, with a null behind the last, and gives the
 * exit status. */

int plan_wiring(char **words);
int read_plan(char **words);
int list_plan(char **words);
int say_address(char **words);
int walk_frame(char **words);
int check_plan(char **words);

#endif
