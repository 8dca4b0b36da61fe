/* Jolvente: addresses for intercom racks, plans, and walks over them.
 *
 * Link with libjolvente.a, which uses memcpy and memset and nothing else. The calls keep no state, allocate nothing and may run at
 * the same time on different buffers, each with the stack that is told below.
 *
 * Every call returns R, and R % 256 is the refusal's number, 0 for none. With 6, 7, 8 and 10, R / 256 is this link, the lowest in
 * fault; with 9 it is this card, the lowest that cannot be reached; else it is 0. Links and cards are counted from 0.
 *
 *    1  a lent buffer is not as long as the header says
 *    2  the wiring file has fewer than 4 bytes
 *    3  the wiring file says no card or more than 256; it may be no wiring file
 *    4  the wiring file says more than 2,048 links
 *    5  the wiring file is not 4 + 4 x links bytes long; it may be cut, or no wiring file
 *    6  this link has an end that is no card
 *    7  this link has both ends at one card
 *    8  this link is a third one between the same two cards
 *    9  this card cannot be reached from card 0
 *   10  this link closes a loop of an odd number of links, so no addresses exist
 *   11  no addresses exist, though no loop is odd; look for two cards with three common neighbours
 *   12  the plan's sizes or its length are wrong; it may be no plan file
 *   13  the plan is not the one that the planner writes for its wiring
 *   14  a card number is not below the number of cards
 *   15  a traffic count would pass 4,294,967,295
 *   18  a caller's number is over 15
 *
 * With 1, nothing lent is touched. With 2 to 11, every lent byte is zero. With 12 to 15 and 18, every lent byte is as it was.
 *
 * A record is 16 lent bytes: four numbers of 32 bits, low byte first. Numbers in files have 16 bits, low byte first.
 *
 *   Wiring file: cards n, links m, then m first ends, then m second ends. Two links may join the same two cards, drawn either way; of the
 *   two, frames take the one with the lower number.
 *   Plan file: n, m, columns k, the same two arrays, then n addresses of (k + 7) / 8 bytes each; column j is bit j % 8
 *   of byte j / 8, bit 0 counting 1.
 *
 * Pointers must not be null, also where the length is 0. Buffers that a call writes must not overlap one another or what
 * it reads.
 */
#ifndef JOLVENTE_H
#define JOLVENTE_H

#include <stddef.h>
#include <stdint.h>

#ifdef __cplusplus
extern "C" {
#endif

/* Raised with each section of docs/LANDINGS.md. */
#define JOLVENTE_VERSION "0.12"

/* The longest wiring file, the longest plan file, and lent lengths. */
enum {
    JOLVENTE_WIRING_BYTES = 8196,
    JOLVENTE_PLAN_BYTES = 16390,
    JOLVENTE_MET_BYTES = 512,
    JOLVENTE_RECORD_BYTES = 16
};

/* Bytes of stack that each call needs, at most. A dynamic linker that looks memcpy and memset up at their first use takes about 3 KB
 * more in that call. */
enum {
    JOLVENTE_WRITE_PLAN_STACK = 100 * 1024,
    JOLVENTE_READ_PLAN_STACK = 124 * 1024,
    JOLVENTE_WALK_STACK = 2 * 1024
};

/* Plans a wiring and writes its plan file.
 *
 * plan_len must be 16,390 and record_len 16. Writes the plan, zeros behind it, and the record (plan's length, 0, 0, 0).
 * Refuses with 1 to 11. */
uint32_t jolvente_write_plan(const uint8_t *wiring, size_t wiring_len, uint8_t *plan, size_t plan_len, uint8_t *record, size_t record_len);

/* Reads a plan file, all plan_len bytes of it.
 *
 * record_len must be 16. Writes the record (cards, links, columns, 0). Refuses with 1, 12 and 13. */
uint32_t jolvente_read_plan(const uint8_t *plan, size_t plan_len, uint8_t *record, size_t record_len);

/* Walks a caller's frame from a card to its goal.
 *
 * Callers are numbered 0 to 15. met_len must be 512 and record_len 16. Bytes 8 to 15 of the record hold this caller's two
 * counts on entry: frames that arrived, and their hops; the program keeps such a pair for each caller. Writes into met the
 * cards met as numbers of 16 bits, the first card first, zeros behind the last, and the record (1 for arrived or 0 for stuck,
 * hops, the two counts). An arrived frame raises the counts by 1 and by its hops; a stuck one leaves them. Hops + 1 cards were
 * met. Refuses with the first of 1, 12, 18, 14 and 15 that applies.
 *
 * The plan's layout alone is tested, so a frame can be stuck on a plan that jolvente_read_plan refuses. On a plan that it
 * reads every frame of a caller 0 to 15 that the counts can take arrives, by the fewest links. */
uint32_t jolvente_walk(const uint8_t *plan, size_t plan_len, uint32_t from, uint32_t goal, uint32_t caller, uint8_t *met, size_t met_len, uint8_t *record, size_t record_len);

#ifdef __cplusplus
}
#endif

#endif
