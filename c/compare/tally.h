/* What a comparison saw, and the memory it lends. */
#ifndef TALLY_H
#define TALLY_H

#include "generate.h"

enum { GUARD = BEHIND, NUMBERS = 20 };   /* refusals are 1 to 19 */
enum entry { SECTIONS, SECTION, CHECK, EXPAND, LEAST, SEARCH, ENTRIES };

extern struct tally {
    uint64_t cases, failed, told, accepted, two_leasts, ends[4], refusals[ENTRIES][NUMBERS];
    uint64_t longest_table, longest_plan, most_steps, longest_found, most_found, most_applied;
    int failing;
} tally;

void same(const char *what, uint64_t ours, uint64_t plain);
void must(const char *what, int holds);
void raise_to(uint64_t *most, uint64_t value);

/* Whether there was not too much told already to tell a failing case's input. */
int may_tell(void);
void tell_bytes(const char *name, const uint8_t *bytes, size_t length);

/* A slice between guards, and a copy that tells afterwards whether a byte changed. */
struct lent {
    uint8_t *slice, *memory, *before;
    size_t length;
};

/* Lends bytes, those behind them included; bytes from no source are drawn. A slice of no bytes may be a null pointer. */
struct lent lend(uint8_t *memory, uint8_t *before, const uint8_t *from, size_t length, struct draws d);
int stays(const struct lent *l);
int alike(const struct lent *one, const struct lent *other);

/* The five calls of the search: the cases of `count` tables, and those that are written out. */
void compare_searches(uint64_t seed, unsigned count);

#endif
