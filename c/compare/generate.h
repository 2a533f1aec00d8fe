/* Inputs for the comparison: tables, plans found by walking a table, and damage to both. */
#ifndef GENERATE_H
#define GENERATE_H

#include <stddef.h>
#include <stdint.h>

enum {
    MOST_FIELDS = 7 + 255 * 4 + 512 * 10, BEHIND = 64, TABLE_ROOM = 70000, LINE_ROOM = 11000, WALK_ROOM = 70000,
    PLAN_ROOM = WALK_ROOM + LINE_ROOM   /* a carriage return more for each line */
};

struct draws { uint64_t state; };
uint64_t draw(struct draws *d);
unsigned below(struct draws *d, unsigned count);   /* 0 to count - 1 */
int once_in(struct draws *d, unsigned count);
unsigned draw_bound(struct draws *d);
uint64_t draw_wrong(struct draws *d);              /* about where bounds and forms end, or far beyond */

/* A table before it becomes bytes. */
struct model {
    unsigned facts, actions, abstract, methods, first;
    uint64_t start, goal;
    struct { uint64_t needs, adds, deletes; unsigned cost; } action[255];
    struct { unsigned head, count, subtask[8]; } method[512];
};

enum size { TINY, SMALL, MIDDLE, EDGE, CHAIN, LARGE, SIZES };
void draw_model(struct model *m, struct draws *d, enum size size);

/* Makes the first methods a chain: each abstract task asks for the next and something after it, the last for nothing. So
 * the least bound is the number of abstract tasks, if no other method helps. */
void draw_chain(struct model *m, struct draws *d);

/* A table's bytes; behind them come others, so that reading past the end would show. */
struct table_text {
    size_t length;
    uint8_t bytes[TABLE_ROOM + BEHIND];
};

/* The numbers of a table in order. */
struct fields {
    unsigned count;
    uint64_t value[MOST_FIELDS];
};
void list_fields(struct fields *f, const struct model *m);

/* The table of these numbers, the one at `field` damaged. Without damage: any kind, field = f->count. */
enum damage {
    CUT_BEFORE, CUT_INSIDE, ZERO_GROUP, ZERO_GROUPS, ELEVEN_GROUPS, TENTH_ABOVE_1, ENDLESS, DOWN, UP, OTHER_VALUE,
    LARGEST_VALUE, LIMIT_VALUE, EXTRA_BYTE, DAMAGES
};
void write_table(struct table_text *t, const struct fields *f, unsigned field, enum damage kind, struct draws *d);

/* A plan's text and where its lines start; the last entry is the text's end. Of the lines written one in `returns`, drawn by
 * `ends`, has a carriage return before its line feed: 0 none, 1 each. */
struct plan_text {
    size_t length;
    unsigned lines, returns;
    struct draws ends;
    size_t start[LINE_ROOM + 1];
    uint8_t bytes[PLAN_ROOM + BEHIND];
};

/* What a walk met: step after step, never by joined sets. */
struct walk {
    int ended;
    uint64_t facts, cost, operators, steps;
};

/* Walks the table by random operators, writing the plan; after `wanted` lines it prefers what ends sooner. */
struct walk walk_model(struct plan_text *p, const struct model *m, unsigned bound, unsigned form, unsigned wanted,
                       unsigned comments, struct draws *d);

enum line_damage {
    NO_LINE, TWICE, NO_FEED, MORE_BYTE, LESS_BYTE, WRONG_BYTE, POSITION_UP, POSITION_DOWN, OTHER_NUMBER, NUMBER_ZERO_FIRST,
    POSITION_ZERO_FIRST, FOUR_DIGITS, OTHER_KIND, COMMENTED, CUT_AT_LINE, CUT_IN_LINE, EMPTY_LINE, COMMENT_LINE, RETURN,
    TWO_RETURNS, RETURN_INSIDE, RETURN_ALONE, RETURN_FOR_FEED, CUT_AT_RETURN, RETURN_LAST, WIDE_BLANK, SWAPPED, LARGEST_NUMBERS,
    LINE_DAMAGES
};
void damage_line(struct plan_text *to, const struct plan_text *from, unsigned line, enum line_damage kind, struct draws *d);

/* The same lines, each with a line end drawn anew. */
void change_ends(struct plan_text *to, const struct plan_text *from, struct draws d);

/* Lengthens a plan by comments to exactly this length. */
void stretch_plan(struct plan_text *p, size_t length);

#endif
