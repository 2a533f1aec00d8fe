/* A table in memory, and the operators it gives. */
#ifndef PLAIN_TABLE_H
#define PLAIN_TABLE_H

#include <stddef.h>
#include <stdint.h>

enum {
    MOST_BOUND = 64, MOST_FACTS = 64, MOST_ACTIONS = 255, MOST_TASKS = 256, MOST_METHODS = 512, MOST_SUBTASKS = 8,
    MOST_COST = 65535, MOST_TABLE = 32768, MOST_PLAN = 65536, MOST_LIMIT = 256, MOST_BUDGET = 1000000
};

enum {
    BAD_BOUND = 1, BAD_FORM, LONG_TABLE, LONG_PLAN, CUT_SHORT, NOT_SHORTEST, OUT_OF_RANGE, NOT_THERE, BYTES_AFTER,
    NO_SECTION, BAD_LINE, NOT_EMITTED, NOT_APPLICABLE, STACK_LEFT, GOAL_MISSING, NO_ROOM, BAD_LIMITS, NO_PLAN, OVER_BUDGET
};

struct fault { uint64_t number, place; };

struct action {
    uint64_t needs, adds, deletes;
    uint32_t cost;
};

struct method {
    uint8_t head, count;
    uint8_t subtasks[MOST_SUBTASKS];
};

struct table {
    unsigned facts, actions, tasks, methods, first;
    uint64_t start, goal;
    struct action action[MOST_ACTIONS];
    struct method method[MOST_METHODS];
};

/* Refusals 1, 2, 3 and 4 in that order; an entry without a bound or a plan gives 1 or 0 for it. */
struct fault judge_sizes(uint64_t bound, uint64_t form, size_t table_length, size_t plan_length);

/* Reads the whole table, or answers refusal 5 to 9 with its place. */
struct fault read_table(struct table *t, const uint8_t *bytes, size_t length);

/* Above the highest position a stack has room to leave all eight bytes of an operator, whatever they mean. */
enum { STACK = MOST_BOUND + 1 + MOST_SUBTASKS };

/* What an operator needs, does and leaves, at whichever position. */
struct operator {
    uint64_t needs, adds, deletes;
    uint32_t cost;
    uint8_t task;                  /* on top before: the action or the method's head */
    uint8_t steps, rest;           /* the action, or the method and its prefix; subtasks left on the stack */
    uint8_t highest;               /* the last position it exists at, 0 where it exists at none */
    uint8_t left[MOST_SUBTASKS];   /* what it leaves from its position upwards: the last subtask first */
};

void action_operator(struct operator *o, const struct table *t, unsigned action, unsigned bound);
void method_operator(struct operator *o, const struct table *t, unsigned method, unsigned bound, unsigned form);

/* How many positions a method's operators have: 1 to that one. */
unsigned method_positions(const struct table *t, unsigned method, unsigned bound, unsigned form);

#endif
