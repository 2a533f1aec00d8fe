/* Document 02, C-11: a depth-first search for a plan. */
#include "plain.h"
#include "table.h"
#include <string.h>

enum { MOST_LINE = 10, FIRST_METHOD = MOST_ACTIONS };

/* An operator, and the next in table order with the same task. */
struct choice {
    struct operator o;
    const struct choice *next;
};

struct taken {
    const struct choice *what;
    unsigned position;
};

struct search {
    uint64_t goal, applied, budget;
    uint8_t stack[STACK];
    const struct choice *first[MOST_TASKS];
    struct choice all[MOST_ACTIONS + MOST_METHODS];   /* actions from 0 on, methods from FIRST_METHOD on */
    struct taken plan[MOST_LIMIT];                    /* the last operator first, as the search comes back with them */
    unsigned taken;
};

enum outcome { NOTHING, FOUND, TOO_MANY };

/* Puts an operator before those of its task that are there; one that exists nowhere is left out. */
static void link_choice(struct search *s, struct choice *c)
{
    if (c->o.highest == 0)
        return;
    c->next = s->first[c->o.task];
    s->first[c->o.task] = c;
}

static void link_choices(struct search *s, const struct table *t, unsigned bound, unsigned form)
{
    memset(s->first, 0, t->tasks * sizeof *s->first);
    for (unsigned k = t->methods; k-- > 0;) {
        struct choice *c = &s->all[FIRST_METHOD + k];
        method_operator(&c->o, t, k, bound, form);
        link_choice(s, c);
    }
    for (unsigned k = t->actions; k-- > 0;) {
        struct choice *c = &s->all[k];
        action_operator(&c->o, t, k, bound);
        link_choice(s, c);
    }
}

/* All lists of up to `left` more operators, each before its continuations. What lies above the top is of no account and an
 * operator changes nothing below it: so putting the task back there brings the stack back. */
static enum outcome seek(struct search *s, uint64_t facts, unsigned top, unsigned left)
{
    uint8_t task = s->stack[top];
    for (const struct choice *c = s->first[task]; c; c = c->next) {
        const struct operator *o = &c->o;
        if (top > o->highest || (o->needs & ~facts))
            continue;
        if (s->applied == s->budget)
            return TOO_MANY;
        s->applied++;
        uint64_t after = (facts & ~o->deletes) | o->adds;
        unsigned height = top + o->rest - 1;
        enum outcome outcome = NOTHING;
        if (height == 0) {
            outcome = s->goal & ~after ? NOTHING : FOUND;
        } else if (left > 1) {
            memcpy(s->stack + top, o->left, sizeof o->left);
            outcome = seek(s, after, height, left - 1);
            s->stack[top] = task;
        }
        if (outcome == FOUND)
            s->plan[s->taken++] = (struct taken){c, top};
        if (outcome != NOTHING)
            return outcome;
    }
    return NOTHING;
}

static uint8_t *put_number(uint8_t *to, unsigned n)
{
    if (n >= 100)
        *to++ = (uint8_t)('0' + n / 100);
    if (n >= 10)
        *to++ = (uint8_t)('0' + n / 10 % 10);
    *to++ = (uint8_t)('0' + n % 10);
    return to;
}

static uint8_t *put_plan(uint8_t *to, const struct search *s)
{
    for (unsigned k = s->taken; k-- > 0;) {
        unsigned number = (unsigned)(s->plan[k].what - s->all);
        int method = number >= FIRST_METHOD;
        *to++ = '(';
        *to++ = method ? 'm' : 'a';
        to = put_number(to, method ? number - FIRST_METHOD : number);
        *to++ = ' ';
        to = put_number(to, s->plan[k].position);
        *to++ = ')';
        *to++ = '\n';
    }
    return to;
}

/* Refusals 1, 2, 17, 3 and 5 to 9, in that order. */
static struct fault open_table(struct table *t, uint64_t bound, uint64_t form, uint64_t limit, uint64_t budget,
                               const uint8_t *table, size_t table_length)
{
    struct fault f = judge_sizes(bound, form, 0, 0);
    if (f.number == 0 && (limit < 1 || limit > MOST_LIMIT || budget > MOST_BUDGET))
        f.number = BAD_LIMITS;
    if (f.number == 0)
        f = judge_sizes(bound, form, table_length, 0);
    return f.number ? f : read_table(t, table, table_length);
}

struct plain_found plain_search(uint64_t bound, uint64_t form, uint64_t limit, uint64_t budget,
                                const uint8_t *table, size_t table_length, uint8_t *text, size_t room)
{
    struct table t;
    struct search s;
    struct fault f = open_table(&t, bound, form, limit, budget, table, table_length);
    if (f.number)
        return (struct plain_found){f.number, f.place, 0, 0};
    link_choices(&s, &t, (unsigned)bound, (unsigned)form);
    s.goal = t.goal;
    s.budget = budget;
    s.applied = s.taken = 0;
    s.stack[1] = (uint8_t)t.first;
    switch (seek(&s, t.start, 1, (unsigned)limit)) {
    case TOO_MANY: return (struct plain_found){OVER_BUDGET, 0, 0, 0};
    case NOTHING: return (struct plain_found){NO_PLAN, s.applied, 0, 0};
    default: break;
    }
    uint8_t found[MOST_LIMIT * MOST_LINE];
    size_t length = (size_t)(put_plan(found, &s) - found);
    if (length > room)
        return (struct plain_found){NO_ROOM, length, 0, 0};
    memcpy(text, found, length);
    return (struct plain_found){0, 0, s.applied, length};
}
