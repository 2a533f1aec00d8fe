/* Checking a plan and expanding it. */
#include "plain.h"
#include "table.h"
#include <string.h>

enum { SHORTEST_LINE = 7, MOST_LINES = MOST_PLAN / SHORTEST_LINE, FIRST_METHOD = MOST_ACTIONS };

/* Every operator of the table, made once: actions from 0 on, methods from FIRST_METHOD on. */
struct operators {
    unsigned actions, methods;
    struct operator all[MOST_ACTIONS + MOST_METHODS];
};

/* Facts and sums of a run; top is the height of its stack, `noted` where the next operator is noted. */
struct run {
    uint64_t facts, cost, steps, comments;
    unsigned top;
    uint16_t *noted;
};

/* An operator line: its operator's place among all, had the table so many, and its position. */
struct line { unsigned operator, end, position; };

static void make_operators(struct operators *o, const struct table *t, unsigned bound, unsigned form)
{
    o->actions = t->actions;
    o->methods = t->methods;
    for (unsigned k = 0; k < t->actions; k++)
        action_operator(&o->all[k], t, k, bound);
    for (unsigned k = 0; k < t->methods; k++)
        method_operator(&o->all[FIRST_METHOD + k], t, k, bound, form);
}

/* One to three digits, no leading zero; a digit too many is left to what has to follow. */
static inline const uint8_t *digits(const uint8_t *p, unsigned *value)
{
    unsigned n = *p++ - (unsigned)'0', digit;
    if (n > 9)
        return NULL;
    if (n != 0 && (digit = *p - (unsigned)'0') <= 9) {
        n = 10 * n + digit;
        p++;
        if ((digit = *p - (unsigned)'0') <= 9) {
            n = 10 * n + digit;
            p++;
        }
    }
    *value = n;
    return p;
}

/* A line's end: a line feed, or a carriage return and a line feed. */
static inline const uint8_t *end_of_line(const uint8_t *p)
{
    if (p[0] == '\n')
        return p + 1;
    return p[0] == '\r' && p[1] == '\n' ? p + 2 : NULL;
}

/* One operator line of a text that ends with a line feed: no part of a line but its end fits a line feed, so nothing
 * behind the text is looked at. Answers where the next line starts, NULL where the line has another shape. */
static inline const uint8_t *read_line(const uint8_t *p, const struct operators *o, struct line *line)
{
    unsigned first, number;
    if (p[0] != '(')
        return NULL;
    if (p[1] == 'a')
        first = 0, line->end = o->actions;
    else if (p[1] == 'm')
        first = FIRST_METHOD, line->end = FIRST_METHOD + o->methods;
    else
        return NULL;
    if (!(p = digits(p + 2, &number)) || *p != ' ')
        return NULL;
    line->operator = first + number;
    if (!(p = digits(p + 1, &line->position)) || *p != ')')
        return NULL;
    return end_of_line(p + 1);
}

static inline int emitted(const struct operators *o, const struct line *line)
{
    return line->operator < line->end && line->position - 1 < o->all[line->operator].highest;   /* 0 - 1 is above all */
}

static inline int apply(struct run *r, uint8_t stack[STACK], const struct operator *o, unsigned position)
{
    if (position != r->top || stack[position] != o->task || (o->needs & ~r->facts))
        return 0;
    r->facts = (r->facts & ~o->deletes) | o->adds;
    memcpy(stack + position, o->left, sizeof o->left);
    r->top = position + o->rest - 1;
    r->cost += o->cost;
    r->steps += o->steps;
    return 1;
}

/* How many bytes the text has up to its last line feed. */
static size_t whole_lines(const uint8_t *text, size_t length)
{
    while (length > 0 && text[length - 1] != '\n')
        length--;
    return length;
}

/* Runs every whole line; answers the refusal of the first line at fault, or 0. */
static inline unsigned run_lines(struct run *r, uint8_t stack[STACK], const struct operators *o, const uint8_t *p,
                                 const uint8_t *end)
{
    while (p < end) {
        struct line line;
        if (*p == ';') {
            p = (const uint8_t *)memchr(p, '\n', (size_t)(end - p)) + 1;
            r->comments++;
            continue;
        }
        if (!(p = read_line(p, o, &line)))
            return BAD_LINE;
        if (!emitted(o, &line))
            return NOT_EMITTED;
        if (!apply(r, stack, &o->all[line.operator], line.position))
            return NOT_APPLICABLE;
        *r->noted++ = (uint16_t)line.operator;
    }
    return 0;
}

/* An accepted run: its sums and its operators in turn. */
struct accepted {
    uint64_t cost, steps, operators;
    uint16_t noted[MOST_LINES];
};

static struct fault run_plan(struct accepted *a, const struct table *t, const struct operators *o, const uint8_t *plan,
                             size_t plan_length)
{
    struct run r = {.facts = t->start, .top = 1, .noted = a->noted};
    uint8_t stack[STACK];
    stack[1] = (uint8_t)t->first;
    size_t whole = whole_lines(plan, plan_length);
    unsigned fault = whole == 0 ? 0 : run_lines(&r, stack, o, plan, plan + whole);
    int ended = !fault && whole == plan_length;
    if (ended)
        fault = r.top != 0 ? STACK_LEFT : t->goal & ~r.facts ? GOAL_MISSING : 0;
    else if (!fault)   /* the last line lacks its line feed */
        fault = BAD_LINE;
    a->operators = (uint64_t)(r.noted - a->noted);
    a->cost = r.cost;
    a->steps = r.steps;
    /* Behind the lines that were run comes the one at fault, unless the plan was run to its end. */
    return (struct fault){fault, fault ? a->operators + r.comments + !ended : 0};
}

static struct fault check(struct accepted *a, struct table *t, uint64_t bound, uint64_t form,
                          const uint8_t *table, size_t table_length, const uint8_t *plan, size_t plan_length)
{
    struct operators o;
    struct fault f = judge_sizes(bound, form, table_length, plan_length);
    if (f.number == 0)
        f = read_table(t, table, table_length);
    if (f.number)
        return f;
    make_operators(&o, t, (unsigned)bound, (unsigned)form);
    return run_plan(a, t, &o, plan, plan_length);
}

struct plain_verdict plain_check(uint64_t bound, uint64_t form, const uint8_t *table, size_t table_length,
                                 const uint8_t *plan, size_t plan_length)
{
    struct table t;
    struct accepted a;
    struct fault f = check(&a, &t, bound, form, table, table_length, plan, plan_length);
    if (f.number)
        return (struct plain_verdict){f.number, f.place, 0, 0, 0};
    return (struct plain_verdict){0, 0, a.cost, a.operators, a.steps};
}

static inline uint8_t *put_step(uint8_t *to, unsigned step)
{
    to[0] = (uint8_t)step;
    to[1] = (uint8_t)(step >> 8);
    return to + 2;
}

/* A method step, then the actions it takes along, which are the first of its subtasks. */
static uint8_t *put_method(uint8_t *to, const struct table *t, unsigned method, unsigned form)
{
    const struct method *m = &t->method[method];
    to = put_step(to, 1024 + method);
    if (form == 1)
        for (unsigned k = 0; k < m->count && m->subtasks[k] < t->actions; k++)
            to = put_step(to, m->subtasks[k]);
    return to;
}

struct plain_answer plain_expand(uint64_t bound, uint64_t form, const uint8_t *table, size_t table_length,
                                 const uint8_t *plan, size_t plan_length, uint8_t *steps, size_t room)
{
    struct table t;
    struct accepted a;
    struct fault f = check(&a, &t, bound, form, table, table_length, plan, plan_length);
    if (f.number == 0 && 2 * a.steps > room)
        f = (struct fault){NO_ROOM, 2 * a.steps};
    if (f.number)
        return (struct plain_answer){f.number, f.place, 0};
    for (uint64_t k = 0; k < a.operators; k++)
        steps = a.noted[k] < FIRST_METHOD ? put_step(steps, a.noted[k])
                                          : put_method(steps, &t, a.noted[k] - FIRST_METHOD, (unsigned)form);
    return (struct plain_answer){0, 0, 2 * a.steps};
}
