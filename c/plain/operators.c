/* The operators of actions and methods. */
#include "table.h"

/* Joins one more action to the operator; answers 0 where that leaves it dead. */
static inline int join(struct operator *o, const struct action *a)
{
    if (a->needs & o->deletes)
        return 0;
    o->needs |= a->needs & ~o->adds;
    o->adds = (o->adds & ~a->deletes) | a->adds;
    o->deletes = (o->deletes | a->deletes) & ~a->adds;
    o->cost += a->cost;
    return 1;
}

void action_operator(struct operator *o, const struct table *t, unsigned action, unsigned bound)
{
    *o = (struct operator){.task = (uint8_t)action, .steps = 1, .highest = (uint8_t)bound};
    join(o, &t->action[action]);
}

/* Joins the actions that a method takes along, and answers how many; -1 where they leave it dead. */
static inline int join_prefix(struct operator *o, const struct table *t, const struct method *m, unsigned form)
{
    unsigned prefix = 0;
    if (form == 1)
        for (; prefix < m->count && m->subtasks[prefix] < t->actions; prefix++)
            if (!join(o, &t->action[m->subtasks[prefix]]))
                return -1;
    return (int)prefix;
}

/* An empty rest asks no more room than the head had; one deeper than the bound fits nowhere. */
static inline unsigned last_position(unsigned rest, unsigned bound)
{
    return rest == 0 ? bound : rest > bound ? 0 : bound - rest + 1;
}

void method_operator(struct operator *o, const struct table *t, unsigned method, unsigned bound, unsigned form)
{
    const struct method *m = &t->method[method];
    *o = (struct operator){.task = m->head};
    int prefix = join_prefix(o, t, m, form);
    if (prefix < 0)
        return;
    unsigned rest = m->count - (unsigned)prefix;
    for (unsigned k = 0; k < rest; k++)
        o->left[k] = m->subtasks[m->count - 1 - k];
    o->steps = (uint8_t)(1 + prefix);
    o->rest = (uint8_t)rest;
    o->highest = (uint8_t)last_position(rest, bound);
}

unsigned method_positions(const struct table *t, unsigned method, unsigned bound, unsigned form)
{
    const struct method *m = &t->method[method];
    struct operator o = {0};
    int prefix = join_prefix(&o, t, m, form);
    return prefix < 0 ? 0 : last_position(m->count - (unsigned)prefix, bound);
}
