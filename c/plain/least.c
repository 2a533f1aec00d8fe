/* The least bound of a form. */
#include "plain.h"
#include "table.h"
#include <string.h>

/* The height that a method needs above what lies under its head: while a subtask is worked off, the later ones lie under
 * it. In form 1 the actions that come first are gone before heights count. A need above 64 is no need to follow further. */
static unsigned height(const struct table *t, const struct method *m, unsigned form, const uint8_t need[MOST_TASKS])
{
    unsigned most = 1, k = 0;
    if (form == 1)
        while (k < m->count && m->subtasks[k] < t->actions)
            k++;
    for (; k < m->count; k++) {
        unsigned high = need[m->subtasks[k]] + (m->count - 1u - k);
        if (high > most)
            most = high;
    }
    return most;
}

/* Rounds over the methods, each bettering what the heads need, until one betters nothing. */
static unsigned least(const struct table *t, unsigned form)
{
    uint8_t need[MOST_TASKS];
    memset(need, 1, t->actions);
    memset(need + t->actions, MOST_BOUND + 1, t->tasks - t->actions);
    for (int better = 1; better;) {
        better = 0;
        for (unsigned k = 0; k < t->methods; k++) {
            const struct method *m = &t->method[k];
            unsigned high = height(t, m, form, need);
            if (high < need[m->head]) {
                need[m->head] = (uint8_t)high;
                better = 1;
            }
        }
    }
    return need[t->first] > MOST_BOUND ? 0 : need[t->first];
}

struct plain_answer plain_least(uint64_t form, const uint8_t *table, size_t table_length)
{
    struct table t;
    struct fault f = judge_sizes(1, form, table_length, 0);
    if (f.number == 0)
        f = read_table(&t, table, table_length);
    if (f.number)
        return (struct plain_answer){f.number, f.place, 0};
    return (struct plain_answer){0, 0, least(&t, (unsigned)form)};
}
