/* Reading a table. */
#include "table.h"

/* A number that was read and the byte behind it; where it is refused there is no such byte, and the value is the refusal. */
struct number {
    uint64_t value;
    const uint8_t *next;
};

/* Each number begins at `at`, which moves on only once that number is accepted: so `at` is the place of any refusal. */
struct reader {
    const uint8_t *at, *end;
    unsigned fault;
};

struct fault judge_sizes(uint64_t bound, uint64_t form, size_t table_length, size_t plan_length)
{
    unsigned number = bound < 1 || bound > MOST_BOUND ? BAD_BOUND
                    : form > 1 ? BAD_FORM
                    : table_length > MOST_TABLE ? LONG_TABLE
                    : plan_length > MOST_PLAN ? LONG_PLAN : 0;
    return (struct fault){number, 0};
}

/* A number whose last group, the first without the top bit, is not among its first ten. Where the table ends before that
 * group it is 5, however many groups there were. */
static struct number no_number(const uint8_t *p, const uint8_t *end)
{
    while (p < end && *p >= 128)
        p++;
    return (struct number){p == end ? CUT_SHORT : NOT_SHORTEST, NULL};
}

static struct number long_number(const uint8_t *at, const uint8_t *end)
{
    const uint8_t *p = at, *limit = end - at > 10 ? at + 10 : end;
    uint64_t sum = 0;
    for (unsigned shift = 0; p < limit; shift += 7) {
        uint64_t group = *p++;
        if (group < 128) {
            int shortest = group != 0 && !(shift == 63 && group > 1);
            return shortest ? (struct number){sum | group << shift, p} : (struct number){NOT_SHORTEST, NULL};
        }
        sum |= (group & 127) << shift;
    }
    return no_number(p, end);
}

/* Most numbers have one group or two. */
static inline struct number read_number(const uint8_t *at, const uint8_t *end)
{
    if (at < end && at[0] < 128)
        return (struct number){at[0], at + 1};
    if (end - at > 1 && at[1] < 128 && at[1] != 0)
        return (struct number){(at[0] & 127u) | (uint64_t)at[1] << 7, at + 2};
    return long_number(at, end);
}

static inline int refuse(struct reader *in, uint64_t fault)
{
    in->fault = (unsigned)fault;
    return 0;
}

/* The next number, refused with `fault` where it is not from least to most. */
static inline int ranged(struct reader *in, unsigned least, unsigned most, unsigned fault, unsigned *value)
{
    struct number n = read_number(in->at, in->end);
    if (n.next == NULL)
        return refuse(in, n.value);
    if (n.value < least || n.value > most)
        return refuse(in, fault);
    in->at = n.next;
    *value = (unsigned)n.value;
    return 1;
}

static inline int fact_set(struct reader *in, uint64_t beyond, uint64_t *set)
{
    struct number n = read_number(in->at, in->end);
    if (n.next == NULL)
        return refuse(in, n.value);
    if (n.value & beyond)
        return refuse(in, NOT_THERE);
    in->at = n.next;
    *set = n.value;
    return 1;
}

static inline int read_counts(struct reader *in, struct table *t)
{
    unsigned abstract;
    if (!ranged(in, 0, MOST_FACTS, OUT_OF_RANGE, &t->facts) ||
        !ranged(in, 0, MOST_ACTIONS, OUT_OF_RANGE, &t->actions) ||
        !ranged(in, 1, MOST_TASKS - t->actions, OUT_OF_RANGE, &abstract))
        return 0;
    t->tasks = t->actions + abstract;
    return ranged(in, 0, MOST_METHODS, OUT_OF_RANGE, &t->methods);
}

static inline int read_ends(struct reader *in, struct table *t, uint64_t beyond)
{
    return ranged(in, t->actions, t->tasks - 1, NOT_THERE, &t->first) &&
           fact_set(in, beyond, &t->start) &&
           fact_set(in, beyond, &t->goal);
}

static inline int read_action(struct reader *in, uint64_t beyond, struct action *a)
{
    return fact_set(in, beyond, &a->needs) &&
           fact_set(in, beyond, &a->adds) &&
           fact_set(in, beyond, &a->deletes) &&
           ranged(in, 0, MOST_COST, OUT_OF_RANGE, &a->cost);
}

static inline int read_method(struct reader *in, unsigned actions, unsigned tasks, struct method *m)
{
    unsigned head, count, task;
    if (!ranged(in, actions, tasks - 1, NOT_THERE, &head) ||
        !ranged(in, 0, MOST_SUBTASKS, OUT_OF_RANGE, &count))
        return 0;
    m->head = (uint8_t)head;
    m->count = (uint8_t)count;
    for (unsigned k = 0; k < count; k++) {
        if (!ranged(in, 0, tasks - 1, NOT_THERE, &task))
            return 0;
        m->subtasks[k] = (uint8_t)task;
    }
    return 1;
}

static inline int read_all(struct reader *in, struct table *t)
{
    if (!read_counts(in, t))
        return 0;
    uint64_t beyond = t->facts == MOST_FACTS ? 0 : ~(uint64_t)0 << t->facts;
    if (!read_ends(in, t, beyond))
        return 0;
    unsigned actions = t->actions, tasks = t->tasks, methods = t->methods;
    for (unsigned k = 0; k < actions; k++)
        if (!read_action(in, beyond, &t->action[k]))
            return 0;
    for (unsigned k = 0; k < methods; k++)
        if (!read_method(in, actions, tasks, &t->method[k]))
            return 0;
    return in->at == in->end ? 1 : refuse(in, BYTES_AFTER);
}

struct fault read_table(struct table *t, const uint8_t *bytes, size_t length)
{
    if (length == 0)   /* the bytes may be a null pointer, which is not to be reckoned with */
        return (struct fault){CUT_SHORT, 0};
    struct reader in = {bytes, bytes + length, 0};
    if (read_all(&in, t))
        return (struct fault){0, 0};
    return (struct fault){in.fault, (uint64_t)(in.at - bytes)};
}
