/* Tables, plans and damage, all from one seeded row of numbers. */
#include "generate.h"
#include <string.h>

/* A multiplied and folded counter: short, and good enough to spread cases. */
uint64_t draw(struct draws *d)
{
    uint64_t z = d->state += 0x9e3779b97f4a7c15u;
    z = (z ^ z >> 30) * 0xbf58476d1ce4e5b9u;
    z = (z ^ z >> 27) * 0x94d049bb133111ebu;
    return z ^ z >> 31;
}

unsigned below(struct draws *d, unsigned count)
{
    return (unsigned)(draw(d) % count);
}

int once_in(struct draws *d, unsigned count)
{
    return below(d, count) == 0;
}

unsigned draw_bound(struct draws *d)
{
    return once_in(d, 4) ? 1 + below(d, 64) : once_in(d, 6) ? 64 : 1 + below(d, 8);
}

uint64_t draw_wrong(struct draws *d)
{
    static const uint64_t wrong[] = {0, 2, 3, 65, 66, 255, 256, 257, 320, 65536, ((uint64_t)1 << 32) + 1, (uint64_t)1 << 63,
                                     ~(uint64_t)0};
    return wrong[below(d, sizeof wrong / sizeof *wrong)];
}

static uint64_t pick(struct draws *d, const uint64_t *from, unsigned count)
{
    return from[below(d, count)];
}

static uint64_t all_facts(unsigned facts)
{
    return facts == 64 ? ~(uint64_t)0 : ((uint64_t)1 << facts) - 1;
}

/* A set with each fact in it with a chance of one in 2^thin. */
static uint64_t fact_set(struct draws *d, unsigned facts, unsigned thin)
{
    uint64_t set = all_facts(facts);
    while (thin-- > 0)
        set &= draw(d);
    return set;
}

static void draw_sizes(struct model *m, struct draws *d, enum size size)
{
    static const uint64_t edge_facts[] = {0, 1, 7, 63, 64}, edge_actions[] = {0, 1, 127, 128, 254, 255},
                          edge_methods[] = {0, 1, 2, 127, 128};
    static const unsigned facts[] = {4, 12, 65, 0, 3, 65}, actions[] = {4, 12, 40, 0, 4, 0},
                          abstract[] = {3, 6, 20, 0, 0, 0}, methods[] = {8, 24, 80, 0, 0, 0};
    int edge = size == EDGE || (size == LARGE && once_in(d, 2));
    m->facts = edge ? (unsigned)pick(d, edge_facts, 5) : below(d, facts[size]);
    m->actions = size == EDGE ? (unsigned)pick(d, edge_actions, 6) : size == LARGE ? 255 - below(d, 120)
                                                                                  : below(d, actions[size]);
    unsigned left = 256 - m->actions;
    m->abstract = size == EDGE ? (once_in(d, 2) ? 1 : once_in(d, 2) ? left : 1 + below(d, left))
                : size == LARGE ? left : size == CHAIN ? 40 + below(d, 40) : 1 + below(d, abstract[size]);
    m->methods = size == EDGE ? (unsigned)pick(d, edge_methods, 5)
               : size == LARGE ? (once_in(d, 2) ? 512 : 400 + below(d, 112))
               : size == CHAIN ? m->abstract + below(d, 20) : below(d, methods[size]);
}

/* Needs are mostly what the start has, so that walks get on. */
static void draw_actions(struct model *m, struct draws *d, unsigned thin)
{
    for (unsigned k = 0; k < m->actions; k++) {
        m->action[k].needs = once_in(d, 8) ? fact_set(d, m->facts, 1) : fact_set(d, m->facts, thin) & m->start;
        m->action[k].adds = fact_set(d, m->facts, 2);
        m->action[k].deletes = fact_set(d, m->facts, once_in(d, 4) ? 1 : thin);
        m->action[k].cost = once_in(d, 8) ? 65535 - below(d, 2) : below(d, 300);
    }
}

static unsigned draw_task(const struct model *m, struct draws *d, unsigned abstract_in_eight)
{
    if (m->actions > 0 && below(d, 8) >= abstract_in_eight)
        return below(d, m->actions);
    return m->actions + below(d, m->abstract);
}

/* Some methods only end a task; the others start with a row of actions, if any, and go on with whatever comes. */
static void draw_method(struct model *m, struct draws *d, unsigned k)
{
    int ends = once_in(d, 3);
    unsigned row = below(d, 4);
    m->method[k].head = m->actions + (k < m->abstract ? k : below(d, m->abstract));
    m->method[k].count = once_in(d, 6) ? 0 : once_in(d, 4) ? below(d, 9) : 1 + below(d, 4);
    for (unsigned s = 0; s < m->method[k].count; s++)
        m->method[k].subtask[s] = draw_task(m, d, ends || s < row ? 0 : 5);
    if (once_in(d, 12)) {   /* c to c alone, or c last */
        unsigned count = once_in(d, 2) ? 1 : 1 + below(d, 8);
        for (unsigned s = m->method[k].count; s < count; s++)
            m->method[k].subtask[s] = draw_task(m, d, 4);
        m->method[k].count = count;
        m->method[k].subtask[count - 1] = m->method[k].head;
    }
    if (m->actions == 0 && ends)
        m->method[k].count = 0;
}

void draw_chain(struct model *m, struct draws *d)
{
    for (unsigned k = 0; k < m->abstract; k++) {
        m->method[k].head = m->actions + k;
        m->method[k].count = k + 1 == m->abstract ? 0 : 2;
        m->method[k].subtask[0] = m->actions + k + 1;
        m->method[k].subtask[1] = m->actions > 0 ? below(d, m->actions) : m->actions + m->abstract - 1;
    }
    m->first = m->actions;
}

/* A link that asks for less, or a chain without an end. */
static void loosen_chain(struct model *m, struct draws *d)
{
    if (once_in(d, 2))
        m->method[below(d, m->abstract - 1)].count = 1;
    if (once_in(d, 3))
        m->method[m->abstract - 1] = m->method[0];
}

/* Nearly as many bytes as a table can have: long fact sets, eight subtasks a method. */
static void fill_up(struct model *m, struct draws *d)
{
    m->facts = 64;
    m->start = fact_set(d, 64, 1);
    m->goal = fact_set(d, 64, 1);
    draw_actions(m, d, 1);
    for (unsigned k = 0; k < m->methods; k++)
        for (; m->method[k].count < 8; m->method[k].count++)
            m->method[k].subtask[m->method[k].count] = draw_task(m, d, once_in(d, 2) ? 0 : 6);
}

void draw_model(struct model *m, struct draws *d, enum size size)
{
    unsigned thin = once_in(d, 6) ? 1 : 3;
    draw_sizes(m, d, size);
    m->first = m->actions + below(d, m->abstract);
    m->start = fact_set(d, m->facts, below(d, 3));
    m->goal = fact_set(d, m->facts, 3);
    draw_actions(m, d, thin);
    for (unsigned k = 0; k < m->methods; k++)
        draw_method(m, d, k);
    if (size == CHAIN) {
        draw_chain(m, d);
        loosen_chain(m, d);
    }
    if (size == LARGE && once_in(d, 4))
        fill_up(m, d);
}

static void add_field(struct fields *f, uint64_t value)
{
    f->value[f->count++] = value;
}

void list_fields(struct fields *f, const struct model *m)
{
    const uint64_t head[] = {m->facts, m->actions, m->abstract, m->methods, m->first, m->start, m->goal};
    f->count = 0;
    for (unsigned k = 0; k < 7; k++)
        add_field(f, head[k]);
    for (unsigned k = 0; k < m->actions; k++) {
        add_field(f, m->action[k].needs);
        add_field(f, m->action[k].adds);
        add_field(f, m->action[k].deletes);
        add_field(f, m->action[k].cost);
    }
    for (unsigned k = 0; k < m->methods; k++) {
        add_field(f, m->method[k].head);
        add_field(f, m->method[k].count);
        for (unsigned s = 0; s < m->method[k].count; s++)
            add_field(f, m->method[k].subtask[s]);
    }
}

static uint8_t *put_value(uint8_t *to, uint64_t n)
{
    for (; n >= 128; n >>= 7)
        *to++ = (uint8_t)(n | 128);
    *to++ = (uint8_t)n;
    return to;
}

static uint8_t *put_row(uint8_t *to, uint8_t byte, unsigned count, uint8_t last)
{
    memset(to, byte, count);
    to[count] = last;
    return to + count + 1;
}

/* Values at which ranges and kinds of number end. */
static uint64_t limit_value(const struct fields *f, struct draws *d)
{
    const uint64_t actions = f->value[1], tasks = actions + f->value[2];
    const uint64_t limits[] = {0, 1, 8, 9, 64, 65, 127, 128, 255, 256, 257, 512, 513, 65535, 65536,
                               actions - (actions > 0), actions, tasks - (tasks > 0), tasks,
                               (uint64_t)1 << (f->value[0] & 63), (uint64_t)1 << 32, (uint64_t)1 << 63};
    return pick(d, limits, sizeof limits / sizeof *limits);
}

static uint8_t *put_damaged(uint8_t *to, const struct fields *f, uint64_t n, enum damage kind, struct draws *d)
{
    uint8_t *end = put_value(to, n), group = once_in(d, 2) ? 128 : 255;
    unsigned some = below(d, 64);
    switch (kind) {
    case CUT_INSIDE:
        if (group == 128 || end == to + 1)
            end[-1] |= 128;   /* the number goes on, the table doesn't */
        else
            end--;
        return end;
    case ZERO_GROUP:
        end[-1] |= 128;
        return put_row(end, 128, 0, 0);
    case ZERO_GROUPS:
        end[-1] |= 128;
        return put_row(end, 128, 1 + some % 12, 0);
    case ELEVEN_GROUPS: return put_row(to, group, 10 + some % 5, 1);
    case TENTH_ABOVE_1: return put_row(to, group, 9, (uint8_t)(2 + 2 * some % 126));
    case ENDLESS: return put_row(to, 255, 8 + some % 6, 255);
    case DOWN: return put_value(to, n - 1);
    case UP: return put_value(to, n + 1);
    case OTHER_VALUE: return put_value(to, draw(d) >> some);
    case LARGEST_VALUE: return put_value(to, ~(uint64_t)0);
    case LIMIT_VALUE: return put_value(to, limit_value(f, d));
    case EXTRA_BYTE:
        *end++ = (uint8_t)draw(d);
        return end;
    default: return end;
    }
}

void write_table(struct table_text *t, const struct fields *f, unsigned field, enum damage kind, struct draws *d)
{
    uint8_t *to = t->bytes, *cut = NULL;
    for (unsigned k = 0; k < f->count; k++) {
        int hit = k == field;
        if (hit && kind == CUT_BEFORE)
            cut = to;
        to = hit ? put_damaged(to, f, f->value[k], kind, d) : put_value(to, f->value[k]);
        if (hit && (kind == CUT_INSIDE || kind == ENDLESS))
            cut = to;
    }
    if (field == f->count && kind == EXTRA_BYTE)
        *to++ = (uint8_t)draw(d);
    /* What the cut leaves behind the table is the very continuation that must not be read. */
    t->length = (size_t)((cut ? cut : to) - t->bytes);
    for (unsigned k = 0; k < BEHIND; k++)
        to[k] = (uint8_t)draw(d);
}
