/* The problem as text: sections, one by one or all. */
#include "plain.h"
#include "table.h"
#include <string.h>

enum { MOST_SECTION = 2048, CHUNK = 32, BUFFER = 65536, MOST_HOLES = 3 + MOST_SUBTASKS };

struct problem {
    struct table table;
    unsigned bound, form, variables;
    uint64_t operators, sections;
    uint8_t positions[MOST_METHODS];   /* per method, how many its operators have */
};

static struct fault make_problem(struct problem *p, uint64_t bound, uint64_t form, const uint8_t *table, size_t length)
{
    const struct table *t = &p->table;
    struct fault f = judge_sizes(bound, form, length, 0);
    if (f.number == 0)
        f = read_table(&p->table, table, length);
    if (f.number)
        return f;
    p->bound = (unsigned)bound;
    p->form = (unsigned)form;
    p->variables = t->facts + 1 + p->bound;
    p->operators = t->actions * bound;
    for (unsigned k = 0; k < t->methods; k++) {
        p->positions[k] = (uint8_t)method_positions(t, k, p->bound, p->form);
        p->operators += p->positions[k];
    }
    p->sections = 1 + p->variables + 1 + p->operators + 1;
    return f;
}

static inline char *put(char *to, const char *text)
{
    size_t length = strlen(text);
    memcpy(to, text, length);
    return to + length;
}

static char *put_number(char *to, uint64_t n)
{
    char digits[20];
    unsigned k = sizeof digits;
    do {
        digits[--k] = (char)('0' + n % 10);
        n /= 10;
    } while (n);
    memcpy(to, digits + k, sizeof digits - k);
    return to + sizeof digits - k;
}

static char *put_line(char *to, uint64_t n)
{
    to = put_number(to, n);
    *to++ = '\n';
    return to;
}

static char *put_named(char *to, const char *name, uint64_t n)
{
    return put_line(put(to, name), n);
}

static char *head_section(char *to, const struct problem *p)
{
    to = put(to, "begin_version\n3\nend_version\nbegin_metric\n1\nend_metric\n");
    return put_line(to, p->variables);
}

static char *fact_values(char *to, unsigned fact)
{
    to = put(to, "2\n");
    to = put_named(to, "Atom f", fact);
    return put_named(to, "NegatedAtom f", fact);
}

static char *top_values(char *to, unsigned bound)
{
    to = put_line(to, bound + 1);
    for (unsigned k = 0; k <= bound; k++)
        to = put_named(to, "top", k);
    return to;
}

static char *position_values(char *to, unsigned tasks)
{
    to = put_line(to, tasks + 1);
    for (unsigned k = 0; k < tasks; k++)
        to = put_named(to, "t", k);
    return put(to, "none\n");
}

static char *variable_section(char *to, const struct problem *p, unsigned variable)
{
    to = put_named(to, "begin_variable\nvar", variable);
    to = put(to, "-1\n");
    to = variable < p->table.facts ? fact_values(to, variable)
       : variable == p->table.facts ? top_values(to, p->bound) : position_values(to, p->table.tasks);
    return put(to, "end_variable\n");
}

static char *state(char *to, const struct problem *p)
{
    const struct table *t = &p->table;
    to = put(to, "begin_state\n");
    for (unsigned k = 0; k < t->facts; k++)
        to = put(to, t->start >> k & 1 ? "0\n" : "1\n");
    to = put(to, "1\n");
    to = put_line(to, t->first);
    for (unsigned k = 2; k <= p->bound; k++)
        to = put_line(to, t->tasks);
    return put(to, "end_state\n");
}

static inline unsigned members(uint64_t set)
{
    return (unsigned)__builtin_popcountll(set);
}

static char *goal(char *to, const struct table *t)
{
    to = put(to, "begin_goal\n");
    to = put_line(to, members(t->goal) + 1);
    for (uint64_t rest = t->goal; rest; rest &= rest - 1)
        to = put(put_number(to, (unsigned)__builtin_ctzll(rest)), " 0\n");
    to = put(put_number(to, t->facts), " 0\n");
    return put(to, "end_goal\n");
}

static char *middle_section(char *to, const struct problem *p)
{
    to = put(to, "0\n");
    to = state(to, p);
    to = goal(to, &p->table);
    return put_line(to, p->operators);
}

/* An operator's texts at its several positions differ in numbers alone, and each of these is the position plus something
 * fixed. So the rest is written once, into a frame: parts, each but the last followed by such a number. */
struct frame {
    unsigned holes, last;
    struct { uint16_t length; short plus; } part[MOST_HOLES];
    char *end, *part_start;
    char text[MOST_SECTION + CHUNK];
};

static void hole(struct frame *f, int plus)
{
    f->part[f->holes].length = (uint16_t)(f->end - f->part_start);
    f->part[f->holes].plus = (short)plus;
    f->holes++;
    f->part_start = f->end;
}

static char *put_fact_prevails(char *to, const struct operator *o)
{
    for (uint64_t rest = o->needs & ~o->deletes; rest; rest &= rest - 1)
        to = put(put_number(to, (unsigned)__builtin_ctzll(rest)), " 0\n");
    return to;
}

/* A fact that is needed and added is not changed; one that is added otherwise, or deleted, is. */
static char *put_fact_effects(char *to, const struct operator *o)
{
    for (uint64_t rest = (o->adds & ~o->needs) | o->deletes; rest; rest &= rest - 1) {
        uint64_t fact = rest & -rest;
        to = put_number(put(to, "0 "), (unsigned)__builtin_ctzll(rest));
        to = put(to, fact & o->adds ? " -1 0\n" : fact & o->needs ? " 0 1\n" : " -1 1\n");
    }
    return to;
}

/* What position i holds afterwards. */
static unsigned after(const struct operator *o, unsigned none)
{
    return o->rest == 0 ? none : o->left[0];
}

static void prevails(struct frame *f, const struct operator *o, const struct table *t)
{
    int keeps_top = o->rest == 1, keeps_task = after(o, t->tasks) == o->task;
    f->end = put_line(f->end, members(o->needs & ~o->deletes) + keeps_top + keeps_task);
    f->end = put_fact_prevails(f->end, o);
    if (keeps_top) {
        f->end = put(put_number(f->end, t->facts), " ");
        hole(f, 0);
        f->end = put(f->end, "\n");
    }
    if (keeps_task) {
        hole(f, (int)t->facts);
        f->end = put_named(f->end, " ", o->task);
    }
}

static void stack_effects(struct frame *f, const struct operator *o, const struct table *t)
{
    if (o->rest != 1) {
        f->end = put(put_number(put(f->end, "0 "), t->facts), " ");
        hole(f, 0);
        f->end = put(f->end, " ");
        hole(f, o->rest - 1);
        f->end = put(f->end, "\n");
    }
    if (after(o, t->tasks) != o->task) {
        f->end = put(f->end, "0 ");
        hole(f, (int)t->facts);
        f->end = put_number(put(f->end, " "), o->task);
        f->end = put_named(f->end, " ", after(o, t->tasks));
    }
    for (unsigned k = 1; k < o->rest; k++) {
        f->end = put(f->end, "0 ");
        hole(f, (int)(t->facts + k));
        f->end = put_named(f->end, " -1 ", o->left[k]);
    }
}

static void effects(struct frame *f, const struct operator *o, const struct table *t)
{
    unsigned stack = (o->rest != 1) + (after(o, t->tasks) != o->task) + (o->rest > 1 ? o->rest - 1u : 0);
    f->end = put_line(f->end, members((o->adds & ~o->needs) | o->deletes) + stack);
    f->end = put_fact_effects(f->end, o);
    stack_effects(f, o, t);
}

static void make_frame(struct frame *f, const struct operator *o, const struct table *t, const char *kind, unsigned number)
{
    f->holes = 0;
    f->end = f->part_start = f->text;
    f->end = put_number(put(put(f->end, "begin_operator\n"), kind), number);
    f->end = put(f->end, " ");
    hole(f, 0);
    f->end = put(f->end, "\n");
    prevails(f, o, t);
    effects(f, o, t);
    f->end = put(put_line(f->end, o->cost), "end_operator\n");
    f->last = (unsigned)(f->end - f->part_start);
}

/* The decimal digits of every position, height and variable. */
struct numerals {
    char text[MOST_FACTS + 1 + MOST_BOUND][4];
    uint8_t length[MOST_FACTS + 1 + MOST_BOUND];
};

static void make_numerals(struct numerals *n, unsigned count)
{
    for (unsigned k = 0; k < count; k++)
        n->length[k] = (uint8_t)(put_number(n->text[k], k) - n->text[k]);
}

/* Most parts are some bytes: one chunk is copied whatever it holds beyond them, both sides having room for it. */
static inline char *copy(char *to, const char *from, unsigned length)
{
    memcpy(to, from, CHUNK);
    if (length > CHUNK)
        memcpy(to + CHUNK, from + CHUNK, length - CHUNK);
    return to + length;
}

static char *fill(char *to, const struct frame *f, const struct numerals *n, unsigned position)
{
    const char *from = f->text;
    for (unsigned k = 0; k < f->holes; k++) {
        unsigned length = f->part[k].length, number = position + (unsigned)f->part[k].plus;
        to = copy(to, from, length);
        from += length;
        memcpy(to, n->text[number], sizeof n->text[number]);
        to += n->length[number];
    }
    return copy(to, from, f->last);
}

/* The frame of the operator that is k-th among all; answers its position. */
static unsigned find_operator(struct frame *f, const struct problem *p, uint64_t k)
{
    const struct table *t = &p->table;
    struct operator o;
    if (k < t->actions * p->bound) {
        unsigned action = (unsigned)k / p->bound;
        action_operator(&o, t, action, p->bound);
        make_frame(f, &o, t, "a", action);
        return (unsigned)k % p->bound + 1;
    }
    k -= t->actions * p->bound;
    unsigned method = 0;
    for (; k >= p->positions[method]; method++)
        k -= p->positions[method];
    method_operator(&o, t, method, p->bound, p->form);
    make_frame(f, &o, t, "m", method);
    return (unsigned)k + 1;
}

static char *operator_section(char *to, const struct problem *p, uint64_t k)
{
    struct frame f;
    struct numerals n;
    unsigned position = find_operator(&f, p, k);
    make_numerals(&n, p->variables);
    return fill(to, &f, &n, position);
}

static char *one_section(char *to, const struct problem *p, uint64_t index)
{
    if (index == 0)
        return head_section(to, p);
    if (index <= p->variables)
        return variable_section(to, p, (unsigned)index - 1);
    if (index == p->variables + 1)
        return middle_section(to, p);
    if (index == p->sections - 1)
        return put(to, "0\n");
    return operator_section(to, p, index - p->variables - 2);
}

struct plain_answer plain_sections(uint64_t bound, uint64_t form, const uint8_t *table, size_t table_length)
{
    struct problem p;
    struct fault f = make_problem(&p, bound, form, table, table_length);
    return (struct plain_answer){f.number, f.place, f.number ? 0 : p.sections};
}

struct plain_answer plain_section(uint64_t bound, uint64_t form, const uint8_t *table, size_t table_length,
                                  uint64_t index, uint8_t *text, size_t room, uint64_t at)
{
    struct problem p;
    struct fault f = make_problem(&p, bound, form, table, table_length);
    if (f.number == 0 && index >= p.sections)
        f.number = NO_SECTION;
    if (f.number)
        return (struct plain_answer){f.number, f.place, 0};
    char section[MOST_SECTION + CHUNK];
    size_t length = (size_t)(one_section(section, &p, index) - section);
    if (at > room || length > room - at)
        return (struct plain_answer){NO_ROOM, length, 0};
    memcpy(text + at, section, length);
    return (struct plain_answer){0, 0, length};
}

struct output {
    plain_sink *sink;
    void *to;
    uint64_t written;
    char *next;
    char buffer[BUFFER];
};

/* Makes room for one more section. */
static inline void make_room(struct output *out)
{
    size_t length = (size_t)(out->next - out->buffer);
    if (length + MOST_SECTION + CHUNK <= BUFFER)
        return;
    out->sink(out->to, out->buffer, length);
    out->written += length;
    out->next = out->buffer;
}

static void emit_operators(struct output *out, const struct operator *o, const struct table *t,
                           const struct numerals *n, const char *kind, unsigned number)
{
    struct frame f;
    make_frame(&f, o, t, kind, number);
    for (unsigned position = 1; position <= o->highest; position++) {
        make_room(out);
        out->next = fill(out->next, &f, n, position);
    }
}

static void emit_all(struct output *out, const struct problem *p)
{
    const struct table *t = &p->table;
    struct numerals n;
    struct operator o;
    make_numerals(&n, p->variables);
    for (unsigned k = 0; k < p->variables + 2; k++) {
        make_room(out);
        out->next = one_section(out->next, p, k);
    }
    for (unsigned k = 0; k < t->actions; k++) {
        action_operator(&o, t, k, p->bound);
        emit_operators(out, &o, t, &n, "a", k);
    }
    for (unsigned k = 0; k < t->methods; k++) {
        method_operator(&o, t, k, p->bound, p->form);
        emit_operators(out, &o, t, &n, "m", k);
    }
    make_room(out);
    out->next = one_section(out->next, p, p->sections - 1);
}

struct plain_answer plain_emit(uint64_t bound, uint64_t form, const uint8_t *table, size_t table_length,
                               plain_sink *sink, void *to)
{
    struct problem p;
    struct output out;
    struct fault f = make_problem(&p, bound, form, table, table_length);
    if (f.number)
        return (struct plain_answer){f.number, f.place, 0};
    out.sink = sink;
    out.to = to;
    out.written = 0;
    out.next = out.buffer;
    emit_all(&out, &p);
    size_t length = (size_t)(out.next - out.buffer);
    sink(to, out.buffer, length);
    return (struct plain_answer){0, 0, out.written + length};
}
