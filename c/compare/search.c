/* The search's five calls against the plain C. */
#include "ildorzhen.h"
#include "plain/plain.h"
#include "tally.h"

int printf(const char *format, ...);

enum { FOUND_ROOM = 4096, MOST_LIMIT = 256, MOST_BUDGET = 1000000, KNOWN = 4000 };

static uint8_t table_memory[2][GUARD + TABLE_ROOM + GUARD], text_memory[4][GUARD + FOUND_ROOM + GUARD];
static struct model model;
static struct fields fields;
static struct table_text table;
static struct plan_text plan;

struct question {
    uint64_t bound, form, limit, budget;
    size_t room;
    struct draws draws;
};

static void tell_case(const struct question *q)
{
    if (!may_tell())
        return;
    printf("  bound %lu, form %lu, limit %lu, budget %lu, room %lu\n", (unsigned long)q->bound, (unsigned long)q->form,
           (unsigned long)q->limit, (unsigned long)q->budget, (unsigned long)q->room);
    tell_bytes("table", table.bytes, table.length);
}

static unsigned lines_of(const uint8_t *text, uint64_t length)
{
    unsigned lines = 0;
    for (uint64_t k = 0; k < length; k++)
        lines += text[k] == '\n';
    return lines;
}

/* The text that was found is a whole plan, for both checks. */
static void compare_found(const struct question *q, const struct lent *t, const struct lent *text, uint64_t length)
{
    struct plain_verdict v = plain_check(q->bound, q->form, t->slice, t->length, text->slice, length);
    unsigned lines = lines_of(text->slice, length);
#define CHECK_CALL(name) ildorzhen_check_##name(q->bound, q->form, t->slice, t->length, text->slice, length)
    same("found: check_number", CHECK_CALL(number), 0);
    same("found: check_place", CHECK_CALL(place), 0);
    same("found: check_cost", CHECK_CALL(cost), v.cost);
    same("found: check_operators", CHECK_CALL(operators), lines);
    same("found: check_steps", CHECK_CALL(steps), v.steps);
    must("found: accepted by the plain check, within the limit", v.number == 0 && v.operators == lines && lines <= q->limit);
    uint64_t least = ildorzhen_least_bound(q->form, t->slice, t->length);
    must("found: the bound reaches the least", least > 0 && least <= q->bound);
    raise_to(&tally.most_found, lines);
    raise_to(&tally.longest_found, length);
}

/* Every call on one input; answers what the plain C says. */
static struct plain_found compare(const struct question *q)
{
    struct lent t = lend(table_memory[0], table_memory[1], table.bytes, table.length, q->draws);
    struct lent ours = lend(text_memory[0], text_memory[1], NULL, q->room, q->draws);
    struct lent plain = lend(text_memory[2], text_memory[3], NULL, q->room, q->draws);
    struct plain_found a = plain_search(q->bound, q->form, q->limit, q->budget, t.slice, t.length, plain.slice, q->room);
    tally.failing = 0;
#define SEARCH_CALL(name) \
    ildorzhen_search_##name(q->bound, q->form, q->limit, q->budget, t.slice, t.length, ours.slice, q->room)
    same("search_number", SEARCH_CALL(number), a.number);
    same("search_place", SEARCH_CALL(place), a.place);
    same("search_applied", SEARCH_CALL(applied), a.applied);
    same("search_length", SEARCH_CALL(length), a.length);
    must("search's reading calls write nothing", stays(&ours));
    same("search_write", SEARCH_CALL(write), a.length);
    must("found text", alike(&ours, &plain));
    must("the text stays where the search is refused", a.number == 0 || stays(&ours));
    if (a.number == 0)
        compare_found(q, &t, &ours, a.length);
    must("the table stays", stays(&t));
    if (tally.failing)
        tell_case(q);
    tally.cases++;
    tally.failed += (uint64_t)tally.failing;
    tally.refusals[SEARCH][a.number]++;
    raise_to(&tally.most_applied, a.number == 18 ? a.place : a.applied);
    return a;
}

/* ---- Cases ---- */

static void make_table(struct draws *d)
{
    list_fields(&fields, &model);
    write_table(&table, &fields, fields.count, DAMAGES, d);
}

/* What is known of an answer beforehand. */
static void known(const struct question *q, const char *what, int holds)
{
    tally.failing = 0;
    must(what, holds);
    if (tally.failing)
        tell_case(q);
    tally.failed += (uint64_t)tally.failing;
}

/* Budgets one below the number applied, at it and above it. */
static void about_budget(struct question q, uint64_t applied)
{
    for (q.budget = applied - (applied > 0); q.budget <= applied + 1; q.budget++) {
        struct plain_found a = compare(&q);
        known(&q, "19 exactly where the number is above the budget", (a.number == 19) == (applied > q.budget));
    }
}

/* Rooms: none, one byte short, larger, exact. The limits: the plan's own number of operators, and one too small for it. */
static void about_plan(struct question q, uint64_t length)
{
    const size_t rooms[] = {0, length - 1, length + 1 + below(&q.draws, 1000), length};
    for (unsigned k = 0; k < 4; k++) {
        q.room = rooms[k];
        struct plain_found a = compare(&q);
        known(&q, "16 exactly where the room is short", a.number == (q.room < length ? 16 : 0));
        known(&q, "16 tells the room", a.place == (q.room < length ? length : 0));
    }
    unsigned lines = lines_of(text_memory[0] + GUARD, length);
    q.limit = lines;
    known(&q, "the plan has as many operators as it has lines", compare(&q).length == length);
    q.limit = lines - 1;
    q.room = FOUND_ROOM;
    compare(&q);
}

static uint64_t draw_limit(struct draws *d)
{
    return once_in(d, 6) ? MOST_LIMIT : once_in(d, 4) ? 1 + below(d, MOST_LIMIT) : 1 + below(d, 14);
}

static uint64_t draw_bad_limit(struct draws *d)
{
    static const uint64_t bad[] = {0, 257, 258, 512, 65536, 65537, ((uint64_t)1 << 32) + 1, (uint64_t)1 << 63, ~(uint64_t)0};
    return bad[below(d, sizeof bad / sizeof *bad)];
}

static uint64_t draw_bad_budget(struct draws *d)
{
    static const uint64_t bad[] = {MOST_BUDGET + 1, MOST_BUDGET + 2, (uint64_t)1 << 32, (uint64_t)1 << 63, ~(uint64_t)0};
    return bad[below(d, sizeof bad / sizeof *bad)];
}

/* One damage or several, in the arguments or the table. */
static void compare_damaged(struct question q)
{
    static const size_t lengths[] = {0, 32767, 32768, 32769, 65535};
    struct draws *d = &q.draws;
    unsigned kinds = once_in(d, 3) ? (unsigned)draw(d) & 63 : 1u << below(d, 6);
    if (kinds & 1)
        q.bound = draw_wrong(d);
    if (kinds & 2)
        q.form = draw_wrong(d);
    if (kinds & 4)
        q.limit = draw_bad_limit(d);
    if (kinds & 8)
        q.budget = draw_bad_budget(d);
    if (kinds & 16) {
        unsigned field = below(d, fields.count + 1);
        write_table(&table, &fields, field, (enum damage)below(d, DAMAGES), d);
    }
    if (kinds & 32 && once_in(d, 2))
        table.length = lengths[below(d, sizeof lengths / sizeof *lengths)];
    compare(&q);
    make_table(d);
}

/* A table whose goal is mostly part of what some walk ends with, and searches of it. */
static void drawn_tables(uint64_t seed, unsigned count)
{
    static const enum size sizes[] = {TINY, TINY, TINY, SMALL, SMALL, SMALL, SMALL, MIDDLE, MIDDLE, EDGE};
    for (unsigned k = 0; k < count; k++) {
        struct draws d = {seed + ((uint64_t)k << 20)};
        struct question q = {draw_bound(&d), below(&d, 2), draw_limit(&d), KNOWN, FOUND_ROOM, {draw(&d)}};
        draw_model(&model, &d, once_in(&d, 60) ? CHAIN : once_in(&d, 60) ? LARGE : sizes[below(&d, 10)]);
        struct walk w = walk_model(&plan, &model, (unsigned)q.bound, (unsigned)q.form, below(&d, 30), 0, &d);
        if (!once_in(&d, 8))
            model.goal = w.facts & draw(&d);
        make_table(&d);
        struct plain_found a = compare(&q);
        if (a.number == 0 || a.number == 18)
            about_budget(q, a.number ? a.place : a.applied);
        if (a.number == 0)
            about_plan(q, a.length);
        compare_damaged(q);
    }
}

/* The method after those there are: of a task, with some subtasks that are alike and one after them. */
static void add_method(unsigned head, unsigned count, unsigned subtask, unsigned last)
{
    unsigned k = model.methods++;
    model.method[k].head = head;
    model.method[k].count = count;
    for (unsigned s = 0; s < count; s++)
        model.method[k].subtask[s] = s + 1 < count ? subtask : last;
}

/* One plan, of exactly 256 operators: 1 + 5 * (1 + 5 * (1 + 3 * (1 + 2))). The methods before, of another task, make its numbers
 * long. */
static void longest_plan(struct draws *d)
{
    static const unsigned counts[] = {5, 5, 3, 2, 0};
    model = (struct model){.abstract = 6};
    while (model.methods < 507)
        add_method(5, 0, 0, 0);
    for (unsigned task = 0; task < 5; task++)
        add_method(task, counts[task], task + 1 < 5 ? task + 1 : 0, task + 1 < 5 ? task + 1 : 0);
    make_table(d);
    for (unsigned form = 0; form < 2; form++) {
        struct question q = {64, form, MOST_LIMIT, MOST_BUDGET, FOUND_ROOM, *d};
        struct plain_found a = compare(&q);
        known(&q, "256 operators are found", a.number == 0 && a.applied == 256);
        about_budget(q, 256);
        about_plan(q, a.length);
    }
}

/* A task that asks for itself again, after one of so many actions: with one there are as many lists as the limit says, with two
 * more than any budget allows. */
static void endless_tasks(struct draws *d)
{
    for (unsigned k = 0; k < 4; k++) {
        unsigned actions = 1 + k / 2;
        model = (struct model){.facts = 1, .actions = actions, .abstract = 1, .first = actions, .goal = 1};
        for (unsigned action = 0; action < actions; action++)
            add_method(actions, 2, action, actions);
        make_table(d);
        struct question q = {1 + k % 2, 1 - k % 2, MOST_LIMIT, MOST_BUDGET, FOUND_ROOM, *d};
        struct plain_found a = compare(&q);
        known(&q, "the endless task has so many lists", actions > 1 ? a.number == 19 : a.number == 18 && a.place == MOST_LIMIT);
    }
}

void compare_searches(uint64_t seed, unsigned count)
{
    struct draws d = {seed};
    longest_plan(&d);
    endless_tasks(&d);
    drawn_tables(seed + 1, count);
}
