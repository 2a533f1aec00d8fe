/* The library against the plain C (c/plain), call by call, on generated inputs: numbers, places, values, lengths, bytes
 * written, and every lent byte that has to stay.
 *
 * The last line is 'N passed, 0 failed'; the exit status is 1 where one failed. An argument is another seed. */
#include "ildorzhen.h"
#include "plain/plain.h"
#include "compare/generate.h"
#include "compare/tally.h"

int printf(const char *format, ...);
int putchar(int byte);
unsigned long strtoul(const char *text, char **end, int base);

enum { STEPS_ROOM = 200000, TEXT_ROOM = 8192 };

static uint8_t table_memory[2][GUARD + TABLE_ROOM + GUARD], plan_memory[2][GUARD + PLAN_ROOM + GUARD];
static uint8_t steps_memory[4][GUARD + STEPS_ROOM + GUARD], text_memory[4][GUARD + TEXT_ROOM + GUARD];

/* ---- One case ---- */

struct question {
    uint64_t bound, form;
    const uint8_t *table, *plan;
    size_t table_length, plan_length;
    struct draws draws;
    int one_section;            /* this section and place, and not drawn ones */
    uint64_t index;
    size_t text_room;
    uint64_t at;
};

static void compare_sections(const struct question *q, const struct lent *t, const struct plain_answer *a)
{
    same("sections_number", ildorzhen_sections_number(q->bound, q->form, t->slice, t->length), a->number);
    same("sections_place", ildorzhen_sections_place(q->bound, q->form, t->slice, t->length), a->place);
    same("sections_count", ildorzhen_sections_count(q->bound, q->form, t->slice, t->length), a->value);
    tally.refusals[SECTIONS][a->number]++;
}

static uint64_t compare_least(uint64_t form, const struct lent *t)
{
    struct plain_answer a = plain_least(form, t->slice, t->length);
    same("least_number", ildorzhen_least_number(form, t->slice, t->length), a.number);
    same("least_place", ildorzhen_least_place(form, t->slice, t->length), a.place);
    same("least_bound", ildorzhen_least_bound(form, t->slice, t->length), a.value);
    tally.refusals[LEAST][a.number]++;
    return a.value;
}

/* Both forms, and the question's where it is neither. */
static void compare_leasts(const struct question *q, const struct lent *t, const struct plain_verdict *v)
{
    uint64_t least[2] = {compare_least(0, t), compare_least(1, t)};
    if (q->form > 1)
        compare_least(q->form, t);
    must("form 1's least bound is there and not above form 0's", least[0] == 0 || (least[1] > 0 && least[1] <= least[0]));
    must("form 0's least bound is at most 7 above form 1's", least[0] <= least[1] + 7);
    must("form 0 has a least bound where form 1's leaves it room", least[1] == 0 || least[1] > 57 || least[0] > 0);
    must("an accepted plan's bound reaches the least", v->number || (least[q->form] > 0 && least[q->form] <= q->bound));
    tally.two_leasts += least[0] != least[1];
}

static void compare_check(const struct question *q, const struct lent *t, const struct lent *p,
                          const struct plain_verdict *v)
{
#define CHECK_CALL(name) ildorzhen_check_##name(q->bound, q->form, t->slice, t->length, p->slice, p->length)
    same("check_number", CHECK_CALL(number), v->number);
    same("check_place", CHECK_CALL(place), v->place);
    same("check_cost", CHECK_CALL(cost), v->cost);
    same("check_operators", CHECK_CALL(operators), v->operators);
    same("check_steps", CHECK_CALL(steps), v->steps);
    tally.refusals[CHECK][v->number]++;
}

/* Room for the steps: exact, one byte short, none, large, or any. */
static size_t steps_room(struct draws *d, uint64_t length)
{
    switch (below(d, 8)) {
    case 0: return length > 0 ? length - 1 : 0;
    case 1: return 0;
    case 2: return length + 1;
    case 3: return length + 2000;
    case 4: return below(d, (unsigned)length + 40);
    default: return length;
    }
}

static void compare_expand(const struct question *q, const struct lent *t, const struct lent *p, uint64_t steps)
{
    struct draws d = q->draws;
    size_t room = steps_room(&d, 2 * steps);
    struct lent ours = lend(steps_memory[0], steps_memory[1], NULL, room, d);
    struct lent plain = lend(steps_memory[2], steps_memory[3], NULL, room, d);
    struct plain_answer a = plain_expand(q->bound, q->form, t->slice, t->length, p->slice, p->length, plain.slice, room);
#define EXPAND_CALL(name) \
    ildorzhen_expand_##name(q->bound, q->form, t->slice, t->length, p->slice, p->length, ours.slice, room)
    same("expand_number", EXPAND_CALL(number), a.number);
    same("expand_place", EXPAND_CALL(place), a.place);
    same("expand_length", EXPAND_CALL(length), a.value);
    must("expand's reading calls write nothing", stays(&ours));
    same("expand_write", EXPAND_CALL(write), a.value);
    must("steps", alike(&ours, &plain));
    must("steps stay where the expansion is refused", a.number == 0 || stays(&ours));
    tally.refusals[EXPAND][a.number]++;
}

static uint64_t draw_index(struct draws *d, uint64_t sections)
{
    switch (below(d, 12)) {
    case 0: return sections;
    case 1: return ~(uint64_t)0 - below(d, 3);
    case 2: {
        unsigned shift = below(d, 64);
        return draw(d) >> shift;
    }
    case 3: return 0;
    case 4: return sections - (sections > 0);
    case 5: return below(d, 140);
    default: return sections ? draw(d) % sections : below(d, 100);
    }
}

/* A place in the text and room behind it: exact, one byte short, none, large; places at, past and far past the end. */
static void draw_place(struct question *q, struct draws *d, uint64_t length)
{
    static const uint64_t far[] = {~(uint64_t)0, ~(uint64_t)0 - 1, (uint64_t)1 << 63, (uint64_t)1 << 32, 4096, 2049};
    q->at = once_in(d, 2) ? 0 : below(d, 3000);
    switch (below(d, 10)) {
    case 0: q->text_room = (size_t)(q->at + length - (length > 0)); break;
    case 1: q->text_room = 0; break;
    case 2: q->text_room = (size_t)q->at; break;
    case 3: q->text_room = below(d, 4000); q->at = q->text_room + below(d, 3); break;
    case 4: q->text_room = below(d, 4000); q->at = far[below(d, 6)]; break;
    case 5: q->text_room = below(d, 4000); q->at = ~(uint64_t)0 - length + below(d, 3); break;
    case 6: q->text_room = (size_t)(q->at + length + below(d, 1000)); break;
    default: q->text_room = (size_t)(q->at + length);
    }
}

static void compare_section(struct question *q, const struct lent *t, uint64_t sections)
{
    struct draws d = q->draws;
    static uint8_t measured[2048];
    if (!q->one_section) {
        q->index = draw_index(&d, sections);
        struct plain_answer a = plain_section(q->bound, q->form, t->slice, t->length, q->index, measured, 2048, 0);
        draw_place(q, &d, a.value);
    }
    struct lent ours = lend(text_memory[0], text_memory[1], NULL, q->text_room, d);
    struct lent plain = lend(text_memory[2], text_memory[3], NULL, q->text_room, d);
    struct plain_answer a = plain_section(q->bound, q->form, t->slice, t->length, q->index, plain.slice, q->text_room,
                                          q->at);
#define SECTION_CALL(name) \
    ildorzhen_section_##name(q->bound, q->form, t->slice, t->length, q->index, ours.slice, q->text_room, q->at)
    same("section_number", SECTION_CALL(number), a.number);
    same("section_place", SECTION_CALL(place), a.place);
    same("section_length", SECTION_CALL(length), a.value);
    must("section's reading calls write nothing", stays(&ours));
    same("section_write", SECTION_CALL(write), a.value);
    must("section", alike(&ours, &plain));
    must("the text stays where the section is refused", a.number == 0 || stays(&ours));
    tally.refusals[SECTION][a.number]++;
}

static void tell_case(const struct question *q)
{
    if (!may_tell())
        return;
    printf("  bound %lu, form %lu, section %lu, room %lu, place %lu\n", (unsigned long)q->bound, (unsigned long)q->form,
           (unsigned long)q->index, (unsigned long)q->text_room, (unsigned long)q->at);
    tell_bytes("table", q->table, q->table_length);
    tell_bytes("plan", q->plan, q->plan_length);
}

/* Every call on one input. Answers the plain verdict, for cases that know more of the plan. */
static struct plain_verdict compare(struct question *q)
{
    struct lent t = lend(table_memory[0], table_memory[1], q->table, q->table_length, q->draws);
    struct lent p = lend(plan_memory[0], plan_memory[1], q->plan, q->plan_length, q->draws);
    struct plain_answer a = plain_sections(q->bound, q->form, t.slice, t.length);
    struct plain_verdict v = plain_check(q->bound, q->form, t.slice, t.length, p.slice, p.length);
    tally.failing = 0;
    compare_sections(q, &t, &a);
    compare_leasts(q, &t, &v);
    compare_check(q, &t, &p, &v);
    compare_expand(q, &t, &p, v.steps);
    compare_section(q, &t, a.value);
    must("the table stays", stays(&t));
    must("the plan stays", stays(&p));
    if (tally.failing)
        tell_case(q);
    tally.cases++;
    tally.failed += (uint64_t)tally.failing;
    tally.accepted += v.number == 0;
    raise_to(&tally.longest_table, a.number ? 0 : t.length);
    raise_to(&tally.longest_plan, v.number ? 0 : p.length);
    raise_to(&tally.most_steps, v.steps);
    return v;
}

/* ---- Cases ---- */

static struct model model;
static struct fields fields;
static struct table_text table;
static struct plan_text plan, damaged;

static struct question question(uint64_t bound, uint64_t form, const struct plan_text *p, struct draws *d)
{
    struct question q = {bound, form, table.bytes, p->bytes, table.length, p->length, {draw(d)}, 0, 0, 0, 0};
    return q;
}

/* A table with a plan walked through it; mostly the goal is what the walk ends with, or part of it. */
static struct walk draw_problem(enum size size, unsigned bound, unsigned form, unsigned wanted, struct draws *d)
{
    draw_model(&model, d, size);
    struct walk w = walk_model(&plan, &model, bound, form, wanted, once_in(d, 3) ? 6 : 0, d);
    if (!once_in(d, 8))
        model.goal = w.facts & draw(d);
    list_fields(&fields, &model);
    write_table(&table, &fields, fields.count, DAMAGES, d);
    return w;
}

/* The same lines with other line ends, line by line, have the same answers. */
static void compare_ends(const struct question *q, const struct plain_verdict *v)
{
    struct question other = *q;
    change_ends(&damaged, &plan, other.draws);
    if (damaged.length > 65536)
        return;
    other.plan = damaged.bytes;
    other.plan_length = damaged.length;
    struct plain_verdict w = compare(&other);
    tally.failing = 0;
    same("line ends: refusal", w.number, v->number);
    same("line ends: place", w.place, v->place);
    same("line ends: cost", w.cost, v->cost);
    same("line ends: operators", w.operators, v->operators);
    same("line ends: steps", w.steps, v->steps);
    if (tally.failing)
        tell_case(&other);
    tally.failed += (uint64_t)tally.failing;
    tally.ends[damaged.returns] += v->number == 0 && v->operators > 1;
}

/* The walk went step by step and knows what the check has to say. */
static void compare_walk(struct question *q, const struct walk *w)
{
    struct plain_verdict v = compare(q);
    int goal = (model.goal & ~w->facts) == 0;
    tally.failing = 0;
    same("walk: refusal", v.number, !w->ended ? 14 : goal ? 0 : 15);
    same("walk: place", v.place, w->ended && goal ? 0 : plan.lines);
    if (v.number == 0) {
        same("walk: cost", v.cost, w->cost);
        same("walk: operators", v.operators, w->operators);
        same("walk: steps", v.steps, w->steps);
    }
    if (tally.failing)
        tell_case(q);
    tally.failed += (uint64_t)tally.failing;
    compare_ends(q, &v);
}

/* One damage or several, in the arguments, the table or the plan. */
static void compare_damaged(unsigned bound, unsigned form, struct draws *d)
{
    const struct plan_text *p = &plan;
    unsigned kind = below(d, 8), place;
    if (kind < 3) {
        place = below(d, fields.count + 1);
        write_table(&table, &fields, place, (enum damage)below(d, DAMAGES), d);
    }
    if (kind >= 2 && kind < 6 && plan.lines > 0) {
        place = below(d, plan.lines);
        damage_line(&damaged, &plan, place, (enum line_damage)below(d, LINE_DAMAGES), d);
        p = &damaged;
    }
    struct question q = question(bound, form, p, d);
    if (kind == 6)
        q.bound = once_in(d, 2) ? draw_wrong(d) : draw_bound(d);
    if (kind == 6 || kind == 7)
        q.form = once_in(d, 2) ? draw_wrong(d) : 1 - form;
    compare(&q);
}

static void random_cases(uint64_t seed, unsigned count)
{
    static const enum size sizes[] = {TINY, TINY, TINY, TINY, SMALL, SMALL, SMALL, SMALL, SMALL, SMALL, MIDDLE, EDGE};
    for (unsigned k = 0; k < count; k++) {
        struct draws d = {seed + ((uint64_t)k << 20)};
        unsigned bound = draw_bound(&d), form = below(&d, 2);
        enum size size = once_in(&d, 60) ? CHAIN : sizes[below(&d, 12)];
        struct walk w = draw_problem(size, bound, form, below(&d, 30), &d);
        struct question q = question(bound, form, &plan, &d);
        compare_walk(&q, &w);
        for (unsigned n = 0; n < 3; n++)
            compare_damaged(bound, form, &d);
    }
}

/* Every number of some tables, damaged in every way. */
static void every_field(uint64_t seed, unsigned tables)
{
    for (unsigned k = 0; k < tables; k++) {
        struct draws d = {seed + ((uint64_t)k << 20)};
        draw_problem(k % 2 ? TINY : SMALL, 1 + k % 8, k / 2 % 2, 10, &d);
        for (unsigned field = 0; field <= fields.count; field++)
            for (unsigned kind = 0; kind < DAMAGES; kind++) {
                write_table(&table, &fields, field, (enum damage)kind, &d);
                struct question q = question(1 + k % 8, k / 2 % 2, &plan, &d);
                compare(&q);
            }
    }
}

/* Every line of some plans, damaged in every way; and each plan cut at every byte. */
static void every_line(uint64_t seed, unsigned plans)
{
    for (unsigned k = 0; k < plans;) {
        struct draws d = {seed++ << 20};
        unsigned bound = draw_bound(&d), form = below(&d, 2);
        struct walk w = draw_problem(SMALL, bound, form, 8 + below(&d, 12), &d);
        if (!w.ended || plan.lines < 4 || plan.lines > 40)
            continue;
        for (unsigned line = 0; line < plan.lines; line++)
            for (unsigned kind = 0; kind < LINE_DAMAGES; kind++) {
                damage_line(&damaged, &plan, line, (enum line_damage)kind, &d);
                struct question q = question(bound, form, &damaged, &d);
                compare(&q);
            }
        for (size_t length = 0; length <= plan.length; length++) {
            struct question q = question(bound, form, &plan, &d);
            q.plan_length = length;
            compare(&q);
        }
        k++;
    }
}

/* Every section of some problems: exact room, one byte short, a byte to spare. */
static void every_section(uint64_t seed, unsigned tables)
{
    for (unsigned k = 0; k < tables; k++) {
        struct draws d = {seed + ((uint64_t)k << 20)};
        unsigned bound = k % 5 == 0 ? 64 : 1 + k % 6, form = k / 2 % 2;
        draw_problem(k % 5 == 0 ? TINY : k % 7 == 0 ? EDGE : SMALL, bound, form, 10, &d);
        struct plain_answer a = plain_sections(bound, form, table.bytes, table.length);
        uint64_t step = 1 + a.value / 400;
        for (uint64_t index = 0; index < a.value + 2; index += step) {
            static uint8_t measured[2048];
            struct plain_answer s = plain_section(bound, form, table.bytes, table.length, index, measured, 2048, 0);
            struct question q = question(bound, form, &plan, &d);
            q.one_section = 1;
            q.index = index;
            q.at = below(&d, 3);
            q.text_room = (size_t)(q.at + s.value) + below(&d, 3) - (s.value > 0);
            compare(&q);
        }
    }
}

/* Tables with most of everything, as they are and damaged. */
static void large_tables(uint64_t seed, unsigned count)
{
    for (unsigned k = 0; k < count; k++) {
        struct draws d = {seed + ((uint64_t)k << 20)};
        unsigned bound = draw_bound(&d), form = below(&d, 2);
        struct walk w = draw_problem(k % 8 == 7 ? EDGE : LARGE, bound, form, below(&d, 300), &d);
        struct question q = question(bound, form, &plan, &d);
        compare_walk(&q, &w);
        compare_damaged(bound, form, &d);
    }
}

/* Bytes behind a table, up to and over the longest that a table may be; and plans of about the longest length. */
static void long_inputs(uint64_t seed, unsigned count)
{
    static const size_t tables[] = {32767, 32768, 32769, 32770, 40000, 65535}, plans[] = {65535, 65536, 65537, 65538, 69000};
    for (unsigned k = 0; k < count; k++) {
        struct draws d = {seed + ((uint64_t)k << 20)};
        unsigned bound = draw_bound(&d), form = below(&d, 2);
        draw_problem(k % 4 ? SMALL : LARGE, bound, form, 10, &d);
        size_t length = table.length;
        int is_long = once_in(&d, 2);
        if (is_long)
            table.length = tables[below(&d, 6)];
        if (!is_long || once_in(&d, 2))
            stretch_plan(&plan, plans[below(&d, 5)]);
        struct question q = question(bound, form, &plan, &d);
        if (once_in(&d, 8))
            q.bound = draw_wrong(&d);
        if (once_in(&d, 8))
            q.form = draw_wrong(&d);
        compare(&q);
        if (once_in(&d, 4)) {   /* too long a plan for a table that is at fault: the plan's refusal comes first */
            q.table_length = below(&d, (unsigned)length);
            compare(&q);
        }
    }
}

/* A task that can always go on and always end: walks of any length. */
static void draw_endless(struct draws *d)
{
    draw_model(&model, d, SMALL);
    unsigned head = model.first = model.actions;
    model.abstract = 1;
    model.methods = 4;
    model.start = model.facts = 0;
    for (unsigned k = 0; k < model.actions; k++)
        model.action[k].needs = model.action[k].adds = model.action[k].deletes = 0;
    for (unsigned k = 0; k < 4; k++) {
        model.method[k].head = head;
        model.method[k].count = k == 0 ? 0 : k == 3 ? 8 : 1 + 2 * k;
        unsigned row = model.actions && k ? model.method[k].count - 1 - k % 2 : 0;   /* actions first */
        for (unsigned s = 0; s < model.method[k].count; s++)
            model.method[k].subtask[s] = s < row ? below(d, model.actions) : head;
    }
}

/* Accepted plans of thousands of lines, stretched to the longest length and over it, and damaged. */
static void long_plans(uint64_t seed, unsigned count)
{
    for (unsigned k = 0; k < count; k++) {
        struct draws d = {seed + ((uint64_t)k << 20)};
        unsigned bound = 8 + below(&d, 57), form = below(&d, 2);
        draw_endless(&d);
        unsigned wanted = 2000 + below(&d, 6000), comments = once_in(&d, 2) ? 20 : 0;
        struct walk w = walk_model(&plan, &model, bound, form, wanted, comments, &d);
        model.goal = 0;
        list_fields(&fields, &model);
        write_table(&table, &fields, fields.count, DAMAGES, &d);
        if (plan.length <= 65536) {
            struct question q = question(bound, form, &plan, &d);
            compare_walk(&q, &w);
        }
        compare_damaged(bound, form, &d);
        if (once_in(&d, 2) && plan.length < 65500)
            stretch_plan(&plan, 65536 + below(&d, 2));
        struct question q = question(bound, form, &plan, &d);
        compare(&q);
    }
}

/* Chains of every length that end in 0 to 8 actions, whose least bounds are known as long as they are no more than 64: the length
 * in form 1, and in form 0 one more for each of those actions after the first. A chain of 64 ends in two actions and has none in
 * form 0; one of 59 ends in six and has 64 there. */
static void every_chain(uint64_t seed)
{
    for (unsigned length = 1; length <= 70; length++) {
        struct draws d = {seed + ((uint64_t)length << 20)};
        do
            draw_model(&model, &d, SMALL);
        while (model.actions == 0);
        model.abstract = model.methods = length;
        draw_chain(&model, &d);
        unsigned end = (length + 1) % 9;
        model.method[length - 1].count = end;
        for (unsigned s = 0; s < end; s++)
            model.method[length - 1].subtask[s] = below(&d, model.actions);
        unsigned least[2] = {length + (end > 1 ? end - 1 : 0), length}, form = length % 2;
        unsigned bound = least[form] > 64 ? 64 : least[form];
        struct walk w = walk_model(&plan, &model, bound, form, 0, 0, &d);
        model.goal = 0;
        list_fields(&fields, &model);
        write_table(&table, &fields, fields.count, DAMAGES, &d);
        struct question q = question(bound, form, &plan, &d);
        compare_walk(&q, &w);
        for (unsigned f = 0; f < 2; f++)
            same("chain: least bound", plain_least(f, table.bytes, table.length).value, least[f] > 64 ? 0 : least[f]);
        tally.failed += (uint64_t)tally.failing;
    }
}

/* Nothing at all, and next to nothing. */
static void empty_inputs(uint64_t seed)
{
    struct draws d = {seed};
    for (unsigned k = 0; k < 200; k++) {
        draw_problem(TINY, 1 + k % 3, k % 2, 3, &d);
        struct question q = question(1 + k % 3, k % 2, &plan, &d);
        if (k % 4 < 2)
            q.table_length = k / 8 % 3;
        if (k % 4 > 0)
            q.plan_length = k / 8 % 2;
        if (k % 16 == 15)
            q.bound = draw_wrong(&d), q.form = draw_wrong(&d);
        compare(&q);
    }
}

/* ---- The account ---- */

static const char *const names[ENTRIES] = {"sections", "section", "check", "expand", "least", "search"};
static const unsigned gives[ENTRIES] = {0x003ee, 0x107ee, 0x0fbfe, 0x1fbfe, 0x003ec, 0xf03ee};   /* bit n: refusal n */

static void account_for(unsigned entry)
{
    printf("%s: %lu answered; refused", names[entry], (unsigned long)tally.refusals[entry][0]);
    for (unsigned n = 1; n < NUMBERS; n++) {
        int given = gives[entry] >> n & 1, seen = tally.refusals[entry][n] > 0;
        if (given || seen)
            printf(" %u: %lu", n, (unsigned long)tally.refusals[entry][n]);
        if (given != seen) {
            printf(" (%s)", given ? "never seen" : "not of this entry");
            tally.failed++;
        }
    }
    putchar('\n');
}

static void account(void)
{
    for (unsigned e = 0; e < ENTRIES; e++) {
        account_for(e);
    }
    printf("cases with two least bounds %lu\n", (unsigned long)tally.two_leasts);
    tally.failed += tally.two_leasts == 0;
    printf("accepted plans of two operators and more: with line feeds %lu, with carriage returns %lu, mixed %lu\n",
           (unsigned long)tally.ends[0], (unsigned long)tally.ends[1], (unsigned long)(tally.ends[2] + tally.ends[3]));
    tally.failed += !tally.ends[0] + !tally.ends[1] + !tally.ends[2] + !tally.ends[3];
    printf("accepted plans %lu; longest table read %lu bytes, longest plan accepted %lu bytes, most steps %lu\n",
           (unsigned long)tally.accepted, (unsigned long)tally.longest_table, (unsigned long)tally.longest_plan,
           (unsigned long)tally.most_steps);
    printf("longest plan found %lu operators, %lu bytes; most operators applied %lu\n", (unsigned long)tally.most_found,
           (unsigned long)tally.longest_found, (unsigned long)tally.most_applied);
    printf("%lu passed, %lu failed\n", (unsigned long)(tally.cases - tally.failed), (unsigned long)tally.failed);
}

int main(int count, char **arguments)
{
    uint64_t seed = count > 1 ? strtoul(arguments[1], NULL, 10) : 20261115;
    empty_inputs(seed);
    every_chain(seed);
    random_cases(seed, 40000);
    every_field(seed + 1, 80);
    every_line(seed + 2, 80);
    every_section(seed + 3, 60);
    large_tables(seed + 4, 300);
    long_inputs(seed + 5, 300);
    long_plans(seed + 6, 80);
    compare_searches(seed + 7, 4000);
    account();
    return tally.failed != 0;
}
