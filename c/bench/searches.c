/* Writes the searches that are counted, each as the finding program's input behind its length in two bytes, low first.
 *   searches million FORM   one, of 1,000,000 operators: all that are tried can be applied, and the limit ends every list
 *   searches drawn FORM     those of tables drawn at random, as they come: plans, dead ends, tries that are refused */
#include "compare/generate.h"
#include "plain/programs.h"

int strcmp(const char *one, const char *other);

enum { ACTIONS = 2, MILLION = 1000000, DRAWN = 100, DRAWN_BUDGET = 100000 };

static struct model model;
static struct fields fields;
static struct table_text table;
static struct plan_text plan;

struct search { unsigned bound, form, limit, budget; };

static void make_table(struct draws *d)
{
    list_fields(&fields, &model);
    write_table(&table, &fields, fields.count, DAMAGES, d);
}

static void put_search(struct search s)
{
    size_t length = 8 + table.length;
    const uint8_t head[] = {(uint8_t)length, (uint8_t)(length >> 8), (uint8_t)s.bound, (uint8_t)s.form,
                            (uint8_t)s.limit, (uint8_t)(s.limit >> 8), (uint8_t)s.budget, (uint8_t)(s.budget >> 8),
                            (uint8_t)(s.budget >> 16), (uint8_t)(s.budget >> 24)};
    write_output(NULL, (const char *)head, sizeof head);
    write_output(NULL, (const char *)table.bytes, table.length);
}

static void put_method(unsigned level, unsigned action, unsigned next)
{
    unsigned k = model.methods++;
    model.method[k].head = ACTIONS + level;
    model.method[k].count = 3;
    model.method[k].subtask[0] = action;
    model.method[k].subtask[1] = ACTIONS + next;
    model.method[k].subtask[2] = 1 - action;
}

/* Each task has one method or two, which take an action along and go on to the next task, the last one's to the first: from a
 * task on there are n lists, those of each of its methods alone and those of n / methods - 1 continuations. In the plain form
 * each method is followed by its action, and there are twice as many. */
static void put_million(unsigned form)
{
    struct draws d = {0};
    unsigned level = 0;
    model = (struct model){.facts = 3, .actions = ACTIONS, .first = ACTIONS, .start = 1, .goal = 4};
    model.action[0].needs = model.action[1].needs = 1;
    model.action[0].adds = model.action[1].deletes = 2;
    for (unsigned n = form ? MILLION : MILLION / 2; n > 0; level++) {
        unsigned methods = n % 2 ? 1 : 2;
        n = n / methods - 1;
        for (unsigned action = 0; action < methods; action++)
            put_method(level, action, n > 0 ? level + 1 : 0);
    }
    model.abstract = level;
    make_table(&d);
    put_search((struct search){64, form, form ? level : 2 * level, MILLION});
}

/* The goal is part of what some walk ends with. */
static void put_drawn(unsigned form)
{
    struct draws seeds = {20261115};
    for (unsigned k = 0; k < DRAWN; k++) {
        struct draws d = {draw(&seeds)};
        struct search s = {4 + below(&d, 12), form, 10 + below(&d, 40), DRAWN_BUDGET};
        draw_model(&model, &d, once_in(&d, 2) ? SMALL : MIDDLE);
        model.goal = walk_model(&plan, &model, s.bound, form, s.limit, 0, &d).facts & draw(&d);
        make_table(&d);
        put_search(s);
    }
}

int main(int count, char **arguments)
{
    if (count < 3)
        return 1;
    unsigned form = arguments[2][0] == '1';
    if (!strcmp(arguments[1], "million"))
        put_million(form);
    else
        put_drawn(form);
    return 0;
}
