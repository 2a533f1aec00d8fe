/* The night of March, from the console's side: a table of switch procedures, the whole plan, the half plan that was taken for
 * a whole one, a plan from the desk whose planner ends its lines with carriage return and line feed, a plan of the console's own for
 * the day without a planner, and damaged tables. The rule is in judge: nothing goes
 * to the switches but an accepted plan's steps. */
#include "ildorzhen.h"
#include "words.h"
#include <stdio.h>

/* The library and the planner know numbers only; the names stand here, in the table's order. */
static const char *const FACTS[] = {"policy on the cards", "new policy loaded", "cards verified"};
static const char *const TASKS[] = {"take the policy off the cards", "load the new policy", "put it on the cards",
                                    "verify the cards", "replace the policy", "bring it back"};
static const char *const METHODS[] = {"replace the policy: take it off, bring it back, verify",
                                      "bring it back: load it, put it on", "bring it back: it is loaded, put it on"};

/* A fact set is one number: 1 for fact 0, 2 for fact 1, 4 for fact 2, added up. Numbers from 128 on take more than one byte,
 * the lowest seven bits first, with the top bit set on all but the last: 200 is 72 + 1 * 128, so 128 + 72 and then 1. */
static const uint8_t TABLE[] = {
    3,               /* facts */
    4,               /* actions: tasks 0 to 3 */
    2,               /* abstract tasks: 4 and 5 */
    3,               /* methods */
    4,               /* the starting task: replace the policy */
    1,               /* start facts: policy on */
    5,               /* goal facts: policy on, verified */
    1, 0, 5, 5,      /* a0, take off: needs policy on; adds nothing; deletes policy on and verified; costs 5 seconds */
    0, 2, 0, 200, 1, /* a1, load: needs nothing; adds loaded; deletes nothing; costs 200 seconds, a number of two bytes */
    2, 1, 0, 5,      /* a2, put on: needs loaded; adds policy on; deletes nothing; costs 5 seconds */
    1, 4, 0, 30,     /* a3, verify: needs policy on; adds verified; deletes nothing; costs 30 seconds */
    4, 3, 0, 5, 3,   /* m0: for replace the policy; 3 subtasks: take off, bring it back, verify */
    5, 2, 1, 2,      /* m1: for bring it back; 2 subtasks: load, put on */
    5, 1, 2,         /* m2: for bring it back; 1 subtask: put on */
};

typedef unsigned long long wide; /* for %llu: what uint64_t is differs from system to system */
enum { ROOM = 64 };              /* bytes for a plan's steps, two each */

static void tell_refusal(const char *name, uint64_t refusal, uint64_t place)
{
    struct ildorzhen_wording words = ildorzhen_words(refusal);
    printf("%s: refused %llu %s %llu: %s; nothing was sent to the switches\n", name, (wide)refusal, words.place, (wide)place,
           words.sentence);
}

/* The k-th number of TABLE, from 0, if it is below 128. A byte below 128 is the last of its number. */
static unsigned number(uint64_t k)
{
    const uint8_t *at = TABLE;
    for (; k > 0; at++)
        if (*at < 128)
            k--;
    return *at;
}

/* Seven numbers come first, then four for each action, then the methods: head, count of subtasks, subtasks. */
static unsigned subtasks(unsigned method)
{
    uint64_t head = 7 + 4 * number(1);
    for (; method > 0; method--)
        head += 2 + number(head + 1);
    return number(head + 1);
}

/* A method's subtasks are the next steps, one level deeper, as many as the table says; left has, for each level that is open,
 * how many are still to come. A step opens one level at most: there are never more open than there were steps. */
static void show_steps(const uint8_t *steps, uint64_t length)
{
    unsigned left[ROOM / 2 + 1] = {1}, depth = 0;
    for (uint64_t k = 0; k < length; k += 2) {
        unsigned step = steps[k] + 256u * steps[k + 1], method = step - ILDORZHEN_METHOD_WORDS;
        int is_method = step >= ILDORZHEN_METHOD_WORDS;
        printf("  %*s%s\n", (int)(2 * depth), "", is_method ? METHODS[method] : TASKS[step]);
        left[depth]--;
        if (is_method)
            left[++depth] = subtasks(method);
        while (depth > 0 && left[depth] == 0)
            depth--;
    }
}

/* Expanding refuses what the check refuses, in the same order, and last of all more steps than there is room for. */
static void judge(const char *name, uint64_t bound, uint64_t form, const char *text, size_t length)
{
    const uint8_t *plan = (const uint8_t *)text;
    uint8_t steps[ROOM] = {0};
    uint64_t refusal = ildorzhen_expand_number(bound, form, TABLE, sizeof TABLE, plan, length, steps, ROOM);
    if (refusal != 0) {
        tell_refusal(name, refusal, ildorzhen_expand_place(bound, form, TABLE, sizeof TABLE, plan, length, steps, ROOM));
        return;
    }
    printf("%s: accepted, %llu operators, %llu steps, %llu seconds\n", name,
           (wide)ildorzhen_check_operators(bound, form, TABLE, sizeof TABLE, plan, length),
           (wide)ildorzhen_check_steps(bound, form, TABLE, sizeof TABLE, plan, length),
           (wide)ildorzhen_check_cost(bound, form, TABLE, sizeof TABLE, plan, length));
    show_steps(steps, ildorzhen_expand_write(bound, form, TABLE, sizeof TABLE, plan, length, steps, ROOM));
}

/* Without a planner: the first plan of at most limit operators, if no more than budget have to be applied for it. It is judged
 * like any other. */
static void find(const char *name, uint64_t bound, uint64_t form, uint64_t limit, uint64_t budget)
{
    uint8_t plan[ILDORZHEN_MOST_FOUND_BYTES] = {0};
    uint64_t length = ildorzhen_search_write(bound, form, limit, budget, TABLE, sizeof TABLE, plan, sizeof plan);
    if (length == 0) {
        tell_refusal(name, ildorzhen_search_number(bound, form, limit, budget, TABLE, sizeof TABLE, plan, sizeof plan),
                     ildorzhen_search_place(bound, form, limit, budget, TABLE, sizeof TABLE, plan, sizeof plan));
        return;
    }
    printf("%s: found, %llu operators applied\n", name,
           (wide)ildorzhen_search_applied(bound, form, limit, budget, TABLE, sizeof TABLE, plan, sizeof plan));
    judge(name, bound, form, (const char *)plan, length);
}

/* The least bound of the form, for the planner and the check; 0 where the table is refused, or no bound lets its stack be
 * emptied. With less no plan of that form is accepted. */
static uint64_t read_table(const char *name, uint64_t form, const uint8_t *table, size_t length)
{
    uint64_t refusal = ildorzhen_least_number(form, table, length), bound = ildorzhen_least_bound(form, table, length);
    if (refusal != 0)
        tell_refusal(name, refusal, ildorzhen_least_place(form, table, length));
    else
        printf("%s: accepted, least bound %llu in form %llu, %llu sections for the planner\n", name, (wide)bound, (wide)form,
               (wide)ildorzhen_sections_count(bound, form, table, length));
    return bound;
}

int main(void)
{
    static const char whole[] = "(m0 1)\n(a0 3)\n(m1 2)\n(a1 3)\n(a2 2)\n(a3 1)\n; cost = 240 (general cost)\n";
    static const char shorter[] = "(m0 1)\n(m1 2)\n(a3 1)\n", half[] = "(m0 1)\n(a0 3)\n";
    static const char unloaded[] = "(m0 1)\n(a0 3)\n(m2 2)\n(a2 2)\n(a3 1)\n";
    static const char other_desk[] = "(m0 1)\r\n(m1 2)\r\n(a3 1)\r\n; cost = 240 (general cost)\r\n";
    uint64_t bound = read_table("table", ILDORZHEN_PLAIN, TABLE, sizeof TABLE);
    uint64_t prefix_bound = read_table("table", ILDORZHEN_PREFIX, TABLE, sizeof TABLE);
    if (bound == 0 || prefix_bound == 0)
        return 1;
    printf("  task: %s\n", TASKS[number(4)]);
    for (unsigned k = 0; k < number(0); k++)
        printf("  fact: %s%s%s\n", FACTS[k], (number(5) >> k) & 1 ? ", given" : "", (number(6) >> k) & 1 ? ", wanted" : "");
    judge("whole plan", bound, ILDORZHEN_PLAIN, whole, sizeof whole - 1); /* a plan is without C's closing zero */
    judge("the same in form 1", prefix_bound, ILDORZHEN_PREFIX, shorter, sizeof shorter - 1);
    judge("the same from the other desk", prefix_bound, ILDORZHEN_PREFIX, other_desk, sizeof other_desk - 1);
    judge("half plan of March", bound, ILDORZHEN_PLAIN, half, sizeof half - 1);
    judge("plan that loads nothing", bound, ILDORZHEN_PLAIN, unloaded, sizeof unloaded - 1);
    judge("no plan", bound, ILDORZHEN_PLAIN, NULL, 0);
    find("plan of our own", prefix_bound, ILDORZHEN_PREFIX, ILDORZHEN_MOST_LIMIT, ILDORZHEN_MOST_BUDGET);
    find("plan of our own, of 2 lines", prefix_bound, ILDORZHEN_PREFIX, 2, ILDORZHEN_MOST_BUDGET);
    /* Here the starting task becomes an action. Not every changed byte is refused: with another cost it is another good table. */
    uint8_t changed[sizeof TABLE];
    for (size_t k = 0; k < sizeof TABLE; k++)
        changed[k] = k == 4 ? 3 : TABLE[k];
    read_table("table with byte 4 changed", ILDORZHEN_PLAIN, changed, sizeof changed);
    read_table("table without its last byte", ILDORZHEN_PLAIN, TABLE, sizeof TABLE - 1);
    return 0;
}
