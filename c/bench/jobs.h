/* One job on the inputs that standard input has, for counting: read them, do the job that the argument names, or none, and end. */
#ifndef BENCH_JOBS_H
#define BENCH_JOBS_H

#include "plain/programs.h"

int strcmp(const char *one, const char *other);

enum { INPUT_ROOM = 140000, STEPS_ROOM = 200000, TEXT_ROOM = 4096, PLAN_ROOM = 65536 };

/* The table's problem has 36,082 sections in form 0 and 37,520 in form 1: the head, a fact, top, a position, the middle,
 * operators of actions and methods. */
static const uint64_t some_sections[] = {0, 1, 65, 66, 130, 131, 6000, 12930, 12931, 20000, 28000, 36000};

struct input {
    uint64_t bound, form, limit, budget;
    const uint8_t *table, *plan;
    size_t table_length, plan_length;
};

/* What each side does; the text and the steps are written where they are told. */
struct jobs {
    uint64_t (*sections)(const struct input *in);
    uint64_t (*section)(const struct input *in, uint64_t index, uint8_t *text, size_t room);
    uint64_t (*check)(const struct input *in);
    uint64_t (*expand)(const struct input *in, uint8_t *steps, size_t room);
    uint64_t (*least)(const struct input *in);
    uint64_t (*search)(const struct input *in);
};

static uint64_t do_job(const struct jobs *jobs, const struct input *in, const char *job)
{
    static uint8_t steps[STEPS_ROOM], text[TEXT_ROOM];
    uint64_t sum = 0;
    if (!strcmp(job, "sections"))
        return jobs->sections(in);
    if (!strcmp(job, "section"))
        for (unsigned k = 0; k < sizeof some_sections / sizeof *some_sections; k++)
            sum += jobs->section(in, some_sections[k], text, sizeof text);
    if (!strcmp(job, "check"))
        return jobs->check(in);
    if (!strcmp(job, "expand"))
        return jobs->expand(in, steps, sizeof steps);
    if (!strcmp(job, "least"))
        return jobs->least(in);
    if (!strcmp(job, "search"))
        return jobs->search(in);
    return sum;
}

/* Copies as many of a plan's first lines as fit with a carriage return in each; the same lines with them or without. */
static size_t copy_lines(uint8_t *to, const uint8_t *plan, size_t length, int returns)
{
    size_t written = 0, whole = 0, lines = 0;
    for (size_t k = 0; k < length && k + lines + 2 <= PLAN_ROOM; k++) {
        int ends = plan[k] == '\n';
        lines += ends;
        if (ends && returns)
            to[written++] = '\r';
        to[written++] = plan[k];
        if (ends)
            whole = written;
    }
    return whole;
}

/* The emitting program's input, or the checking program's: its plan, the plan's first lines with one line end or the other, or an
 * empty plan. */
static uint64_t do_call(const struct jobs *jobs, const uint8_t *bytes, size_t length, const char *job, const char *kind)
{
    static uint8_t lines[PLAN_ROOM];
    struct input in = {bytes[0], bytes[1], 0, 0, bytes + 2, NULL, length - 2, 0};
    if (strcmp(kind, "table")) {
        in.table_length = bytes[2] + 256u * bytes[3];
        in.table = bytes + 4;
        in.plan = in.table + in.table_length;
        in.plan_length = length - 4 - in.table_length;
    }
    if (!strcmp(kind, "feeds") || !strcmp(kind, "returns")) {
        in.plan_length = copy_lines(lines, in.plan, in.plan_length, !strcmp(kind, "returns"));
        in.plan = lines;
    }
    if (!strcmp(kind, "no-line"))
        in.plan_length = 0;
    return do_job(jobs, &in, job);
}

/* The finding program's inputs, one after the other, each behind its length. */
static uint64_t do_searches(const struct jobs *jobs, const uint8_t *bytes, size_t length, const char *job)
{
    uint64_t sum = 0;
    for (const uint8_t *at = bytes; at < bytes + length;) {
        size_t table_length = at[0] + 256u * at[1] - 8;
        uint64_t budget = at[6] + 256u * (at[7] + 256u * (at[8] + 256u * at[9]));
        struct input in = {at[2], at[3], at[4] + 256u * at[5], budget, at + 10, NULL, table_length, 0};
        sum += do_job(jobs, &in, job);
        at += 10 + table_length;
    }
    return sum;
}

/* The second argument says what the input is. The result is printed, so that both sides can be seen to have done the same; the
 * count is taken without that. */
static int run_job(const struct jobs *jobs, int count, char **arguments)
{
    static uint8_t bytes[INPUT_ROOM];
    size_t length = read_input(bytes, sizeof bytes);
    if (count < 3 || length < 4)
        return 1;
    uint64_t result = !strcmp(arguments[2], "searches") ? do_searches(jobs, bytes, length, arguments[1])
                      : do_call(jobs, bytes, length, arguments[1], arguments[2]);
    if (count > 3)
        printf("%lu\n", (unsigned long)result);
    return 0;
}

#endif
