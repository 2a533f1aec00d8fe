/* The plain C's side of the counted jobs: one call each. */
#include "plain/plain.h"
#include "jobs.h"

static uint64_t sections(const struct input *in)
{
    return plain_sections(in->bound, in->form, in->table, in->table_length).value;
}

static uint64_t section(const struct input *in, uint64_t index, uint8_t *text, size_t room)
{
    return plain_section(in->bound, in->form, in->table, in->table_length, index, text, room, 0).value;
}

static uint64_t check(const struct input *in)
{
    return plain_check(in->bound, in->form, in->table, in->table_length, in->plan, in->plan_length).number;
}

static uint64_t expand(const struct input *in, uint8_t *steps, size_t room)
{
    return plain_expand(in->bound, in->form, in->table, in->table_length, in->plan, in->plan_length, steps, room).value;
}

static uint64_t least(const struct input *in)
{
    return plain_least(in->form, in->table, in->table_length).value;
}

static uint64_t search(const struct input *in)
{
    return plain_search(in->bound, in->form, in->limit, in->budget, in->table, in->table_length, NULL, 0).place;
}

int main(int count, char **arguments)
{
    static const struct jobs jobs = {sections, section, check, expand, least, search};
    return run_job(&jobs, count, arguments);
}
