/* The library's side of the counted jobs: one call each. */
#include "ildorzhen.h"
#include "jobs.h"

static uint64_t sections(const struct input *in)
{
    return ildorzhen_sections_count(in->bound, in->form, in->table, in->table_length);
}

static uint64_t section(const struct input *in, uint64_t index, uint8_t *text, size_t room)
{
    return ildorzhen_section_write(in->bound, in->form, in->table, in->table_length, index, text, room, 0);
}

static uint64_t check(const struct input *in)
{
    return ildorzhen_check_number(in->bound, in->form, in->table, in->table_length, in->plan, in->plan_length);
}

static uint64_t expand(const struct input *in, uint8_t *steps, size_t room)
{
    return ildorzhen_expand_write(in->bound, in->form, in->table, in->table_length, in->plan, in->plan_length, steps, room);
}

static uint64_t least(const struct input *in)
{
    return ildorzhen_least_bound(in->form, in->table, in->table_length);
}

/* Asked with no room, a plan found has the length of its text as the place, and no plan the number applied. */
static uint64_t search(const struct input *in)
{
    return ildorzhen_search_place(in->bound, in->form, in->limit, in->budget, in->table, in->table_length, NULL, 0);
}

int main(int count, char **arguments)
{
    static const struct jobs jobs = {sections, section, check, expand, least, search};
    return run_job(&jobs, count, arguments);
}
