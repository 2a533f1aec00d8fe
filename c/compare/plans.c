/* Plans: walks through a table, and lines damaged. */
#include "generate.h"
#include <string.h>

struct stack { unsigned height, task[64 + 1]; };

static void put_byte(struct plan_text *p, int byte)
{
    p->bytes[p->length++] = (uint8_t)byte;
}

static void put_bytes(struct plan_text *p, const uint8_t *from, size_t length)
{
    memcpy(p->bytes + p->length, from, length);
    p->length += length;
}

static void put_decimal(struct plan_text *p, unsigned n)
{
    if (n >= 10)
        put_decimal(p, n / 10);
    put_byte(p, (int)('0' + n % 10));
}

/* Line ends are drawn apart, so that they go with nothing else that is drawn. */
static void draw_ends(struct plan_text *p, struct draws d)
{
    p->ends.state = ~d.state;
    p->returns = below(&p->ends, 4);
}

static void end_line(struct plan_text *p)
{
    if (p->returns && once_in(&p->ends, p->returns))
        put_byte(p, '\r');
    put_byte(p, '\n');
    p->start[++p->lines] = p->length;
}

static void put_operator(struct plan_text *p, int kind, unsigned number, unsigned position)
{
    put_byte(p, '(');
    put_byte(p, kind);
    put_decimal(p, number);
    put_byte(p, ' ');
    put_decimal(p, position);
    put_byte(p, ')');
    end_line(p);
}

static void put_comment(struct plan_text *p, struct draws *d)
{
    put_byte(p, ';');
    for (unsigned k = below(d, 12); k > 0; k--) {
        int byte = (int)(draw(d) & 255);
        put_byte(p, byte == '\n' ? 0 : once_in(d, 6) ? '\r' : byte);
    }
    end_line(p);
}

/* Runs one action on the facts, if they allow it. */
static int act(uint64_t *facts, const struct model *m, unsigned action)
{
    if (m->action[action].needs & ~*facts)
        return 0;
    *facts = (*facts & ~m->action[action].deletes) | m->action[action].adds;
    return 1;
}

/* How many actions a method takes along. */
static unsigned run_length(const struct model *m, unsigned k, unsigned form)
{
    unsigned run = 0;
    while (form == 1 && run < m->method[k].count && m->method[k].subtask[run] < m->actions)
        run++;
    return run;
}

static int method_fits(const struct model *m, unsigned k, unsigned form, unsigned bound, const struct stack *s,
                       uint64_t facts)
{
    unsigned run = run_length(m, k, form), rest = m->method[k].count - run;
    if (m->method[k].head != s->task[s->height] || (rest > 0 && s->height + rest - 1 > bound))
        return 0;
    for (unsigned n = 0; n < run; n++)
        if (!act(&facts, m, m->method[k].subtask[n]))
            return 0;
    return 1;
}

/* A method that fits, from a random one on; in haste, the one that leaves least. */
static unsigned choose_method(const struct model *m, unsigned form, unsigned bound, const struct stack *s, uint64_t facts,
                              int haste, struct draws *d)
{
    unsigned first = m->methods ? below(d, m->methods) : 0, best = m->methods, least = 9;
    for (unsigned n = 0; n < m->methods; n++) {
        unsigned k = (first + n) % m->methods;
        if (!method_fits(m, k, form, bound, s, facts))
            continue;
        unsigned rest = m->method[k].count - run_length(m, k, form);
        if (!haste || rest < least) {
            best = k;
            least = rest;
        }
        if (!haste)
            break;
    }
    return best;
}

static void take_method(struct walk *w, struct stack *s, const struct model *m, unsigned k, unsigned form)
{
    unsigned run = run_length(m, k, form);
    for (unsigned n = 0; n < run; n++) {
        act(&w->facts, m, m->method[k].subtask[n]);
        w->cost += m->action[m->method[k].subtask[n]].cost;
    }
    s->height--;
    for (unsigned n = m->method[k].count; n > run; n--)
        s->task[++s->height] = m->method[k].subtask[n - 1];
    w->steps += 1 + run;
}

/* One operator more; answers 0 where none can go on. */
static int walk_on(struct walk *w, struct stack *s, struct plan_text *p, const struct model *m, unsigned bound,
                   unsigned form, int haste, struct draws *d)
{
    unsigned task = s->task[s->height], position = s->height;
    if (task < m->actions) {
        if (!act(&w->facts, m, task))
            return 0;
        s->height--;
        w->cost += m->action[task].cost;
        w->steps++;
        put_operator(p, 'a', task, position);
    } else {
        unsigned k = choose_method(m, form, bound, s, w->facts, haste, d);
        if (k == m->methods)
            return 0;
        take_method(w, s, m, k, form);
        put_operator(p, 'm', k, position);
    }
    w->operators++;
    return 1;
}

struct walk walk_model(struct plan_text *p, const struct model *m, unsigned bound, unsigned form, unsigned wanted,
                       unsigned comments, struct draws *d)
{
    struct walk w = {0, m->start, 0, 0, 0};
    struct stack s = {1, {0, m->first}};
    p->length = p->lines = 0;
    p->start[0] = 0;
    draw_ends(p, *d);
    while (s.height > 0 && p->lines < 2 * wanted + 20 && p->lines + 2 < LINE_ROOM && p->length + 100 < WALK_ROOM) {
        if (comments && once_in(d, comments))
            put_comment(p, d);
        if (!walk_on(&w, &s, p, m, bound, form, p->lines >= wanted, d))
            break;
    }
    if (comments && once_in(d, comments))
        put_comment(p, d);
    w.ended = s.height == 0;
    return w;
}

struct parsed { int kind; unsigned number, position; };

static unsigned parse_digits(const uint8_t **p)
{
    unsigned n = 0;
    for (; **p >= '0' && **p <= '9'; ++*p)
        n = 10 * n + (unsigned)(**p - '0');
    return n;
}

/* A line that a walk wrote; a comment is taken for an operator of its own making. */
static struct parsed parse_line(const struct plan_text *p, unsigned line)
{
    const uint8_t *at = p->bytes + p->start[line];
    struct parsed parsed = {'a', 0, 1};
    if (*at != '(')
        return parsed;
    parsed.kind = at[1];
    at += 2;
    parsed.number = parse_digits(&at);
    at++;
    parsed.position = parse_digits(&at);
    return parsed;
}

static void put_zeros(struct plan_text *to, struct parsed p, int before_number, int before_position)
{
    put_byte(to, '(');
    put_byte(to, p.kind);
    if (before_number)
        put_byte(to, '0');
    put_decimal(to, p.number);
    put_byte(to, ' ');
    if (before_position)
        put_byte(to, '0');
    put_decimal(to, p.position);
    put_byte(to, ')');
    end_line(to);
}

/* A line of the right bytes with another between, in place of one, or with one left out. */
static void put_spoilt(struct plan_text *to, const uint8_t *line, size_t length, enum line_damage kind, struct draws *d)
{
    static const uint8_t others[] = "()am0123456789 ;\n\r\t\0AM-+.,\x80\xb2\xff";
    size_t at = below(d, (unsigned)length);
    put_bytes(to, line, at);
    if (kind != LESS_BYTE)
        put_byte(to, once_in(d, 4) ? (int)(draw(d) & 255) : others[below(d, sizeof others - 1)]);
    size_t from = kind == MORE_BYTE ? at : at + 1;
    put_bytes(to, line + from, length - from);
}

static void put_blank_line(struct plan_text *to, const uint8_t *line, size_t length, struct draws *d)
{
    size_t at = 0;
    while (at + 1 < length && line[at] != ' ')
        at++;
    put_bytes(to, line, at);
    static const char *const blanks[] = {"  ", "", "\t", " \t", " ("};
    for (const char *b = blanks[below(d, 5)]; *b; b++)
        put_byte(to, *b);
    put_bytes(to, line + at + 1, length - at - 1);
}

static void put_other_operator(struct plan_text *to, struct parsed p, enum line_damage kind, struct draws *d)
{
    switch (kind) {
    case POSITION_UP: put_operator(to, p.kind, p.number, p.position + 1); break;
    case POSITION_DOWN: put_operator(to, p.kind, p.number, p.position - 1); break;
    case OTHER_NUMBER:
        put_operator(to, p.kind, once_in(d, 2) ? p.number + 1 : below(d, once_in(d, 2) ? 10 : 1000), p.position);
        break;
    case NUMBER_ZERO_FIRST: put_zeros(to, p, 1, 0); break;
    case POSITION_ZERO_FIRST: put_zeros(to, p, 0, 1); break;
    case FOUR_DIGITS: {
        int number = once_in(d, 2);
        put_operator(to, p.kind, p.number + (number ? 1000 : 0), p.position + (number ? 0 : 1000));
        break;
    }
    case OTHER_KIND: put_operator(to, p.kind == 'a' ? 'm' : 'a', p.number, p.position); break;
    default: {
        unsigned which = 1 + below(d, 3);
        put_operator(to, p.kind, which & 1 ? 999 : p.number, which & 2 ? 999 : p.position);
    }
    }
}

/* How many bytes a line has before its end. In a comment the carriage return before its line feed is content, which may come and go. */
static size_t inner_length(const uint8_t *line, size_t length)
{
    return length - 1 - (length > 1 && line[length - 2] == '\r');
}

/* Carriage returns in their place, and in each wrong one. */
static void put_returned(struct plan_text *to, const uint8_t *line, size_t length, enum line_damage kind, struct draws *d)
{
    size_t inner = inner_length(line, length), at = inner;
    if (kind == RETURN_INSIDE)
        at = below(d, (unsigned)inner);
    else if (kind == RETURN_ALONE)
        at = 0;
    else if (kind == RETURN_LAST)
        at = length;
    put_bytes(to, line, at);
    put_byte(to, '\r');
    if (kind == TWO_RETURNS)
        put_byte(to, '\r');
    if (kind == RETURN || kind == TWO_RETURNS || kind == RETURN_ALONE)
        put_byte(to, '\n');
    if (kind == RETURN_INSIDE || kind == RETURN_ALONE)
        put_bytes(to, line + at, length - at);
}

static void put_damaged(struct plan_text *to, const struct plan_text *from, unsigned k, enum line_damage kind,
                        struct draws *d)
{
    const uint8_t *line = from->bytes + from->start[k];
    size_t length = from->start[k + 1] - from->start[k];
    switch (kind) {
    case NO_LINE: break;
    case TWICE: put_bytes(to, line, length); put_bytes(to, line, length); break;
    case NO_FEED: put_bytes(to, line, length - 1); break;
    case MORE_BYTE: case LESS_BYTE: case WRONG_BYTE: put_spoilt(to, line, length, kind, d); break;
    case COMMENTED: put_byte(to, ';'); put_bytes(to, line, length); break;
    case CUT_IN_LINE: put_bytes(to, line, below(d, (unsigned)length)); break;
    case EMPTY_LINE: put_byte(to, '\n'); put_bytes(to, line, length); break;
    case COMMENT_LINE: put_comment(to, d); put_bytes(to, line, length); break;
    case RETURN: case TWO_RETURNS: case RETURN_INSIDE: case RETURN_ALONE: case RETURN_FOR_FEED: case CUT_AT_RETURN:
    case RETURN_LAST:
        put_returned(to, line, length, kind, d);
        break;
    case WIDE_BLANK: put_blank_line(to, line, length, d); break;
    default: put_other_operator(to, parse_line(from, k), kind, d);
    }
}

/* Only the text is kept up: the damaged plan's line starts are not asked for. */
void damage_line(struct plan_text *to, const struct plan_text *from, unsigned line, enum line_damage kind, struct draws *d)
{
    size_t end = from->length, next = from->start[line + 1];
    to->length = to->lines = 0;
    to->returns = from->returns;
    to->ends = from->ends;
    put_bytes(to, from->bytes, from->start[line]);
    if (kind == SWAPPED && line + 1 < from->lines) {
        size_t after = from->start[line + 2];
        put_bytes(to, from->bytes + next, after - next);
        put_bytes(to, from->bytes + from->start[line], next - from->start[line]);
        next = after;
    } else if (kind != CUT_AT_LINE) {
        put_damaged(to, from, line, kind, d);
    }
    size_t length = to->length;
    put_bytes(to, from->bytes + next, end - next);
    /* A cut leaves the rest of the plan behind the end, where it must not be read. */
    if (kind == CUT_AT_LINE || kind == CUT_IN_LINE || kind == CUT_AT_RETURN || kind == RETURN_LAST)
        to->length = length;
}

void change_ends(struct plan_text *to, const struct plan_text *from, struct draws d)
{
    to->length = to->lines = 0;
    draw_ends(to, d);
    for (unsigned k = 0; k < from->lines; k++) {
        const uint8_t *line = from->bytes + from->start[k];
        put_bytes(to, line, inner_length(line, from->start[k + 1] - from->start[k]));
        end_line(to);
    }
}

void stretch_plan(struct plan_text *p, size_t length)
{
    while (p->length < length) {
        size_t more = length - p->length > 1000 && length - p->length != 1001 ? 1000 : length - p->length;
        memset(p->bytes + p->length, ';', more);
        p->length += more;
        p->bytes[p->length - 1] = '\n';   /* one byte alone is an empty line, and at fault */
    }
}
