/* What a comparison saw, and the memory it lends. */
#include "tally.h"
#include <string.h>

int printf(const char *format, ...);
int putchar(int byte);

enum { MOST_TOLD = 20 };

struct tally tally;

void same(const char *what, uint64_t ours, uint64_t plain)
{
    if (ours == plain)
        return;
    tally.failing = 1;
    if (tally.told++ < MOST_TOLD)
        printf("case %lu: %s: %lu against %lu\n", (unsigned long)tally.cases, what, (unsigned long)ours,
               (unsigned long)plain);
}

void must(const char *what, int holds)
{
    same(what, (uint64_t)(holds != 0), 1);
}

void raise_to(uint64_t *most, uint64_t value)
{
    if (value > *most)
        *most = value;
}

int may_tell(void)
{
    return tally.told <= MOST_TOLD;
}

void tell_bytes(const char *name, const uint8_t *bytes, size_t length)
{
    printf("  %s, %lu bytes:", name, (unsigned long)length);
    for (size_t k = 0; k < length && k < 400; k++)
        printf(" %02x", bytes[k]);
    putchar('\n');
}

struct lent lend(uint8_t *memory, uint8_t *before, const uint8_t *from, size_t length, struct draws d)
{
    struct lent l = {memory + GUARD, memory, before, length};
    for (size_t k = 0; k < GUARD || (!from && k < length + 2 * GUARD); k += 8) {
        uint64_t bytes = draw(&d);
        memcpy(before + k, &bytes, 8);
    }
    if (from)
        memcpy(before + GUARD, from, length + GUARD);
    memcpy(memory, before, length + 2 * GUARD);
    if (length == 0 && once_in(&d, 2))
        l.slice = NULL;
    return l;
}

int stays(const struct lent *l)
{
    return memcmp(l->memory, l->before, l->length + 2 * GUARD) == 0;
}

int alike(const struct lent *one, const struct lent *other)
{
    return memcmp(one->memory, other->memory, one->length + 2 * GUARD) == 0;
}
