#include "ildorzhen.h"
#include "words.h"
#include <stdio.h>

static const uint8_t TABLE[] = {1, 1, 1, 1, 1, 0, 1, 0, 1, 0, 3, 1, 1, 0};

static void judge(const char *name, const char *text, size_t length)
{
    const uint8_t *plan = (const uint8_t *)text;
    uint64_t refusal = ildorzhen_check_number(1, ILDORZHEN_PLAIN, TABLE, sizeof TABLE, plan, length);
    uint64_t place = ildorzhen_check_place(1, ILDORZHEN_PLAIN, TABLE, sizeof TABLE, plan, length);
    uint64_t cost = ildorzhen_check_cost(1, ILDORZHEN_PLAIN, TABLE, sizeof TABLE, plan, length);
    struct ildorzhen_wording words = ildorzhen_words(refusal);
    if (refusal == 0)
        printf("%s: accepted, cost %llu\n", name, (unsigned long long)cost);
    else
        printf("%s: refused %u %s %u: %s\n", name, (unsigned)refusal, words.place, (unsigned)place, words.sentence);
}

int main(void)
{
    judge("whole plan", "(m0 1)\n(a0 1)\n", 14);
    judge("half plan", "(m0 1)\n", 7);
    return 0;
}
