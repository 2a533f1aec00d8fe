/* Document 01's checking program over the plain C. */
#include "plain.h"
#include "programs.h"

enum { HEADER = 4, LONGEST_TABLE = 65535, MOST_PLAN = 65536 };

int main(void)
{
    /* One byte more than a plan may have is enough to tell that there are too many; missing header bytes are 0. */
    static uint8_t input[HEADER + LONGEST_TABLE + MOST_PLAN + 1];
    size_t length = read_input(input, sizeof input);
    size_t behind = length > HEADER ? length - HEADER : 0;
    size_t table_length = input[2] + 256u * input[3];
    if (table_length > behind)
        table_length = behind;
    const uint8_t *table = input + HEADER;
    struct plain_verdict v = plain_check(input[0], input[1], table, table_length, table + table_length,
                                         behind - table_length);
    if (v.number)
        return tell_refusal(v.number, v.place);
    printf("accepted %lu %lu %lu\n", (unsigned long)v.cost, (unsigned long)v.operators, (unsigned long)v.steps);
    return 0;
}
