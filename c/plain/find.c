/* The finding program over the plain C. */
#include "plain.h"
#include "programs.h"

enum { HEADER = 8, MOST_TABLE = 32768, MOST_FOUND = 2560 };

int main(void)
{
    /* One byte more than a table may have is enough to tell that there are too many; missing header bytes are 0. */
    static uint8_t input[HEADER + MOST_TABLE + 1];
    uint8_t text[MOST_FOUND];
    size_t length = read_input(input, sizeof input);
    size_t table_length = length > HEADER ? length - HEADER : 0;
    uint64_t limit = input[2] + 256u * input[3];
    uint64_t budget = input[4] + 256u * (input[5] + 256u * (input[6] + 256u * input[7]));
    struct plain_found a = plain_search(input[0], input[1], limit, budget, input + HEADER, table_length, text, sizeof text);
    if (a.number)
        return tell_refusal(a.number, a.place);
    write_output(NULL, (const char *)text, a.length);
    return 0;
}
