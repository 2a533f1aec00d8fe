/* Document 01's emitting program over the plain C. */
#include "plain.h"
#include "programs.h"

enum { HEADER = 2, MOST_TABLE = 32768 };

int main(void)
{
    /* One byte more than a table may have is enough to tell that there are too many; missing header bytes are 0. */
    static uint8_t input[HEADER + MOST_TABLE + 1];
    size_t length = read_input(input, sizeof input);
    size_t table_length = length > HEADER ? length - HEADER : 0;
    struct plain_answer a = plain_emit(input[0], input[1], input + HEADER, table_length, write_output, NULL);
    return a.number ? tell_refusal(a.number, a.place) : 0;
}
