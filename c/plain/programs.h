/* What the plain programs share: reading standard input, writing standard output. */
#ifndef PLAIN_PROGRAMS_H
#define PLAIN_PROGRAMS_H

#include <stddef.h>
#include <stdint.h>

int printf(const char *format, ...);
long read(int file, void *to, size_t length);
long write(int file, const void *from, size_t length);

/* Reads until the input ends or the room does; answers how many bytes came. */
static inline size_t read_input(uint8_t *to, size_t room)
{
    size_t length = 0;
    long got;
    while (length < room && (got = read(0, to + length, room - length)) > 0)
        length += (size_t)got;
    return length;
}

static inline void write_output(void *unused, const char *from, size_t length)
{
    long put;
    (void)unused;
    while (length > 0 && (put = write(1, from, length)) > 0) {
        from += put;
        length -= (size_t)put;
    }
}

static inline int tell_refusal(uint64_t number, uint64_t place)
{
    printf("refused %lu %lu\n", (unsigned long)number, (unsigned long)place);
    return 0;
}

#endif
