/* What the C here needs of <string.h>, for a compiler that comes without C's headers. */
#ifndef FREESTANDING_STRING_H
#define FREESTANDING_STRING_H
#include <stddef.h>
void *memcpy(void *to, const void *from, size_t length);
void *memset(void *to, int byte, size_t length);
void *memchr(const void *from, int byte, size_t length);
int memcmp(const void *one, const void *other, size_t length);
size_t strlen(const char *text);
#endif
