/* What the C here needs of <stdio.h>, for a compiler that comes without C's headers. */
#ifndef FREESTANDING_STDIO_H
#define FREESTANDING_STDIO_H
#ifdef __cplusplus
extern "C"
#endif
int printf(const char *format, ...);
#endif
