/* For `serve.c` and the README's example where the compiler comes without headers: the little of the
 * C library that they and chandvreksh.h use. */
#ifndef STDIO_H
#define STDIO_H
#include <stddef.h>
typedef struct _IO_FILE FILE;
extern FILE *stdin, *stdout;
size_t fread(void *room, size_t width, size_t count, FILE *from);
size_t fwrite(const void *data, size_t width, size_t count, FILE *to);
int fflush(FILE *to);
int printf(const char *format, ...);
#endif
