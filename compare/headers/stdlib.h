/* For `serve.c` and the README's example where the compiler comes without headers: the little of the
 * C library that they and chandvreksh.h use. */
#ifndef STDLIB_H
#define STDLIB_H
void exit(int status) __attribute__((noreturn));
#endif
