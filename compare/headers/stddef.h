/* For `serve.c` and the README's example where the compiler comes without headers: the little of the
 * C library that they and chandvreksh.h use. */
#ifndef STDDEF_H
#define STDDEF_H
typedef __SIZE_TYPE__ size_t;
#endif
