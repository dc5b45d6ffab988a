/* What the programs here use of stdlib.h. */
#ifndef LIBC_STDLIB_H
#define LIBC_STDLIB_H
#include <stddef.h>
#define EXIT_SUCCESS 0
#define EXIT_FAILURE 1
void *malloc(size_t);
void free(void *);
void exit(int) __attribute__((noreturn));
unsigned long strtoul(const char *, char **, int);
unsigned long long strtoull(const char *, char **, int);
#endif
