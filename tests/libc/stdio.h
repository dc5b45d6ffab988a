/* What the programs here use of stdio.h. */
#ifndef LIBC_STDIO_H
#define LIBC_STDIO_H
#include <stddef.h>
typedef struct file FILE;
extern FILE *stdout, *stderr;
int printf(const char *, ...) __attribute__((format(printf, 1, 2)));
int fprintf(FILE *, const char *, ...) __attribute__((format(printf, 2, 3)));
int snprintf(char *, size_t, const char *, ...) __attribute__((format(printf, 3, 4)));
int sscanf(const char *, const char *, ...) __attribute__((format(scanf, 2, 3)));
int putchar(int);
int puts(const char *);
int fputs(const char *, FILE *);
int fflush(FILE *);
void perror(const char *);
FILE *fopen(const char *, const char *);
int fclose(FILE *);
char *fgets(char *, int, FILE *);
size_t fwrite(const void *, size_t, size_t, FILE *);
#endif
