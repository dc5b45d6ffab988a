/* What the programs here use of setjmp.h: glibc's on x86-64. */
#ifndef LIBC_SETJMP_H
#define LIBC_SETJMP_H
typedef struct {
    long registers[8];
    int saved;
    unsigned long mask[16];
} sigjmp_buf[1];
int __sigsetjmp(sigjmp_buf, int) __attribute__((returns_twice));
void siglongjmp(sigjmp_buf, int) __attribute__((noreturn));
#define sigsetjmp(place, mask) __sigsetjmp(place, mask)
#endif
