/* What the programs here use of signal.h: Linux's numbers, glibc's struct. */
#ifndef LIBC_SIGNAL_H
#define LIBC_SIGNAL_H
#define SIGILL 4
#define SIGTRAP 5
#define SIGABRT 6
#define SIGBUS 7
#define SIGFPE 8
#define SIGSEGV 11
#define SA_SIGINFO 4
typedef struct siginfo siginfo_t;
typedef struct {
    unsigned long words[16];
} sigset_t;
struct sigaction {
    void (*sa_sigaction)(int, siginfo_t *, void *);
    sigset_t sa_mask;
    int sa_flags;
    void (*sa_restorer)(void);
};
void (*signal(int, void (*)(int)))(int);
int sigaction(int, const struct sigaction *, struct sigaction *);
#endif
