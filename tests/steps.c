/* See steps.h. */
#define _POSIX_C_SOURCE 200809L

#include "steps.h"

#include <signal.h>
#include <stddef.h>
#include <stdint.h>
#include <string.h>

/* Where Linux keeps the third argument, the stack pointer and the instruction pointer in what a handler is shown on x86-64. */
enum { THIRD_AT = 136, STACK_AT = 160, POINTER_AT = 168 };

/* Where the program itself stands. */
extern const char __executable_start[], etext[];

static volatile unsigned long steps;
static volatile uintptr_t last;
static volatile bool inside;
static bool prices;
/* Those of starting and stopping themselves. */
static unsigned long own;
/* The function whose stack is looked at, and its stack pointer when it was entered and at its lowest; 0 before it is entered. */
static uintptr_t watched;
static volatile uintptr_t entered, lowest;

static void stepped(int number, siginfo_t *info, void *shown)
{
    uintptr_t pointer, stack, third;
    (void)number;
    (void)info;
    memcpy(&pointer, (const char *)shown + POINTER_AT, sizeof pointer);
    memcpy(&stack, (const char *)shown + STACK_AT, sizeof stack);
    if (pointer == watched && entered == 0)
        entered = lowest = stack;
    if (stack < lowest)
        lowest = stack;
    if (!prices || (pointer >= (uintptr_t)__executable_start && pointer < (uintptr_t)etext)) {
        if (pointer != last)
            steps++;
        inside = true;
    } else if (inside) {
        memcpy(&third, (const char *)shown + THIRD_AT, sizeof third);
        steps += STEPS_PRICE + third / STEPS_BYTES;
        inside = false;
    }
    last = pointer;
}

void steps_trap(void);
void steps_untrap(void);
__asm__("steps_trap:\n pushfq\n orq $0x100, (%rsp)\n popfq\n ret\n"
        "steps_untrap:\n pushfq\n andq $~0x100, (%rsp)\n popfq\n ret\n");

bool steps_prepare(void)
{
    struct sigaction action;
    memset(&action, 0, sizeof action);
    action.sa_sigaction = stepped;
    action.sa_flags = SA_SIGINFO;
    sigaction(SIGTRAP, &action, NULL);
    own = 0;
    steps_start();
    own = steps_stop();
    steps_start();
    __asm__ volatile("nop\n nop\n nop\n nop");
    return steps_stop() == 4;
}

void steps_start(void)
{
    steps = 0;
    last = 0;
    inside = true;
    entered = lowest = 0;
    steps_trap();
}

unsigned long steps_stop(void)
{
    steps_untrap();
    return steps - own;
}

void steps_set_prices(bool on)
{
    prices = on;
}

void steps_watch(void (*entry)(void))
{
    memcpy(&watched, &entry, sizeof watched);
}

size_t steps_depth(void)
{
    return entered == 0 ? 0 : entered - lowest + sizeof(uintptr_t);
}
