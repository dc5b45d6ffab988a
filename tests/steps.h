/*
 * Counts the instructions that the processor executes, by its own trap after each of them: nothing is installed for it. x86-64 under Linux
 * only.
 */
#ifndef STEPS_H
#define STEPS_H

#include <stdbool.h>
#include <stddef.h>

/* To be called once, before the first count. False where the machine hands no such trap on: then there is nothing to count by. */
bool steps_prepare(void);

/* Counts from the one to the other. A repeated instruction (rep) counts once. */
void steps_start(void);
unsigned long steps_stop(void);

/* With prices, a call that leaves the program itself, to the C library's memcpy or memset, counts so many and one for so many of its bytes (103
 * for the box's 1,500), whatever it executes: that differs from processor to processor. Without, as at first, it counts what it executes. */
enum { STEPS_PRICE = 10, STEPS_BYTES = 16 };
void steps_set_prices(bool on);

/* Whose stack is looked at from the next start on; and, after the stop, how far the stack pointer went below where it stood before that
 * function was called, its return address included and arguments on the stack not. 0 where it was not called. */
void steps_watch(void (*entry)(void));
size_t steps_depth(void);

#endif
