/*
 * What the host's test plays with: a host that it starts, moves the clock of and stops; televisions that connect from addresses of the
 * loopback; and the records that the journal's file must then have. Each check that fails ends the test with its place.
 */
#ifndef TELEVISION_H
#define TELEVISION_H

#include <stdbool.h>
#include <stddef.h>
#include <stdint.h>

#define PATIENCE 30                     /* seconds that a television waits for the host before the test fails */

#define CHECK(holds) check((holds), #holds, __FILE__, __LINE__)

void check(bool holds, const char *what, const char *file, int line);

/* Ends the test, and the host, after so many seconds. */
void limit(unsigned seconds);

/* The host. words are its options, NULL after the last. line is what it must say then, NULL for nothing; status is what it ends with. */
void start(const char *host, const char *const *words, const char *line);
void expect_refused(const char *host, const char *const *words, int status, const char *line);
void stop(int status, const char *line);
void freeze(void);                      /* it sees nothing until it thaws, and then everything at once */
void thaw(void);
void move(uint32_t seconds, const char *line);
void expect_line(const char *text);
void set_clock(uint32_t clock);

/* A television: its connection, from 127.0.0.place. */
int dial(int place);
void hang_up(int television);
void say(int television, const void *bytes, size_t length);
void say_text(int television, const char *text);
const char *hear(int television);
const char *ask(int television, const char *format, ...) __attribute__((format(printf, 2, 3)));
bool at_end(int television);                        /* the host has said all and ended in order */
bool is_gone(int television);                       /* the host has closed or reset the connection */
bool is_broken(int television, int milliseconds);   /* the host resets it within that time, whatever is left to hear */
bool is_there(int television);                      /* the connection is open, with nothing to hear */
bool status_is(const char *answer, const char *status);
bool is_for(const char *answer, int television);
uint32_t session_in(const char *answer);
int stream_in(const char *answer);

/* What happened, as the records must tell it. Records noted in a group other than 0 may stand in any order among themselves. */
void note(int kind, int cause, uint32_t session, int stream, int frontend);
void note_group(uint32_t group);
long noted_bytes(void);
void forget(void);
void expect_told(const char *file);
long length_of(const char *file);

#endif
