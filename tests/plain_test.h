/*
 * What the files of the plain box's tests share: the checks, which plain_test.c counts, the box under test of
 * plain_test_box.c, and the tests of each file, which plain_test.c runs.
 */
#ifndef PLAIN_TEST_H
#define PLAIN_TEST_H

#include <stdbool.h>
#include "plain.h"

/* plain_test.c */

/* Says where the test under way stands. */
void under_way(const char *file, int line);
#define HERE under_way(__FILE__, __LINE__)

/* Counts a check; if it fails, its claim is told with the place of the test under way. */
void check(bool holds, const char *claim);

/* The claim holds. */
#define CHECK(claim) (HERE, check((claim), #claim))
/* The request sent by the call is answered with the status. */
#define GIVES(status, call) (HERE, check((call) == (status), #status " " #call))
/* The request sent by the call is answered with exactly this text. */
#define SAYS(text, call) (HERE, (void)(call), check(answer_is(text), text))

/* plain_test_box.c */

enum { FILL = 0xA5, REQUEST_ROOM = 3000 };

#define TEN(text) text text text text text text text text text text
#define SESSION "Session: 00000001\r\n"
#define TRANSPORT "Transport: RTP/AVP;unicast;client_port=5000-5001\r\n"
#define PIDS_33 "0,1,2,3,4,5,6,7,8,9,10,11,12,13,14,15,16,17,18,19,20,21,22,23,24,25,26,27,28,29,30,31,32"
#define BAD_UNNUMBERED "RTSP/1.0 400 Bad Request\r\n\r\n"
#define BAD "RTSP/1.0 400 Bad Request\r\nCSeq: 1\r\n\r\n"

/* The box under test and its buffers, which end where their arrays end so that a step too far is seen. */
extern struct plain_box box;
extern uint8_t journal_room[PLAIN_JOURNAL_MOST];
extern uint8_t answer[PLAIN_ANSWER_BYTES];
extern size_t answer_count;
extern uint32_t now, address, draw;

/* The journal, at the end of its room. */
uint8_t *journal(void);

/* The settings of a box with F and C whose frontends reach all four sources. */
struct plain_settings all_reaching(uint16_t frontends, uint32_t size);

/* Makes a fresh box of settings, and fills the journal's room. */
void fresh_of(struct plain_settings settings);

/* The same with F and C, where every frontend reaches all four. */
void fresh(uint16_t frontends, uint32_t size);

/* Are the bytes all as they were filled; are they all zero? */
bool filled(const uint8_t *bytes, size_t length);
bool is_zero(const void *bytes, size_t length);

bool well_formed(void);
size_t count_open(const struct plain_box *table);

/* Sends bytes, or a text, as a request; the status of its answer. */
int send_bytes(const void *bytes, size_t length);
int raw(const char *request);

/* Is this the last answer? */
bool answer_is(const char *text);

/* Sends a method and URI with version, CSeq: 1 and more header lines. */
int ask(const char *method_uri, const char *headers);

/* Sends a method on rtsp://h and a path, in a session unless it is 0, SETUP with a good Transport. */
int in(uint32_t session, const char *method, const char *path);

/* Sends a SETUP for a new stream on a fresh box with F = 2. */
int try_query(const char *query);

/* Ticks to a time. */
void tick(uint32_t time);

/* Is this the record at a place of the journal? */
bool record_is(size_t place, int kind, int cause, uint32_t session, int stream, int frontend);

/* Does the stream have exactly this many PIDs, the given ones first, and zeros behind? */
bool pids_are(size_t place, const uint16_t *pids, uint16_t count);

/* Writes numbers from `first`, `count` of them, joined by commas, after what is there. */
void append_list(char *text, size_t size, unsigned first, unsigned count);

/* plain_test_paper.c */

/* Document 01's example: a SETUP of a new stream. */
extern const char example[];

void test_paper(void);

/* plain_test_table.c */

/* A box with F = 3: stream 1 on frontend 2, owned by 7, joined by 9; stream 3 on frontend 1, owned by 8. */
void base(void);

void test_table(void);

/* plain_test_read.c */

/* Sends an OPTIONS with this text behind the colon of its CSeq; is the last answer its 200 with these digits? */
int ask_cseq(const char *value);
bool numbered(const char *digits);

/* Sends an OPTIONS whose URI has this length and is good but for that. */
int ask_uri_length(size_t length);

void test_reading(void);

/* plain_test_query.c */

void test_query(void);

/* plain_test_answer.c */

void test_steps(void);
void test_texts(void);

/* plain_test_reach.c */

void test_reach(void);

/* plain_test_cseq.c */

void test_cseq_comes_back(void);

/* plain_test_keep.c */

void test_keep(void);

/* plain_test_sweep.c */

void test_sweep(void);

/* plain_test_journal.c */

void test_refusals(void);

/* plain_test_evening.c */

void test_evening(void);

#endif
