/*
 * What the files of the plain box share: plain_box.c has the calls, plain_table.c the rules of the table and its
 * journal, plain_read.c reads a request and plain_uri.c its URI, plain_turn.c judges it before the table and
 * carries it out, plain_text.c writes the answer.
 */
#ifndef PLAIN_PARTS_H
#define PLAIN_PARTS_H

#include <stdbool.h>
#include "plain.h"

/* Bytes inside the request; with length 0 there need be none. */
struct text {
    const uint8_t *bytes;
    size_t length;
};

/* The methods built, and any other. */
enum method { METHOD_OTHER, METHOD_OPTIONS, METHOD_SETUP, METHOD_PLAY, METHOD_TEARDOWN };

/* The statuses of document 01. */
enum status {
    STATUS_OK = 200,
    STATUS_BAD_REQUEST = 400,
    STATUS_FORBIDDEN = 403,
    STATUS_NOT_FOUND = 404,
    STATUS_METHOD_NOT_ALLOWED = 405,
    STATUS_URI_TOO_LONG = 414,
    STATUS_SESSION_NOT_FOUND = 454,
    STATUS_NOT_VALID_IN_STATE = 455,
    STATUS_UNSUPPORTED_TRANSPORT = 461,
    STATUS_NOT_IMPLEMENTED = 501,
    STATUS_UNAVAILABLE = 503,
    STATUS_VERSION_NOT_SUPPORTED = 505,
    STATUS_OPTION_NOT_SUPPORTED = 551
};

/* The codes the combination rule names, and the last code of each list of words. */
enum {
    POL_LAST = 4,
    MSYS_DVBS = 1,
    MSYS_LAST = 2,
    MTYPE_8PSK = 2,
    MTYPE_LAST = 2,
    PLTS_ON = 1,
    PLTS_LAST = 2,
    RO_035 = 1,
    RO_LAST = 3,
    FEC_78 = 5, /* up to here a fec goes with dvbs */
    FEC_LAST = 9
};

/* The ranges of the numbers in the attribute table, and of the client's port. */
enum {
    SRC_MOST = PLAIN_SOURCES,
    FREQ_LEAST = 1070000,
    FREQ_MOST = 1275000,
    SR_LEAST = 1000,
    SR_MOST = 45000,
    PORT_LEAST = 1024,
    PORT_MOST = 65534
};

/* What steps 1 to 9 read in a request. */
struct reading {
    bool session_sent;          /* there is a Session header */
    bool query;                 /* the URI has a query */
    bool pids_given, pids_all;  /* pids is there; it is "all" */
    enum method method;
    uint32_t session;           /* the number sent; 0 if it is none */
    uint32_t port;              /* a of a good Transport, else 0 */
    uint32_t stream;            /* the stream named, else 0 */
    uint32_t fe;                /* the frontend asked for, else 0 */
    struct plain_values values; /* those given, the others 0 */
    struct text pids, addpids, delpids; /* lists of good numbers, empty if there are none */
    struct text cseq;           /* CSeq's digits, which the answer carries; empty if step 1 or 2 refuses */
    struct text host;           /* the URI's host */
    struct text require;        /* the value of Require */
};

/* A record's kind, and its cause. */
enum kind { KIND_OPENED = 1, KIND_JOINED = 2, KIND_CLOSED = 3 };
enum cause { CAUSE_NONE = 0, CAUSE_TEARDOWN = 1, CAUSE_TIME_OUT = 2, CAUSE_OWNER_CLOSED = 3 };

/* plain_table.c */

/* Are F and C in their ranges, and is each set up to F one of sources 1 to 4, and not empty? */
bool plain_settings_in_range(const struct plain_settings *settings);

/* Does a frontend, 1 to F, reach a source, 1 to 4? */
bool plain_reaches(const struct plain_box *box, uint32_t frontend, uint32_t src);

/* The combination rule; a missing value, code 0, offends nothing. */
bool plain_combination_holds(const struct plain_values *values);

/* Well formed, or else refusal 1. */
bool plain_well_formed(const struct plain_box *box);

uint32_t plain_count_open(const struct plain_box *box);

/* The stream place that holds a frontend, or for 0 the lowest free one; PLAIN_STREAMS if there is none. */
size_t plain_stream_place(const struct plain_box *box, uint32_t frontend);

/* Appends the record of a session's opening or closing, while its stream is still live. */
void plain_append_record(struct plain_box *box, uint8_t *journal, const struct plain_session *session,
                         enum kind kind, enum cause cause);

/* Closes a session and, if it owns its stream, every other session there and the stream. */
void plain_close_session(struct plain_box *box, struct plain_session *session, enum cause cause,
                         uint8_t *journal);

/* Stores the clock used and closes the expired sessions. */
void plain_sweep(struct plain_box *box, uint32_t clock, uint8_t *journal);

/* plain_read.c */

/* Reads a request for a box with F frontends: steps 1 to 9. 200 if they pass, else their status. */
enum status plain_read(struct text request, uint32_t frontends, struct reading *reading);

/* plain_uri.c */

/* Reads the URI: steps 7 to 9. */
enum status plain_read_uri(struct text uri, uint32_t frontends, struct reading *reading);

/* Takes the first number off a list of PIDs; false if it is no PID or a comma ends the list. */
bool plain_take_pid(struct text *list, uint16_t *pid);

/* plain_turn.c */

/*
 * Steps 10 to 18. From step 12 on the last time of the session that is named is set, whatever the status. A 200 is
 * carried out and gives the session its answer tells of, unused if there is none.
 */
enum status plain_take_turn(struct plain_box *box, const struct reading *reading, uint32_t address,
                            uint32_t draw, uint8_t *journal, struct plain_session *session);

/* plain_text.c */

/* Writes the answer and returns its length; the session, unused if there is none, is the one it tells of. */
size_t plain_write_answer(uint8_t *bytes, enum status status, const struct reading *reading,
                          const struct plain_session *session);

#endif
