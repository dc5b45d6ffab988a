/*
 * Document 01 with orders 1 to 3 of document 02 in plain C: the calls of the box as a firmware would make them. A
 * second implementation, written from the papers alone, so that the first one can be compared with it call by call
 * and field by field.
 */
#ifndef PLAIN_H
#define PLAIN_H

#include <stddef.h>
#include <stdint.h>

/* The limits of document 01. */
enum {
    PLAIN_FRONTENDS = 8,         /* most frontends F of a box; the least is 1 */
    PLAIN_SOURCES = 4,           /* sources, 1 to 4 */
    PLAIN_REACH_ALL = 15,        /* the set of all of them, a bit for each, source 1 the lowest */
    PLAIN_STREAMS = 8,           /* stream places; a stream's ID is its place + 1 */
    PLAIN_SESSIONS = 32,         /* session places */
    PLAIN_PIDS = 32,             /* most PIDs in a stream that has not "all" */
    PLAIN_PID_MOST = 8191,       /* the highest PID */
    PLAIN_REQUEST_BYTES = 2048,  /* longest request */
    PLAIN_URI_BYTES = 1024,      /* longest URI, with its query */
    PLAIN_ANSWER_BYTES = 4096,   /* least length of the answer buffer */
    PLAIN_JOURNAL_LEAST = 1024,  /* least journal size C */
    PLAIN_JOURNAL_MOST = 65536,  /* most journal size C */
    PLAIN_RECORD_BYTES = 16,     /* one record; C is a multiple of it */
    PLAIN_TIMEOUT = 60           /* age in seconds at which a session is expired */
};

/* What a call returns: done, or the number of its refusal. */
enum plain_refusal {
    PLAIN_DONE = 0,
    PLAIN_BAD_TABLE = 1,     /* the table is not well formed */
    PLAIN_BAD_JOURNAL = 2,   /* the journal's length is not C */
    PLAIN_SHORT_ANSWER = 3,  /* the answer buffer is shorter than 4,096 */
    PLAIN_SHORT_BUFFER = 4,  /* the collecting buffer is shorter than the bytes held */
    PLAIN_BAD_FRONTEND = 5,  /* the frontend number is 0 or above F */
    PLAIN_BAD_MAKING = 6,    /* F or C outside its range, or a set that is empty or has a source beyond 4 */
    PLAIN_NO_PLACE = 7,      /* length not a multiple of 16, or no such place */
    PLAIN_NO_RECORD = 8      /* the bytes, or the fields, are no record */
};

/* One session place; free exactly if the number is 0, and then all zeros. */
struct plain_session {
    uint32_t number;   /* the session number */
    uint32_t address;  /* the client's IPv4 address from the opening, highest octet first */
    uint32_t last;     /* the last time: of the opening, or of the last request past step 11 that named it */
    uint32_t port;     /* the client's port, a of client_port=a-b */
    uint8_t stream;    /* the ID of its stream */
    uint8_t owner;     /* 1: owns that stream, 0: joined it */
    uint16_t playing;  /* 1: plays, 0: does not */
};

/* A stream's values as codes; 0 is missing. Words count from 1 in the order of document 01's table. */
struct plain_values {
    uint32_t src;    /* 1 to 4 */
    uint32_t freq;   /* hundredths of MHz */
    uint32_t pol;    /* h v l r */
    uint32_t msys;   /* dvbs dvbs2 */
    uint32_t mtype;  /* qpsk 8psk */
    uint32_t plts;   /* on off */
    uint32_t ro;     /* 0.35 0.25 0.20 */
    uint32_t sr;     /* 1000 to 45000 */
    uint32_t fec;    /* 12 23 34 56 78 89 35 45 910 */
};

/* One stream place; live exactly if the frontend is not 0, else all zeros. */
struct plain_stream {
    uint16_t pids[PLAIN_PIDS];   /* ascending without repeats, zeros from count on */
    struct plain_values values;  /* src is never missing */
    uint16_t count;              /* PIDs in the list; 0 under "all" */
    uint8_t frontend;            /* the frontend held */
    uint8_t all;                 /* 1: pids=all, 0: the list counts */
};

/* What is fixed when a box is made. */
struct plain_settings {
    uint32_t size;                   /* journal size C */
    uint16_t frontends;              /* F */
    uint16_t spare;                  /* fills the struct: any value, which stays */
    uint8_t reach[PLAIN_FRONTENDS];  /* the set of sources each frontend reaches, frontend 1 first; zeros above F */
};

/* The table. Any bytes may stand here: each call judges them first. */
struct plain_box {
    struct plain_session sessions[PLAIN_SESSIONS];
    struct plain_stream streams[PLAIN_STREAMS];
    struct plain_settings settings;
    uint32_t held;       /* bytes held in the journal */
    uint32_t clock;      /* the stored clock in seconds */
    uint16_t sequence;   /* sequence of the next record */
    uint16_t spare;      /* fills the struct: any value, which stays */
};

/* One journal record's fields. (Two bytes of padding follow the cause; they mean nothing.) */
struct plain_record {
    uint8_t kind;       /* 1 opened as owner, 2 joined, 3 closed */
    uint8_t cause;      /* 0 for an opening; 1 teardown, 2 time-out, 3 owner closed */
    uint32_t clock;     /* the clock used */
    uint32_t session;   /* the session number */
    uint8_t stream;     /* the stream's ID */
    uint8_t frontend;   /* the frontend held */
    uint16_t sequence;  /* the record's sequence */
};

_Static_assert(sizeof(struct plain_session) == 20, "a session has no padding");
_Static_assert(sizeof(struct plain_values) == 36, "values have no padding");
_Static_assert(sizeof(struct plain_stream) == 104, "a stream has no padding");
_Static_assert(sizeof(struct plain_settings) == 16, "settings have no padding");
_Static_assert(sizeof(struct plain_box) == 1500, "a box has no padding");
_Static_assert(sizeof(struct plain_record) == 16, "a record has its two bytes of padding only");

/*
 * Makes a fresh box. What the settings have in spare and above F is ignored, and zeros in the box. Refusal 6, and
 * then the box stays.
 */
int plain_make(struct plain_box *box, struct plain_settings settings);

/*
 * Sweeps, then answers one request: the answer fills the first *answer_count bytes of the answer buffer, new
 * records follow the bytes held. Refusals 1, 2, 3, and then *answer_count is 0 and all else stays.
 */
int plain_request(struct plain_box *box, const uint8_t *request, size_t length, uint32_t clock,
                  uint32_t address, uint32_t draw, uint8_t *answer, size_t answer_length,
                  size_t *answer_count, uint8_t *journal, size_t journal_length);

/* Sweeps. Refusals 1, 2, and then all stays. */
int plain_tick(struct plain_box *box, uint32_t clock, uint8_t *journal, size_t journal_length);

/* Copies the *count bytes held to the buffer's front and frees their room. Refusals 1, 2, 4: *count is 0. */
int plain_collect(struct plain_box *box, const uint8_t *journal, size_t journal_length, uint8_t *buffer,
                  size_t buffer_length, uint32_t *count);

/* Gives a frontend's order: *on is 1 and the order its stream, or 0 and zeros. Refusals 1, 5: off too. */
int plain_order(const struct plain_box *box, uint32_t frontend, struct plain_stream *order, int *on);

/* Reads the record at a place, counted from 0. Refusals 7, 8, and then the record is all zeros. */
int plain_read_record(const uint8_t *bytes, size_t length, size_t place, struct plain_record *record);

/* Writes a record's 16 bytes. Refusal 8, and then they are all zeros. */
int plain_write_record(const struct plain_record *record, uint8_t bytes[PLAIN_RECORD_BYTES]);

#endif
