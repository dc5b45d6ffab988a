/*
 * satbox.h: the control part of a SAT>IP box, for the firmware that links its archive: libsatbox.a of a release, which bin/release makes of
 * the repository's target/staticlib/libdoor.a.
 *
 * The firmware keeps one struct satbox and one journal, and lends them to each call. The library keeps nothing between two calls: no
 * heap, no variable of its own, no pointer, no thread, no clock, no socket. It needs memcpy and memset, and nothing else.
 * The archive is for x86-64 with the System V calling convention.
 *
 * A call that returns refusal 0 was done. Any other refusal is one of SATBOX_REFUSED_.. below: the box and every lent buffer then hold the
 * bytes that they held before (satbox_make is the one exception, see there), and no session was swept. Refusals are tested in the order
 * of their numbers; the lowest is returned. Any bytes in the box, the buffers and the request are judged, none are trusted.
 *
 * What the caller owes, for every call; no call can test it:
 *   - box is not NULL, is aligned as struct satbox is (4), and all its 1,500 bytes are initialized and writable. A call may write every
 *     one of them, also where the value stays: satbox_order too, and a refused call too.
 *   - each other pointer is valid for the length beside it; with length 0 it may be NULL.
 *   - box, request, answer, journal and buffer do not overlap.
 *   - until the call returns, no other thread and no interrupt reads or writes any of them. Calls on two boxes may run at once.
 *   - the stack has room: SATBOX_STACK_.. bytes for each call, and below them the 128 of the red zone.
 *   - the journal's bytes stay with their box: between two calls nobody writes them, nor the box's fields. Both may be read.
 */
#ifndef SATBOX_H
#define SATBOX_H

#include <stddef.h>
#include <stdint.h>

/*
 * Version a.b as a number: a in the upper sixteen bits, b in the lower. A firmware compares it with satbox_version when it starts.
 * From 1.0 to 1.1: satbox_make takes its settings in one struct, with the sources that each frontend reaches. All of them at SATBOX_REACH_ALL is the box
 * of 1.0, call for call. A box that 1.0 left is none of 1.1: its size is another.
 * From 1.1 to 1.2: an answer's CSeq has the digits that were sent, leading zeros too. Nothing in this header moved, and a box of 1.1 is one of 1.2.
 * From 1.2 to 1.3: every request that names an open session and passes step 11 sets that session's last time, also where a later step refuses it; before,
 * of these only OPTIONS did. Nothing in this header moved but SATBOX_STACK_REQUEST, which is less, and a box of 1.2 is one of 1.3.
 * From 1.3 to 1.4: a request takes 1,280 bytes less of the stack. Every answer, table and record is that of 1.3; nothing in this header moved but
 * SATBOX_STACK_REQUEST, and a box of 1.3 is one of 1.4.
 */
#define SATBOX_VERSION 0x00010004u      /* 1.4 */

/* Limits. */
#define SATBOX_FRONTENDS_MIN 1u         /* F, fixed when the box is made */
#define SATBOX_FRONTENDS_MAX 8u
#define SATBOX_SOURCES 4u               /* sources: src is 1 to 4 */
#define SATBOX_REACH(source) (1u << ((source) - 1u)) /* the set of one source; a frontend's set is a sum of these for different sources, */
#define SATBOX_REACH_ALL 15u            /* 1 to this, which is all four */
#define SATBOX_STREAMS 8u               /* stream places; a stream's ID is its place plus 1; at most one stream on each frontend */
#define SATBOX_SESSIONS 32u             /* session places */
#define SATBOX_PIDS 32u                 /* PIDs in a stream that has not "all" */
#define SATBOX_PID_MAX 8191u
#define SATBOX_REQUEST_MAX 2048u        /* bytes of a request; a longer one is answered 400 */
#define SATBOX_URI_MAX 1024u            /* bytes of a URI with its query; a longer one is answered 414 */
#define SATBOX_ANSWER_MIN 4096u         /* bytes of an answer buffer, at least; no answer is longer */
#define SATBOX_JOURNAL_MIN 1024u        /* journal size C in bytes, fixed when the box is made, */
#define SATBOX_JOURNAL_MAX 65536u       /* and a multiple of SATBOX_RECORD */
#define SATBOX_RECORD 16u               /* bytes of a record */
#define SATBOX_TIMEOUT 60u              /* seconds: a session of this age is expired, one of 59 is not */
#define SATBOX_CLOCK_MAX 4294967295u    /* here time stands still: no session opened now ever expires */

/*
 * Bytes of stack that each call takes, with its arguments on it and its return address. docs/FIRMWARE.md says how that was measured. They are of this
 * archive: one of the same version that another kit built takes others (its MANIFEST names the kit).
 */
#define SATBOX_STACK_REQUEST 4304u
#define SATBOX_STACK_TICK 3232u
#define SATBOX_STACK_ORDER 256u
#define SATBOX_STACK_COLLECT 3232u
#define SATBOX_STACK_MAKE 104u
#define SATBOX_STACK_WRITE_RECORD 72u
#define SATBOX_STACK_READ_RECORD 32u
#define SATBOX_STACK_VERSION 8u

/* Refusals. */
#define SATBOX_DONE 0u
#define SATBOX_REFUSED_TABLE 1u         /* the box is not well formed: never made, or its bytes were changed */
#define SATBOX_REFUSED_JOURNAL 2u       /* the journal's length is not C */
#define SATBOX_REFUSED_ANSWER 3u        /* the answer buffer is shorter than 4,096 */
#define SATBOX_REFUSED_BUFFER 4u        /* the collecting buffer is shorter than the bytes held */
#define SATBOX_REFUSED_FRONTEND 5u      /* the frontend is 0 or above F */
#define SATBOX_REFUSED_SIZES 6u         /* F or C is outside its range, or the set of a frontend up to F is empty or has a source beyond 4 */
#define SATBOX_REFUSED_PLACE 7u         /* the length is no multiple of 16, or there is no such place */
#define SATBOX_REFUSED_RECORD 8u        /* the bytes at the place, or the fields given, are no record */

/* Codes of a stream's values. 0 is "missing" for each of them. */
#define SATBOX_MISSING 0u
#define SATBOX_POL_H 1u
#define SATBOX_POL_V 2u
#define SATBOX_POL_L 3u
#define SATBOX_POL_R 4u
#define SATBOX_MSYS_DVBS 1u
#define SATBOX_MSYS_DVBS2 2u
#define SATBOX_MTYPE_QPSK 1u
#define SATBOX_MTYPE_8PSK 2u
#define SATBOX_PLTS_ON 1u
#define SATBOX_PLTS_OFF 2u
#define SATBOX_RO_035 1u                /* 0.35 */
#define SATBOX_RO_025 2u                /* 0.25 */
#define SATBOX_RO_020 3u                /* 0.20 */
#define SATBOX_FEC_12 1u                /* 1/2 */
#define SATBOX_FEC_23 2u
#define SATBOX_FEC_34 3u
#define SATBOX_FEC_56 4u
#define SATBOX_FEC_78 5u
#define SATBOX_FEC_89 6u
#define SATBOX_FEC_35 7u
#define SATBOX_FEC_45 8u
#define SATBOX_FEC_910 9u               /* 9/10 */

/* A record's kind and cause. These five pairs are records, no other: (1, 0) (2, 0) (3, 1) (3, 2) (3, 3). */
#define SATBOX_OPENED 1u                /* opened as the owner of a new stream; cause 0 */
#define SATBOX_JOINED 2u                /* joined a live stream; cause 0 */
#define SATBOX_CLOSED 3u
#define SATBOX_CAUSE_NONE 0u
#define SATBOX_CAUSE_TEARDOWN 1u
#define SATBOX_CAUSE_TIMEOUT 2u
#define SATBOX_CAUSE_OWNER 3u           /* the stream's owner closed */

#ifdef __cplusplus
extern "C" {
#endif

/* One session's place. It is free exactly if number is 0; then every field is 0. */
struct satbox_session {
    uint32_t number;                    /* the session's number, printed as 8 hex digits */
    uint32_t address;                   /* the client's IPv4 address from the opening, highest octet first: 0xC0A8B227 is 192.168.178.39 */
    uint32_t last;                      /* the last time: the clock used by the opening, or by the last request that kept it (satbox_request) */
    uint32_t port;                      /* the client's RTP port, even, 1024 to 65534; its RTCP port is one more */
    uint8_t stream;                     /* the ID of its stream, 1 to 8 */
    uint8_t owner;                      /* 1: it owns the stream, 0: it joined */
    uint16_t playing;                   /* 1: it plays, 0: it does not */
};

/* One stream's place. It is live exactly if frontend is not 0; if not, every field is 0. */
struct satbox_stream {
    uint16_t pids[SATBOX_PIDS];         /* count PIDs, 0 to 8191, ascending, none twice; zeros after them */
    uint32_t src;                       /* 1 to 4, never missing */
    uint32_t freq;                      /* hundredths of MHz, 1070000 to 1275000 */
    uint32_t pol;                       /* SATBOX_POL_.. */
    uint32_t msys;                      /* SATBOX_MSYS_.. */
    uint32_t mtype;                     /* SATBOX_MTYPE_.. */
    uint32_t plts;                      /* SATBOX_PLTS_.. */
    uint32_t ro;                        /* SATBOX_RO_.. */
    uint32_t sr;                        /* thousands of symbols a second, 1000 to 45000 */
    uint32_t fec;                       /* SATBOX_FEC_.. */
    uint16_t count;                     /* how many PIDs; 0 under all */
    uint8_t frontend;                   /* the frontend held, 1 to F */
    uint8_t all;                        /* 1: every PID, 0: those of the list */
};

/* What is fixed when a box is made; no other call changes it. A later version may have fields more, which mean the box of before where they are 0. */
struct satbox_settings {
    uint32_t size;                      /* C */
    uint16_t frontends;                 /* F */
    uint16_t spare;                     /* fills the struct; no call looks at it */
    uint8_t reach[SATBOX_FRONTENDS_MAX]; /* reach[f - 1] is the set of sources that frontend f reaches; above F zeros */
};

/* The box. The firmware may read each field between two calls; only the calls write them. Integers are in the machine's byte order. */
struct satbox {
    struct satbox_session sessions[SATBOX_SESSIONS];
    struct satbox_stream streams[SATBOX_STREAMS];
    struct satbox_settings settings;
    uint32_t held;                      /* bytes held: journal[0] to journal[held - 1] are records not yet collected */
    uint32_t clock;                     /* the largest clock that any call was given and did not refuse */
    uint16_t sequence;                  /* the sequence number of the next record */
    uint16_t spare;                     /* fills the struct; no call looks at it */
};

/* One record's fields. The bytes of a record are others: see satbox_write_record. */
struct satbox_record {
    uint8_t kind;
    uint8_t cause;
    uint32_t clock;                     /* the clock used by the call that wrote it */
    uint32_t session;                   /* not 0 */
    uint8_t stream;                     /* 1 to 8 */
    uint8_t frontend;                   /* 1 to 8 */
    uint16_t sequence;                  /* 0 for a box's first record, then rising by 1; 0 follows 65535 */
};

struct satbox_reply {
    uint32_t refusal;
    uint32_t count;                     /* bytes put into the lent buffer; 0 on refusal */
};

struct satbox_ordered {
    uint32_t refusal;
    uint32_t on;                        /* 1: set the frontend as stream says, 0: off */
    struct satbox_stream stream;        /* zeros unless on is 1 */
};

struct satbox_found {
    uint32_t refusal;
    struct satbox_record entry;         /* zeros on refusal */
};

struct satbox_noted {
    uint32_t refusal;
    uint8_t bytes[SATBOX_RECORD];       /* zeros on refusal */
};

/*
 * The version of the archive, the number that SATBOX_VERSION is in its own header. Where it differs, header and archive are of two releases:
 * make no other call.
 */
uint32_t satbox_version(void);

/*
 * Makes a fresh box where box points: nothing open, clock, sequence and bytes held 0. What stood there is gone.
 * settings has F, C and the set of sources of each frontend up to F. What it has above F and in spare is not looked at; the box has zeros there.
 * Refusal: 6. Then the box is as it was, byte for byte.
 * Owed: the bytes at box are initialized before the call, as those of a static struct are. Records not yet collected are stored before: a
 * fresh box holds no bytes and writes from the journal's start.
 */
uint32_t satbox_make(struct satbox *box, struct satbox_settings settings);

/*
 * Answers one RTSP request.
 * The clock used is the larger of box->clock and clock, and is stored. Expired sessions are closed first, whatever the request is. Then the
 * request is obeyed or answered with a status other than 200, which changes nothing more but the last time below.
 * A request that names an open session keeps it: that session's last is set to the clock used, whether the request is obeyed or not. Not so where one
 * of steps 1 to 11 refuses it: 400, 405, 414, 454, 501, 505, 551, and 403 for a value out of range. No other session is kept by it.
 * The answer stands in answer[0] to answer[count - 1]; count is 1 to 4,096; the rest of answer stays. New records stand in the journal
 * from the old box->held on; box->held counts them; every other byte of the journal stays.
 * Each opening and each closing writes one record. An opening passes only if held + 16 for each open session + 32 <= C, and is
 * answered 503 if not; so a closing always finds its room. OPTIONS, PLAY, a SETUP in a session and a request not obeyed write none.
 * Refusals: 1, 2, 3. Then there is no answer to send.
 * Owed: request is one request as the client sent it, from its first byte to its empty line and no further. address is the client's, and
 * draw cannot be foretold by a client: whoever names a session's number may close it. An opening takes the first number from draw on that
 * is neither 0 nor open.
 */
struct satbox_reply satbox_request(struct satbox *box, const uint8_t *request, size_t length, uint32_t clock, uint32_t address, uint32_t draw,
                                   uint8_t *answer, size_t answer_length, uint8_t *journal, size_t journal_length);

/*
 * Closes every expired session, as a request does first, and stores the clock used. Records as in satbox_request.
 * When an owner closes, its stream and frontend are freed and all sessions of that stream close with it.
 * Refusals: 1, 2.
 */
uint32_t satbox_tick(struct satbox *box, uint32_t clock, uint8_t *journal, size_t journal_length);

/*
 * Copies the bytes held to the front of buffer and returns how many in count; the rest of buffer stays, and the journal too. Then
 * box->held is 0, and the next records overwrite the journal from its start. The sequence goes on. Nothing is swept.
 * A buffer of C bytes is never too short.
 * Refusals: 1, 2, 4.
 * Owed: buffer is kept. It is the only copy once the next record is written.
 */
struct satbox_reply satbox_collect(struct satbox *box, const uint8_t *journal, size_t journal_length, uint8_t *buffer, size_t buffer_length);

/*
 * What a frontend is to be set to. on is 1 exactly if a stream holds the frontend, its owner plays, and freq, pol, msys, sr and fec are
 * all there. The box stays. There is no clock here: a session that has expired still counts until a request or a tick closes it.
 * Refusals: 1, 5.
 */
struct satbox_ordered satbox_order(struct satbox *box, uint32_t frontend);

/*
 * Reads the record at a place of a journal, of collected bytes or of any others. Places count from 0, each is 16 bytes.
 * It knows no bytes held: a place after them gives an older record, or refusal 8.
 * Refusals: 7, 8.
 */
struct satbox_found satbox_read_record(const uint8_t *bytes, size_t length, size_t place);

/*
 * The 16 bytes of a record, big-endian: 53 4A, kind, cause, clock (4), session (4), stream, frontend, sequence (2). It writes to no journal.
 * Reading these bytes gives the same fields, and no other bytes do.
 * Refusal: 8.
 */
struct satbox_noted satbox_write_record(struct satbox_record entry);

#ifdef __cplusplus
}
#endif

/* The layout that the archive was built with. A compiler that lays the structs out in another way stops here. */
#if defined(__cplusplus) && __cplusplus >= 201103L
#define SATBOX_IS(name, value, number) static_assert((value) == (number), #name)
#elif !defined(__cplusplus) && defined(__STDC_VERSION__) && __STDC_VERSION__ >= 201112L
#define SATBOX_IS(name, value, number) _Static_assert((value) == (number), #name)
#else
#define SATBOX_IS(name, value, number) typedef char satbox_is_##name[(value) == (number) ? 1 : -1]
#endif
#define SATBOX_AT(type, field, number) SATBOX_IS(type##_##field, offsetof(struct type, field), number)

SATBOX_IS(size_t_size, sizeof(size_t), 8);
SATBOX_IS(session_size, sizeof(struct satbox_session), 20);
SATBOX_AT(satbox_session, number, 0);
SATBOX_AT(satbox_session, address, 4);
SATBOX_AT(satbox_session, last, 8);
SATBOX_AT(satbox_session, port, 12);
SATBOX_AT(satbox_session, stream, 16);
SATBOX_AT(satbox_session, owner, 17);
SATBOX_AT(satbox_session, playing, 18);
SATBOX_IS(stream_size, sizeof(struct satbox_stream), 104);
SATBOX_AT(satbox_stream, pids, 0);
SATBOX_AT(satbox_stream, src, 64);
SATBOX_AT(satbox_stream, freq, 68);
SATBOX_AT(satbox_stream, pol, 72);
SATBOX_AT(satbox_stream, msys, 76);
SATBOX_AT(satbox_stream, mtype, 80);
SATBOX_AT(satbox_stream, plts, 84);
SATBOX_AT(satbox_stream, ro, 88);
SATBOX_AT(satbox_stream, sr, 92);
SATBOX_AT(satbox_stream, fec, 96);
SATBOX_AT(satbox_stream, count, 100);
SATBOX_AT(satbox_stream, frontend, 102);
SATBOX_AT(satbox_stream, all, 103);
SATBOX_IS(settings_size, sizeof(struct satbox_settings), 16);
SATBOX_AT(satbox_settings, size, 0);
SATBOX_AT(satbox_settings, frontends, 4);
SATBOX_AT(satbox_settings, spare, 6);
SATBOX_AT(satbox_settings, reach, 8);
SATBOX_IS(box_size, sizeof(struct satbox), 1500);
SATBOX_AT(satbox, sessions, 0);
SATBOX_AT(satbox, streams, 640);
SATBOX_AT(satbox, settings, 1472);
SATBOX_AT(satbox, held, 1488);
SATBOX_AT(satbox, clock, 1492);
SATBOX_AT(satbox, sequence, 1496);
SATBOX_AT(satbox, spare, 1498);
SATBOX_IS(record_size, sizeof(struct satbox_record), 16);
SATBOX_AT(satbox_record, kind, 0);
SATBOX_AT(satbox_record, cause, 1);
SATBOX_AT(satbox_record, clock, 4);
SATBOX_AT(satbox_record, session, 8);
SATBOX_AT(satbox_record, stream, 12);
SATBOX_AT(satbox_record, frontend, 13);
SATBOX_AT(satbox_record, sequence, 14);
SATBOX_IS(reply_size, sizeof(struct satbox_reply), 8);
SATBOX_AT(satbox_reply, refusal, 0);
SATBOX_AT(satbox_reply, count, 4);
SATBOX_IS(ordered_size, sizeof(struct satbox_ordered), 112);
SATBOX_AT(satbox_ordered, refusal, 0);
SATBOX_AT(satbox_ordered, on, 4);
SATBOX_AT(satbox_ordered, stream, 8);
SATBOX_IS(found_size, sizeof(struct satbox_found), 20);
SATBOX_AT(satbox_found, refusal, 0);
SATBOX_AT(satbox_found, entry, 4);
SATBOX_IS(noted_size, sizeof(struct satbox_noted), 20);
SATBOX_AT(satbox_noted, refusal, 0);
SATBOX_AT(satbox_noted, bytes, 4);

#undef SATBOX_AT
#undef SATBOX_IS

#endif
