/*
 * What the files of the comparison share. The archive and the plain box get the same calls, and everything a call
 * gives or may change is compared: compare.c runs, shrinks and plays sequences of calls, compare_both.c makes one
 * call on both and compares, compare_reached.c counts what the calls reached, compare_calls.c chooses calls,
 * compare_text.c writes the requests among them, compare_uri.c their URIs, compare_tables.c makes tables that no box
 * made.
 */
#ifndef COMPARE_H
#define COMPARE_H

#include <stdbool.h>
#include "plain.h"

enum {
    GUARD = 64,                                 /* bytes past a lent length that are compared too */
    CALL_BYTES = 2176,                          /* most bytes in a call: requests past 2,048, a whole table */
    CALL_NUMBERS = 7,                           /* most numbers in a call */
    SEQUENCE = 512,                             /* most calls from one fresh box */
    JOURNAL_ROOM = PLAIN_JOURNAL_MOST + GUARD,  /* longest journal or collecting buffer lent */
    ANSWER_ROOM = PLAIN_ANSWER_BYTES + GUARD    /* longest answer buffer lent */
};

/* A call, or a change of the table by hand. The numbers of each kind, in their order, stand beside it. */
enum kind {
    MAKE,     /* frontends, size, spare; the sets of the frontends, a byte for each */
    REQUEST,  /* clock, address, draw, answer's length, journal's length; the request's bytes */
    TICK,     /* clock, journal's length */
    COLLECT,  /* journal's length, buffer's length */
    ORDER,    /* frontend */
    READ,     /* length, place: of the journal's own bytes */
    LOOK,     /* place: of the bytes of the call */
    WRITE,    /* kind, cause, clock, session, stream, frontend, sequence */
    SAVE,     /* puts the table aside */
    POKE,     /* offset: the bytes of the call are put over the table's from there */
    RESTORE,  /* takes the table put aside */
    KINDS
};

struct call {
    enum kind kind;
    uint64_t numbers[CALL_NUMBERS];
    size_t length;
    uint8_t bytes[CALL_BYTES];
};

/* What a call gave; what it does not give is zeros. */
struct outcome {
    uint32_t refusal, count, on;
    struct plain_stream stream;
    struct plain_record record;
    uint8_t bytes[PLAIN_RECORD_BYTES];
};

/* One of the two boxes, with all that is lent to it. */
struct side {
    struct plain_box box, saved;
    struct outcome outcome;
    uint8_t journal[JOURNAL_ROOM + GUARD];
    uint8_t answer[ANSWER_ROOM + GUARD];
    uint8_t buffer[JOURNAL_ROOM + GUARD];
};

/* What was decided by the sets of the frontends, order 1 of document 02. */
struct reached_sets {
    unsigned long empty, beyond;              /* makings refused for nothing but such sets */
    unsigned long made;                       /* boxes made with a frontend that does not reach all four */
    unsigned long bad_set, bad_above;         /* tables refused for nothing but a set up to F, or above */
    unsigned long bad_src;                    /* or a stream's src that its frontend does not reach */
    unsigned long past_free, past_reaching;   /* new streams past a lower free frontend, one that reaches the src */
    unsigned long play, setup;                /* 503 of step 17 for nothing but a src */
    unsigned long none, named;                /* 503 of step 18: no free frontend reaches; the named one does not */
    unsigned long changed;                    /* later srcs taken where the frontend does not reach all four */
};

/* A status is counted at its number; methods in the order of compare_reached.c. */
enum { METHODS = 5, STATUSES = 600, REFUSALS = 9 };

/* How CSeq came back, order 2 of document 02. */
struct reached_cseq {
    unsigned long zeros[STATUSES];            /* answers with a leading zero, by status */
    unsigned long ten;                        /* answers with ten digits, the first of them 0 */
    unsigned long spaced;                     /* answers where more spaces were sent than the one after the colon */
    unsigned long far;                        /* answers where they stand past the request's first 1,024 bytes */
    unsigned long longer, large;              /* 400 for nothing but digits past ten, or ten past 4294967295 */
};

/* Whose last time was set, order 3 of document 02. It was set, or could have been, to a later clock. */
struct reached_keeping {
    unsigned long set[STATUSES][METHODS];     /* by status; 403 of step 16 */
    unsigned long joiners[METHODS];           /* 403 of step 14 */
    unsigned long left[STATUSES][METHODS];    /* not set: refused in steps 1 to 10, though Session names an open one */
    unsigned long another, none, plays, fe;   /* set by a 455: its stream is another's, it has none, and so on */
    unsigned long pids, src;                  /* set by a 503, for PIDs or a src */
    unsigned long stored;                     /* set to the stored clock, past the given one */
    unsigned long closing;                    /* set by a call that closed another */
    unsigned long last_second, too_late;      /* set at the age of 59; 454 at 60 */
    unsigned long orphaned;                   /* 454 below 60, for a joiner whose owner the sweep closed */
    unsigned long with_owner;                 /* joiners kept, and below 60, that closed with an owner past its time */
    unsigned long play, refused;              /* PLAY and refusals in a session that OPTIONS alone had not kept */
};

/* How often what was reached. */
struct reached {
    unsigned long calls[KINDS][REFUSALS];     /* by kind and refusal, 0 if done */
    unsigned long statuses[STATUSES][METHODS];
    unsigned long unnumbered;                 /* 400 without CSeq */
    unsigned long opened, joined;             /* records of kinds 1 and 2 */
    unsigned long closed[4];                  /* records of kind 3, by cause */
    unsigned long cascades;                   /* calls that wrote a record with cause 3 */
    unsigned long full_journals;              /* calls that left C bytes held */
    unsigned long no_room;                    /* 503 with a place free and no room in the journal */
    unsigned long no_place;                   /* 503 with 32 sessions open */
    unsigned long number_taken;               /* openings whose number is not the draw */
    unsigned long orders_on;
    unsigned long tables_good, tables_bad;    /* changed by hand, and taken or refused by the next call */
    struct reached_sets sets;
    struct reached_cseq cseq;
    struct reached_keeping keeping;
};

/* compare_both.c */

extern struct side archive, plain;

/* The table before the call that was made last. */
extern struct plain_box box_before;

/* The name of a kind in a sequence's text, and how many numbers follow it. */
extern const char *const kind_names[KINDS];
extern const size_t kind_numbers[KINDS];

/* Puts both sides into one and the same state, before any box is made. */
void start_both(void);

/* Makes the call on both sides. True if all is the same after it; else says the difference if `tell`. */
bool call_both(const struct call *call, bool tell);

/* compare_reached.c */

extern struct reached reached;

/* Counts what the call that was made last reached. */
void count_reached(const struct call *call);

/* compare_calls.c */

/* Starts the numbers of chance; and the next one, or one below a bound. */
void seed_chance(uint64_t seed);
uint64_t chance(void);
uint64_t below(uint64_t bound);

/* True once in `of` times. */
bool once_in(uint64_t of);

/* One of the numbers of a list. */
#define ANY_OF(...) any_of((const uint64_t[]){__VA_ARGS__}, sizeof((const uint64_t[]){__VA_ARGS__}) / sizeof(uint64_t))
uint64_t any_of(const uint64_t *list, size_t count);

uint32_t some_address(void);

/* The settings that a making hands over. */
struct plain_settings settings_of(const struct call *call);

/*
 * Chooses sets for the frontends up to F, zeros above: full, lifelike, with a source that nobody sees, or any. Once
 * in `odd` times one is empty or has a source beyond 4.
 */
void choose_sets(struct plain_settings *settings, uint64_t odd);

/* Makes it a call of this kind with these first two numbers, the rest 0, and no bytes. */
void set_call(struct call *call, enum kind kind, uint64_t n0, uint64_t n1);

/* Chooses the first call of a sequence, a box's making, and how the sequence will go. */
void first_call(struct call *call);

/* Chooses the next call for this table. */
void next_call(struct call *call, const struct plain_box *box);

/* compare_text.c */

/* What a request is mostly about. */
enum errand { OPEN, JOIN, AGAIN, PLAY, ALIVE, LEAVE, ERRANDS };

/* Writes a request of this errand for this table; `hostile` times in 16 it is damaged. */
void write_request(struct call *call, const struct plain_box *box, enum errand errand, unsigned hostile);

/* The request under way, the table it is for, and how often a part is spoilt: once in so many times. */
extern struct call *out;
extern const struct plain_box *table;
enum { SPOIL = 24 };

/* Put a byte, a text or a number after what is there. What does not fit is left out. */
void put_byte(uint8_t byte);
void put(const char *text);
void put_number(uint64_t number);

/* One of the texts of a list. */
#define ANY(...) any((const char *const[]){__VA_ARGS__}, sizeof((const char *const[]){__VA_ARGS__}) / sizeof(char *))
const char *any(const char *const *texts, size_t count);

/* compare_uri.c */

/* Puts a URI for this errand, in this session or NULL. */
void put_uri(enum errand errand, const struct plain_session *session);

/* compare_tables.c */

/* Chooses a change of this table by hand. */
void choose_poke(struct call *call, const struct plain_box *box);

#endif
