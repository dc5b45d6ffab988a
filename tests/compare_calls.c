/*
 * Chooses the calls of a sequence by chance: lifelike ones for the table as it is, with buffers and clocks around
 * their limits, and now and then a few on a table changed by hand.
 */
#include "compare.h"

#include <string.h>

/* Chance: splitmix64. */

static uint64_t state;

void seed_chance(uint64_t seed)
{
    state = seed;
}

uint64_t chance(void)
{
    uint64_t z = state += 0x9E3779B97F4A7C15;
    z = (z ^ z >> 30) * 0xBF58476D1CE4E5B9;
    z = (z ^ z >> 27) * 0x94D049BB133111EB;
    return z ^ z >> 31;
}

uint64_t below(uint64_t bound)
{
    return bound == 0 ? 0 : chance() % bound;
}

bool once_in(uint64_t of)
{
    return below(of) == 0;
}

uint64_t any_of(const uint64_t *list, size_t count)
{
    return list[below(count)];
}

/* How a stretch of a sequence goes. In ZAPPING the sets send PLAY and no OPTIONS, up to a minute apart. */
enum mood { CROWD, EVENING, HURRY, ZAPPING, HOSTILE, MOODS };

static enum mood mood;
static unsigned altered;  /* calls still to make on a table changed by hand, then it is restored or kept */
static bool kept;         /* the changed table stays if it is well formed */
static bool late;         /* the next clock jumps to the last minutes there are */

/* The errands of each mood, out of 16. */
static const unsigned char errands[MOODS][ERRANDS] = {
    [CROWD] = {4, 9, 1, 1, 1, 0},
    [EVENING] = {3, 2, 2, 4, 3, 2},
    [HURRY] = {4, 4, 1, 2, 4, 1},
    [ZAPPING] = {2, 2, 2, 9, 0, 1},
    [HOSTILE] = {3, 2, 3, 4, 2, 2}
};

/* A mood; a crowd takes its time to gather, and comes twice as often. */
static enum mood some_mood(void)
{
    return (enum mood)(below(MOODS + 1) % MOODS);
}

static enum errand some_errand(void)
{
    size_t at = below(16), errand = 0;
    while (errand < ERRANDS - 1 && at >= errands[mood][errand])
        at -= errands[mood][errand++];
    return (enum errand)errand;
}

/* Clocks, draws, addresses and lengths. */

static uint32_t later(uint32_t clock, uint64_t seconds)
{
    return seconds > UINT32_MAX - clock ? UINT32_MAX : clock + (uint32_t)seconds;
}

static uint32_t some_clock(const struct plain_box *box)
{
    if (late) {
        late = false;
        return UINT32_MAX - (uint32_t)below(400);
    }
    if (once_in(12))
        return (uint32_t)(box->clock - below(70));
    if (once_in(mood == HURRY ? 6 : mood == CROWD ? 300 : 40))
        return later(box->clock, 59 + below(3));
    if (mood == ZAPPING && once_in(2))
        return later(box->clock, 10 + below(50));
    if (once_in(100))
        return (uint32_t)ANY_OF(0, 1, 59, 60, 61);
    if (once_in(3000))
        return (uint32_t)ANY_OF(UINT32_MAX, UINT32_MAX - 1, UINT32_MAX - 59, UINT32_MAX - 60, chance() & UINT32_MAX);
    return later(box->clock, mood == CROWD ? once_in(4) : mood == HURRY ? below(30) : below(4));
}

/* A draw: often a number that is open, or around the end. */
static uint32_t some_draw(const struct plain_box *box)
{
    switch (below(5)) {
    case 0: return (uint32_t)ANY_OF(0, 1, 2, UINT32_MAX, UINT32_MAX - 1, UINT32_MAX - 2);
    case 1: return box->sessions[below(PLAIN_SESSIONS)].number;
    case 2: return (uint32_t)(box->sessions[below(PLAIN_SESSIONS)].number - below(3));
    default: return (uint32_t)chance();
    }
}

uint32_t some_address(void)
{
    return once_in(4) ? (uint32_t)ANY_OF(0, UINT32_MAX, 0xC0A8B227, 0x0A000005, 0x64090A63) : (uint32_t)chance();
}

/* The journal's length: C, mostly, and never more than there is. */
static uint64_t some_journal(const struct plain_box *box)
{
    uint64_t length = box->settings.size;
    if (once_in(80))
        length = ANY_OF(0, length - 1, length + 1, length - 16, length + 16, 1024, 65536);
    return length > JOURNAL_ROOM ? JOURNAL_ROOM : length;
}

static uint64_t some_answer(void)
{
    return once_in(60) ? ANY_OF(4095, 4097, 0, 1, 4096 + GUARD, 2048) : PLAIN_ANSWER_BYTES;
}

static uint64_t some_buffer(const struct plain_box *box)
{
    uint64_t length = box->held;
    if (once_in(2))
        length = ANY_OF(0, length - 1, length - 16, length + 1, length + 16, box->settings.size, JOURNAL_ROOM);
    return length > JOURNAL_ROOM ? JOURNAL_ROOM : length;
}

/* The calls. */

void set_call(struct call *call, enum kind kind, uint64_t n0, uint64_t n1)
{
    call->kind = kind;
    call->length = 0;
    memset(call->numbers, 0, sizeof call->numbers);
    call->numbers[0] = n0;
    call->numbers[1] = n1;
}

static void choose_request(struct call *call, const struct plain_box *box)
{
    set_call(call, REQUEST, some_clock(box), some_address());
    call->numbers[2] = some_draw(box);
    call->numbers[3] = some_answer();
    call->numbers[4] = some_journal(box);
    write_request(call, box, some_errand(), mood == HOSTILE ? 8 : once_in(20));
}

/* Reads a record of the journal: mostly one that is there. */
static void choose_read(struct call *call, const struct plain_box *box)
{
    uint64_t length = box->settings.size > JOURNAL_ROOM ? JOURNAL_ROOM : box->settings.size;
    uint64_t place = below(length / PLAIN_RECORD_BYTES);
    if (once_in(8))
        length = ANY_OF(0, 1, 15, 16, 17, length - 1, length - 16);
    if (once_in(8))
        place = ANY_OF(length / 16, length / 16 - 1, length, (uint64_t)1 << 60, UINT64_MAX, UINT64_MAX / 16 + 1);
    else if (once_in(2))
        place = below(box->held / PLAIN_RECORD_BYTES);
    set_call(call, READ, length, place);
}

static void choose_write(struct call *call)
{
    uint64_t kind = 1 + below(3);
    set_call(call, WRITE, kind, kind == 3 ? 1 + below(3) : 0);
    call->numbers[2] = chance() & UINT32_MAX;
    call->numbers[3] = once_in(6) ? ANY_OF(0, 1, UINT32_MAX) : chance() & UINT32_MAX;
    call->numbers[4] = 1 + below(8);
    call->numbers[5] = 1 + below(8);
    call->numbers[6] = chance() & UINT16_MAX;
    if (once_in(3))
        call->numbers[ANY_OF(0, 1, 4, 5)] = ANY_OF(0, 1, 2, 3, 4, 8, 9, 255);
}

/* Reads bytes that are nearly a record, at its place or beside. */
static void choose_look(struct call *call)
{
    uint8_t *bytes = call->bytes;
    uint64_t places = 1 + below(3), place = below(places);
    choose_write(call);
    for (size_t i = 0; i < 48; i++)
        bytes[i] = (uint8_t)chance();
    uint8_t *at = bytes + place * PLAIN_RECORD_BYTES;
    at[0] = 0x53;
    at[1] = 0x4A;
    at[2] = (uint8_t)call->numbers[0];
    at[3] = (uint8_t)call->numbers[1];
    at[12] = (uint8_t)call->numbers[4];
    at[13] = (uint8_t)call->numbers[5];
    if (once_in(6))
        memset(at + 8, 0, 4);
    if (once_in(4))
        at[below(PLAIN_RECORD_BYTES)] = (uint8_t)chance();
    set_call(call, LOOK, once_in(8) ? ANY_OF(places, places - 1, UINT64_MAX, (uint64_t)1 << 60) : place, 0);
    call->length = places * PLAIN_RECORD_BYTES - (once_in(16) ? 1 + below(15) : 0);
}

struct plain_settings settings_of(const struct call *call)
{
    struct plain_settings settings = {.size = (uint32_t)call->numbers[1], .frontends = (uint16_t)call->numbers[0]};
    settings.spare = (uint16_t)call->numbers[2];
    memcpy(settings.reach, call->bytes, sizeof settings.reach);
    return settings;
}

/* A set for one frontend, by style: full; all or two of the four, as in life; one without the unseen; any. */
static uint8_t some_set(uint64_t style, uint8_t unseen)
{
    uint8_t set = (uint8_t)(1 + below(PLAIN_REACH_ALL));
    switch (style) {
    case 0: case 1: case 2: return PLAIN_REACH_ALL;
    case 3: case 4: return (uint8_t)ANY_OF(PLAIN_REACH_ALL, PLAIN_REACH_ALL, 3, 12);
    case 5: set &= (uint8_t)~unseen; return set == 0 ? PLAIN_REACH_ALL ^ unseen : set;
    default: return set;
    }
}

void choose_sets(struct plain_settings *settings, uint64_t odd)
{
    const uint64_t style = below(8);
    const uint8_t unseen = (uint8_t)(1u << below(PLAIN_SOURCES));
    for (size_t i = 0; i < PLAIN_FRONTENDS; i++)
        settings->reach[i] = i < settings->frontends ? some_set(style, unseen) : 0;
    if (once_in(odd))
        settings->reach[below(settings->frontends)] = (uint8_t)ANY_OF(0, 0, 16, 17, 31, 128, 240, 255);
}

/* The making of a box; F, C and a set are each out of range once in `odd` times. */
static void choose_make(struct call *call, uint64_t odd)
{
    struct plain_settings settings = {.frontends = (uint16_t)(1 + below(8))};
    uint64_t size = once_in(3) ? 1024 + 16 * below(33) : once_in(20) ? 65536 - 16 * below(2) : 1024;
    bool above = once_in(3);
    choose_sets(&settings, odd);
    for (size_t i = settings.frontends; above && i < PLAIN_FRONTENDS; i++)
        settings.reach[i] = (uint8_t)chance();
    if (once_in(odd))
        settings.frontends = (uint16_t)ANY_OF(0, 9, 255, 256, 257, UINT16_MAX);
    if (once_in(odd))
        size = ANY_OF(0, 16, 1008, 1023, 1025, 1032, 1040, 65535, 65537, 65552, 131072, 0x80000400, UINT32_MAX);
    set_call(call, MAKE, settings.frontends, size);
    call->numbers[2] = once_in(4) ? chance() & UINT16_MAX : 0;
    call->length = sizeof settings.reach;
    memcpy(call->bytes, settings.reach, sizeof settings.reach);
}

static void choose_call(struct call *call, const struct plain_box *box)
{
    uint64_t at = below(100);
    if (at < 70)
        choose_request(call, box);
    else if (at < 76)
        set_call(call, TICK, some_clock(box), some_journal(box));
    else if (at < 80 && !(mood == CROWD && once_in(2)))
        set_call(call, COLLECT, some_journal(box), some_buffer(box));
    else if (at < 90)
        set_call(call, ORDER, once_in(12) ? ANY_OF(0, box->settings.frontends + 1u, 8, 9, UINT32_MAX, 256 + 1)
                                         : 1 + below(box->settings.frontends), 0);
    else if (at < 94)
        choose_read(call, box);
    else if (at < 97)
        choose_look(call);
    else if (once_in(10))
        choose_make(call, 2);
    else
        choose_write(call);
}

/* The sequence. */

/* Is the table one that the calls take? */
static bool taken(const struct plain_box *box)
{
    struct plain_stream order;
    int on;
    return plain_order(box, 1, &order, &on) != PLAIN_BAD_TABLE;
}

void first_call(struct call *call)
{
    choose_make(call, 12);
    mood = some_mood();
    altered = 0;
    late = once_in(12);
}

/* The steps of a change by hand: the table is saved, poked, called a few times, and restored or kept. */
enum { SAVED = 1000 };

void next_call(struct call *call, const struct plain_box *box)
{
    if (once_in(40))
        mood = some_mood();
    if (altered >= SAVED) {
        choose_poke(call, box);
        altered = once_in(4) ? altered : 1 + (unsigned)below(3);
        kept = once_in(2);
    } else if (altered == 1) {
        altered = 0;
        if (kept && taken(box))
            choose_call(call, box);
        else
            set_call(call, RESTORE, 0, 0);
    } else if (altered == 0 && once_in(7)) {
        set_call(call, SAVE, 0, 0);
        altered = SAVED;
    } else {
        altered -= altered > 0;
        choose_call(call, box);
    }
}
