/*
 * Changes of the table by hand, to tables that no box made: one field set to something else, whole places put over
 * others, bytes of chance, and whole tables made up.
 */
#include "compare.h"

#include <string.h>

/* A field: where it is in its place, its size, and values around its limits. */
enum { EDGES = 12 };

struct field {
    size_t offset, size, count;
    uint64_t edges[EDGES];
};

static const struct field in_session[] = {
    {0, 4, 4, {0, 1, UINT32_MAX, 2}},                                  /* number */
    {4, 4, 2, {0, UINT32_MAX}},                                        /* address */
    {8, 4, 4, {0, 1, UINT32_MAX, 60}},                                 /* last */
    {12, 4, 9, {0, 1022, 1023, 1024, 1025, 65534, 65535, 65536, 66560}}, /* port */
    {16, 1, 12, {0, 1, 2, 3, 4, 5, 6, 7, 8, 9, 128, 255}},             /* stream */
    {17, 1, 5, {0, 1, 1, 2, 255}},                                     /* owner */
    {18, 2, 6, {0, 1, 1, 2, 256, 257}}                                 /* playing */
};

static const struct field in_stream[] = {
    {64, 4, 6, {0, 1, 4, 5, 256, 257}},                                /* src */
    {68, 4, 6, {0, 1, 1069999, 1070000, 1275000, 1275001}},            /* freq */
    {72, 4, 5, {0, 1, 4, 5, 257}},                                     /* pol */
    {76, 4, 5, {0, 1, 2, 3, 257}},                                     /* msys */
    {80, 4, 5, {0, 1, 2, 3, 257}},                                     /* mtype */
    {84, 4, 5, {0, 1, 2, 3, 257}},                                     /* plts */
    {88, 4, 6, {0, 1, 2, 3, 4, 257}},                                  /* ro */
    {92, 4, 6, {0, 1, 999, 1000, 45000, 45001}},                       /* sr */
    {96, 4, 9, {0, 1, 5, 6, 7, 8, 9, 10, 257}},                        /* fec */
    {100, 2, 7, {0, 1, 31, 32, 33, 256, 65535}},                       /* count */
    {102, 1, 11, {0, 1, 2, 3, 4, 5, 6, 7, 8, 9, 255}},                 /* frontend */
    {103, 1, 4, {0, 1, 2, 255}}                                        /* all */
};

static const struct field in_box[] = {
    {0, 4, 9, {0, 1008, 1024, 1032, 1040, 65520, 65536, 65552, 66560}},  /* size */
    {4, 2, 10, {0, 1, 2, 3, 7, 8, 9, 256, 257, 65535}},                /* frontends */
    {6, 2, 3, {0, 1, 65535}},                                          /* spare */
    {16, 4, 6, {0, 8, 16, 1024, 0xFFFFFFF0, 0x80000000}},              /* held */
    {20, 4, 5, {0, 59, 60, UINT32_MAX, UINT32_MAX - 60}},              /* clock */
    {24, 2, 3, {0, 65534, 65535}},                                     /* sequence */
    {26, 2, 3, {0, 1, 65535}}                                          /* spare */
};

static const uint8_t *bytes_of(const struct plain_box *box)
{
    return (const uint8_t *)box;
}

/* A place in use, mostly: an open session's, a live stream's. */

static size_t some_session_place(const struct plain_box *box)
{
    size_t place = below(PLAIN_SESSIONS);
    for (size_t i = 0; i < PLAIN_SESSIONS && box->sessions[place].number == 0 && !once_in(PLAIN_SESSIONS * 2); i++)
        place = (place + 1) % PLAIN_SESSIONS;
    return place;
}

static size_t some_stream_place(const struct plain_box *box)
{
    size_t place = below(PLAIN_STREAMS);
    for (size_t i = 0; i < PLAIN_STREAMS && box->streams[place].frontend == 0 && !once_in(PLAIN_STREAMS * 2); i++)
        place = (place + 1) % PLAIN_STREAMS;
    return place;
}

/* A PID of a stream: mostly the last of its list, or the first place past it. */
static struct field some_pid(const struct plain_stream *stream)
{
    struct field field = {0, 2, 5, {0, 1, 8191, 8192, 65535}};
    size_t count = stream->count > PLAIN_PIDS ? PLAIN_PIDS : stream->count;
    size_t place = once_in(3) ? below(PLAIN_PIDS) : once_in(3) ? count : count - 1;
    field.offset = 2 * (place < PLAIN_PIDS ? place : 0);
    return field;
}

static struct field some_field(const struct plain_box *box)
{
    struct field field;
    uint64_t at = below(10);
    if (at < 4) {
        field = in_session[below(sizeof in_session / sizeof *in_session)];
        field.offset += some_session_place(box) * sizeof(struct plain_session);
    } else if (at < 8) {
        size_t place = some_stream_place(box);
        field = once_in(4) ? some_pid(&box->streams[place]) : in_stream[below(sizeof in_stream / sizeof *in_stream)];
        field.offset += offsetof(struct plain_box, streams) + place * sizeof(struct plain_stream);
    } else {
        field = in_box[below(sizeof in_box / sizeof *in_box)];
        field.offset += offsetof(struct plain_box, settings);
    }
    return field;
}

/* A new value for a field whose value is `old` and whose neighbour has `next`. */
static uint64_t new_value(const struct field *field, uint64_t old, uint64_t next)
{
    switch (below(8)) {
    case 0: return old + 1;
    case 1: return old - 1;
    case 2: return next;
    case 3: return ANY_OF(old + 16, old - 16, old + 2, old - 2, old + 60, old - 60, old + 256, UINT64_MAX);
    case 4: return chance() >> below(64);
    default: return any_of(field->edges, field->count);
    }
}

/* The place after that of a field, or the field itself at the end of the box. */
static size_t neighbour(size_t offset)
{
    size_t step = offset < offsetof(struct plain_box, streams) ? sizeof(struct plain_session)
                : offset < offsetof(struct plain_box, settings) ? (once_in(2) ? sizeof(struct plain_stream) : 2) : 4;
    return offset + step + 4 <= sizeof(struct plain_box) ? offset + step : offset;
}

static void poke_field(struct call *call, const struct plain_box *box)
{
    struct field field = some_field(box);
    uint64_t old = 0, next = 0;
    memcpy(&old, bytes_of(box) + field.offset, field.size);
    memcpy(&next, bytes_of(box) + neighbour(field.offset), field.size);
    uint64_t value = new_value(&field, old, next);
    set_call(call, POKE, field.offset, 0);
    call->length = field.size;
    memcpy(call->bytes, &value, field.size);
}

/* The bytes held, around the most that leaves room to close every session. */
static void poke_held(struct call *call, const struct plain_box *box)
{
    uint32_t open = 0, held;
    for (size_t i = 0; i < PLAIN_SESSIONS; i++)
        open += box->sessions[i].number != 0;
    held = box->settings.size - PLAIN_RECORD_BYTES * (open - 2 + (uint32_t)below(5));
    set_call(call, POKE, offsetof(struct plain_box, held), 0);
    call->length = sizeof held;
    memcpy(call->bytes, &held, sizeof held);
}

/* A set: any, one that is none, or for a frontend held one without its src. */
static void poke_set(struct call *call, const struct plain_box *box)
{
    const struct plain_stream *stream = &box->streams[some_stream_place(box)];
    size_t place = below(PLAIN_FRONTENDS);
    uint8_t set = (uint8_t)(once_in(3) ? ANY_OF(0, 1, 15, 16, 31, 255) : 1 + below(PLAIN_REACH_ALL));
    if (once_in(2) && stream->frontend >= 1 && stream->frontend <= PLAIN_FRONTENDS) {
        place = stream->frontend - 1u;
        set = (uint8_t)(PLAIN_REACH_ALL & ~(1u << ((stream->values.src - 1) & 7)));
    }
    set_call(call, POKE, offsetof(struct plain_box, settings.reach) + place, 0);
    call->length = 1;
    call->bytes[0] = set;
}

/* A live stream's src, among the four. */
static void poke_src(struct call *call, const struct plain_box *box)
{
    const size_t place = some_stream_place(box);
    const uint32_t src = 1 + (uint32_t)below(PLAIN_SOURCES);
    set_call(call, POKE, offsetof(struct plain_box, streams) + place * sizeof(struct plain_stream)
                             + offsetof(struct plain_stream, values.src), 0);
    call->length = sizeof src;
    memcpy(call->bytes, &src, sizeof src);
}

/* A whole place put over another: numbers twice, owners twice, frontends twice. */
static void poke_place(struct call *call, const struct plain_box *box)
{
    bool session = once_in(2);
    size_t size = session ? sizeof(struct plain_session) : sizeof(struct plain_stream);
    size_t count = session ? PLAIN_SESSIONS : PLAIN_STREAMS;
    size_t start = session ? 0 : offsetof(struct plain_box, streams);
    set_call(call, POKE, start + below(count) * size, 0);
    call->length = size;
    memcpy(call->bytes, bytes_of(box) + start + below(count) * size, size);
    if (session && once_in(2))
        call->bytes[0] ^= (uint8_t)(1 + below(255));
    if (session && once_in(2))
        call->bytes[17] = 0;
}

/* Bytes of chance: one, a few, or all the table. */
static void poke_bytes(struct call *call)
{
    size_t length = once_in(3) ? sizeof(struct plain_box) : once_in(2) ? 1 : 1 + below(64);
    set_call(call, POKE, below(sizeof(struct plain_box) - length + 1), 0);
    call->length = length;
    for (size_t i = 0; i < length; i++)
        call->bytes[i] = (uint8_t)chance();
}

/* A table made up whole: well formed, mostly, but in an order no box comes to soon. */

/* A source of a set, mostly. */
static uint32_t make_up_src(uint8_t set)
{
    uint32_t src = 1 + (uint32_t)below(PLAIN_SOURCES);
    for (int tries = 0; tries < 64 && (set >> (src - 1) & 1) == 0 && !once_in(200); tries++)
        src = 1 + (uint32_t)below(PLAIN_SOURCES);
    return src;
}

static void make_up_values(struct plain_values *values, uint8_t set)
{
    bool old = once_in(2);
    values->src = make_up_src(set);
    values->freq = once_in(4) ? 0 : (uint32_t)(once_in(4) ? ANY_OF(1070000, 1275000) : 1070000 + below(205001));
    values->pol = (uint32_t)below(5);
    values->msys = old ? 1 : 2 * (uint32_t)below(2);
    values->mtype = (uint32_t)below(old ? 2 : 3);
    values->plts = old ? 2 * (uint32_t)below(2) : (uint32_t)below(3);
    values->ro = (uint32_t)below(old ? 2 : 4);
    values->sr = once_in(4) ? 0 : (uint32_t)(once_in(4) ? ANY_OF(1000, 45000) : 1000 + below(44001));
    values->fec = (uint32_t)below(old ? 6 : 10);
}

static void make_up_stream(struct plain_stream *stream, size_t frontend, uint8_t set)
{
    uint64_t pid = below(3);
    make_up_values(&stream->values, set);
    stream->frontend = (uint8_t)frontend;
    stream->all = once_in(6);
    if (stream->all)
        return;
    stream->count = (uint16_t)(once_in(4) ? ANY_OF(0, 1, 31, 32) : below(33));
    for (size_t i = 0; i < stream->count; i++) {
        stream->pids[i] = (uint16_t)pid;
        pid += 1 + (once_in(8) ? below(200) : below(3));
    }
}

static void make_up_session(struct plain_box *box, size_t place, size_t stream, bool owner)
{
    struct plain_session *session = &box->sessions[place];
    uint32_t age = once_in(3) ? 0 : (uint32_t)below(90);
    session->number = once_in(4) ? UINT32_MAX - (uint32_t)place
                    : once_in(3) ? 1 + (uint32_t)place : (uint32_t)chance() | 64;
    session->address = some_address();
    session->last = age > box->clock ? 0 : box->clock - age;
    session->port = 1024 + 2 * (uint32_t)below(32256);
    session->stream = (uint8_t)(stream + 1);
    session->owner = owner;
    session->playing = once_in(2);
}

/* A free session place by chance; PLAIN_SESSIONS if none was found soon. */
static size_t some_free_place(const struct plain_box *box)
{
    for (int tries = 0; tries < 64; tries++) {
        size_t place = below(PLAIN_SESSIONS);
        if (box->sessions[place].number == 0)
            return place;
    }
    return PLAIN_SESSIONS;
}

static void make_up_sessions(struct plain_box *box)
{
    size_t joiners = below(once_in(2) ? 33 : 8), place;
    for (size_t i = 0; i < PLAIN_STREAMS; i++)
        if (box->streams[i].frontend != 0 && (place = some_free_place(box)) < PLAIN_SESSIONS)
            make_up_session(box, place, i, true);
    for (size_t i = 0; i < joiners; i++) {
        size_t stream = below(PLAIN_STREAMS);
        if (box->streams[stream].frontend != 0 && (place = some_free_place(box)) < PLAIN_SESSIONS)
            make_up_session(box, place, stream, false);
    }
}

static void poke_made_up(struct call *call, const struct plain_box *old)
{
    struct plain_box box;
    uint32_t open = 0;
    memset(&box, 0, sizeof box);
    box.settings.frontends = (uint16_t)(1 + below(8));
    box.settings.size = once_in(2) ? old->settings.size : (uint32_t)(1024 + 16 * below(16));
    choose_sets(&box.settings, 12);
    box.clock = once_in(8) ? (uint32_t)ANY_OF(0, 30, 60, UINT32_MAX, UINT32_MAX - 30) : old->clock;
    box.sequence = (uint16_t)(once_in(2) ? ANY_OF(0, 65535, 65534, 65530) : chance());
    for (size_t frontend = 1; frontend <= box.settings.frontends; frontend++) {
        size_t place = below(PLAIN_STREAMS);
        if (box.streams[place].frontend == 0 && !once_in(4))
            make_up_stream(&box.streams[place], frontend, box.settings.reach[frontend - 1]);
    }
    make_up_sessions(&box);
    for (size_t i = 0; i < PLAIN_SESSIONS; i++)
        open += box.sessions[i].number != 0;
    uint32_t most = (box.settings.size - PLAIN_RECORD_BYTES * open) / PLAIN_RECORD_BYTES;
    box.held = PLAIN_RECORD_BYTES * (uint32_t)(once_in(3) ? most - below(3) : once_in(20) ? most + 1 : below(most + 1));
    set_call(call, POKE, 0, 0);
    call->length = sizeof box;
    memcpy(call->bytes, &box, sizeof box);
}

void choose_poke(struct call *call, const struct plain_box *box)
{
    switch (below(18)) {
    case 0: poke_bytes(call); break;
    case 1: case 2: poke_place(call, box); break;
    case 3: case 4: poke_made_up(call, box); break;
    case 5: poke_held(call, box); break;
    case 6: case 7: poke_set(call, box); break;
    case 8: poke_src(call, box); break;
    default: poke_field(call, box); break;
    }
}

