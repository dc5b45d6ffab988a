/*
 * A request before the table: steps 10 to 18 of the answer, the last time that is set between them, and what a 200
 * changes.
 */
#include "plain_parts.h"

#include <string.h>

/* Merging a query: steps 16 and 17. */

static void remove_pid(struct plain_stream *stream, uint16_t pid)
{
    size_t place = 0;
    while (place < stream->count && stream->pids[place] != pid)
        place++;
    if (place == stream->count)
        return;
    stream->count--;
    for (; place < stream->count; place++)
        stream->pids[place] = stream->pids[place + 1];
    stream->pids[stream->count] = 0;
}

/* False if the PID is new and the list is full. */
static bool add_pid(struct plain_stream *stream, uint16_t pid)
{
    size_t place = 0;
    while (place < stream->count && stream->pids[place] < pid)
        place++;
    if (place < stream->count && stream->pids[place] == pid)
        return true;
    if (stream->count == PLAIN_PIDS)
        return false;
    for (size_t i = stream->count; i > place; i--)
        stream->pids[i] = stream->pids[i - 1];
    stream->pids[place] = pid;
    stream->count++;
    return true;
}

static bool add_pids(struct plain_stream *stream, struct text list)
{
    uint16_t pid;
    while (list.length > 0)
        if (!plain_take_pid(&list, &pid) || !add_pid(stream, pid))
            return false;
    return true;
}

/* False if there are more than 32 PIDs after merging. */
static bool merge_pids(struct plain_stream *stream, const struct reading *reading)
{
    struct text removed = reading->delpids;
    uint16_t pid;
    if (reading->pids_given) {
        memset(stream->pids, 0, sizeof stream->pids);
        stream->count = 0;
        stream->all = reading->pids_all;
        return add_pids(stream, reading->pids);
    }
    if (stream->all)
        return true;
    while (removed.length > 0 && plain_take_pid(&removed, &pid))
        remove_pid(stream, pid);
    return add_pids(stream, reading->addpids);
}

static void replace(uint32_t *value, uint32_t given)
{
    if (given != 0)
        *value = given;
}

static void merge_values(struct plain_values *values, const struct plain_values *given)
{
    replace(&values->src, given->src);
    replace(&values->freq, given->freq);
    replace(&values->pol, given->pol);
    replace(&values->msys, given->msys);
    replace(&values->mtype, given->mtype);
    replace(&values->plts, given->plts);
    replace(&values->ro, given->ro);
    replace(&values->sr, given->sr);
    replace(&values->fec, given->fec);
}

/* Merges the query into a stream: step 16, and the PIDs of step 17. */
static enum status merge(struct plain_stream *stream, const struct reading *reading)
{
    merge_values(&stream->values, &reading->values);
    if (!plain_combination_holds(&stream->values))
        return STATUS_FORBIDDEN;
    return merge_pids(stream, reading) ? STATUS_OK : STATUS_UNAVAILABLE;
}

/* A request before the table: steps 10 to 18. */

/* One request on its way. */
struct turn {
    struct plain_box *box;
    const struct reading *reading;
    struct plain_session *session; /* the open session its Session header names, else NULL */
    struct plain_stream *stream;   /* the live stream its URI names, else NULL */
    struct plain_stream merged;    /* with a query: the stream as it is to be */
};

/* The open session of a number; NULL if there is none, as for 0. */
static struct plain_session *find_session(struct plain_box *box, uint32_t number)
{
    for (size_t i = 0; number != 0 && i < PLAIN_SESSIONS; i++)
        if (box->sessions[i].number == number)
            return &box->sessions[i];
    return NULL;
}

/* The live stream of an ID; NULL if there is none, as for 0 and above 8. */
static struct plain_stream *find_stream(struct plain_box *box, uint32_t id)
{
    if (id == 0 || id > PLAIN_STREAMS || box->streams[id - 1].frontend == 0)
        return NULL;
    return &box->streams[id - 1];
}

/* The lowest free session place, else NULL. */
static struct plain_session *free_session(struct plain_box *box)
{
    for (size_t i = 0; i < PLAIN_SESSIONS; i++)
        if (box->sessions[i].number == 0)
            return &box->sessions[i];
    return NULL;
}

static bool frontend_held(const struct plain_box *box, uint32_t frontend)
{
    return plain_stream_place(box, frontend) < PLAIN_STREAMS;
}

/* How many sources a frontend reaches. */
static unsigned count_sources(const struct plain_box *box, uint32_t frontend)
{
    unsigned count = 0;
    for (uint32_t src = 1; src <= PLAIN_SOURCES; src++)
        count += plain_reaches(box, frontend, src);
    return count;
}

/* Is a frontend free, and does it reach the src? */
static bool can_serve(const struct plain_box *box, uint32_t frontend, uint32_t src)
{
    return !frontend_held(box, frontend) && plain_reaches(box, frontend, src);
}

/*
 * The frontend for a new stream: fe or, if fe is 0, of the free ones that reach its src the one reaching the fewest
 * sources, ties to the lowest number; 0 if it cannot be had.
 */
static uint32_t choose_frontend(const struct plain_box *box, uint32_t fe, uint32_t src)
{
    uint32_t chosen = 0;
    if (fe != 0)
        return can_serve(box, fe, src) ? fe : 0;
    for (uint32_t frontend = 1; frontend <= box->settings.frontends; frontend++)
        if (can_serve(box, frontend, src)
            && (chosen == 0 || count_sources(box, frontend) < count_sources(box, chosen)))
            chosen = frontend;
    return chosen;
}

/* The first non-zero number not open, counting up from the draw. */
static uint32_t choose_number(struct plain_box *box, uint32_t draw)
{
    uint32_t number = draw;
    while (number == 0 || find_session(box, number) != NULL)
        number++;
    return number;
}

/* Step 10: does this method need more than its URI names? */
static bool lacks_stream(const struct reading *reading)
{
    switch (reading->method) {
    case METHOD_PLAY:
    case METHOD_TEARDOWN:
        return reading->stream == 0;
    case METHOD_SETUP:
        return reading->stream == 0 && !reading->query;
    default:
        return false;
    }
}

/* Step 11: is the session missing that the request sends or needs? */
static bool lacks_session(const struct turn *turn)
{
    const struct reading *reading = turn->reading;
    bool needed = reading->method == METHOD_PLAY || reading->method == METHOD_TEARDOWN;
    return turn->session == NULL && (reading->session_sent || needed);
}

/* Step 13, with a session: a SETUP that names no stream names 0, which is no session's. */
static bool not_valid_in_state(const struct turn *turn)
{
    const struct reading *reading = turn->reading;
    if (turn->session->stream != reading->stream)
        return true;
    if (reading->method == METHOD_SETUP && turn->session->playing)
        return true;
    return reading->fe != 0 && reading->fe != turn->stream->frontend;
}

/* Step 14: a query on a live stream by anyone but its owner's session. */
static bool not_the_owners_query(const struct turn *turn)
{
    bool owner = turn->session != NULL && turn->session->owner;
    return turn->reading->query && turn->stream != NULL && !owner;
}

/* Step 17: a later src that the held frontend does not reach. A new stream's src is judged in step 18. */
static bool out_of_reach(const struct turn *turn)
{
    uint32_t src = turn->reading->values.src;
    return turn->stream != NULL && src != 0 && !plain_reaches(turn->box, turn->stream->frontend, src);
}

/* Steps 16 and 17, into a copy. A new stream has src 1 and no PIDs. */
static enum status judge_query(struct turn *turn)
{
    if (!turn->reading->query)
        return STATUS_OK;
    if (turn->stream != NULL)
        turn->merged = *turn->stream;
    else
        turn->merged = (struct plain_stream){.values = {.src = 1}};
    enum status status = merge(&turn->merged, turn->reading);
    return status == STATUS_OK && out_of_reach(turn) ? STATUS_UNAVAILABLE : status;
}

/* The frontend that a new stream takes, 0 if there is none for it. */
static uint32_t frontend_for(const struct turn *turn)
{
    return choose_frontend(turn->box, turn->reading->fe, turn->merged.values.src);
}

/* Step 18: does an opening find a place, a new stream a frontend, and its record and every closing room? */
static bool can_open(const struct turn *turn)
{
    struct plain_box *box = turn->box;
    if (free_session(box) == NULL)
        return false;
    if (turn->stream == NULL && frontend_for(turn) == 0)
        return false;
    return box->held + PLAIN_RECORD_BYTES * (plain_count_open(box) + 2) <= box->settings.size;
}

/* Steps 10 and 11. */
static enum status judge_session(struct turn *turn)
{
    if (lacks_stream(turn->reading))
        return STATUS_METHOD_NOT_ALLOWED;                           /* step 10 */
    turn->session = find_session(turn->box, turn->reading->session);
    return lacks_session(turn) ? STATUS_SESSION_NOT_FOUND : STATUS_OK; /* step 11 */
}

/* Order 3: past step 11 a request sets the last time of the session it names, also if a later step refuses it. */
static void set_last_time(struct turn *turn)
{
    if (turn->session != NULL)
        turn->session->last = turn->box->clock;
}

/* Steps 12 to 18. */
static enum status judge(struct turn *turn)
{
    const struct reading *reading = turn->reading;
    bool setup = reading->method == METHOD_SETUP;
    if (reading->method == METHOD_OPTIONS)
        return STATUS_OK;
    turn->stream = find_stream(turn->box, reading->stream);
    if (reading->stream != 0 && turn->stream == NULL)
        return STATUS_NOT_FOUND;                                    /* step 12 */
    if (turn->session != NULL && not_valid_in_state(turn))
        return STATUS_NOT_VALID_IN_STATE;                           /* step 13 */
    if (not_the_owners_query(turn))
        return STATUS_FORBIDDEN;                                    /* step 14 */
    if (setup && reading->port == 0)
        return STATUS_UNSUPPORTED_TRANSPORT;                        /* step 15 */
    enum status status = judge_query(turn);                         /* steps 16 and 17 */
    if (status == STATUS_OK && setup && turn->session == NULL && !can_open(turn))
        return STATUS_UNAVAILABLE;                                  /* step 18 */
    return status;
}

/* What a 200 changes. */

/* Gives a new stream its frontend and place, which are both there after step 18; returns its ID. */
static uint8_t open_stream(struct turn *turn)
{
    struct plain_box *box = turn->box;
    size_t place = plain_stream_place(box, 0);
    turn->merged.frontend = (uint8_t)frontend_for(turn);
    box->streams[place] = turn->merged;
    return (uint8_t)(place + 1);
}

/* A SETUP without session: opens one on a new stream, or joins a live one. */
static void open_session(struct turn *turn, uint32_t address, uint32_t draw, uint8_t *journal)
{
    struct plain_box *box = turn->box;
    bool joins = turn->stream != NULL;
    uint8_t stream = joins ? (uint8_t)turn->reading->stream : open_stream(turn);
    turn->session = free_session(box);
    *turn->session = (struct plain_session){
        .number = choose_number(box, draw),
        .address = address,
        .last = box->clock,
        .port = turn->reading->port,
        .stream = stream,
        .owner = !joins
    };
    plain_append_record(box, journal, turn->session, joins ? KIND_JOINED : KIND_OPENED, CAUSE_NONE);
}

/* What PLAY and SETUP change in their session and its stream, its last time aside. */
static void change_session(struct turn *turn)
{
    const struct reading *reading = turn->reading;
    if (reading->method == METHOD_SETUP)
        turn->session->port = reading->port;
    if (reading->method == METHOD_PLAY)
        turn->session->playing = 1;
    if (reading->query)
        *turn->stream = turn->merged;
}

/* Carries out a request that passed all steps; returns the session its answer tells of, unused if none. */
static struct plain_session carry_out(struct turn *turn, uint32_t address, uint32_t draw, uint8_t *journal)
{
    if (turn->session != NULL)
        change_session(turn);
    else if (turn->reading->method == METHOD_SETUP)
        open_session(turn, address, draw, journal);
    else
        return (struct plain_session){0};
    struct plain_session session = *turn->session;
    if (turn->reading->method == METHOD_TEARDOWN)
        plain_close_session(turn->box, turn->session, CAUSE_TEARDOWN, journal);
    return session;
}

enum status plain_take_turn(struct plain_box *box, const struct reading *reading, uint32_t address,
                            uint32_t draw, uint8_t *journal, struct plain_session *session)
{
    struct turn turn = {.box = box, .reading = reading};
    enum status status = judge_session(&turn);
    if (status != STATUS_OK)
        return status;
    set_last_time(&turn);
    status = judge(&turn);
    if (status == STATUS_OK)
        *session = carry_out(&turn, address, draw, journal);
    return status;
}
