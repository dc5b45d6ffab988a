/*
 * Counts what the calls reached: refusals, statuses, records, tables changed by hand, what the frontends' sets decide,
 * how CSeq came back, and whose last time was set.
 */
#include "compare.h"

#include <string.h>

struct reached reached;

static size_t method_of(const struct call *call)
{
    static const char *const names[METHODS - 1] = {"OPTIONS ", "SETUP ", "PLAY ", "TEARDOWN "};
    size_t i = 0;
    while (i < METHODS - 1
           && (call->length < strlen(names[i]) || memcmp(call->bytes, names[i], strlen(names[i])) != 0))
        i++;
    return i;
}

static unsigned status_of(const uint8_t *answer)
{
    return (answer[9] - '0') * 100u + (answer[10] - '0') * 10u + (answer[11] - '0') * 1u;
}

/* The place behind a text in a request; 0 if it has none. */
static size_t behind(const struct call *call, const char *text)
{
    const size_t length = strlen(text);
    for (size_t at = 0; at + length <= call->length; at++)
        if (memcmp(call->bytes + at, text, length) == 0)
            return at + length;
    return 0;
}

static bool has(const struct call *call, const char *text)
{
    return behind(call, text) != 0;
}

static bool names_frontend(const struct call *call)
{
    return has(call, "?fe=") || has(call, "&fe=");
}

static uint32_t sessions_open(void)
{
    uint32_t open = 0;
    for (size_t i = 0; i < PLAIN_SESSIONS; i++)
        open += plain.box.sessions[i].number != 0;
    return open;
}

/* Makes a request on another box, and gives its answer; nothing of the two sides changes. */
static const uint8_t *answer_of(struct plain_box box, const struct call *call)
{
    static uint8_t answer[PLAIN_ANSWER_BYTES], journal[JOURNAL_ROOM];
    const uint64_t *n = call->numbers;
    size_t count;
    plain_request(&box, call->bytes, call->length, (uint32_t)n[0], (uint32_t)n[1], (uint32_t)n[2], answer,
                  sizeof answer, &count, journal, n[4]);
    return answer;
}

/* What the frontends' sets decide. */

/* The box with every frontend reaching all four sources: what it does otherwise, the sets decide. */
static struct plain_box all_reaching(void)
{
    struct plain_box box = plain.box;
    for (size_t i = 0; i < PLAIN_FRONTENDS; i++)
        box.settings.reach[i] = i < box.settings.frontends ? PLAIN_REACH_ALL : 0;
    return box;
}

/* How many of the sets from one place to another are below the least or above the most. */
static unsigned count_sets(const uint8_t *sets, size_t from, size_t to, unsigned least, unsigned most)
{
    unsigned count = 0;
    for (size_t i = from; i < to; i++)
        count += sets[i] < least || sets[i] > most;
    return count;
}

static void count_making(const struct call *call)
{
    const struct plain_settings settings = settings_of(call);
    const size_t frontends = settings.frontends < PLAIN_FRONTENDS ? settings.frontends : PLAIN_FRONTENDS;
    const unsigned empty = count_sets(settings.reach, 0, frontends, 1, 255);
    const unsigned beyond = count_sets(settings.reach, 0, frontends, 0, PLAIN_REACH_ALL);
    struct plain_settings full = settings;
    struct plain_box made;
    memset(full.reach, PLAIN_REACH_ALL, sizeof full.reach);
    if (plain.outcome.refusal == PLAIN_DONE)
        reached.sets.made += count_sets(settings.reach, 0, frontends, PLAIN_REACH_ALL, PLAIN_REACH_ALL) > 0;
    else if (plain_make(&made, full) == PLAIN_DONE) {
        reached.sets.empty += beyond == 0;
        reached.sets.beyond += empty == 0;
    }
}

/* A table refused that would not be if all sets were full. */
static void count_bad_table(void)
{
    const struct plain_box full = all_reaching();
    const uint8_t *sets = plain.box.settings.reach;
    const size_t frontends = plain.box.settings.frontends;
    struct plain_stream order;
    int on;
    if (plain_order(&full, 1, &order, &on) != PLAIN_DONE)
        return;
    const bool within = count_sets(sets, 0, frontends, 1, PLAIN_REACH_ALL) > 0;
    const bool above = count_sets(sets, frontends, PLAIN_FRONTENDS, 0, 0) > 0;
    reached.sets.bad_set += within && !above;
    reached.sets.bad_above += above && !within;
    reached.sets.bad_src += !above && !within;
}

/* A 503 that would be none if all sets were full. Asked again, a request that was not obeyed sweeps nothing more. */
static void count_out_of_reach(const struct call *call)
{
    if (status_of(answer_of(all_reaching(), call)) == 503)
        return;
    if (call->bytes[0] == 'P')
        reached.sets.play++;
    else if (has(call, "/stream="))
        reached.sets.setup++;
    else if (names_frontend(call))
        reached.sets.named++;
    else
        reached.sets.none++;
}

/* A new stream whose request names no frontend: did it pass by a lower one that is free now? */
static void count_choice(const struct call *call, const struct plain_record *record)
{
    const uint32_t src = plain.box.streams[record->stream - 1].values.src;
    bool held[PLAIN_FRONTENDS + 1] = {false}, past = false, reaching = false;
    if (names_frontend(call))
        return;
    for (size_t i = 0; i < PLAIN_STREAMS; i++)
        held[plain.box.streams[i].frontend] = true;
    for (size_t i = 1; i < record->frontend; i++) {
        past |= !held[i];
        reaching |= !held[i] && (plain.box.settings.reach[i - 1] >> (src - 1) & 1) != 0;
    }
    reached.sets.past_free += past;
    reached.sets.past_reaching += reaching;
}

/* A live stream's src that is another after a call that opened and closed nothing. */
static void count_changed_src(void)
{
    for (size_t i = 0; i < PLAIN_STREAMS && plain.box.held == box_before.held; i++) {
        const struct plain_stream *stream = &plain.box.streams[i];
        if (stream->frontend != 0 && stream->values.src != box_before.streams[i].values.src)
            reached.sets.changed += plain.box.settings.reach[stream->frontend - 1] != PLAIN_REACH_ALL;
    }
}

/* Headers. */

/* The first place, from this one on, whose byte is not one of these. */
static size_t past(const struct call *call, size_t place, uint8_t low, uint8_t high)
{
    while (place < call->length && call->bytes[place] >= low && call->bytes[place] <= high)
        place++;
    return place;
}

/* Where the value of the first header of a name starts, the name in small and in capital letters; the end if none. */
static size_t value_of(const struct call *call, const char *lower, const char *upper)
{
    size_t value = 0, same = 0;
    for (; value < call->length && lower[same] != '\0'; value++) {
        const uint8_t byte = call->bytes[value];
        same = byte == lower[same] || byte == upper[same] ? same + 1 : byte == '\n';
    }
    return value;
}

/* How CSeq came back. */

/* The digits of the first CSeq header of a request: where they start, how many, and whether there are more spaces. */
struct digits {
    size_t place, count;
    bool spaced;
};

static struct digits digits_in(const struct call *call)
{
    const size_t value = value_of(call, "\ncseq:", "\nCSEQ:");
    const size_t place = past(call, value, ' ', ' '), end = past(call, place, '0', '9');
    return (struct digits){place, end - place, place - value > 1 || past(call, end, ' ', ' ') > end};
}

/* Does the answer carry a CSeq of these digits? */
static bool carries(const uint8_t *answer, const struct call *call, const struct digits *digits)
{
    const char *line = strchr((const char *)answer, '\n') + 1;
    return memcmp(line, "CSeq: ", 6) == 0 && memcmp(line + 6, call->bytes + digits->place, digits->count) == 0
        && line[6 + digits->count] == '\r';
}

static void count_copied(const struct call *call, unsigned status)
{
    const struct digits digits = digits_in(call);
    const bool zero = digits.count > 1 && call->bytes[digits.place] == '0';
    if (!carries(plain.answer, call, &digits))
        return;
    reached.cseq.zeros[status] += zero;
    reached.cseq.ten += zero && digits.count == 10;
    reached.cseq.spaced += digits.spaced;
    reached.cseq.far += digits.place >= 1024;
}

/* A 400 without CSeq: would it carry one if a 1 stood in place of the digits? */
static void count_refused(const struct call *call)
{
    static struct call other;
    const struct digits digits = digits_in(call), one = {digits.place, 1, false};
    if (digits.count < 10)
        return;
    other = *call;
    memset(other.bytes + digits.place, ' ', digits.count);
    other.bytes[digits.place] = '1';
    if (!carries(answer_of(plain.box, &other), &other, &one))
        return;
    reached.cseq.longer += digits.count > 10;
    reached.cseq.large += digits.count == 10;
}

/* Whose last time was set. */

/* By place: the session that was kept last, its last time since, and the one it had if OPTIONS alone set it. */
static struct {
    uint32_t number, last, before;
} heard[PLAIN_SESSIONS];

/* The number that the first Session header says; 0 if it is none. */
static uint32_t number_sent(const struct call *call)
{
    static const char digits[] = "0123456789abcdef";
    size_t at = past(call, value_of(call, "\nsession:", "\nSESSION:"), ' ', ' ');
    uint32_t number = 0;
    for (const size_t end = at + 8; at < end; at++) {
        const char *digit = at < call->length ? strchr(digits, call->bytes[at] | 32) : NULL;
        if (digit == NULL)
            return 0;
        number = number << 4 | (uint32_t)(digit - digits);
    }
    const size_t end = past(call, at, ' ', ' ');
    const uint8_t byte = end < call->length ? call->bytes[end] : 0;
    return byte == '\r' || (byte == ';' && end == at) ? number : 0;
}

/* The open session of a number in a table, NULL if there is none. */
static const struct plain_session *open_session(const struct plain_box *box, uint32_t number)
{
    for (size_t i = 0; number != 0 && i < PLAIN_SESSIONS; i++)
        if (box->sessions[i].number == number)
            return &box->sessions[i];
    return NULL;
}

/* The table before the call, as its sweep left it. */
static struct plain_box swept_before(const struct call *call)
{
    static uint8_t journal[JOURNAL_ROOM];
    struct plain_box box = box_before;
    plain_tick(&box, (uint32_t)call->numbers[0], journal, box.settings.size);
    return box;
}

/* Why a 455 was given. The stream that is named is live, since step 12 passed. */
static void count_wrong_state(const struct call *call, const struct plain_session *session)
{
    struct reached_keeping *keeping = &reached.keeping;
    const size_t stream = behind(call, "/stream=");
    if (stream == 0)
        keeping->none++;
    else if (call->bytes[stream] != '0' + session->stream)
        keeping->another++;
    else if (call->bytes[0] == 'S' && session->playing)
        keeping->plays++;
    else
        keeping->fe++;
}

/* Was the session kept that OPTIONS alone had not kept? */
static void count_outlived(const struct call *call, const struct plain_session *session, size_t place, unsigned status)
{
    const uint32_t clock = plain.box.clock;
    if (heard[place].number != session->number || heard[place].last != session->last)
        heard[place].before = session->last;
    if (clock - heard[place].before >= PLAIN_TIMEOUT) {
        reached.keeping.play += status == 200 && call->bytes[0] == 'P';
        reached.keeping.refused += status != 200;
    }
    heard[place].number = session->number;
    heard[place].last = clock;
    if (call->bytes[0] == 'O')
        heard[place].before = clock;
}

/* A session, as the sweep left it, whose last time was set. */
static void count_set(const struct call *call, const struct plain_session *session, size_t place, unsigned status)
{
    struct reached_keeping *keeping = &reached.keeping;
    const size_t method = method_of(call);
    if (status == 403 && !session->owner)
        keeping->joiners[method]++;
    else
        keeping->set[status][method]++;
    if (status == 455)
        count_wrong_state(call, session);
    if (status == 503) {
        const bool pids = status_of(answer_of(all_reaching(), call)) == 503;
        keeping->pids += pids;
        keeping->src += !pids;
    }
    keeping->stored += (uint32_t)call->numbers[0] < plain.box.clock;
    keeping->closing += plain.box.held > box_before.held;
    keeping->last_second += plain.box.clock - session->last == PLAIN_TIMEOUT - 1;
    count_outlived(call, session, place, status);
}

/* No last time was set, though the request says the number of a session that is open, or was before the sweep. */
static void count_left(const struct call *call, const struct plain_box *swept, unsigned status)
{
    struct reached_keeping *keeping = &reached.keeping;
    const uint32_t number = number_sent(call), clock = plain.box.clock;
    const struct plain_session *session = open_session(swept, number), *before = open_session(&box_before, number);
    if (session != NULL && session->last < clock && status != 200)
        keeping->left[status][method_of(call)]++;
    if (session == NULL && before != NULL && status == 454) {
        keeping->too_late += clock - before->last == PLAIN_TIMEOUT;
        keeping->orphaned += clock - before->last < PLAIN_TIMEOUT;
    }
}

static void count_keeping(const struct call *call, unsigned status)
{
    const struct plain_box swept = swept_before(call);
    size_t place = 0;
    while (place < PLAIN_SESSIONS && (swept.sessions[place].number == 0
                                      || plain.box.sessions[place].number != swept.sessions[place].number
                                      || plain.box.sessions[place].last == swept.sessions[place].last))
        place++;
    if (place < PLAIN_SESSIONS)
        count_set(call, &swept.sessions[place], place, status);
    else
        count_left(call, &swept, status);
}

/* A session closed with its owner, whose time was out: had it been kept since its opening? */
static void count_with_owner(const struct plain_record *record)
{
    for (size_t i = 0; i < PLAIN_SESSIONS; i++) {
        const struct plain_session *session = &box_before.sessions[i];
        if (session->number == record->session && heard[i].number == session->number && heard[i].last == session->last)
            reached.keeping.with_owner += plain.box.clock - session->last < PLAIN_TIMEOUT;
    }
}

/* The rest. */

static void count_status(const struct call *call)
{
    unsigned status = status_of(plain.answer);
    bool unnumbered = status == 400 && plain.outcome.count == strlen("RTSP/1.0 400 Bad Request\r\n\r\n");
    uint32_t open = sessions_open();
    if (status >= STATUSES)
        return;
    reached.statuses[status][method_of(call)]++;
    reached.unnumbered += unnumbered;
    if (unnumbered)
        count_refused(call);
    else
        count_copied(call, status);
    count_keeping(call, status);
    if (status != 503)
        return;
    count_out_of_reach(call);
    reached.no_place += open == PLAIN_SESSIONS;
    reached.no_room += open < PLAIN_SESSIONS
        && plain.box.held + PLAIN_RECORD_BYTES * (open + 2) > plain.box.settings.size;
}

/* Counts the records the call wrote. */
static void count_records(const struct call *call)
{
    bool cascade = false, timed_out = false;
    for (uint32_t at = box_before.held; at < plain.box.held; at += PLAIN_RECORD_BYTES) {
        struct plain_record record;
        if (plain_read_record(plain.journal + at, PLAIN_RECORD_BYTES, 0, &record) != PLAIN_DONE)
            continue;
        reached.opened += record.kind == 1;
        if (record.kind == 1)
            count_choice(call, &record);
        reached.joined += record.kind == 2;
        reached.closed[record.cause] += record.kind == 3;
        reached.number_taken += record.kind < 3 && record.session != (uint32_t)call->numbers[2];
        cascade |= record.cause == 3;
        if (record.cause != 3)
            timed_out = record.cause == 2;
        else if (timed_out)
            count_with_owner(&record);
    }
    reached.cascades += cascade;
    reached.full_journals += plain.box.held > box_before.held && plain.box.held == plain.box.settings.size;
}

void count_reached(const struct call *call)
{
    static bool poked;
    uint32_t refusal = plain.outcome.refusal;
    bool judges = call->kind == REQUEST || call->kind == TICK || call->kind == COLLECT || call->kind == ORDER;
    reached.calls[call->kind][refusal < REFUSALS ? refusal : 0]++;
    if (call->kind == MAKE) {
        count_making(call);
        memset(heard, 0, sizeof heard);
    }
    if (call->kind == REQUEST && refusal == 0) {
        count_status(call);
        count_changed_src();
    }
    if ((call->kind == REQUEST || call->kind == TICK) && refusal == 0)
        count_records(call);
    reached.orders_on += plain.outcome.on;
    if (judges && refusal == PLAIN_BAD_TABLE)
        count_bad_table();
    if (poked && judges) {
        reached.tables_bad += refusal == PLAIN_BAD_TABLE;
        reached.tables_good += refusal != PLAIN_BAD_TABLE;
    }
    poked = call->kind == POKE || (poked && !judges && call->kind != RESTORE);
}
