/*
 * Makes one call on both boxes, the archive's and the plain one, and compares everything: the refusal, the counts,
 * what came back, every lent buffer to a little past its end, and every byte of the table.
 */
#define _POSIX_C_SOURCE 200809L

#include "compare.h"
#include "satbox.h"

#include <setjmp.h>
#include <signal.h>
#include <stdio.h>
#include <string.h>

_Static_assert(sizeof(struct satbox) == sizeof(struct plain_box), "the same bytes are both");
_Static_assert(sizeof(struct satbox_settings) == sizeof(struct plain_settings), "the same bytes are both");
_Static_assert(sizeof(struct satbox_stream) == sizeof(struct plain_stream), "the same bytes are both");

struct side archive, plain;
struct plain_box box_before;

const char *const kind_names[KINDS] = {
    "make", "request", "tick", "collect", "order", "read", "look", "write", "save", "poke", "restore"
};
const size_t kind_numbers[KINDS] = {3, 5, 2, 2, 1, 2, 1, 7, 0, 1, 0};

/* What buffers hold before a call: no byte like its neighbours. */
static uint8_t pattern[JOURNAL_ROOM + GUARD];
/* The longest journal lent since the start. */
static size_t journal_reach;

/* A call that crashes comes back here, so that its sequence can be told like that of any difference. */
static sigjmp_buf back;
static const char *volatile under_way;

static void crashed(int number)
{
    siglongjmp(back, number);
}

static void catch_crashes(void)
{
    signal(SIGSEGV, crashed);
    signal(SIGBUS, crashed);
    signal(SIGFPE, crashed);
    signal(SIGILL, crashed);
    signal(SIGABRT, crashed);
}

static void start(struct side *side)
{
    memset(&side->box, 0xA5, sizeof side->box);
    memset(&side->saved, 0, sizeof side->saved);
    memcpy(side->journal, pattern, sizeof side->journal);
    memcpy(side->answer, pattern, sizeof side->answer);
    memcpy(side->buffer, pattern, sizeof side->buffer);
}

void start_both(void)
{
    for (size_t i = 0; i < sizeof pattern; i++)
        pattern[i] = (uint8_t)(0xA5 + 7 * i);
    start(&archive);
    start(&plain);
    journal_reach = 0;
    catch_crashes();
}

/* The numbers of a call as the calls take them. */

static uint32_t word(const struct call *call, size_t place)
{
    return (uint32_t)call->numbers[place];
}

/* A buffer as it is lent: with length 0 there need be none. */
static uint8_t *lent(uint8_t *bytes, uint64_t length)
{
    return length == 0 ? NULL : bytes;
}

static const uint8_t *request_of(const struct call *call)
{
    return call->length == 0 ? NULL : call->bytes;
}

static struct plain_record record_of(const struct call *call)
{
    struct plain_record record;
    memset(&record, 0, sizeof record);
    record.kind = (uint8_t)call->numbers[0];
    record.cause = (uint8_t)call->numbers[1];
    record.clock = (uint32_t)call->numbers[2];
    record.session = (uint32_t)call->numbers[3];
    record.stream = (uint8_t)call->numbers[4];
    record.frontend = (uint8_t)call->numbers[5];
    record.sequence = (uint16_t)call->numbers[6];
    return record;
}

/* Copies the fields of a record and not the two bytes between them. The archive's record and the plain one have the same fields. */
#define KEEP_RECORD(kept, record) \
    do { \
        (kept).kind = (record).kind; \
        (kept).cause = (record).cause; \
        (kept).clock = (record).clock; \
        (kept).session = (record).session; \
        (kept).stream = (record).stream; \
        (kept).frontend = (record).frontend; \
        (kept).sequence = (record).sequence; \
    } while (0)

/* The archive's calls. */

static void keep_reply(struct outcome *outcome, struct satbox_reply reply)
{
    outcome->refusal = reply.refusal;
    outcome->count = reply.count;
}

static void keep_found(struct outcome *outcome, struct satbox_found found)
{
    outcome->refusal = found.refusal;
    KEEP_RECORD(outcome->record, found.entry);
}

static void keep_order(struct outcome *outcome, struct satbox_ordered order)
{
    outcome->refusal = order.refusal;
    outcome->on = order.on;
    memcpy(&outcome->stream, &order.stream, sizeof outcome->stream);
}

static void keep_noted(struct outcome *outcome, struct satbox_noted noted)
{
    outcome->refusal = noted.refusal;
    memcpy(outcome->bytes, noted.bytes, sizeof outcome->bytes);
}

static struct satbox_record entry_of(const struct call *call)
{
    const struct plain_record record = record_of(call);
    struct satbox_record entry;
    KEEP_RECORD(entry, record);
    return entry;
}

static uint32_t archive_made(struct satbox *box, const struct call *call)
{
    const struct plain_settings given = settings_of(call);
    struct satbox_settings settings;
    memcpy(&settings, &given, sizeof settings);
    return satbox_make(box, settings);
}

static void call_archive(struct side *side, const struct call *call)
{
    struct outcome *outcome = &side->outcome;
    struct satbox *box = (struct satbox *)(void *)&side->box;
    const uint64_t *n = call->numbers;
    switch (call->kind) {
    case MAKE: outcome->refusal = archive_made(box, call); break;
    case REQUEST:
        keep_reply(outcome, satbox_request(box, request_of(call), call->length, word(call, 0), word(call, 1),
                                           word(call, 2), lent(side->answer, n[3]), n[3],
                                           lent(side->journal, n[4]), n[4]));
        break;
    case TICK: outcome->refusal = satbox_tick(box, word(call, 0), lent(side->journal, n[1]), n[1]); break;
    case COLLECT:
        keep_reply(outcome, satbox_collect(box, lent(side->journal, n[0]), n[0], lent(side->buffer, n[1]), n[1]));
        break;
    case ORDER: keep_order(outcome, satbox_order(box, word(call, 0))); break;
    case READ: keep_found(outcome, satbox_read_record(lent(side->journal, n[0]), n[0], n[1])); break;
    case LOOK: keep_found(outcome, satbox_read_record(call->bytes, call->length, n[0])); break;
    case WRITE: keep_noted(outcome, satbox_write_record(entry_of(call))); break;
    default: break;
    }
}

/* The plain box's calls. */

static uint32_t plain_requested(struct side *side, const struct call *call)
{
    const uint64_t *n = call->numbers;
    size_t count;
    int refusal = plain_request(&side->box, request_of(call), call->length, word(call, 0), word(call, 1),
                                word(call, 2), lent(side->answer, n[3]), n[3], &count,
                                lent(side->journal, n[4]), n[4]);
    side->outcome.count = (uint32_t)count;
    return (uint32_t)refusal;
}

static uint32_t plain_ordered(struct side *side, const struct call *call)
{
    int on;
    int refusal = plain_order(&side->box, word(call, 0), &side->outcome.stream, &on);
    side->outcome.on = (uint32_t)on;
    return (uint32_t)refusal;
}

static uint32_t plain_found(struct side *side, const uint8_t *bytes, size_t length, size_t place)
{
    struct plain_record record;
    int refusal = plain_read_record(bytes, length, place, &record);
    KEEP_RECORD(side->outcome.record, record);
    return (uint32_t)refusal;
}

static uint32_t plain_written(struct side *side, const struct call *call)
{
    struct plain_record record = record_of(call);
    return (uint32_t)plain_write_record(&record, side->outcome.bytes);
}

static void call_plain(struct side *side, const struct call *call)
{
    struct outcome *outcome = &side->outcome;
    const uint64_t *n = call->numbers;
    switch (call->kind) {
    case MAKE: outcome->refusal = (uint32_t)plain_make(&side->box, settings_of(call)); break;
    case REQUEST: outcome->refusal = plain_requested(side, call); break;
    case TICK:
        outcome->refusal = (uint32_t)plain_tick(&side->box, word(call, 0), lent(side->journal, n[1]), n[1]);
        break;
    case COLLECT:
        outcome->refusal = (uint32_t)plain_collect(&side->box, lent(side->journal, n[0]), n[0],
                                                   lent(side->buffer, n[1]), n[1], &outcome->count);
        break;
    case ORDER: outcome->refusal = plain_ordered(side, call); break;
    case READ: outcome->refusal = plain_found(side, lent(side->journal, n[0]), n[0], n[1]); break;
    case LOOK: outcome->refusal = plain_found(side, call->bytes, call->length, n[0]); break;
    case WRITE: outcome->refusal = plain_written(side, call); break;
    default: break;
    }
}

/* Comparing. */

/* The first byte that differs; `length` if none does. */
static size_t first_difference(const void *one, const void *other, size_t length)
{
    const uint8_t *a = one, *b = other;
    size_t i = 0;
    while (i < length && a[i] == b[i])
        i++;
    return i;
}

static bool same_bytes(const char *name, const uint8_t *one, const uint8_t *other, size_t length, bool tell)
{
    if (memcmp(one, other, length) == 0)
        return true;
    size_t at = first_difference(one, other, length);
    if (tell)
        printf("difference: %s, byte %zu: archive %02X, plain %02X\n", name, at, one[at], other[at]);
    return false;
}

static bool same_number(const char *name, uint32_t one, uint32_t other, bool tell)
{
    if (one != other && tell)
        printf("difference: %s: archive %lu, plain %lu\n", name, (unsigned long)one, (unsigned long)other);
    return one == other;
}

/* The name of a session's or stream's field by its offset there. */
static const char *session_field(size_t offset)
{
    static const char *const names[] = {"number", "address", "last", "port"};
    if (offset < 16)
        return names[offset / 4];
    return offset == 16 ? "stream" : offset == 17 ? "owner" : "playing";
}

static const char *stream_field(size_t offset)
{
    static const char *const names[] = {"src", "freq", "pol", "msys", "mtype", "plts", "ro", "sr", "fec"};
    if (offset < 64)
        return "pids";
    if (offset < 100)
        return names[(offset - 64) / 4];
    return offset < 102 ? "count" : offset == 102 ? "frontend" : "all";
}

static const char *box_field(size_t offset)
{
    static const char *const names[] = {
        "size", "size", "frontends", "spare (settings)", "reach", "reach", "reach", "reach", "held", "held", "clock", "clock", "sequence",
        "spare"
    };
    return names[(offset - offsetof(struct plain_box, settings)) / 2];
}

static void tell_table(size_t at)
{
    size_t stream = at - offsetof(struct plain_box, streams);
    const uint8_t *a = (const uint8_t *)&archive.box, *b = (const uint8_t *)&plain.box;
    printf("difference: table, byte %zu: archive %02X, plain %02X: ", at, a[at], b[at]);
    if (at < offsetof(struct plain_box, streams))
        printf("sessions[%zu].%s\n", at / sizeof(struct plain_session),
               session_field(at % sizeof(struct plain_session)));
    else if (at < offsetof(struct plain_box, settings))
        printf("streams[%zu].%s\n", stream / sizeof(struct plain_stream),
               stream_field(stream % sizeof(struct plain_stream)));
    else
        printf("%s\n", box_field(at));
}

static bool same_table(bool tell)
{
    if (memcmp(&archive.box, &plain.box, sizeof plain.box) == 0)
        return true;
    if (tell)
        tell_table(first_difference(&archive.box, &plain.box, sizeof plain.box));
    return false;
}

static bool same_outcome(const struct outcome *one, const struct outcome *other, bool tell)
{
    bool same = same_number("refusal", one->refusal, other->refusal, tell);
    same &= same_number("count", one->count, other->count, tell);
    same &= same_number("order's on", one->on, other->on, tell);
    same &= same_bytes("order", (const uint8_t *)&one->stream, (const uint8_t *)&other->stream,
                       sizeof one->stream, tell);
    same &= same_bytes("record read", (const uint8_t *)&one->record, (const uint8_t *)&other->record,
                       sizeof one->record, tell);
    same &= same_bytes("record written", one->bytes, other->bytes, sizeof one->bytes, tell);
    return same;
}

/* Compares all that the call may have touched; the journal as far as it was ever lent. */
static bool same_sides(const struct call *call, bool tell)
{
    bool same = same_outcome(&archive.outcome, &plain.outcome, tell);
    if (call->kind == REQUEST)
        same &= same_bytes("answer", archive.answer, plain.answer, sizeof plain.answer, tell);
    if (call->kind == COLLECT)
        same &= same_bytes("buffer", archive.buffer, plain.buffer, call->numbers[1] + GUARD, tell);
    same &= same_bytes("journal", archive.journal, plain.journal, journal_reach + GUARD, tell);
    same &= same_table(tell);
    return same;
}

/* The call itself. */

static void change_table(struct side *side, const struct call *call)
{
    if (call->kind == SAVE)
        side->saved = side->box;
    if (call->kind == RESTORE)
        side->box = side->saved;
    if (call->kind == POKE)
        memcpy((uint8_t *)&side->box + call->numbers[0], call->bytes, call->length);
}

static void make_ready(struct side *side, const struct call *call)
{
    memset(&side->outcome, 0, sizeof side->outcome);
    if (call->kind == REQUEST)
        memcpy(side->answer, pattern, sizeof side->answer);
    if (call->kind == COLLECT)
        memcpy(side->buffer, pattern, call->numbers[1] + GUARD);
    change_table(side, call);
}

/* The length of the journal that a call lends to be written. */
static size_t journal_lent(const struct call *call)
{
    return call->kind == REQUEST ? call->numbers[4] : call->kind == TICK ? call->numbers[1] : 0;
}

bool call_both(const struct call *call, bool tell)
{
    if (journal_lent(call) > journal_reach)
        journal_reach = journal_lent(call);
    make_ready(&archive, call);
    make_ready(&plain, call);
    box_before = plain.box;
    int number = sigsetjmp(back, 1);
    if (number != 0) {
        if (tell)
            printf("difference: %s crashed, signal %d\n", under_way, number);
        return false;
    }
    under_way = "archive";
    call_archive(&archive, call);
    under_way = "plain";
    call_plain(&plain, call);
    return same_sides(call, tell);
}
