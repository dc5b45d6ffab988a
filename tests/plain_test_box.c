/*
 * The box under test: making it, sending it requests and ticks, and looking at what came of them. Each call made
 * here also checks that answer, journal and table kept what they must.
 */
#include "plain_test.h"

#include <stdio.h>
#include <string.h>

struct plain_box box;
uint8_t journal_room[PLAIN_JOURNAL_MOST];
uint8_t answer[PLAIN_ANSWER_BYTES];
size_t answer_count;
uint32_t now, address, draw;

uint8_t *journal(void)
{
    return journal_room + sizeof journal_room - box.settings.size;
}

struct plain_settings all_reaching(uint16_t frontends, uint32_t size)
{
    struct plain_settings settings = {.size = size, .frontends = frontends};
    for (size_t i = 0; i < frontends && i < PLAIN_FRONTENDS; i++)
        settings.reach[i] = PLAIN_REACH_ALL;
    return settings;
}

void fresh_of(struct plain_settings settings)
{
    check(plain_make(&box, settings) == 0, "a box can be made");
    memset(journal_room, FILL, sizeof journal_room);
    now = 0;
    address = 0xC0A8B227;
    draw = 1;
}

void fresh(uint16_t frontends, uint32_t size)
{
    fresh_of(all_reaching(frontends, size));
}

bool filled(const uint8_t *bytes, size_t length)
{
    for (size_t i = 0; i < length; i++)
        if (bytes[i] != FILL)
            return false;
    return true;
}

bool is_zero(const void *bytes, size_t length)
{
    const uint8_t *byte = bytes;
    for (size_t i = 0; i < length; i++)
        if (byte[i] != 0)
            return false;
    return true;
}

bool well_formed(void)
{
    struct plain_stream order;
    int on;
    return plain_order(&box, 1, &order, &on) != PLAIN_BAD_TABLE;
}

size_t count_open(const struct plain_box *table)
{
    size_t open = 0;
    for (size_t i = 0; i < PLAIN_SESSIONS; i++)
        open += table->sessions[i].number != 0;
    return open;
}

/* The new records are in sequence, of this clock, and as many as the table's openings and closings. */
static bool records_follow(const struct plain_box *before)
{
    size_t openings = 0, closings = 0;
    for (uint32_t at = before->held; at < box.held; at += PLAIN_RECORD_BYTES) {
        struct plain_record record;
        uint32_t written = (at - before->held) / PLAIN_RECORD_BYTES;
        if (plain_read_record(journal(), box.settings.size, at / PLAIN_RECORD_BYTES, &record) != 0)
            return false;
        if (record.clock != box.clock || record.sequence != (uint16_t)(before->sequence + written))
            return false;
        openings += record.kind != 3;
        closings += record.kind == 3;
    }
    return box.sequence == (uint16_t)(before->sequence + openings + closings)
        && count_open(before) + openings == count_open(&box) + closings;
}

/* How many sessions have another last time than before, all of them the clock's; or more than there are. */
static size_t last_times_set(const struct plain_box *before)
{
    size_t set = 0;
    for (size_t i = 0; i < PLAIN_SESSIONS; i++) {
        const struct plain_session *session = &box.sessions[i];
        if (session->number == 0 || session->number != before->sessions[i].number
            || session->last == before->sessions[i].last)
            continue;
        set += session->last == box.clock ? 1 : PLAIN_SESSIONS + 1;
    }
    return set;
}

/* What a sweep, and a request, keep in table and journal. */
static void check_kept(const struct plain_box *before, const uint8_t *journal_before)
{
    uint32_t clock = now > before->clock ? now : before->clock;
    check(well_formed(), "the table stays well formed");
    check(box.clock == clock, "the larger clock is stored");
    check(memcmp(&box.settings, &before->settings, sizeof box.settings) == 0, "the settings stay");
    check(box.held >= before->held && memcmp(journal(), journal_before, before->held) == 0
              && memcmp(journal() + box.held, journal_before + box.held, box.settings.size - box.held) == 0,
          "the journal stays below the bytes held and above the new records");
    check(records_follow(before), "the records tell what changed");
}

int send_bytes(const void *bytes, size_t length)
{
    static uint8_t room[REQUEST_ROOM], journal_before[PLAIN_JOURNAL_MOST];
    struct plain_box before = box;
    uint8_t *request = room + sizeof room - length;
    memcpy(request, bytes, length);
    memcpy(journal_before, journal(), box.settings.size);
    memset(answer, FILL, sizeof answer);
    check(plain_request(&box, request, length, now, address, draw, answer, sizeof answer, &answer_count,
                        journal(), box.settings.size) == 0, "a good call is not refused");
    check_kept(&before, journal_before);
    check(last_times_set(&before) <= 1, "one last time is set at most, and to the clock");
    check(answer_count >= 20 && memcmp(answer, "RTSP/1.0 ", 9) == 0
              && memcmp(answer + answer_count - 4, "\r\n\r\n", 4) == 0, "the answer is one");
    check(filled(answer + answer_count, sizeof answer - answer_count), "the answer buffer's rest stays");
    return (answer[9] - '0') * 100 + (answer[10] - '0') * 10 + (answer[11] - '0');
}

int raw(const char *request)
{
    return send_bytes(request, strlen(request));
}

bool answer_is(const char *text)
{
    return answer_count == strlen(text) && memcmp(answer, text, answer_count) == 0;
}

int ask(const char *method_uri, const char *headers)
{
    char request[REQUEST_ROOM];
    snprintf(request, sizeof request, "%s RTSP/1.0\r\nCSeq: 1\r\n%s\r\n", method_uri, headers);
    return raw(request);
}

int in(uint32_t session, const char *method, const char *path)
{
    char method_uri[REQUEST_ROOM], headers[128] = "";
    snprintf(method_uri, sizeof method_uri, "%s rtsp://h%s", method, path);
    if (session != 0)
        snprintf(headers, sizeof headers, "Session: %08lx\r\n", (unsigned long)session);
    if (strcmp(method, "SETUP") == 0)
        strcat(headers, TRANSPORT);
    return ask(method_uri, headers);
}

int try_query(const char *query)
{
    char path[REQUEST_ROOM];
    snprintf(path, sizeof path, "/?%s", query);
    fresh(2, 1024);
    return in(0, "SETUP", path);
}

void tick(uint32_t time)
{
    static uint8_t journal_before[PLAIN_JOURNAL_MOST];
    struct plain_box before = box;
    memcpy(journal_before, journal(), box.settings.size);
    now = time;
    check(plain_tick(&box, now, journal(), box.settings.size) == 0, "a good tick is not refused");
    check_kept(&before, journal_before);
    check(last_times_set(&before) == 0, "a tick sets no last time");
}

bool record_is(size_t place, int kind, int cause, uint32_t session, int stream, int frontend)
{
    struct plain_record record;
    return plain_read_record(journal(), box.settings.size, place, &record) == 0 && record.kind == kind
        && record.cause == cause && record.session == session && record.stream == stream
        && record.frontend == frontend;
}

bool pids_are(size_t place, const uint16_t *pids, uint16_t count)
{
    const struct plain_stream *stream = &box.streams[place];
    return stream->all == 0 && stream->count == count && memcmp(stream->pids, pids, count * sizeof *pids) == 0
        && is_zero(stream->pids + count, (size_t)(PLAIN_PIDS - count) * sizeof *pids);
}

void append_list(char *text, size_t size, unsigned first, unsigned count)
{
    for (unsigned i = 0; i < count; i++) {
        size_t length = strlen(text);
        snprintf(text + length, size - length, "%s%u", i == 0 ? "" : ",", first + i);
    }
}
