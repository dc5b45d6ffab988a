/*
 * What a call costs: the instructions that the archive executes for it, those of the plain box for the same call on the same table, side by
 * side in one run, and the ratio to what a plain box that was written for speed took elsewhere (gcc -O2, tables of the same kind), where that was
 * measured. Prints every case; with --bounds it counts only those that have a bound, and fails where the archive takes more; with --growth it
 * counts how a call grows with its bytes, the sessions, the attributes and the PIDs. It always fails where the two do not give the same.
 */
#include "plain.h"
#include "satbox.h"
#include "steps.h"

#include <stdio.h>
#include <string.h>

enum { SIZE = PLAIN_JOURNAL_MOST, ADDRESS = 0x0A000001, CLOCK = 1000, DRAW = 77 };

/* One of the two boxes, with all that is lent to it. */
struct side {
    struct plain_box box;
    uint8_t journal[SIZE];
    uint8_t answer[PLAIN_ANSWER_BYTES];
    uint32_t refusal;
    size_t count;
};

/*
 * A call to count: how its request is written and made this long, or no request for a tick; the sessions open; the archive's bound, or 0; and what
 * the plain box written for speed took, or 0.
 */
struct bench {
    const char *name;
    void (*write)(void);
    unsigned sessions;
    size_t length;
    uint32_t clock;
    unsigned long bound;
    unsigned long fast;
};

static struct side start, archive, plain;
static char request[PLAIN_REQUEST_BYTES + 1];

_Static_assert(sizeof(struct satbox) == sizeof(struct plain_box), "the same bytes are both");

/* A table with this many sessions open: of up to eight two own a stream, of more four, and the rest joined these in turn. */
static void open_sessions(unsigned sessions)
{
    const unsigned owners = sessions > 8 ? 4 : 2;
    struct plain_settings settings = {.size = SIZE, .frontends = PLAIN_FRONTENDS};
    memset(settings.reach, PLAIN_REACH_ALL, sizeof settings.reach);
    memset(&start, 0, sizeof start);
    plain_make(&start.box, settings);
    for (unsigned i = 0; i < sessions; i++) {
        const unsigned port = 2000 + 2 * i;
        if (i < owners)
            snprintf(request, sizeof request,
                     "SETUP rtsp://10.0.0.2/?src=1&freq=%u&pol=h&msys=dvbs&sr=27500&fec=34&pids=0,16,%u,%u,%u RTSP/1.0\r\nCSeq: 1\r\n"
                     "Transport: RTP/AVP;unicast;client_port=%u-%u\r\n\r\n",
                     11000 + 40 * i, 100 + i, 200 + i, 300 + i, port, port + 1);
        else
            snprintf(request, sizeof request,
                     "SETUP rtsp://10.0.0.2/stream=%u RTSP/1.0\r\nCSeq: 1\r\nTransport: RTP/AVP;unicast;client_port=%u-%u\r\n\r\n",
                     1 + i % owners, port, port + 1);
        plain_request(&start.box, (const uint8_t *)request, strlen(request), CLOCK, ADDRESS, 0x1000 + i, start.answer, sizeof start.answer,
                      &start.count, start.journal, sizeof start.journal);
    }
    memset(start.answer, 0, sizeof start.answer);
}

/* The requests. With no session open, OPTIONS names none, and the others name one that is not open. */

static unsigned first_session(void)
{
    return start.box.sessions[0].number == 0 ? 0x1000 : start.box.sessions[0].number;
}

static void write_options(void)
{
    if (start.box.sessions[0].number == 0)
        snprintf(request, sizeof request, "OPTIONS rtsp://10.0.0.2/ RTSP/1.0\r\nCSeq: 5\r\n\r\n");
    else
        snprintf(request, sizeof request, "OPTIONS rtsp://10.0.0.2/ RTSP/1.0\r\nCSeq: 5\r\nSession: %08X\r\n\r\n", first_session());
}

static void write_setup(void)
{
    snprintf(request, sizeof request,
             "SETUP rtsp://10.0.0.2/?freq=11538&pol=v&msys=dvbs&sr=22000&fec=56&pids=0,16,17 RTSP/1.0\r\nCSeq: 2\r\n"
             "Transport: RTP/AVP;unicast;client_port=5000-5001\r\n\r\n");
}

static void write_play(void)
{
    snprintf(request, sizeof request,
             "PLAY rtsp://10.0.0.2/stream=1?freq=11538&pol=v&sr=22000&fec=56&pids=0,17,44 RTSP/1.0\r\nCSeq: 3\r\nSession: %08X\r\n\r\n",
             first_session());
}

/* Who came last leaves: with eight sessions open it had joined. */
static void write_teardown(void)
{
    unsigned last = 0;
    while (last + 1 < PLAIN_SESSIONS && start.box.sessions[last + 1].number != 0)
        last++;
    snprintf(request, sizeof request, "TEARDOWN rtsp://10.0.0.2/stream=%u RTSP/1.0\r\nCSeq: 4\r\nSession: %08X\r\n\r\n",
             (unsigned)start.box.sessions[last].stream, (unsigned)start.box.sessions[last].number);
}

/* The first owner leaves, and who had joined it with it. */
static void write_closing(void)
{
    snprintf(request, sizeof request, "TEARDOWN rtsp://10.0.0.2/stream=1 RTSP/1.0\r\nCSeq: 4\r\nSession: %08X\r\n\r\n", first_session());
}

static void write_bad(void)
{
    snprintf(request, sizeof request, "PLAY rtsp://10.0.0.2/stream=1?freq=11538&pol=v&pids=0,17,44,17,x RTSP/1.0\r\nCSeq: 3\r\n"
                                      "Session: %08X\r\n\r\n", first_session());
}

/* How many attributes or PIDs the next two ask for. */
static unsigned asked;

static void write_attributes(void)
{
    static const char *const attributes[] = {"src=1", "freq=11538", "pol=v", "msys=dvbs2", "mtype=8psk", "plts=on", "ro=0.35", "sr=22000", "fec=56", "pids=17"};
    int at = snprintf(request, sizeof request, "PLAY rtsp://10.0.0.2/stream=1");
    for (unsigned i = 0; i < asked; i++)
        at += snprintf(request + at, sizeof request - (size_t)at, "%c%s", i == 0 ? '?' : '&', attributes[i]);
    snprintf(request + at, sizeof request - (size_t)at, " RTSP/1.0\r\nCSeq: 3\r\nSession: %08X\r\n\r\n", first_session());
}

static void write_pids(void)
{
    int at = snprintf(request, sizeof request, "PLAY rtsp://10.0.0.2/stream=1?pids=");
    for (unsigned i = 0; i < asked; i++)
        at += snprintf(request + at, sizeof request - (size_t)at, "%s%u", i == 0 ? "" : ",", 100 + i);
    snprintf(request + at, sizeof request - (size_t)at, " RTSP/1.0\r\nCSeq: 3\r\nSession: %08X\r\n\r\n", first_session());
}

/* Makes the request this long by headers that nobody knows, in lines of some 80 bytes before its empty line. False where it is longer. */
static bool pad(size_t length)
{
    size_t at = strlen(request) - 2;
    while (at + 2 < length) {
        const size_t left = length - 2 - at, line = left > 90 ? 80 : left;
        if (line < 8)
            return false;
        memset(request + at, 'x', line);
        memcpy(request + at, "X-Y: ", 5);
        memcpy(request + at + line - 2, "\r\n", 2);
        at += line;
    }
    memcpy(request + at, "\r\n", 3);
    return at + 2 == length;
}

/* Makes the call on one side, on the table as it was at the start, and counts it. */

static unsigned long count_archive(const struct bench *b)
{
    struct satbox *box = (struct satbox *)(void *)&archive.box;
    struct satbox_reply reply = {0, 0};
    memcpy(&archive, &start, sizeof archive);
    steps_set_prices(true);
    steps_start();
    if (b->write == NULL)
        reply.refusal = satbox_tick(box, b->clock, archive.journal, sizeof archive.journal);
    else
        reply = satbox_request(box, (const uint8_t *)request, b->length, b->clock, ADDRESS, DRAW, archive.answer, sizeof archive.answer,
                               archive.journal, sizeof archive.journal);
    const unsigned long steps = steps_stop();
    archive.refusal = reply.refusal;
    archive.count = reply.count;
    return steps;
}

static unsigned long count_plain(const struct bench *b)
{
    size_t count = 0;
    int refusal;
    memcpy(&plain, &start, sizeof plain);
    steps_set_prices(false);
    steps_start();
    if (b->write == NULL)
        refusal = plain_tick(&plain.box, b->clock, plain.journal, sizeof plain.journal);
    else
        refusal = plain_request(&plain.box, (const uint8_t *)request, b->length, b->clock, ADDRESS, DRAW, plain.answer, sizeof plain.answer,
                                &count, plain.journal, sizeof plain.journal);
    const unsigned long steps = steps_stop();
    plain.refusal = (uint32_t)refusal;
    plain.count = count;
    return steps;
}

/* What the two did is the same, byte for byte. */
static bool are_alike(void)
{
    return archive.refusal == plain.refusal && archive.count == plain.count && memcmp(&archive.box, &plain.box, sizeof plain.box) == 0
        && memcmp(archive.answer, plain.answer, sizeof plain.answer) == 0 && memcmp(archive.journal, plain.journal, SIZE) == 0;
}

/* Counts a case, the second of two calls each, so that what is done once in a process is not counted, and prints it. */
static bool count_case(const struct bench *b)
{
    open_sessions(b->sessions);
    if (b->write != NULL) {
        b->write();
        if (!pad(b->length)) {
            printf("%s cannot be made %zu bytes long\n", b->name, b->length);
            return false;
        }
    }
    count_archive(b);
    count_plain(b);
    const unsigned long a = count_archive(b), p = count_plain(b);
    printf("%-10s %.3s %8u %6zu %8lu %8lu %6.2f", b->name, b->write == NULL ? "   " : (const char *)archive.answer + 9, b->sessions,
           b->length, a, p, (double)a / (double)p);
    if (b->fast != 0)
        printf(" %8lu %6.2f", b->fast, (double)a / (double)b->fast);
    if (!are_alike())
        printf("  the archive and the plain box differ");
    if (b->bound != 0 && a > b->bound)
        printf("  above its bound of %lu", b->bound);
    printf("\n");
    return are_alike() && (b->bound == 0 || a <= b->bound);
}

/* A bound is some 90 above what was counted: one copy more of the box, which has the price of 103, is too many. */
static const struct bench benches[] = {
    {"OPTIONS", write_options, 0, 150, CLOCK, 2757, 2190},
    {"OPTIONS", write_options, 8, 150, CLOCK, 3602, 3263},
    {"OPTIONS", write_options, 32, 150, CLOCK, 5592, 6703},
    {"SETUP", write_setup, 0, 150, CLOCK, 0, 4375},
    {"SETUP", write_setup, 8, 150, CLOCK, 6197, 5172},
    {"SETUP", write_setup, 32, 150, CLOCK, 0, 0},
    {"PLAY", write_play, 1, 150, CLOCK, 0, 3982},
    {"PLAY", write_play, 8, 150, CLOCK, 5303, 4489},
    {"PLAY", write_play, 32, 150, CLOCK, 0, 7773},
    {"TEARDOWN", write_teardown, 1, 150, CLOCK, 0, 3054},
    {"TEARDOWN", write_teardown, 8, 150, CLOCK, 3970, 3430},
    {"TEARDOWN", write_teardown, 32, 150, CLOCK, 0, 6868},
    {"T. of four", write_closing, 8, 150, CLOCK, 4284, 0},
    {"bad", write_bad, 0, 150, CLOCK, 0, 0},
    {"bad", write_bad, 8, 150, CLOCK, 4241, 0},
    {"OPTIONS", write_options, 0, 600, CLOCK, 0, 4546},
    {"OPTIONS", write_options, 8, 600, CLOCK, 4918, 5614},
    {"SETUP", write_setup, 8, 600, CLOCK, 0, 0},
    {"PLAY", write_play, 8, 600, CLOCK, 0, 0},
    {"OPTIONS", write_options, 0, 2048, CLOCK, 0, 12147},
    {"OPTIONS", write_options, 8, 2048, CLOCK, 8917, 13196},
    {"SETUP", write_setup, 8, 2048, CLOCK, 0, 0},
    {"PLAY", write_play, 8, 2048, CLOCK, 0, 0},
    {"tick", NULL, 0, 0, CLOCK, 1122, 999},
    {"tick", NULL, 8, 0, CLOCK, 1848, 1740},
    {"tick", NULL, 32, 0, CLOCK, 3838, 5024},
    {"tick, all", NULL, 32, 0, CLOCK + PLAIN_TIMEOUT, 6463, 8670}
};

/* Counts a request that asks for some attributes or PIDs, with two sessions open. */
static bool count_asked(const char *name, void (*write)(void), unsigned many)
{
    struct bench b = {name, write, 2, 0, CLOCK, 0, 0};
    asked = many;
    open_sessions(b.sessions);
    write();
    b.length = strlen(request);
    return count_case(&b);
}

static bool count_growth(void)
{
    bool good = true;
    for (size_t length = 150; length <= 1950; length += 600) {
        const struct bench b = {"bytes", write_options, 2, length, CLOCK, 0, 0};
        good = count_case(&b) && good;
    }
    for (unsigned sessions = 0; sessions <= PLAIN_SESSIONS; sessions += 4) {
        const struct bench b = {"sessions", NULL, sessions, 0, CLOCK, 0, 0};
        good = count_case(&b) && good;
    }
    for (unsigned many = 0; many <= 10; many++)
        good = count_asked("attributes", write_attributes, many) && good;
    for (unsigned many = 1; many <= PLAIN_PIDS; many += many < 4 ? 3 : 7)
        good = count_asked("PIDs", write_pids, many) && good;
    return good;
}

int main(int count, char **words)
{
    const bool bounded = count > 1 && strcmp(words[1], "--bounds") == 0, growth = count > 1 && strcmp(words[1], "--growth") == 0;
    bool good = true;
    if (!steps_prepare()) {
        printf("bench: this machine hands on no trap after an instruction: nothing is counted\n");
        return 0;
    }
    printf("%-14s %8s %6s %8s %8s %6s %8s %6s\n", "call", "sessions", "bytes", "archive", "plain", "ratio", "for speed", "ratio");
    if (growth)
        return count_growth() ? 0 : 1;
    for (size_t i = 0; i < sizeof benches / sizeof benches[0]; i++)
        if (!bounded || benches[i].bound != 0)
            good = count_case(&benches[i]) && good;
    return good ? 0 : 1;
}
