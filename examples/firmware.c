/*
 * A firmware's use of the box, without sockets: an evening of a few requests, at given times, and then a box whose second frontend sees two
 * of the four sources. It prints each answer, what the first frontend is then to be set to, and the journal's records.
 * examples/build-firmware compiles it, links the archive and runs it.
 */
#include "satbox.h"

#include <stdio.h>
#include <string.h>

#define JOURNAL 1024u
#define TWO_SOURCES (SATBOX_REACH(1) | SATBOX_REACH(2))

/* Every frontend reaches every source; and not every one does. What the hardware has is written down once, here. */
static const struct satbox_settings all_seen = { .size = JOURNAL, .frontends = 2, .reach = { SATBOX_REACH_ALL, SATBOX_REACH_ALL } };
static const struct satbox_settings some_seen = { .size = JOURNAL, .frontends = 2, .reach = { SATBOX_REACH_ALL, TWO_SOURCES } };

/* A firmware keeps these, and lends them to each call. */
static struct satbox box;
static uint8_t journal[JOURNAL];
static uint8_t answer[SATBOX_ANSWER_MIN];
static uint8_t collected[JOURNAL];

/* Text with CR LF at each line's end, as text with LF. */
static void print_text(const char *mark, const uint8_t *text, size_t length)
{
    size_t i;
    int starts = 1;

    for (i = 0; i < length; i++) {
        if (starts && text[i] == '\r')
            fputs(mark, stdout);
        else if (starts)
            printf("%s ", mark);
        starts = text[i] == '\n';
        if (text[i] != '\r')
            putchar(text[i]);
    }
}

static void print_order(uint32_t frontend)
{
    const struct satbox_ordered o = satbox_order(&box, frontend);
    uint16_t i;

    if (o.refusal != SATBOX_DONE) {
        printf("frontend %u: refused, %u\n", (unsigned)frontend, (unsigned)o.refusal);
        return;
    }
    if (o.on == 0) {
        printf("frontend %u: off\n", (unsigned)frontend);
        return;
    }
    printf("frontend %u: freq %u.%02u MHz, pol %u, msys %u, sr %u, fec %u, pids", (unsigned)frontend, (unsigned)(o.stream.freq / 100u),
           (unsigned)(o.stream.freq % 100u), (unsigned)o.stream.pol, (unsigned)o.stream.msys, (unsigned)o.stream.sr, (unsigned)o.stream.fec);
    if (o.stream.all != 0)
        fputs(" all", stdout);
    for (i = 0; i < o.stream.count; i++)
        printf(" %u", (unsigned)o.stream.pids[i]);
    putchar('\n');
}

static void print_records(const uint8_t *bytes, size_t length)
{
    size_t place;

    for (place = 0; place < length / SATBOX_RECORD; place++) {
        const struct satbox_found f = satbox_read_record(bytes, length, place);

        if (f.refusal != SATBOX_DONE)
            printf("record %u: refused, %u\n", (unsigned)place, (unsigned)f.refusal);
        else
            printf("record %u: kind %u, cause %u, clock %u, session %08X, stream %u, frontend %u, sequence %u\n", (unsigned)place,
                   (unsigned)f.entry.kind, (unsigned)f.entry.cause, (unsigned)f.entry.clock, (unsigned)f.entry.session,
                   (unsigned)f.entry.stream, (unsigned)f.entry.frontend, (unsigned)f.entry.sequence);
    }
}

/* One request of the client 192.168.178.39. A firmware takes the draw from its source of random numbers. */
static void ask(uint32_t clock, uint32_t draw, const char *request)
{
    struct satbox_reply r;

    printf("-- at %u s\n", (unsigned)clock);
    print_text(">", (const uint8_t *)request, strlen(request));
    r = satbox_request(&box, (const uint8_t *)request, strlen(request), clock, 0xC0A8B227u, draw, answer, sizeof answer, journal,
                       sizeof journal);
    if (r.refusal != SATBOX_DONE)
        printf("refused, %u\n", (unsigned)r.refusal);
    print_text("<", answer, r.count);
    print_order(1);
}

static void tick(uint32_t clock)
{
    const uint32_t refusal = satbox_tick(&box, clock, journal, sizeof journal);

    printf("-- at %u s: tick, refusal %u, %u bytes held\n", (unsigned)clock, (unsigned)refusal, (unsigned)box.held);
    print_order(1);
}

static void evening(void)
{
    printf("make: refusal %u\n", (unsigned)satbox_make(&box, all_seen));
    ask(0, 0x2A5F00C1u,
        "SETUP rtsp://10.0.0.5/?freq=11538&pol=v&msys=dvbs&sr=22000&fec=56&pids=0,611 RTSP/1.0\r\n"
        "CSeq: 1\r\nTransport: RTP/AVP;unicast;client_port=5000-5001\r\n\r\n");
    ask(1, 0x00000000u, "PLAY rtsp://10.0.0.5/stream=1 RTSP/1.0\r\nCSeq: 2\r\nSession: 2A5F00C1\r\n\r\n");
    ask(5, 0x93D4417Eu,
        "SETUP rtsp://10.0.0.5/stream=1 RTSP/1.0\r\nCSeq: 1\r\nTransport: RTP/AVP;unicast;client_port=6000-6001\r\n\r\n");
    /* a joiner cannot retune the owner's picture */
    ask(6, 0x00000000u, "PLAY rtsp://10.0.0.5/stream=1?pids=100 RTSP/1.0\r\nCSeq: 2\r\nSession: 93D4417E\r\n\r\n");
    /* the owner changes the channel: no record */
    ask(20, 0x00000000u, "PLAY rtsp://10.0.0.5/stream=1?freq=12187.5&pol=h&pids=0,17,120 RTSP/1.0\r\nCSeq: 3\r\nSession: 2A5F00C1\r\n\r\n");
    /* OPTIONS keeps the owner's session alive */
    ask(50, 0x00000000u, "OPTIONS rtsp://10.0.0.5/ RTSP/1.0\r\nCSeq: 4\r\nSession: 2A5F00C1\r\n\r\n");
    tick(65);
    /* 60 seconds after its last time, that of the PLAY that was refused, the joiner is closed */
    tick(66);
    ask(70, 0x00000000u, "PLAY rtsp://10.0.0.5/stream=1 RTSP/1.0\r\nCSeq: 3\r\nSession: 93D4417E\r\n\r\n");
    /* a clock set back changes nothing */
    tick(10);
    tick(110);
}

/* A new stream takes the frontend that sees the fewest sources, its own among them, and stays there. */
static void two_dishes(void)
{
    printf("make: refusal %u\n", (unsigned)satbox_make(&box, some_seen));
    ask(0, 0x51B6E02Du,
        "SETUP rtsp://10.0.0.5/?src=2&freq=11538&pol=v&msys=dvbs&sr=22000&fec=56&pids=0,611 RTSP/1.0\r\n"
        "CSeq: 1\r\nTransport: RTP/AVP;unicast;client_port=5000-5001\r\n\r\n");
    ask(1, 0x00000000u, "PLAY rtsp://10.0.0.5/stream=1?src=3 RTSP/1.0\r\nCSeq: 2\r\nSession: 51B6E02D\r\n\r\n");
    ask(2, 0x00000000u, "PLAY rtsp://10.0.0.5/stream=1?src=1 RTSP/1.0\r\nCSeq: 3\r\nSession: 51B6E02D\r\n\r\n");
    print_order(2);
}

static void collect(void)
{
    const struct satbox_reply r = satbox_collect(&box, journal, sizeof journal, collected, sizeof collected);

    printf("collect: refusal %u, %u bytes, then %u held\n", (unsigned)r.refusal, (unsigned)r.count, (unsigned)box.held);
    print_records(collected, r.count);
}

int main(void)
{
    if (satbox_version() != SATBOX_VERSION) {
        fputs("the archive is not that of satbox.h\n", stderr);
        return 1;
    }
    evening();
    collect();
    /* a journal of another length is refused, and nothing changes */
    printf("tick with a short journal: refusal %u\n", (unsigned)satbox_tick(&box, 200u, journal, sizeof journal - SATBOX_RECORD));
    two_dishes();
    collect();
    return 0;
}
