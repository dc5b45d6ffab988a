/*
 * Order 3 of document 02, EDGES-02.md section 3: a request that passes step 11 and names an open session sets its last
 * time, also if a later step refuses it. Every refusal of every method, with the whole table and journal looked at:
 * those of steps 12 to 17 set the last time of the session that is named and nothing else, those of steps 1 to 11
 * nothing at all; that the sweep goes first; and who lives by it.
 */
#include "plain_test.h"

#include <stdio.h>
#include <string.h>

/* What a request must leave behind: the table and the journal as a tick leaves them, with one last time set. */

static struct plain_box wanted;
static uint8_t wanted_journal[PLAIN_JOURNAL_MOST];

/* The session of a number, which is open. */
static struct plain_session *session_of(struct plain_box *table, uint32_t number)
{
    size_t place = 0;
    while (place < PLAIN_SESSIONS - 1 && table->sessions[place].number != number)
        place++;
    return &table->sessions[place];
}

/* The request to come sweeps and keeps this session, or nobody if it is 0. */
static void want(uint32_t session)
{
    wanted = box;
    memcpy(wanted_journal, journal(), box.settings.size);
    plain_tick(&wanted, now, wanted_journal, box.settings.size);
    if (session != 0)
        session_of(&wanted, session)->last = wanted.clock;
}

static bool as_wanted(void)
{
    return memcmp(&box, &wanted, sizeof box) == 0 && memcmp(journal(), wanted_journal, box.settings.size) == 0;
}

/* The request is answered with the status, and keeps the session, or nobody if it is 0; nothing else is changed. */
#define KEEPS(session, status, call) \
    (want(session), GIVES(status, call), check(as_wanted(), "keeps " #session ": " #call))

/*
 * Stream 1 is owned by 1 and joined by 2, its frontend reaches sources 1 and 2 alone; stream 2 is owned by 3 and joined
 * by 4, which play. Opened from `start` on, each with another last time, and the clock is 10 past it. What comes now
 * comes from another address.
 */
static void scene(uint32_t start)
{
    struct plain_settings settings = all_reaching(3, 1024);
    settings.reach[0] = 3;
    fresh_of(settings);
    now = start;
    in(0, "SETUP", "/?src=1&msys=dvbs&pol=h&pids=0,17");
    now = start + 1;
    in(0, "SETUP", "/stream=1");
    now = start + 2;
    in(0, "SETUP", "/?src=1&freq=11538&pol=v&msys=dvbs2&sr=22000&fec=56");
    in(0, "SETUP", "/stream=2");
    now = start + 4;
    in(3, "PLAY", "/stream=2");
    now = start + 5;
    in(4, "PLAY", "/stream=2");
    tick(start + 10);
    CHECK(count_open(&box) == 4 && box.streams[0].frontend == 1 && box.streams[1].frontend == 2 && box.held == 64);
    CHECK(box.sessions[0].last == start && box.sessions[1].last == start + 1);
    CHECK(box.sessions[2].last == start + 4 && box.sessions[3].last == start + 5);
    address = 0x01020304;
}

/* A request in a session, or without one if it is 0, and its status. */
struct request {
    uint32_t session;
    int status;
    const char *method_uri, *headers;
};

static int send_in(const struct request *request)
{
    char headers[200] = "";
    if (request->session != 0)
        snprintf(headers, sizeof headers, "Session: %08lX\r\n", (unsigned long)request->session);
    strcat(headers, request->headers);
    return ask(request->method_uri, headers);
}

#define PORT_6000 "Transport: RTP/AVP;unicast;client_port=6000-6001\r\n"

/* 3.1: refused in steps 12 to 17, with a session that is open. */
static const struct request later[] = {
    /* step 12 */
    {1, 404, "SETUP rtsp://h/stream=7", PORT_6000},
    {2, 404, "SETUP rtsp://h/stream=3?pol=v", PORT_6000},
    {3, 404, "SETUP rtsp://h/stream=65535", ""},
    {1, 404, "PLAY rtsp://h/stream=7", ""},
    {2, 404, "PLAY rtsp://h/stream=3", ""},
    {3, 404, "PLAY rtsp://h/stream=9?pids=" PIDS_33, ""},
    {1, 404, "TEARDOWN rtsp://h/stream=7", ""},
    {4, 404, "TEARDOWN rtsp://h/stream=8", ""},
    /* step 13: another's stream, which is not kept; no stream; a session that plays; another frontend */
    {1, 455, "SETUP rtsp://h/stream=2", PORT_6000},
    {2, 455, "SETUP rtsp://h/stream=2?pol=h", PORT_6000},
    {1, 455, "PLAY rtsp://h/stream=2", ""},
    {2, 455, "PLAY rtsp://h/stream=2?pids=1", ""},
    {3, 455, "PLAY rtsp://h/stream=1?pol=v", ""},
    {1, 455, "TEARDOWN rtsp://h/stream=2", ""},
    {2, 455, "TEARDOWN rtsp://h/stream=2", ""},
    {4, 455, "TEARDOWN rtsp://h/stream=1", ""},
    {1, 455, "SETUP rtsp://h/?pol=h", PORT_6000},
    {4, 455, "SETUP rtsp://h/?pol=h", PORT_6000},
    {3, 455, "SETUP rtsp://h/stream=2", PORT_6000},
    {4, 455, "SETUP rtsp://h/stream=2", PORT_6000},
    {1, 455, "SETUP rtsp://h/stream=1?fe=3", PORT_6000},
    {1, 455, "PLAY rtsp://h/stream=1?fe=2", ""},
    {2, 455, "PLAY rtsp://h/stream=1?fe=3", ""},
    /* step 14 */
    {2, 403, "SETUP rtsp://h/stream=1?pol=v", PORT_6000},
    {2, 403, "PLAY rtsp://h/stream=1?pids=1", ""},
    {2, 403, "PLAY rtsp://h/stream=1?fe=1", ""},
    {4, 403, "PLAY rtsp://h/stream=2?addpids=1", ""},
    /* step 15 */
    {1, 461, "SETUP rtsp://h/stream=1", ""},
    {2, 461, "SETUP rtsp://h/stream=1", "Transport: RTP/AVP;unicast;client_port=5001-5002\r\n"},
    {1, 461, "SETUP rtsp://h/stream=1?pol=v", "Transport: RTP/AVP;multicast\r\n"},
    /* step 16 */
    {1, 403, "SETUP rtsp://h/stream=1?fec=910", PORT_6000},
    {1, 403, "PLAY rtsp://h/stream=1?mtype=8psk", ""},
    {3, 403, "PLAY rtsp://h/stream=2?msys=dvbs&fec=89&pol=l", ""},
    /* step 17: too many PIDs; a src that is not reached */
    {1, 503, "SETUP rtsp://h/stream=1?pol=v&pids=" PIDS_33, PORT_6000},
    {1, 503, "PLAY rtsp://h/stream=1?addpids=" PIDS_33, ""},
    {3, 503, "PLAY rtsp://h/stream=2?pol=l&pids=" PIDS_33, ""},
    {1, 503, "SETUP rtsp://h/stream=1?pol=v&src=3", PORT_6000},
    {1, 503, "PLAY rtsp://h/stream=1?pol=v&src=4", ""}
};

enum { LATER = sizeof later / sizeof *later };

/* The clocks tried: nobody's age is 60. */
static const uint32_t starts[] = {0, 1000, UINT32_MAX - 59}, clocks[] = {10, 3, 11, 30, 59};

/* Sends the request at each clock; it keeps its session, or nobody. A clock set back (3.4): the stored one is used. */
static void at_each_clock(const struct request *request, bool keeps)
{
    for (size_t i = 0; i < sizeof starts / sizeof *starts; i++)
        for (size_t j = 0; j < sizeof clocks / sizeof *clocks; j++) {
            scene(starts[i]);
            now = starts[i] + clocks[j];
            want(keeps ? request->session : 0);
            HERE;
            check(send_in(request) == request->status, request->method_uri);
            check(as_wanted(), request->method_uri);
        }
}

static void test_refused_later(void)
{
    for (size_t i = 0; i < LATER; i++)
        at_each_clock(&later[i], true);
}

/* 3.1: refused in steps 1 to 10, with a session that is open and named well. */

/* Step 4 and later. */
static const struct request earlier[] = {
    {1, 551, "OPTIONS rtsp://h/", "Require: x\r\n"},
    {1, 551, "SETUP rtsp://h/stream=1", "Require:\r\n" PORT_6000},
    {1, 551, "PLAY rtsp://h/stream=1", "Require: x\r\n"},
    {2, 551, "TEARDOWN rtsp://h/stream=1", "Require: x\r\n"},
    {1, 501, "DESCRIBE rtsp://h/stream=1", ""},
    {1, 501, "play rtsp://h/stream=1", ""},
    {3, 501, "GET_PARAMETER rtsp://h/", ""},
    {1, 414, "OPTIONS rtsp://h" TEN(TEN(TEN("h"))) TEN("h") "/stream=1", ""},
    {1, 414, "PLAY rtsp://h" TEN(TEN(TEN("h"))) TEN("h") "/stream=1", ""},
    {1, 400, "OPTIONS *", ""},
    {1, 400, "PLAY rtsp://h/stream=01", ""},
    {1, 400, "TEARDOWN rtsp://h/stream=0", ""},
    {1, 400, "SETUP rtsp://h_/stream=1", PORT_6000},
    {1, 400, "OPTIONS rtsp://h/?pol=h", ""},
    {1, 400, "OPTIONS rtsp://h/stream=1?pol=h", ""},
    {2, 400, "TEARDOWN rtsp://h/stream=1?pol=h", ""},
    {1, 400, "PLAY rtsp://h/stream=1?", ""},
    {1, 400, "PLAY rtsp://h/stream=1?x=1", ""},
    {1, 400, "PLAY rtsp://h/stream=1?pids=1&addpids=2", ""},
    {1, 400, "SETUP rtsp://h/stream=1?pol=h&pol=v", PORT_6000},
    {1, 400, "SETUP rtsp://h/?addpids=1", PORT_6000},
    {1, 403, "SETUP rtsp://h/stream=1?pol=x", PORT_6000},
    {1, 403, "PLAY rtsp://h/stream=1?src=5", ""},
    {2, 403, "PLAY rtsp://h/stream=1?pids=8192", ""},
    {1, 403, "PLAY rtsp://h/stream=1?fe=4", ""},
    {1, 403, "PLAY rtsp://h/?pol=x", ""},
    {1, 405, "SETUP rtsp://h/", PORT_6000},
    {1, 405, "PLAY rtsp://h/", ""},
    {2, 405, "PLAY rtsp://h/", ""},
    {1, 405, "PLAY rtsp://h/?pol=v", ""},
    {3, 405, "TEARDOWN rtsp://h/", ""}
};

/* Steps 1 to 4: the whole request. */
static const struct {
    int status;
    const char *text;
} unread[] = {
    {400, "OPTIONS rtsp://h/ RTSP/1.0\r\nCSeq: 1\r\n" SESSION},
    {400, "OPTIONS rtsp://h/ RTSP/1.0\r\nCSeq: 1\n" SESSION "\r\n"},
    {400, "PLAY rtsp://h/stream=1 RTSP/1.0\r\nCSeq: 1\r\n" SESSION "X\r\n\r\n"},
    {400, "OPTIONS rtsp://h/ RTSP/1.0\r\nCSeq: 1\r\n" SESSION "X: " TEN(TEN(TEN("xx"))) "\r\n\r\n"},
    {400, "OPTIONS rtsp://h/ RTSP/1.0\r\n" SESSION "\r\n"},
    {400, "PLAY rtsp://h/stream=1 RTSP/1.0\r\nCSeq: 00000000001\r\n" SESSION "\r\n"},
    {400, "PLAY rtsp://h/stream=1 RTSP/1.0\r\nCSeq: 1\r\nCSeq: 1\r\n" SESSION "\r\n"},
    {400, "OPTIONS rtsp://h/\r\nCSeq: 1\r\n" SESSION "\r\n"},
    {400, "PLAY  rtsp://h/stream=1 RTSP/1.0\r\nCSeq: 1\r\n" SESSION "\r\n"},
    {400, "OPTIONS rtsp://h/ RTSP/1.0\r\nCSeq: 1\r\n" SESSION SESSION "\r\n"},
    {400, "SETUP rtsp://h/stream=1 RTSP/1.0\r\nCSeq: 1\r\n" SESSION TRANSPORT TRANSPORT "\r\n"},
    {505, "OPTIONS rtsp://h/ RTSP/1.1\r\nCSeq: 1\r\n" SESSION "\r\n"},
    {505, "PLAY rtsp://h/stream=1 rtsp/1.0\r\nCSeq: 1\r\n" SESSION "\r\n"}
};

static void test_refused_earlier(void)
{
    for (size_t i = 0; i < sizeof earlier / sizeof *earlier; i++)
        at_each_clock(&earlier[i], false);
    for (size_t i = 0; i < sizeof unread / sizeof *unread; i++)
        for (size_t j = 0; j < sizeof clocks / sizeof *clocks; j++) {
            scene(1000);
            now = 1000 + clocks[j];
            KEEPS(0, unread[i].status, raw(unread[i].text));
        }
}

/* Step 11 names nobody, and neither does a request without Session, whatever its status. */
static const struct request nobodys[] = {
    {5, 454, "OPTIONS rtsp://h/", ""},
    {5, 454, "SETUP rtsp://h/stream=1", PORT_6000},
    {0x10000001, 454, "PLAY rtsp://h/stream=1", ""},
    {UINT32_MAX, 454, "TEARDOWN rtsp://h/stream=1", ""},
    {0, 454, "OPTIONS rtsp://h/", "Session: 0000001\r\n"},
    {0, 454, "OPTIONS rtsp://h/", "Session: 000000001\r\n"},
    {0, 454, "OPTIONS rtsp://h/", "Session: 00000000\r\n"},
    {0, 454, "SETUP rtsp://h/stream=1", "Session: 00000001 ;timeout=60\r\n" PORT_6000},
    {0, 454, "PLAY rtsp://h/stream=1", "Session: ;00000001\r\n"},
    {0, 454, "PLAY rtsp://h/stream=1", "Session: 0000000G\r\n"},
    {0, 454, "TEARDOWN rtsp://h/stream=1", "Session:\r\n"},
    {0, 454, "PLAY rtsp://h/stream=1", ""},
    {0, 454, "PLAY rtsp://h/stream=7", ""},
    {0, 454, "TEARDOWN rtsp://h/stream=2", ""},
    {0, 200, "OPTIONS rtsp://h/", ""},
    {0, 200, "OPTIONS rtsp://h/stream=1", "X-Session: 00000001\r\n"},
    {0, 404, "SETUP rtsp://h/stream=7", PORT_6000},
    {0, 403, "SETUP rtsp://h/stream=1?pol=v", PORT_6000},
    {0, 461, "SETUP rtsp://h/stream=1", ""},
    {0, 403, "SETUP rtsp://h/?msys=dvbs&fec=910", PORT_6000},
    {0, 503, "SETUP rtsp://h/?pids=" PIDS_33, PORT_6000},
    {0, 503, "SETUP rtsp://h/?fe=1", PORT_6000}
};

static void test_nobody_named(void)
{
    for (size_t i = 0; i < sizeof nobodys / sizeof *nobodys; i++)
        at_each_clock(&nobodys[i], false);
}

/* An opening sets its own last time, and nobody else's. */
static void test_opening(void)
{
    static const char *const paths[] = {"/?pol=h", "/stream=1", "/stream=2"};
    for (size_t i = 0; i < sizeof paths / sizeof *paths; i++)
        for (size_t j = 0; j < sizeof clocks / sizeof *clocks; j++) {
            scene(1000);
            now = 1000 + clocks[j];
            want(0);
            GIVES(200, in(0, "SETUP", paths[i]));
            CHECK(memcmp(box.sessions, wanted.sessions, 4 * sizeof *box.sessions) == 0);
            CHECK(box.sessions[4].number == 5 && box.sessions[4].last == wanted.clock);
        }
}

/* 3.6: a 200 sets it too, with what the method changes beside it. */

/* The change of a wanted table. */
#define OBEYED(session, change, call) \
    (want(session), (change), GIVES(200, call), check(as_wanted(), "keeps " #session ": " #change ", " #call))

static void test_obeyed(void)
{
    for (size_t i = 0; i < sizeof clocks / sizeof *clocks; i++) {
        scene(1000);
        now = 1000 + clocks[i];
        KEEPS(1, 200, in(1, "OPTIONS", "/"));
        KEEPS(2, 200, in(2, "OPTIONS", "/stream=1"));
        KEEPS(4, 200, in(4, "OPTIONS", "/stream=7"));
        scene(1000);
        now = 1000 + clocks[i];
        OBEYED(1, wanted.sessions[0].port = 6000, ask("SETUP rtsp://h/stream=1", SESSION PORT_6000));
        OBEYED(2, wanted.sessions[1].port = 5000, in(2, "SETUP", "/stream=1"));
        scene(1000);
        now = 1000 + clocks[i];
        OBEYED(1, wanted.streams[0].values.pol = 2, in(1, "SETUP", "/stream=1?pol=v"));
        OBEYED(2, wanted.sessions[1].playing = 1, in(2, "PLAY", "/stream=1"));
        KEEPS(3, 200, in(3, "PLAY", "/stream=2"));
        OBEYED(3, wanted.streams[1].values.pol = 3, in(3, "PLAY", "/stream=2?pol=l"));
        KEEPS(4, 200, in(4, "PLAY", "/stream=2"));
        OBEYED(1, wanted.sessions[0].playing = 1, in(1, "PLAY", "/stream=1"));
    }
}

/* A TEARDOWN closes: of its session there is nothing to see, and nobody else is kept. */
static void test_teardown(void)
{
    for (size_t i = 0; i < sizeof clocks / sizeof *clocks; i++) {
        scene(1000);
        now = 1000 + clocks[i];
        want(0);
        GIVES(200, in(2, "TEARDOWN", "/stream=1"));
        CHECK(is_zero(&box.sessions[1], sizeof box.sessions[1]) && record_is(4, 3, 1, 2, 1, 1) && box.held == 80);
        memset(&wanted.sessions[1], 0, sizeof wanted.sessions[1]);
        CHECK(memcmp(box.sessions, wanted.sessions, sizeof box.sessions) == 0);
        GIVES(200, in(3, "TEARDOWN", "/stream=2"));
        memset(&wanted.sessions[2], 0, 2 * sizeof wanted.sessions[2]);
        CHECK(memcmp(box.sessions, wanted.sessions, sizeof box.sessions) == 0);
    }
}

/* The Session header in each of its forms names the session. */
static void test_forms(void)
{
    static const char *const forms[] = {
        "Session: deadbeef", "Session:DEADBEEF;timeout=60", "session:  DeadBeef  ", "SESSION: DEADBEEF; x;y",
        "Accept: x\r\nSession: dEADbEEF;"
    };
    for (size_t i = 0; i < sizeof forms / sizeof *forms; i++) {
        char request[200];
        fresh(2, 1024);
        draw = 0xDEADBEEF;
        GIVES(200, raw(example));
        now = 30;
        snprintf(request, sizeof request, "%s\r\n", forms[i]);
        KEEPS(0xDEADBEEF, 404, ask("PLAY rtsp://h/stream=2", request));
        CHECK(box.sessions[0].last == 30);
    }
}

/* 3.4: the sweep goes first. */

/* At each age of the one session there is. */
static void test_ages(void)
{
    static const struct request requests[] = {
        {1, 200, "OPTIONS rtsp://h/", ""}, {1, 404, "PLAY rtsp://h/stream=2", ""},
        {1, 404, "TEARDOWN rtsp://h/stream=2", ""}, {1, 455, "SETUP rtsp://h/?pol=h", PORT_6000},
        {1, 461, "SETUP rtsp://h/stream=1", ""}, {1, 403, "PLAY rtsp://h/stream=1?fec=910", ""},
        {1, 503, "PLAY rtsp://h/stream=1?pids=" PIDS_33, ""}
    };
    for (size_t i = 0; i < sizeof requests / sizeof *requests; i++)
        for (uint32_t age = 0; age < 64; age++) {
            fresh(2, 1024);
            GIVES(200, raw(example));
            now = age;
            if (age < 60)
                KEEPS(1, requests[i].status, send_in(&requests[i]));
            else
                KEEPS(0, 454, send_in(&requests[i]));
            CHECK(age < 60 ? box.sessions[0].last == age : count_open(&box) == 0 && record_is(1, 3, 2, 1, 1, 1));
        }
    for (uint32_t age = 58; age < 62; age++)
        for (size_t i = 0; i < 3; i++) {
            fresh(2, 1024);
            GIVES(200, raw(example));
            now = age;
            GIVES(age < 60 ? 200 : 454, in(1, i == 0 ? "SETUP" : i == 1 ? "PLAY" : "TEARDOWN", "/stream=1"));
            CHECK(age < 60 && i < 2 ? box.sessions[0].last == age : record_is(1, 3, age < 60 ? 1 : 2, 1, 1, 1));
        }
}

/* A request closes others and keeps its own session; a session that closes with its owner is not kept. */
static void test_sweep_first(void)
{
    scene(0);
    now = 59;
    KEEPS(2, 403, in(2, "PLAY", "/stream=1?pids=1"));
    KEEPS(4, 404, in(4, "TEARDOWN", "/stream=7"));
    now = 60;
    KEEPS(3, 404, in(3, "PLAY", "/stream=1"));
    CHECK(box.sessions[2].last == 60 && record_is(4, 3, 2, 1, 1, 1) && record_is(5, 3, 3, 2, 1, 1) && box.held == 96);
    KEEPS(0, 454, in(2, "PLAY", "/stream=1"));
    scene(0);
    now = 59;
    KEEPS(2, 461, ask("SETUP rtsp://h/stream=1", "Session: 00000002\r\n"));
    now = 60;
    KEEPS(0, 454, in(2, "PLAY", "/stream=1"));
    CHECK(count_open(&box) == 2 && box.sessions[2].last == 4 && box.sessions[3].last == 5);
}

/* 3.3 and 3.5: only the session named. */

static void test_joiner(void)
{
    fresh(2, 1024);
    GIVES(200, in(0, "SETUP", "/?pol=h"));
    GIVES(200, in(0, "SETUP", "/stream=1"));
    now = 30;
    GIVES(200, in(2, "PLAY", "/stream=1"));
    CHECK(box.sessions[0].last == 0 && box.sessions[1].last == 30);
    now = 59;
    KEEPS(2, 403, in(2, "PLAY", "/stream=1?pol=v"));
    CHECK(count_open(&box) == 2);
    tick(60);
    CHECK(count_open(&box) == 0 && record_is(2, 3, 2, 1, 1, 1) && record_is(3, 3, 3, 2, 1, 1) && box.held == 64);
    fresh(2, 1024);
    GIVES(200, in(0, "SETUP", "/?pol=h"));
    GIVES(200, in(0, "SETUP", "/stream=1"));
    now = 30;
    GIVES(200, in(1, "PLAY", "/stream=1"));
    tick(60);
    CHECK(count_open(&box) == 1 && box.sessions[0].last == 30 && record_is(2, 3, 2, 2, 1, 1) && box.held == 48);
    tick(89);
    CHECK(count_open(&box) == 1);
    tick(90);
    CHECK(count_open(&box) == 0 && record_is(3, 3, 2, 1, 1, 1));
}

static void test_anothers_stream(void)
{
    static const char *const methods[] = {"SETUP", "PLAY", "TEARDOWN"};
    for (size_t i = 0; i < sizeof methods / sizeof *methods; i++) {
        fresh(2, 1024);
        GIVES(200, in(0, "SETUP", "/?pol=h"));
        GIVES(200, in(0, "SETUP", "/?pol=v"));
        now = 30;
        KEEPS(1, 455, in(1, methods[i], "/stream=2"));
        CHECK(box.sessions[0].last == 30 && box.sessions[1].last == 0);
        tick(60);
        CHECK(count_open(&box) == 1 && box.sessions[0].number == 1 && record_is(2, 3, 2, 2, 2, 2));
    }
}

/* Who lives by it. */

/* Ten minutes of one request each 50 seconds beside a set that says nothing; then 59 seconds of silence, and 60. */
static void test_alone(const char *method, const char *path, int status)
{
    fresh(2, 1024);
    GIVES(200, in(0, "SETUP", "/?msys=dvbs"));
    GIVES(200, in(0, "SETUP", "/?msys=dvbs"));
    for (now = 50; now <= 600; now += 50) {
        GIVES(status, in(1, method, path));
        CHECK(box.sessions[0].number == 1 && box.sessions[0].last == now);
        CHECK(count_open(&box) == (now < 60 ? 2 : 1));
    }
    CHECK(box.held == 48 && record_is(2, 3, 2, 2, 2, 2));
    tick(659);
    CHECK(count_open(&box) == 1);
    tick(660);
    CHECK(count_open(&box) == 0 && record_is(3, 3, 2, 1, 1, 1));
}

static void test_sets_that_live(void)
{
    test_alone("PLAY", "/stream=1", 200);
    test_alone("PLAY", "/stream=1?pids=17", 200);
    test_alone("SETUP", "/stream=1", 200);
    test_alone("OPTIONS", "/", 200);
    test_alone("PLAY", "/stream=1?fec=910", 403);
    test_alone("SETUP", "/stream=1?plts=on", 403);
    test_alone("PLAY", "/stream=7", 404);
    test_alone("TEARDOWN", "/stream=8", 404);
    test_alone("SETUP", "/?pol=h", 455);
    test_alone("PLAY", "/stream=1?fe=2", 455);
    test_alone("PLAY", "/stream=1?pids=" PIDS_33, 503);
}

/* The same each second with a request refused earlier: closed at 60. */
static void test_sets_that_die(void)
{
    static const char *const paths[] = {"/", "/stream=01", "/stream=1?pol=x", "/stream=1?x=1"};
    for (size_t i = 0; i < sizeof paths / sizeof *paths; i++) {
        fresh(2, 1024);
        GIVES(200, in(0, "SETUP", "/?msys=dvbs"));
        for (now = 1; now < 60; now++)
            CHECK(in(1, "PLAY", paths[i]) != 200 && box.sessions[0].last == 0);
        GIVES(454, in(1, "PLAY", "/stream=1"));
        CHECK(count_open(&box) == 0 && record_is(1, 3, 2, 1, 1, 1));
    }
}

/* Every refusal of steps 12 to 17, again and again; who joined needs its owner, which says OPTIONS. */
static void test_refused_for_ever(void)
{
    for (size_t i = 0; i < LATER; i++) {
        const uint32_t session = later[i].session, owner = session <= 2 ? 1 : 3;
        scene(0);
        for (now = 50; now <= 400; now += 50) {
            if (session != owner)
                GIVES(200, in(owner, "OPTIONS", "/"));
            HERE;
            check(send_in(&later[i]) >= 400, later[i].method_uri);
            check(session_of(&box, session)->number == session && session_of(&box, session)->last == now,
                  later[i].method_uri);
        }
    }
}

/* 32 sets that only send PLAY, each of them every 48 seconds: nobody is closed in an hour. */
static void test_full_house(void)
{
    fresh(1, 1024);
    GIVES(200, in(0, "SETUP", "/?pol=h"));
    for (uint32_t i = 1; i < PLAIN_SESSIONS; i++)
        GIVES(200, in(0, "SETUP", "/stream=1"));
    for (uint32_t turn = 0; turn < 2400; turn++) {
        now = turn * 3 / 2;
        GIVES(200, in(1 + turn % PLAIN_SESSIONS, "PLAY", "/stream=1"));
        CHECK(count_open(&box) == PLAIN_SESSIONS);
    }
    CHECK(box.held == PLAIN_SESSIONS * PLAIN_RECORD_BYTES);
}

void test_keep(void)
{
    test_refused_later();
    test_refused_earlier();
    test_nobody_named();
    test_opening();
    test_obeyed();
    test_teardown();
    test_forms();
    test_ages();
    test_sweep_first();
    test_joiner();
    test_anothers_stream();
    test_sets_that_live();
    test_sets_that_die();
    test_refused_for_ever();
    test_full_house();
}
