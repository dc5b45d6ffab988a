/*
 * EDGES.md sections 5 and 8: which status a request gets, step by step, what a 200 changes, and the text of
 * every answer.
 */
#include "plain_test.h"

#include <stdio.h>
#include <string.h>

/* EDGES 5: the steps, against each other and one by one. */

static void test_order_of_steps(void)
{
    fresh(2, 1024);
    GIVES(200, raw(example));
    GIVES(403, in(1, "PLAY", "/?pol=x"));
    GIVES(400, in(1, "PLAY", "/?addpids=1"));
    GIVES(405, in(1, "PLAY", "/?pol=h"));
    GIVES(405, in(0, "PLAY", "/"));
    GIVES(400, in(1, "TEARDOWN", "/?x=1"));
    GIVES(400, in(1, "TEARDOWN", "/stream=1?pol=h"));
    GIVES(405, in(1, "TEARDOWN", "/"));
    GIVES(454, in(0, "PLAY", "/stream=7"));
    GIVES(404, in(1, "PLAY", "/stream=7"));
    GIVES(404, in(1, "TEARDOWN", "/stream=7"));
    GIVES(404, in(0, "SETUP", "/stream=7"));
    GIVES(404, in(1, "SETUP", "/stream=7"));
    GIVES(454, in(5, "SETUP", "/stream=7"));
    GIVES(461, ask("SETUP rtsp://h/stream=1", "Session: 00000001\r\n"));
    GIVES(200, in(1, "PLAY", "/stream=1"));
    GIVES(455, ask("SETUP rtsp://h/stream=1", "Session: 00000001\r\n"));
    GIVES(455, in(1, "SETUP", "/stream=1?msys=dvbs&mtype=8psk"));
    GIVES(461, ask("SETUP rtsp://h/?msys=dvbs&mtype=8psk", ""));
    GIVES(403, ask("SETUP rtsp://h/stream=1?pol=h", ""));
    GIVES(405, ask("SETUP rtsp://h/", "Session: junk\r\n"));
    GIVES(400, in(1, "OPTIONS", "/?pol=x"));
    GIVES(501, ask("foo rtsp://h/", "Session: junk\r\n"));
}

/* 5.2 to 5.4: sessions, joiners, fe and queries. */
static void test_joiner(void)
{
    fresh(2, 1024);
    GIVES(200, in(0, "SETUP", "/?pol=h"));
    GIVES(200, in(0, "SETUP", "/stream=1"));
    CHECK(box.sessions[1].number == 2 && box.sessions[1].owner == 0 && box.sessions[1].stream == 1);
    CHECK(record_is(1, 2, 0, 2, 1, 1));
    GIVES(455, in(2, "PLAY", "/stream=1?fe=2"));
    GIVES(403, in(2, "PLAY", "/stream=1?fe=1"));
    GIVES(403, in(2, "PLAY", "/stream=1?pids=1"));
    GIVES(403, in(2, "SETUP", "/stream=1?pol=v"));
    GIVES(403, in(0, "SETUP", "/stream=1?fe=2"));
    GIVES(403, in(0, "SETUP", "/stream=1?fe=1"));
    GIVES(403, in(0, "SETUP", "/stream=1?pol=h"));
    CHECK(box.sessions[1].playing == 0 && box.streams[0].values.pol == 1);
    GIVES(405, in(1, "SETUP", "/"));
    GIVES(455, in(1, "SETUP", "/?pol=h"));
    GIVES(454, in(3, "SETUP", "/?pol=h"));
    GIVES(200, in(0, "SETUP", "/?pol=v"));
    GIVES(455, in(1, "PLAY", "/stream=2"));
    GIVES(455, in(1, "TEARDOWN", "/stream=2"));
    GIVES(455, in(1, "SETUP", "/stream=2"));
    GIVES(455, in(1, "PLAY", "/stream=2?pol=l"));
    GIVES(200, in(2, "PLAY", "/stream=1"));
    CHECK(box.sessions[1].playing == 1 && box.sessions[0].playing == 0);
    CHECK(box.held == 48);
}

static int ask_session(const char *method_uri, const char *session)
{
    char headers[128];
    snprintf(headers, sizeof headers, "Session:%s\r\n" TRANSPORT, session);
    return ask(method_uri, headers);
}

/* 5.5 to 5.8: the Session header. */
static void test_session_header(void)
{
    static const char *const bad[] = {
        "", " ", " ;timeout=60", " 00000001 ;timeout=60", " 1", " 0000001", " 000000001", " 00000000",
        " 0000000g", " 00000002", " x0000001", " 0x000001", " 00000001,", " 0000 001", " +0000001"
    };
    fresh(2, 1024);
    GIVES(200, raw(example));
    for (size_t i = 0; i < sizeof bad / sizeof *bad; i++) {
        GIVES(454, ask_session("OPTIONS rtsp://h/", bad[i]));
        GIVES(454, ask_session("SETUP rtsp://h/?pol=h", bad[i]));
        GIVES(454, ask_session("SETUP rtsp://h/stream=1", bad[i]));
        GIVES(454, ask_session("PLAY rtsp://h/stream=1", bad[i]));
        GIVES(454, ask_session("TEARDOWN rtsp://h/stream=1", bad[i]));
    }
    GIVES(200, ask_session("PLAY rtsp://h/stream=1", " 00000001;timeout=60"));
    GIVES(200, ask_session("PLAY rtsp://h/stream=1", "00000001;"));
    GIVES(200, ask_session("PLAY rtsp://h/stream=1", "  00000001; x;y  "));
    GIVES(200, ask_session("PLAY rtsp://h/stream=1", " 00000001  "));
    fresh(2, 1024);
    draw = 0xDEADBEEF;
    GIVES(200, raw(example));
    GIVES(200, ask_session("PLAY rtsp://h/stream=1", " DEADBEEF"));
    GIVES(200, ask_session("PLAY rtsp://h/stream=1", " deadbeef"));
    GIVES(200, ask_session("PLAY rtsp://h/stream=1", " dEaDbEeF"));
    GIVES(454, ask_session("PLAY rtsp://h/stream=1", " DEADBEEG"));
    GIVES(200, ask_session("OPTIONS rtsp://h/stream=3", " DEADBEEF"));
}

static int ask_transport(const char *value)
{
    char headers[128];
    snprintf(headers, sizeof headers, "Transport: %s\r\n", value);
    fresh(2, 1024);
    return ask("SETUP rtsp://h/?pol=h", headers);
}

/* 5.9: "exactly" in step 15. */
static void test_transport(void)
{
    static const char *const bad[] = {
        "", "RTP/AVP", "RTP/AVP;unicast", "RTP/AVP;unicast;client_port=", "RTP/AVP;unicast;client_port=5000",
        "RTP/AVP;unicast;client_port=5000-", "RTP/AVP;unicast;client_port=-5001",
        "RTP/AVP;unicast;client_port=5000-5001;", "RTP/AVP;unicast;client_port=5000-5001;x",
        "RTP/AVP; unicast;client_port=5000-5001", "RTP/AVP;unicast;client_port= 5000-5001",
        "RTP/AVP;unicast;client_port=5000 -5001", "RTP/AVP;unicast;client_port=5000- 5001",
        "rtp/avp;unicast;client_port=5000-5001", "RTP/AVP;Unicast;client_port=5000-5001",
        "RTP/AVP;unicast;CLIENT_PORT=5000-5001", "RTP/AVP;multicast;client_port=5000-5001",
        "RTP/AVP;unicast;client_port=05000-5001", "RTP/AVP;unicast;client_port=5000-05001",
        "RTP/AVP;unicast;client_port=5000-5000", "RTP/AVP;unicast;client_port=5000-5002",
        "RTP/AVP;unicast;client_port=5001-5002", "RTP/AVP;unicast;client_port=1022-1023",
        "RTP/AVP;unicast;client_port=65535-65536", "RTP/AVP;unicast;client_port=65536-65537",
        "RTP/AVP;unicast;client_port=5000-5001-5002", "RTP/AVP;unicast;client_port=4294968320-4294968321",
        "RTP/AVP/UDP;unicast;client_port=5000-5001", "RTP/AVP;client_port=5000-5001;unicast",
        "RTP/AVP;unicast;client_port=0-1", "RTP/AVP;unicast;client_port=5000-1"
    };
    for (size_t i = 0; i < sizeof bad / sizeof *bad; i++)
        SAYS("RTSP/1.0 461 Unsupported Transport\r\nCSeq: 1\r\n\r\n", ask_transport(bad[i]));
    GIVES(461, ask("SETUP rtsp://h/?pol=h", ""));
    GIVES(200, ask_transport("  RTP/AVP;unicast;client_port=1024-1025  "));
    CHECK(box.sessions[0].port == 1024);
    GIVES(200, ask_transport("RTP/AVP;unicast;client_port=65534-65535"));
    CHECK(box.sessions[0].port == 65534);
    GIVES(461, ask("SETUP rtsp://h/stream=1", ""));
    GIVES(461, ask("SETUP rtsp://h/stream=1", "Session: 00000001\r\nTransport: RTP/AVP\r\n"));
    GIVES(200, ask("PLAY rtsp://h/stream=1", "Session: 00000001\r\nTransport: junk\r\n"));
    GIVES(200, ask("OPTIONS rtsp://h/", "Transport: junk\r\n"));
    GIVES(200, ask("TEARDOWN rtsp://h/stream=1", "Session: 00000001\r\nTransport: junk\r\n"));
}

/* Every port from below the range to above it. */
static void test_every_port(void)
{
    for (unsigned port = 1000; port < 66000; port += port < 1100 || port > 65500 ? 1 : 101) {
        bool good = port % 2 == 0 && port >= 1024 && port <= 65534;
        char value[64];
        snprintf(value, sizeof value, "RTP/AVP;unicast;client_port=%u-%u", port, port + 1);
        GIVES(good ? 200 : 461, ask_transport(value));
        CHECK(box.sessions[0].port == (good ? port : 0));
    }
}

/*
 * 5.10: a SETUP in a session that fails keeps the port; one that passes replaces only the port and merges. Both set the
 * last time.
 */
static void test_setup_in_session(void)
{
    static const char port[] = "Session: 00000001\r\nTransport: RTP/AVP;unicast;client_port=6000-6001\r\n";
    char uri[1024] = "SETUP rtsp://h/stream=1?addpids=";
    struct plain_session before;
    append_list(uri, sizeof uri, 0, 33);
    fresh(2, 1024);
    GIVES(200, in(0, "SETUP", "/?pol=h&mtype=8psk"));
    before = box.sessions[0];
    now = 10;
    address = 0x01020304;
    draw = 77;
    before.last = 10;
    GIVES(403, ask("SETUP rtsp://h/stream=1?msys=dvbs&pol=v", port));
    GIVES(503, ask(uri, port));
    strcat(uri, "&msys=dvbs");
    GIVES(403, ask(uri, port));
    CHECK(memcmp(&before, &box.sessions[0], sizeof before) == 0);
    CHECK(box.streams[0].values.pol == 1 && box.streams[0].count == 0);
    SAYS("RTSP/1.0 200 OK\r\nCSeq: 1\r\nSession: 00000001;timeout=60\r\n"
         "Transport: RTP/AVP;unicast;destination=192.168.178.39;client_port=6000-6001\r\n"
         "com.ses.streamID: 1\r\n\r\n", ask("SETUP rtsp://h/stream=1?pol=v&fe=1&addpids=4", port));
    before.port = 6000;
    CHECK(memcmp(&before, &box.sessions[0], sizeof before) == 0);
    CHECK(box.streams[0].values.pol == 2 && box.streams[0].values.mtype == 2 && box.streams[0].count == 1);
    CHECK(box.held == 16 && count_open(&box) == 1);
}

/* 5.11 and 5.13: what the sweep frees is usable at once; a join needs no frontend. */
static void test_opening(void)
{
    fresh(1, 1024);
    GIVES(200, raw(example));
    GIVES(503, raw(example));
    GIVES(503, in(0, "SETUP", "/?fe=1"));
    GIVES(200, in(0, "SETUP", "/stream=1"));
    now = 60;
    GIVES(200, raw(example));
    CHECK(box.sessions[0].number == 1 && count_open(&box) == 1 && box.held == 16 * 5);
    CHECK(record_is(2, 3, 2, 1, 1, 1) && record_is(3, 3, 3, 2, 1, 1) && record_is(4, 1, 0, 1, 1, 1));
    fresh(8, 65536);
    for (size_t i = 0; i < 8; i++) {
        GIVES(200, raw(example));
        CHECK(box.streams[i].frontend == i + 1 && box.sessions[i].stream == i + 1);
    }
    GIVES(503, raw(example));
    GIVES(200, in(3, "TEARDOWN", "/stream=3"));
    GIVES(200, in(6, "TEARDOWN", "/stream=6"));
    GIVES(200, in(0, "SETUP", "/?fe=6"));
    CHECK(box.streams[2].frontend == 6 && box.sessions[2].stream == 3 && box.sessions[2].number == 3);
    GIVES(200, raw(example));
    CHECK(box.streams[5].frontend == 3 && box.sessions[5].stream == 6 && box.sessions[5].number == 6);
}

/* 5.12: 32 openings at once just fit C = 1,024, and then there is no place. */
static void test_full_house(void)
{
    fresh(2, 1024);
    GIVES(200, raw(example));
    for (int i = 1; i < 32; i++)
        GIVES(200, in(0, "SETUP", "/stream=1"));
    CHECK(box.held == 512 && count_open(&box) == 32);
    GIVES(503, in(0, "SETUP", "/stream=1"));
    GIVES(503, in(0, "SETUP", "/?pol=h"));
    GIVES(200, in(32, "TEARDOWN", "/stream=1"));
    GIVES(503, in(0, "SETUP", "/stream=1"));
    CHECK(box.held == 528 && count_open(&box) == 31);
    tick(60);
    CHECK(box.held == 1024 && count_open(&box) == 0);
    for (size_t i = 0; i < 31; i++)
        CHECK(record_is(33 + i, 3, i == 0 ? 2 : 3, (uint32_t)i + 1, 1, 1));
}

/* Step 18's parts apart: no place though there is room, and no room though there is a place. */
static void test_place_and_room(void)
{
    fresh(2, 65536);
    GIVES(200, raw(example));
    for (int i = 1; i < 32; i++)
        GIVES(200, in(0, "SETUP", "/stream=1"));
    GIVES(503, in(0, "SETUP", "/stream=1"));
    GIVES(503, in(0, "SETUP", "/?pol=h"));
    GIVES(200, in(7, "TEARDOWN", "/stream=1"));
    GIVES(200, in(0, "SETUP", "/?pol=h"));
    CHECK(box.sessions[6].number == 7 && box.sessions[6].stream == 2 && box.streams[1].frontend == 2);
    fresh(2, 1024);
    box.held = 1024 - 32;
    GIVES(200, raw(example));
    CHECK(box.held == 1024 - 16);
    GIVES(503, raw(example));
    fresh(2, 1024);
    box.held = 1024 - 16;
    GIVES(503, raw(example));
}

void test_steps(void)
{
    test_order_of_steps();
    test_joiner();
    test_session_header();
    test_transport();
    test_every_port();
    test_setup_in_session();
    test_opening();
    test_full_house();
    test_place_and_room();
}

/* EDGES 8: the answer texts of every status. */

static void test_success_texts(void)
{
    fresh(2, 1024);
    draw = 0xABCDEF01;
    address = 0x000AFF63;
    SAYS("RTSP/1.0 200 OK\r\nCSeq: 1\r\nSession: ABCDEF01;timeout=60\r\n"
         "Transport: RTP/AVP;unicast;destination=0.10.255.99;client_port=5000-5001\r\n"
         "com.ses.streamID: 1\r\n\r\n", in(0, "SETUP", "/?pol=h"));
    SAYS("RTSP/1.0 200 OK\r\nCSeq: 1\r\nSession: ABCDEF02;timeout=60\r\n"
         "Transport: RTP/AVP;unicast;destination=0.10.255.99;client_port=5000-5001\r\n"
         "com.ses.streamID: 1\r\n\r\n", in(0, "SETUP", "/stream=1"));
    SAYS("RTSP/1.0 200 OK\r\nCSeq: 1\r\nSession: ABCDEF01\r\n"
         "RTP-Info: url=rtsp://MyHost.lan/stream=1\r\n\r\n",
         ask("PLAY rtsp://MyHost.lan:00554/stream=1", "Session: abcdef01;x\r\n"));
    SAYS("RTSP/1.0 200 OK\r\nCSeq: 1\r\nSession: ABCDEF01\r\n"
         "Public: OPTIONS, SETUP, PLAY, TEARDOWN\r\n\r\n",
         ask("OPTIONS rtsp://h/", "Session: abcdef01\r\n"));
    SAYS("RTSP/1.0 200 OK\r\nCSeq: 1\r\nPublic: OPTIONS, SETUP, PLAY, TEARDOWN\r\n\r\n",
         ask("OPTIONS rtsp://h/", ""));
    SAYS("RTSP/1.0 200 OK\r\nCSeq: 1\r\nSession: ABCDEF02\r\n\r\n",
         ask("TEARDOWN rtsp://h/stream=1", "Session: abcdef02\r\n"));
    SAYS("RTSP/1.0 200 OK\r\nCSeq: 1\r\nSession: ABCDEF01\r\n\r\n",
         ask("TEARDOWN rtsp://h/stream=1", "Session: abcdef01\r\n"));
}

static void test_failure_texts(void)
{
    fresh(1, 1024);
    GIVES(200, raw(example));
    SAYS(BAD, ask("OPTIONS *", ""));
    SAYS("RTSP/1.0 403 Forbidden\r\nCSeq: 1\r\n\r\n", in(0, "SETUP", "/?pol=x"));
    SAYS("RTSP/1.0 404 Not Found\r\nCSeq: 1\r\n\r\n", in(0, "SETUP", "/stream=2"));
    SAYS("RTSP/1.0 405 Method Not Allowed\r\nCSeq: 1\r\nAllow: OPTIONS\r\n\r\n", in(0, "SETUP", "/"));
    SAYS("RTSP/1.0 414 Request-URI Too Long\r\nCSeq: 1\r\n\r\n", ask_uri_length(1025));
    SAYS("RTSP/1.0 454 Session Not Found\r\nCSeq: 1\r\n\r\n", in(0, "PLAY", "/stream=1"));
    SAYS("RTSP/1.0 455 Method Not Valid in This State\r\nCSeq: 1\r\n\r\n", in(1, "SETUP", "/?pol=h"));
    SAYS("RTSP/1.0 461 Unsupported Transport\r\nCSeq: 1\r\n\r\n", ask("SETUP rtsp://h/?pol=h", ""));
    SAYS("RTSP/1.0 501 Not Implemented\r\nCSeq: 1\r\nPublic: OPTIONS, SETUP, PLAY, TEARDOWN\r\n\r\n",
         ask("PAUSE rtsp://h/stream=1", ""));
    SAYS("RTSP/1.0 503 Service Unavailable\r\nCSeq: 1\r\n\r\n", in(0, "SETUP", "/?pol=h"));
    SAYS("RTSP/1.0 505 RTSP Version Not Supported\r\nCSeq: 01\r\n\r\n",
         raw("OPTIONS rtsp://h/ RTSP/2.0\r\nCSeq: 01\r\n\r\n"));
    SAYS("RTSP/1.0 551 Option Not Supported\r\nCSeq: 1\r\nUnsupported: specific-feature\r\n\r\n",
         ask("PLAY rtsp://h/stream=1", "Require: specific-feature\r\n"));
}

void test_texts(void)
{
    test_success_texts();
    test_failure_texts();
}
