/*
 * Document 01's example and its cases P1 to P11.
 */
#include "plain_test.h"

#include <string.h>

const char example[] =
    "SETUP rtsp://10.0.0.5/?freq=11538&pol=v&msys=dvbs&sr=22000&fec=56&pids=0,611 RTSP/1.0\r\n"
    "CSeq: 1\r\n"
    "Transport: RTP/AVP;unicast;client_port=5000-5001\r\n"
    "\r\n";

static void test_example(void)
{
    static const uint8_t p11[16] = {0x53, 0x4A, 1, 0, 0, 0, 0, 0, 0, 0, 0, 1, 1, 1, 0, 0};
    static const struct plain_session session = {1, 0xC0A8B227, 0, 5000, 1, 1, 0};
    static const struct plain_values values = {1, 1153800, 2, 1, 0, 0, 0, 22000, 4};
    static const uint16_t pids[] = {0, 611};
    fresh(2, 1024);
    SAYS("RTSP/1.0 200 OK\r\nCSeq: 1\r\nSession: 00000001;timeout=60\r\n"
         "Transport: RTP/AVP;unicast;destination=192.168.178.39;client_port=5000-5001\r\n"
         "com.ses.streamID: 1\r\n\r\n", raw(example));
    CHECK(memcmp(journal(), p11, sizeof p11) == 0);
    CHECK(box.held == 16 && box.sequence == 1 && box.clock == 0);
    CHECK(memcmp(&box.sessions[0], &session, sizeof session) == 0);
    CHECK(memcmp(&box.streams[0].values, &values, sizeof values) == 0);
    CHECK(pids_are(0, pids, 2) && box.streams[0].frontend == 1);
    CHECK(is_zero(&box.sessions[1], sizeof box.sessions - sizeof box.sessions[0]));
    CHECK(is_zero(&box.streams[1], sizeof box.streams - sizeof box.streams[0]));
}

static void test_p1_p2(void)
{
    fresh(2, 1024);
    SAYS(BAD_UNNUMBERED, raw(""));
    CHECK(plain_request(&box, NULL, 0, 0, 0, 0, answer, sizeof answer, &answer_count, journal(), 1024) == 0);
    CHECK(answer_is(BAD_UNNUMBERED));
    GIVES(200, raw(example));
    tick(59);
    CHECK(count_open(&box) == 1);
    tick(60);
    CHECK(count_open(&box) == 0 && record_is(1, 3, 2, 1, 1, 1));
    CHECK(is_zero(box.sessions, sizeof box.sessions) && is_zero(box.streams, sizeof box.streams));
}

static void test_p3_p4(void)
{
    fresh(8, 1024);
    draw = 0;
    GIVES(200, raw(example));
    CHECK(box.sessions[0].number == 1);
    fresh(8, 1024);
    draw = UINT32_MAX;
    GIVES(200, raw(example));
    CHECK(box.sessions[0].number == UINT32_MAX);
    GIVES(200, raw(example));
    CHECK(box.sessions[1].number == 1);
    GIVES(200, raw(example));
    CHECK(box.sessions[2].number == 2);
    draw = UINT32_MAX - 1;
    GIVES(200, raw(example));
    CHECK(box.sessions[3].number == UINT32_MAX - 1);
    GIVES(200, raw(example));
    CHECK(box.sessions[4].number == 3);
}

static void test_p5(void)
{
    struct plain_box before;
    fresh(2, 1024);
    GIVES(200, in(0, "SETUP", "/?msys=dvbs2&mtype=8psk"));
    GIVES(200, in(1, "PLAY", "/stream=1"));
    before = box;
    GIVES(403, in(1, "PLAY", "/stream=1?msys=dvbs"));
    CHECK(memcmp(&box, &before, sizeof box) == 0);
}

static void test_p6(void)
{
    char query[512] = "pids=";
    append_list(query, sizeof query, 100, 33);
    GIVES(503, try_query(query));
    CHECK(count_open(&box) == 0 && box.held == 0);
    strcpy(query, "pids=");
    append_list(query, sizeof query, 100, 32);
    GIVES(200, try_query(query));
    strcat(query, ",100");
    GIVES(200, try_query(query));
    CHECK(box.streams[0].count == 32 && box.streams[0].pids[0] == 100 && box.streams[0].pids[31] == 131);
}

static void test_p7_p8(void)
{
    GIVES(200, try_query("pids=8191"));
    GIVES(403, try_query("pids=8192"));
    GIVES(200, try_query("freq=12750"));
    CHECK(box.streams[0].values.freq == 1275000);
    GIVES(403, try_query("freq=12750.01"));
}

static void test_p9(void)
{
    fresh(2, 1024);
    for (draw = 1; draw <= 32; draw++) {
        GIVES(200, raw(example));
        GIVES(200, in(draw, "TEARDOWN", "/stream=1"));
    }
    CHECK(box.held == 1024 && count_open(&box) == 0);
    GIVES(503, raw(example));
    GIVES(200, ask("OPTIONS rtsp://h/", ""));
}

static void test_p10(void)
{
    fresh(2, 1024);
    GIVES(461, ask("SETUP rtsp://h/?pol=h", "Transport: RTP/AVP;unicast;client_port=5001-5002\r\n"));
}

void test_paper(void)
{
    test_example();
    test_p1_p2();
    test_p3_p4();
    test_p5();
    test_p6();
    test_p7_p8();
    test_p9();
    test_p10();
}
