/*
 * EDGES.md sections 6 and 7: the clock, the sweep and its closings, session numbers, and a frontend's order.
 */
#include "plain_test.h"

#include <string.h>

/* EDGES 6: sweep, clock, sessions. */

/* 6.1 and 6.2, amended by order 3 of document 02, which plain_test_keep.c goes through. */
static void test_last_time(void)
{
    fresh(2, 1024);
    GIVES(200, raw(example));
    now = 20;
    GIVES(200, in(1, "SETUP", "/stream=1"));
    CHECK(box.sessions[0].last == 20);
    now = 30;
    GIVES(200, in(1, "PLAY", "/stream=1"));
    CHECK(box.sessions[0].last == 30);
    now = 31;
    GIVES(551, ask("OPTIONS rtsp://h/", "Session: 00000001\r\nRequire: x\r\n"));
    GIVES(400, ask("OPTIONS rtsp://h/?pol=h", "Session: 00000001\r\n"));
    GIVES(200, ask("OPTIONS rtsp://h/", ""));
    CHECK(box.sessions[0].last == 30);
    tick(59);
    CHECK(count_open(&box) == 1);
    now = 40;
    GIVES(200, in(1, "OPTIONS", "/"));
    CHECK(box.sessions[0].last == 59 && box.clock == 59);
    tick(118);
    CHECK(count_open(&box) == 1);
    now = 119;
    GIVES(454, in(1, "OPTIONS", "/"));
    CHECK(count_open(&box) == 0 && record_is(1, 3, 2, 1, 1, 1));
}

/* A bad request sweeps and stores the clock; a clock set back changes no age. */
static void test_bad_request_sweeps(void)
{
    fresh(2, 1024);
    GIVES(200, raw(example));
    now = 60;
    SAYS(BAD_UNNUMBERED, raw("junk"));
    CHECK(count_open(&box) == 0 && box.clock == 60 && box.held == 32);
    now = 5;
    GIVES(200, raw(example));
    CHECK(box.sessions[0].last == 60 && box.clock == 60);
    tick(0);
    CHECK(count_open(&box) == 1);
    tick(119);
    CHECK(count_open(&box) == 1);
    tick(UINT32_MAX);
    CHECK(count_open(&box) == 0);
    GIVES(200, raw(example));
    tick(0);
    tick(UINT32_MAX);
    CHECK(count_open(&box) == 1 && box.sessions[0].last == UINT32_MAX);
}

static void put_session(size_t place, uint32_t number, uint32_t last, uint8_t owner)
{
    box.sessions[place] = (struct plain_session){number, 0, last, 5000, 1, owner, 0};
}

/* A stream 1 on frontend 2 at clock 59, to be peopled. */
static void lone_stream(void)
{
    fresh(2, 1024);
    box.clock = 59;
    box.streams[0].frontend = 2;
    box.streams[0].values.src = 1;
}

/* 6.3 to 6.5: the order of closings. */
static void test_order_of_closings(void)
{
    lone_stream();
    put_session(0, 10, 0, 0);
    put_session(1, 11, 0, 1);
    put_session(2, 12, 0, 0);
    put_session(3, 13, 59, 0);
    tick(60);
    CHECK(record_is(0, 3, 2, 10, 1, 2) && record_is(1, 3, 2, 11, 1, 2));
    CHECK(record_is(2, 3, 3, 12, 1, 2) && record_is(3, 3, 3, 13, 1, 2) && box.held == 64);
    lone_stream();
    put_session(0, 10, 59, 0);
    put_session(5, 11, 0, 1);
    put_session(6, 12, 59, 0);
    tick(60);
    CHECK(record_is(0, 3, 2, 11, 1, 2) && record_is(1, 3, 3, 10, 1, 2) && record_is(2, 3, 3, 12, 1, 2));
    CHECK(is_zero(&box, sizeof box.sessions + sizeof box.streams));
    lone_stream();
    put_session(0, 10, 59, 0);
    put_session(5, 11, 59, 1);
    put_session(6, 12, 59, 0);
    now = 59;
    GIVES(200, in(12, "TEARDOWN", "/stream=1"));
    CHECK(record_is(0, 3, 1, 12, 1, 2) && box.held == 16 && count_open(&box) == 2);
    GIVES(200, in(11, "TEARDOWN", "/stream=1"));
    CHECK(record_is(1, 3, 1, 11, 1, 2) && record_is(2, 3, 3, 10, 1, 2) && count_open(&box) == 0);
    lone_stream();
    put_session(0, 10, 0, 0);
    put_session(1, 11, 1, 1);
    tick(60);
    CHECK(record_is(0, 3, 2, 10, 1, 2) && box.held == 16 && count_open(&box) == 1);
}

/* 6.8 to 6.12: numbers, playing, addresses. */
static void test_numbers(void)
{
    fresh(2, 1024);
    draw = 5;
    GIVES(200, raw(example));
    GIVES(200, in(0, "SETUP", "/stream=1"));
    GIVES(200, in(0, "SETUP", "/stream=1"));
    CHECK(box.sessions[0].number == 5 && box.sessions[1].number == 6 && box.sessions[2].number == 7);
    GIVES(200, in(6, "TEARDOWN", "/stream=1"));
    draw = 4;
    GIVES(200, in(0, "SETUP", "/stream=1"));
    CHECK(box.sessions[1].number == 4);
    GIVES(200, in(0, "SETUP", "/stream=1"));
    CHECK(box.sessions[3].number == 6);
    now = 60;
    draw = 5;
    GIVES(200, raw(example));
    CHECK(box.sessions[0].number == 5 && count_open(&box) == 1);
    GIVES(200, in(5, "PLAY", "/stream=1"));
    GIVES(455, in(5, "SETUP", "/stream=1"));
    GIVES(200, in(5, "PLAY", "/stream=1?pol=r"));
    CHECK(box.sessions[0].playing == 1 && box.streams[0].values.pol == 4);
}

static void test_sequence(void)
{
    static const uint8_t last[16] = {0x53, 0x4A, 1, 0, 0, 1, 2, 3, 0xFE, 0xDC, 0xBA, 0x98, 1, 2, 0xFF, 0xFF};
    static const uint8_t first[16] = {0x53, 0x4A, 3, 1, 0, 1, 2, 3, 0xFE, 0xDC, 0xBA, 0x98, 1, 2, 0, 0};
    fresh(2, 1024);
    box.sequence = 65535;
    now = 0x010203;
    draw = 0xFEDCBA98;
    GIVES(200, in(0, "SETUP", "/?fe=2"));
    GIVES(200, in(0xFEDCBA98, "TEARDOWN", "/stream=1"));
    CHECK(memcmp(journal(), last, 16) == 0 && memcmp(journal() + 16, first, 16) == 0);
    CHECK(box.sequence == 1);
}

/* EDGES 7: the frontend order. */

static bool order_is_on(uint32_t frontend)
{
    struct plain_stream order;
    int on;
    check(plain_order(&box, frontend, &order, &on) == 0, "a good order is not refused");
    if (on == 0)
        check(is_zero(&order, sizeof order), "off is all zeros");
    else
        check(memcmp(&order, &box.streams[0], sizeof order) == 0, "on is the stream");
    return on == 1;
}

static void test_order(void)
{
    fresh(2, 1024);
    CHECK(!order_is_on(1) && !order_is_on(2));
    GIVES(200, in(0, "SETUP", "/?freq=11538&pol=v&msys=dvbs2&sr=22000&fec=56&fe=2"));
    CHECK(!order_is_on(1) && !order_is_on(2));
    GIVES(200, in(0, "SETUP", "/stream=1"));
    GIVES(200, in(2, "PLAY", "/stream=1"));
    CHECK(!order_is_on(2));
    GIVES(200, in(1, "PLAY", "/stream=1"));
    CHECK(!order_is_on(1) && order_is_on(2));
    GIVES(200, in(1, "PLAY", "/stream=1?pids=all"));
    CHECK(order_is_on(2));
    GIVES(403, in(1, "PLAY", "/stream=1?fec=910&msys=dvbs"));
    CHECK(order_is_on(2));
    box.clock = 1000;
    CHECK(order_is_on(2));
    for (int missing = 0; missing < 5; missing++) {
        struct plain_values *values = &box.streams[0].values;
        const struct plain_values kept = *values;
        uint32_t *const needed[] = {&values->freq, &values->pol, &values->msys, &values->sr, &values->fec};
        *needed[missing] = 0;
        CHECK(!order_is_on(2));
        *values = kept;
    }
    tick(1000);
    CHECK(!order_is_on(2));
    lone_stream();
    box.streams[0].values = (struct plain_values){1, 1153800, 1, 1, 0, 0, 0, 22000, 1};
    put_session(0, 10, 59, 0);
    put_session(1, 11, 59, 1);
    box.sessions[0].playing = 1;
    CHECK(!order_is_on(2));
    box.sessions[1].playing = 1;
    box.sessions[0].playing = 0;
    CHECK(order_is_on(2));
}

void test_sweep(void)
{
    test_last_time();
    test_bad_request_sweeps();
    test_order_of_closings();
    test_numbers();
    test_sequence();
    test_order();
}
