/*
 * Order 1 of document 02, EDGES-02.md section 1: frontends that do not reach every source. How a box with sets is
 * made, which frontend a new stream takes, and what is refused because a frontend does not reach a src. Which sets
 * are well formed is in plain_test_table.c.
 */
#include "plain_test.h"

#include <string.h>

/* The set of one source, and of all. */
enum { S1 = 1, S2 = 2, S3 = 4, S4 = 8, ALL = PLAIN_REACH_ALL };

/* A fresh box with C = 1,024 and one frontend for each of these sets. */
#define REACHING(...) reaching(sizeof((const uint8_t[]){__VA_ARGS__}), (const uint8_t[]){__VA_ARGS__})

static void reaching(size_t frontends, const uint8_t *sets)
{
    struct plain_settings settings = {.size = 1024, .frontends = (uint16_t)frontends};
    memcpy(settings.reach, sets, frontends);
    fresh_of(settings);
}

static struct plain_box before;

/* The request is answered with the status, and every byte of the table stays. */
#define STAYS(status, call) \
    (before = box, GIVES(status, call), check(memcmp(&box, &before, sizeof box) == 0, "stays: " #call))

/* Refusal 6 for a set up to F that is empty or has a source beyond 4 (1.8, 1.9), and then the box stays. */
static void test_making_refused(void)
{
    struct plain_box made, filled_box;
    memset(&filled_box, FILL, sizeof filled_box);
    for (uint16_t frontends = 1; frontends <= PLAIN_FRONTENDS; frontends++)
        for (size_t place = 0; place < PLAIN_FRONTENDS; place++)
            for (unsigned set = 0; set < 256; set++) {
                struct plain_settings settings = all_reaching(frontends, 1024);
                bool good = place >= frontends || (set >= 1 && set <= 15);
                settings.reach[place] = (uint8_t)set;
                made = filled_box;
                CHECK(plain_make(&made, settings) == (good ? 0 : 6));
                CHECK(good || memcmp(&made, &filled_box, sizeof made) == 0);
            }
}

/* 1.8: what is given above F and in spare is ignored, and the box has zeros there. */
static void test_made_sets(void)
{
    struct plain_settings settings = {.size = 1040, .frontends = 3, .spare = 0xFFFF};
    struct plain_box made;
    memset(&made, FILL, sizeof made);
    for (size_t i = 0; i < PLAIN_FRONTENDS; i++)
        settings.reach[i] = (uint8_t)(i < 3 ? i + 1 : 255 - i);
    CHECK(plain_make(&made, settings) == 0);
    CHECK(made.settings.size == 1040 && made.settings.frontends == 3 && made.settings.spare == 0);
    CHECK(made.settings.reach[0] == 1 && made.settings.reach[1] == 2 && made.settings.reach[2] == 3);
    CHECK(is_zero(made.settings.reach + 3, 5));
    memset(&made.settings, 0, sizeof made.settings);
    CHECK(is_zero(&made, sizeof made));
}

/* Opens new streams until there is none; the frontends they took, in their order. */
static bool taken_in_turn(const char *path, const uint8_t *frontends, size_t count)
{
    for (size_t i = 0; i < count; i++)
        if (in(0, "SETUP", path) != 200 || box.streams[i].frontend != frontends[i])
            return false;
    return in(0, "SETUP", path) == 503;
}

#define TAKEN(path, ...) \
    (HERE, check(taken_in_turn(path, (const uint8_t[]){__VA_ARGS__}, sizeof((const uint8_t[]){__VA_ARGS__})), path))

/* 1.1: of the free frontends that reach the src the one reaching the fewest sources, ties to the lowest number. */
static void test_choice(void)
{
    REACHING(ALL, S1 | S3, S1);
    TAKEN("/?src=1", 3, 2, 1);
    CHECK(record_is(0, 1, 0, 1, 1, 3) && record_is(1, 1, 0, 2, 2, 2) && record_is(2, 1, 0, 3, 3, 1));
    REACHING(ALL, S1 | S3, S1);
    TAKEN("/?src=3", 2, 1);
    REACHING(ALL, ALL, ALL);
    TAKEN("/?src=4", 1, 2, 3);
    REACHING(S1 | S2, S1 | S3, S4 | S1);
    TAKEN("/?src=1", 1, 2, 3);
    REACHING(ALL, S4 | S1, S1 | S2, S1 | S2 | S3);
    TAKEN("/?src=1", 2, 3, 4, 1);
    REACHING(S1 | S2 | S3, S1 | S4);
    TAKEN("/?src=1", 2, 1);
    REACHING(S2, ALL, S3, S1 | S2 | S3, S2 | S3, ALL, S2, S4);
    TAKEN("/?src=2", 1, 7, 5, 4, 2, 6);
}

/* The whole set counts, not what of it is free; and a frontend that is freed is had again. */
static void test_choice_again(void)
{
    REACHING(ALL, S2 | S3, S1 | S2 | S4);
    GIVES(200, in(0, "SETUP", "/?src=1"));
    CHECK(box.streams[0].frontend == 3);
    GIVES(200, in(0, "SETUP", "/?src=2"));
    CHECK(box.streams[1].frontend == 2);
    GIVES(200, in(1, "TEARDOWN", "/stream=1"));
    GIVES(200, in(0, "SETUP", "/?src=2"));
    CHECK(box.streams[0].frontend == 3 && box.streams[0].values.src == 2);
    now = 60;
    GIVES(200, in(0, "SETUP", "/?src=3"));
    CHECK(count_open(&box) == 1 && box.streams[0].frontend == 2);
}

/* 1.2 and 1.3: src absent is 1, and a source that nobody reaches is in range: 503, not 403. */
static void test_nobody_reaches(void)
{
    REACHING(S2, S2 | S3);
    STAYS(503, in(0, "SETUP", "/?freq=11538"));
    STAYS(503, in(0, "SETUP", "/?src=1&freq=11538"));
    STAYS(503, in(0, "SETUP", "/?src=4"));
    STAYS(403, in(0, "SETUP", "/?src=5"));
    STAYS(403, in(0, "SETUP", "/?src=0"));
    GIVES(200, in(0, "SETUP", "/?src=00002"));
    CHECK(box.streams[0].frontend == 1);
    STAYS(503, in(1, "PLAY", "/stream=1?src=4"));
    STAYS(403, in(1, "PLAY", "/stream=1?src=5"));
    REACHING(S2 | S3 | S4, S1);
    GIVES(200, in(0, "SETUP", "/?freq=11538"));
    CHECK(box.streams[0].frontend == 2 && box.streams[0].values.src == 1);
}

/* 1.4: a join takes no frontend, and is not refused for one. */
static void test_join_takes_none(void)
{
    REACHING(S1);
    GIVES(200, in(0, "SETUP", "/?src=1"));
    STAYS(503, in(0, "SETUP", "/?src=1"));
    GIVES(200, in(0, "SETUP", "/stream=1"));
    REACHING(S2, S3);
    GIVES(200, in(0, "SETUP", "/?src=3"));
    GIVES(200, in(0, "SETUP", "/stream=1"));
    CHECK(count_open(&box) == 2 && record_is(1, 2, 0, 2, 1, 2));
}

/* 1.5: a named frontend is taken if it is free and reaches the src, whatever the others reach. */
static void test_named(void)
{
    REACHING(S1, S2);
    STAYS(503, in(0, "SETUP", "/?fe=1&src=2"));
    STAYS(503, in(0, "SETUP", "/?src=1&fe=2"));
    STAYS(503, in(0, "SETUP", "/?fe=2"));
    STAYS(503, in(0, "SETUP", "/?fe=2&src=3"));
    GIVES(200, in(0, "SETUP", "/?fe=2&src=2"));
    STAYS(503, in(0, "SETUP", "/?fe=2&src=2"));
    STAYS(503, in(0, "SETUP", "/?fe=1&src=2"));
    GIVES(200, in(0, "SETUP", "/?fe=1"));
    CHECK(box.streams[0].frontend == 2 && box.streams[1].frontend == 1);
    REACHING(ALL, S1);
    GIVES(200, in(0, "SETUP", "/?fe=1"));
    CHECK(box.streams[0].frontend == 1);
}

/* 1.6: a later src that the held frontend does not reach; one that it reaches is taken. */
static void test_later_src(void)
{
    static const char port[] = "Session: 00000001\r\nTransport: RTP/AVP;unicast;client_port=6000-6001\r\n";
    REACHING(S1 | S2, ALL);
    GIVES(200, in(0, "SETUP", "/?src=1&pol=h"));
    STAYS(503, ask("SETUP rtsp://h/stream=1?src=3", port));
    STAYS(503, ask("SETUP rtsp://h/stream=1?pol=v&src=4", port));
    GIVES(200, ask("SETUP rtsp://h/stream=1?src=2", port));
    CHECK(box.streams[0].values.src == 2 && box.sessions[0].port == 6000);
    STAYS(503, in(1, "PLAY", "/stream=1?src=3"));
    STAYS(503, in(1, "PLAY", "/stream=1?src=4&pol=v&pids=1"));
    GIVES(200, in(1, "PLAY", "/stream=1?src=2"));
    CHECK(box.sessions[0].playing == 1);
    STAYS(503, in(1, "PLAY", "/stream=1?src=3"));
    GIVES(200, in(1, "PLAY", "/stream=1?src=1"));
    GIVES(200, in(1, "PLAY", "/stream=1?pol=v"));
    CHECK(box.streams[0].values.src == 1 && box.streams[0].values.pol == 2 && box.streams[0].frontend == 1);
}

/* 1.6: the steps before 17 come first, and its two reasons give one 503. */
static void test_steps_before(void)
{
    char path[1024] = "/stream=1?src=3&pids=";
    REACHING(S1 | S2, ALL);
    GIVES(200, in(0, "SETUP", "/?src=1&msys=dvbs"));
    STAYS(403, in(1, "PLAY", "/stream=1?src=3&fec=910"));
    STAYS(403, in(1, "PLAY", "/stream=1?src=3&msys=dvbs&fec=910"));
    STAYS(461, ask("SETUP rtsp://h/stream=1?src=3", "Session: 00000001\r\nTransport: RTP/AVP\r\n"));
    STAYS(455, in(1, "PLAY", "/stream=1?src=3&fe=2"));
    STAYS(403, in(0, "SETUP", "/stream=1?src=3"));
    append_list(path, sizeof path, 0, 33);
    SAYS("RTSP/1.0 503 Service Unavailable\r\nCSeq: 1\r\n\r\n", in(1, "PLAY", path));
    path[strlen("/stream=1?src=")] = '2';
    STAYS(503, in(1, "PLAY", path));
    GIVES(200, in(0, "SETUP", "/stream=1"));
    STAYS(403, in(2, "PLAY", "/stream=1?src=3"));
    STAYS(403, in(2, "PLAY", "/stream=1?src=2"));
    CHECK(box.sessions[0].playing == 0 && box.sessions[1].playing == 0);
}

/* 1.7: a new stream's src is for step 18, after all others. */
static void test_new_src(void)
{
    REACHING(S1 | S2);
    STAYS(403, in(0, "SETUP", "/?src=3&msys=dvbs&fec=910"));
    STAYS(461, ask("SETUP rtsp://h/?src=3", ""));
    SAYS("RTSP/1.0 503 Service Unavailable\r\nCSeq: 1\r\n\r\n", in(0, "SETUP", "/?src=3"));
    CHECK(box.held == 0 && box.sequence == 0 && count_open(&box) == 0 && filled(journal(), 1024));
}

/* 1.10: refusal 5, the range of fe and a fe that differs do not look at what is reached. */
static void test_not_looked_at(void)
{
    struct plain_stream order;
    int on;
    REACHING(S1 | S2, S1);
    for (uint32_t frontend = 0; frontend <= 9; frontend++)
        CHECK(plain_order(&box, frontend, &order, &on) == (frontend == 1 || frontend == 2 ? 0 : 5));
    STAYS(403, in(0, "SETUP", "/?src=4&fe=3"));
    STAYS(403, in(0, "SETUP", "/?fe=0"));
    GIVES(200, in(0, "SETUP", "/?src=1"));
    CHECK(box.streams[0].frontend == 2);
    STAYS(455, in(1, "PLAY", "/stream=1?fe=1"));
    STAYS(455, in(1, "PLAY", "/stream=1?fe=1&src=2"));
    STAYS(503, in(1, "PLAY", "/stream=1?fe=2&src=2"));
    GIVES(200, in(1, "PLAY", "/stream=1?fe=2&src=1"));
}

/* 1.11: an owner is not moved to a frontend that reaches its src. */
static void test_not_moved(void)
{
    struct plain_stream order;
    int on;
    REACHING(S1, ALL);
    GIVES(200, in(0, "SETUP", "/?src=1&freq=11538&pol=v&msys=dvbs&sr=22000&fec=56"));
    GIVES(200, in(1, "PLAY", "/stream=1"));
    STAYS(503, in(1, "PLAY", "/stream=1?src=2"));
    CHECK(plain_order(&box, 1, &order, &on) == 0 && on == 1 && order.values.src == 1);
    CHECK(plain_order(&box, 2, &order, &on) == 0 && on == 0);
}

void test_reach(void)
{
    test_making_refused();
    test_made_sets();
    test_choice();
    test_choice_again();
    test_nobody_reaches();
    test_join_takes_none();
    test_named();
    test_later_src();
    test_steps_before();
    test_new_src();
    test_not_looked_at();
    test_not_moved();
}
