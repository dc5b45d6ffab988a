/*
 * EDGES.md section 1, and order 1 of document 02: which tables are well formed, and that every call refuses the
 * others with 1.
 */
#include "plain_test.h"

#include <string.h>

void base(void)
{
    fresh(3, 1024);
    box.clock = 100;
    box.held = 32;
    box.streams[0].frontend = 2;
    box.streams[0].values.src = 1;
    box.streams[0].count = 2;
    box.streams[0].pids[1] = 17;
    box.streams[2].frontend = 1;
    box.streams[2].values = (struct plain_values){2, 1070000, 1, 2, 2, 1, 3, 1000, 9};
    box.streams[2].all = 1;
    box.sessions[0] = (struct plain_session){7, 1, 100, 1024, 1, 1, 1};
    box.sessions[4] = (struct plain_session){9, 0, 90, 65534, 1, 0, 0};
    box.sessions[31] = (struct plain_session){8, 2, 80, 5000, 3, 1, 0};
    now = 100;
}

/* All four calls that judge the table refuse with 1 and leave everything as it was. */
static bool all_refuse(void)
{
    static const uint8_t request[] = "OPTIONS rtsp://h/ RTSP/1.0\r\nCSeq: 1\r\n\r\n";
    static uint8_t buffer[PLAIN_JOURNAL_MOST];
    const struct plain_box before = box;
    struct plain_stream order;
    uint32_t count = 1;
    int on = 1;
    bool refused;
    memset(answer, FILL, sizeof answer);
    memset(buffer, FILL, sizeof buffer);
    memset(&order, FILL, sizeof order);
    answer_count = 1;
    refused = plain_request(&box, request, sizeof request - 1, UINT32_MAX, 0, 0, answer, sizeof answer,
                            &answer_count, journal_room, 1024) == 1
        && plain_tick(&box, UINT32_MAX, journal_room, 1024) == 1
        && plain_collect(&box, journal_room, 1024, buffer, sizeof buffer, &count) == 1
        && plain_order(&box, 1, &order, &on) == 1;
    return refused && answer_count == 0 && count == 0 && on == 0 && is_zero(&order, sizeof order)
        && memcmp(&box, &before, sizeof box) == 0 && filled(answer, sizeof answer)
        && filled(buffer, sizeof buffer) && filled(journal_room, sizeof journal_room);
}

/* The base with a change is not, or is, well formed. */
#define ILL(change) (base(), change, HERE, check(all_refuse(), "ill formed: " #change))
#define WELL(change) (base(), change, HERE, check(well_formed(), "well formed: " #change))

static void test_limits_well_formed(void)
{
    WELL((void)0);
    ILL(box.settings.frontends = 0);
    ILL(box.settings.frontends = 9);
    ILL(box.settings.frontends = 0xFFFF);
    ILL(box.settings = all_reaching(1, 1024));
    WELL(box.settings = all_reaching(2, 1024));
    WELL(box.settings = all_reaching(8, 1024));
    ILL(box.settings.size = 0);
    ILL(box.settings.size = 1008);
    ILL(box.settings.size = 1025);
    ILL(box.settings.size = 65552);
    ILL(box.settings.size = UINT32_MAX);
    WELL(box.settings.size = 1040);
    WELL(box.settings.size = 65536);
    ILL(box.held = 8);
    ILL(box.held = UINT32_MAX - 15);
    WELL(box.held = 1024 - 48);
    ILL(box.held = 1024 - 32);
    ILL(box.held = 1024);
    ILL(box.held = 1040);
    ILL(box.clock = 99);
    WELL(box.clock = 100000);
    WELL(box.clock = UINT32_MAX);
    WELL(box.sequence = 12345);
}

/* No set up to F is empty or has a source beyond 4, zeros stand above F, and each stream's frontend reaches its src. */
static void test_reach_well_formed(void)
{
    uint8_t *reach = box.settings.reach;
    for (unsigned set = 0; set < 256; set++) {
        bool good = set >= 1 && set <= 15;
        base();
        reach[2] = (uint8_t)set;
        CHECK(good ? well_formed() : all_refuse());
        base();
        reach[3] = (uint8_t)set;
        CHECK(set == 0 ? well_formed() : all_refuse());
    }
    ILL(reach[0] = 0);
    ILL(reach[7] = 1);
    ILL(box.settings.frontends = 2);
    ILL(box.settings.frontends = 4);
    WELL(box.settings.spare = 0xFFFF);
    WELL((reach[1] = 1, reach[0] = 2));
    WELL(reach[1] = 9);
    ILL(reach[1] = 2);
    ILL(reach[1] = 14);
    ILL(reach[0] = 1);
    ILL(reach[0] = 13);
    ILL((reach[1] = 3, box.streams[0].values.src = 3));
    WELL((reach[1] = 3, box.streams[0].values.src = 2));
    WELL((reach[1] = 8, box.streams[0].values.src = 4));
    ILL((reach[1] = 12, box.streams[0].frontend = 3, reach[2] = 2));
    WELL((reach[1] = 12, box.streams[0].frontend = 3, reach[2] = 1));
}

static void test_sessions_well_formed(void)
{
    ILL(box.sessions[4].number = 7);
    ILL(box.sessions[31].number = 7);
    ILL(box.sessions[0].number = 0);
    ILL(box.sessions[1].address = 1);
    ILL(box.sessions[1].last = 1);
    ILL(box.sessions[1].port = 5000);
    ILL(box.sessions[1].stream = 1);
    ILL(box.sessions[1].owner = 1);
    ILL(box.sessions[1].playing = 1);
    ILL(box.sessions[4].stream = 0);
    ILL(box.sessions[4].stream = 2);
    ILL(box.sessions[4].stream = 9);
    ILL(box.sessions[4].stream = 255);
    WELL(box.sessions[4].stream = 3);
    ILL(box.sessions[4].owner = 1);
    ILL(box.sessions[4].owner = 2);
    ILL(box.sessions[0].owner = 0);
    ILL(box.sessions[0].owner = 2);
    WELL(box.sessions[4].playing = 1);
    ILL(box.sessions[4].playing = 2);
    ILL(box.sessions[4].playing = 256);
    ILL(box.sessions[4].last = 101);
    WELL(box.sessions[4].last = 100);
    WELL(box.sessions[4].last = 0);
    ILL(box.sessions[4].port = 0);
    ILL(box.sessions[4].port = 1022);
    ILL(box.sessions[4].port = 1025);
    ILL(box.sessions[4].port = 5001);
    ILL(box.sessions[4].port = 65535);
    ILL(box.sessions[4].port = 65536);
    ILL(box.sessions[4].port = 66000);
    WELL(box.sessions[4].address = UINT32_MAX);
    WELL(box.sessions[4].number = UINT32_MAX);
    WELL(memset(&box.sessions[4], 0, 20));
    ILL(memset(&box.sessions[31], 0, 20));
}

static void test_values_well_formed(void)
{
    struct plain_values *values = &box.streams[2].values;
    ILL(values->src = 0);
    ILL(values->src = 5);
    WELL(values->src = 4);
    WELL(values->freq = 0);
    ILL(values->freq = 1);
    ILL(values->freq = 1069999);
    WELL(values->freq = 1275000);
    ILL(values->freq = 1275001);
    WELL(values->pol = 4);
    ILL(values->pol = 5);
    ILL(values->msys = 3);
    ILL(values->mtype = 3);
    ILL(values->plts = 3);
    ILL(values->ro = 4);
    ILL(values->sr = 999);
    WELL(values->sr = 45000);
    ILL(values->sr = 45001);
    ILL(values->fec = 10);
    ILL(values->fec = UINT32_MAX);
    WELL(values->msys = 0);
    ILL(values->msys = 1);
    WELL(*values = ((struct plain_values){1, 0, 0, 1, 0, 0, 0, 0, 0}));
    WELL(*values = ((struct plain_values){1, 0, 0, 1, 1, 2, 1, 0, 5}));
    ILL(*values = ((struct plain_values){1, 0, 0, 1, 2, 0, 0, 0, 0}));
    ILL(*values = ((struct plain_values){1, 0, 0, 1, 0, 1, 0, 0, 0}));
    ILL(*values = ((struct plain_values){1, 0, 0, 1, 0, 0, 2, 0, 0}));
    ILL(*values = ((struct plain_values){1, 0, 0, 1, 0, 0, 3, 0, 0}));
    ILL(*values = ((struct plain_values){1, 0, 0, 1, 0, 0, 0, 0, 6}));
    ILL(*values = ((struct plain_values){1, 0, 0, 1, 0, 0, 0, 0, 9}));
}

static void fill_pids(uint16_t count)
{
    box.streams[0].count = count;
    for (uint16_t i = 0; i < PLAIN_PIDS; i++)
        box.streams[0].pids[i] = (uint16_t)(i * 200);
}

static void move_stream(size_t from, size_t to)
{
    box.streams[to] = box.streams[from];
    memset(&box.streams[from], 0, sizeof box.streams[from]);
    for (size_t i = 0; i < PLAIN_SESSIONS; i++)
        if (box.sessions[i].stream == from + 1)
            box.sessions[i].stream = (uint8_t)(to + 1);
}

static void test_streams_well_formed(void)
{
    ILL(box.streams[0].frontend = 1);
    ILL(box.streams[0].frontend = 4);
    ILL(box.streams[0].frontend = 255);
    ILL(box.streams[0].frontend = 0);
    WELL(box.streams[0].frontend = 3);
    ILL(box.streams[1].frontend = 3);
    ILL((box.streams[1].frontend = 3, box.streams[1].values.src = 1));
    ILL(box.streams[1].all = 1);
    ILL(box.streams[1].count = 1);
    ILL(box.streams[1].values.src = 1);
    ILL(box.streams[7].pids[31] = 1);
    ILL(box.streams[0].pids[5] = 1);
    ILL(box.streams[0].pids[31] = 1);
    ILL(box.streams[0].count = 1);
    ILL(box.streams[0].count = 3);
    ILL(box.streams[0].pids[0] = 17);
    ILL(box.streams[0].pids[0] = 18);
    WELL(box.streams[0].pids[1] = 8191);
    ILL(box.streams[0].pids[1] = 8192);
    ILL(box.streams[0].pids[1] = 65535);
    ILL(box.streams[0].all = 1);
    ILL(box.streams[0].all = 2);
    ILL(box.streams[2].all = 2);
    ILL(box.streams[2].pids[0] = 1);
    ILL(box.streams[2].count = 1);
    WELL(box.streams[2].all = 0);
    WELL(fill_pids(32));
    ILL(fill_pids(31));
    ILL(fill_pids(33));
    ILL(fill_pids(65535));
    WELL(move_stream(0, 7));
    ILL(memset(&box.streams[0], 0, 104));
}

/* Any bytes may stand in a box: each is well formed or refused with 1. */
static void test_any_bytes(void)
{
    for (int byte = 0; byte < 256; byte++) {
        memset(journal_room, FILL, sizeof journal_room);
        memset(&box, byte, sizeof box);
        CHECK(all_refuse());
    }
    base();
    for (size_t i = 0; i < sizeof box; i++) {
        struct plain_box kept = box;
        ((uint8_t *)&box)[i] ^= 0x80;
        CHECK(well_formed() || all_refuse());
        box = kept;
    }
}

/* 1.2 and 1.4: what shrinks leaves zeros; expired sessions, high IDs and odd journal bytes are well formed. */
static void test_places_zeroed(void)
{
    static const uint16_t two[] = {5, 9};
    fresh(1, 1024);
    GIVES(200, in(0, "SETUP", "/?pids=9,7,5,9"));
    GIVES(200, in(1, "PLAY", "/stream=1?delpids=7"));
    CHECK(pids_are(0, two, 2));
    GIVES(200, in(1, "PLAY", "/stream=1?pids=none"));
    CHECK(pids_are(0, two, 0));
    GIVES(200, in(1, "PLAY", "/stream=1?addpids=9,5"));
    CHECK(pids_are(0, two, 2));
    GIVES(200, in(1, "PLAY", "/stream=1?pids=all"));
    CHECK(is_zero(box.streams[0].pids, 64) && box.streams[0].count == 0 && box.streams[0].all == 1);
    move_stream(0, 7);
    GIVES(200, in(0, "SETUP", "/stream=8"));
    GIVES(200, in(1, "TEARDOWN", "/stream=8"));
    CHECK(is_zero(&box, sizeof box.sessions + sizeof box.streams));
    base();
    box.clock = 100000;
    tick(0);
    CHECK(count_open(&box) == 0 && box.held == 80);
}

void test_table(void)
{
    test_limits_well_formed();
    test_reach_well_formed();
    test_sessions_well_formed();
    test_values_well_formed();
    test_streams_well_formed();
    test_any_bytes();
    test_places_zeroed();
}
