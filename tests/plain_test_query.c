/*
 * EDGES.md section 4: the query, its values, lists of PIDs and the combination rule.
 */
#include "plain_test.h"

#include <stdio.h>
#include <string.h>

static void test_query_form(void)
{
    static const char *const bad[] = {
        "pol", "pol=", "=h", "=", "&", "pol=h&", "&pol=h", "pol=h&&sr=1000", "pol=h&pol=h", "pol=h&pol=v",
        "Pol=h", "POL=h", "bogus=1", "mcast=1", " =h", "pids=", "freq=99999&bogus=1", "pol=x&pol=h",
        "pids=9999&addpids=1", "pids=1&delpids=1", "addpids=1", "delpids=1", "addpids=1&delpids=2",
        "pol =h", "po=h", "poll=h", "pol=h&sr", "pol=h&sr="
    };
    static const char *const outside[] = {
        "pol=h=v", "pol=%68", "pids=1,,2", "pids=0,", "pids=,0", "pids=,", "pids=1;2", "pids=%30", "pids=ALL",
        "pids=All", "pids=None", "pids=all,1", "pids=none,1", "pids=1,all", "pids=000001", "pids=-1",
        "pids=1.0", "pids=99999", "pids=100000", "freq=abc", "src=000001", "sr=-1", "pol=H", "pol=x",
        "pol=hv", "msys=DVBS", "msys=dvbt", "msys=dvbs3", "mtype=QPSK", "mtype=8PSK", "mtype=16apsk",
        "plts=ON", "plts=auto", "ro=0.3", "ro=.35", "ro=0.350", "ro=35", "fec=012", "fec=auto", "fec=13",
        "fec=1", "fec=9", "src=0", "src=5", "src=a", "src=1a", "fe=0", "fe=3", "fe=8", "fe=000002", "sr=999",
        "sr=45001", "sr=045000", "sr=22000.0", "sr=99999"
    };
    for (size_t i = 0; i < sizeof bad / sizeof *bad; i++)
        SAYS(BAD, try_query(bad[i]));
    for (size_t i = 0; i < sizeof outside / sizeof *outside; i++)
        SAYS("RTSP/1.0 403 Forbidden\r\nCSeq: 1\r\n\r\n", try_query(outside[i]));
}

/* Every listed word gives its code. */
static void test_words(void)
{
    static const struct {
        const char *query;
        size_t field;
        uint32_t code;
    } rows[] = {
        {"pol=h", 2, 1}, {"pol=v", 2, 2}, {"pol=l", 2, 3}, {"pol=r", 2, 4}, {"msys=dvbs", 3, 1},
        {"msys=dvbs2", 3, 2}, {"mtype=qpsk", 4, 1}, {"mtype=8psk", 4, 2}, {"plts=on", 5, 1},
        {"plts=off", 5, 2}, {"ro=0.35", 6, 1}, {"ro=0.25", 6, 2}, {"ro=0.20", 6, 3}, {"sr=1000", 7, 1000},
        {"sr=01000", 7, 1000}, {"sr=45000", 7, 45000}, {"fec=12", 8, 1}, {"fec=23", 8, 2}, {"fec=34", 8, 3},
        {"fec=56", 8, 4}, {"fec=78", 8, 5}, {"fec=89", 8, 6}, {"fec=35", 8, 7}, {"fec=45", 8, 8},
        {"fec=910", 8, 9}, {"src=1", 0, 1}, {"src=00004", 0, 4}, {"src=2", 0, 2}, {"freq=10700", 1, 1070000}
    };
    for (size_t i = 0; i < sizeof rows / sizeof *rows; i++) {
        uint32_t got[9], want[9] = {1};
        GIVES(200, try_query(rows[i].query));
        want[rows[i].field] = rows[i].code;
        memcpy(got, &box.streams[0].values, sizeof got);
        CHECK(memcmp(got, want, sizeof got) == 0);
    }
}

/* 4.6: a text of freq gives these hundredths, or 403 if they are 0. */
static void check_freq(const char *text, uint32_t hundredths)
{
    char query[64];
    snprintf(query, sizeof query, "freq=%s", text);
    check(try_query(query) == (hundredths != 0 ? 200 : 403), query);
    check(box.streams[0].values.freq == hundredths, query);
}

static void test_freq(void)
{
    static const char *const bad[] = {
        "12750.01", "12750.1", "12750.", "011538", "1153", "11538.123", "11538.5a", "11538.a", "11538..5",
        ".5", "11538,5", "+1538", "99999", "00000", "10699.99", "10699.9", "1e700", "11538.-1", "11538.5.5"
    };
    HERE;
    for (size_t i = 0; i < sizeof bad / sizeof *bad; i++)
        check_freq(bad[i], 0);
    check_freq("12750.0", 1275000);
    check_freq("12750.00", 1275000);
    check_freq("11538.5", 1153850);
    check_freq("11538.05", 1153805);
    check_freq("11538.50", 1153850);
    check_freq("10700.00", 1070000);
    check_freq("12749.99", 1274999);
    for (uint32_t mhz = 10000; mhz < 13500; mhz += 7) {
        char text[32];
        snprintf(text, sizeof text, "%05lu", (unsigned long)mhz);
        check_freq(text, mhz >= 10700 && mhz <= 12750 ? mhz * 100 : 0);
    }
}

/* Every PID, alone, with and without leading zeros. */
static void test_every_pid(void)
{
    for (unsigned pid = 0; pid < 9000; pid += pid < 8180 ? 11 : 1) {
        uint16_t kept = (uint16_t)pid;
        char query[64];
        snprintf(query, sizeof query, "pids=%u,%05u", pid, pid);
        GIVES(pid <= 8191 ? 200 : 403, try_query(query));
        CHECK(pid > 8191 || pids_are(0, &kept, 1));
    }
}

static void test_fe(void)
{
    fresh(2, 1024);
    GIVES(200, in(0, "SETUP", "/?fe=02"));
    CHECK(box.streams[0].frontend == 2);
    GIVES(200, in(1, "PLAY", "/stream=1?fe=2"));
    GIVES(200, in(1, "PLAY", "/stream=1?fe=00002"));
    GIVES(455, in(1, "PLAY", "/stream=1?fe=1"));
    GIVES(403, in(1, "PLAY", "/stream=1?fe=3"));
    GIVES(503, in(0, "SETUP", "/?fe=2"));
    GIVES(200, in(0, "SETUP", "/?fe=1"));
    CHECK(box.streams[1].frontend == 1);
    fresh(8, 1024);
    GIVES(200, in(0, "SETUP", "/?fe=8"));
    GIVES(403, in(0, "SETUP", "/?fe=9"));
    GIVES(403, in(0, "SETUP", "/?fe=65536"));
}

/* 4.9: no bound on the numbers in a list. */
static void test_long_lists(void)
{
    static const uint16_t zero[] = {0};
    char query[1024] = "pids=0";
    while (strlen(query) < 1000)
        strcat(query, ",0");
    GIVES(200, try_query(query));
    CHECK(pids_are(0, zero, 1));
    strcat(query, ",1");
    GIVES(200, try_query(query));
    CHECK(box.streams[0].count == 2);
    strcpy(query, "pids=");
    append_list(query, sizeof query, 0, 250);
    GIVES(503, try_query(query));
    strcat(query, ",8192");
    GIVES(403, try_query(query));
}

/* 4.10 and 4.11: delpids before addpids, the final count, and "all". */
static void test_pid_changes(void)
{
    static const uint16_t lonely[] = {3};
    char path[1024] = "/?pids=";
    append_list(path, sizeof path, 0, 32);
    fresh(2, 1024);
    GIVES(200, in(0, "SETUP", path));
    GIVES(200, in(1, "PLAY", "/stream=1?addpids=5&delpids=5"));
    CHECK(box.streams[0].count == 32 && box.streams[0].pids[5] == 5);
    GIVES(503, in(1, "PLAY", "/stream=1?addpids=40"));
    CHECK(box.streams[0].count == 32 && box.streams[0].pids[31] == 31);
    GIVES(200, in(1, "PLAY", "/stream=1?addpids=40&delpids=1"));
    CHECK(box.streams[0].count == 32 && box.streams[0].pids[1] == 2 && box.streams[0].pids[31] == 40);
    GIVES(200, in(1, "PLAY", "/stream=1?delpids=8191,7000,40,40"));
    CHECK(box.streams[0].count == 31 && box.streams[0].pids[31] == 0);
    GIVES(200, in(1, "PLAY", "/stream=1?pids=all"));
    strcpy(path, "/stream=1?addpids=");
    append_list(path, sizeof path, 100, 33);
    GIVES(200, in(1, "PLAY", path));
    GIVES(200, in(1, "PLAY", "/stream=1?delpids=1"));
    CHECK(box.streams[0].all == 1 && box.streams[0].count == 0);
    GIVES(403, in(1, "PLAY", "/stream=1?delpids=8192"));
    GIVES(400, in(1, "PLAY", "/stream=1?pids=1&addpids=2"));
    GIVES(400, in(1, "PLAY", "/stream=1?delpids=2&pids=1"));
    GIVES(403, in(1, "PLAY", "/stream=1?addpids=all"));
    GIVES(403, in(1, "PLAY", "/stream=1?delpids=none"));
    GIVES(200, in(1, "PLAY", "/stream=1?pids=none"));
    GIVES(503, in(1, "PLAY", path));
    CHECK(box.streams[0].count == 0 && box.streams[0].all == 0);
    GIVES(200, in(1, "PLAY", "/stream=1?addpids=3"));
    CHECK(pids_are(0, lonely, 1));
}

/* 4.12: the combination rule. */
static void test_combination(void)
{
    GIVES(403, try_query("msys=dvbs&mtype=8psk"));
    GIVES(403, try_query("msys=dvbs&plts=on"));
    GIVES(403, try_query("msys=dvbs&ro=0.25"));
    GIVES(403, try_query("ro=0.20&msys=dvbs"));
    GIVES(403, try_query("msys=dvbs&fec=89"));
    GIVES(403, try_query("msys=dvbs&fec=35"));
    GIVES(403, try_query("msys=dvbs&fec=45"));
    GIVES(403, try_query("msys=dvbs&fec=910"));
    GIVES(200, try_query("msys=dvbs&ro=0.35&plts=off&mtype=qpsk&fec=78"));
    GIVES(200, try_query("msys=dvbs2&mtype=8psk&plts=on&ro=0.20&fec=910"));
    GIVES(200, try_query("mtype=8psk&plts=on&fec=910"));
    GIVES(403, in(1, "PLAY", "/stream=1?msys=dvbs"));
    CHECK(box.streams[0].values.msys == 0 && box.sessions[0].playing == 0);
    GIVES(200, in(1, "PLAY", "/stream=1?msys=dvbs2"));
    GIVES(200, in(1, "PLAY", "/stream=1?msys=dvbs&mtype=qpsk&plts=off&fec=12"));
    GIVES(403, in(1, "PLAY", "/stream=1?mtype=8psk"));
}

void test_query(void)
{
    test_query_form();
    test_words();
    test_freq();
    test_every_pid();
    test_fe();
    test_long_lists();
    test_pid_changes();
    test_combination();
}
