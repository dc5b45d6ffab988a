/*
 * A long evening of chance: requests of a client's kind, most of them whole, ticks and collections.
 */
#include "plain_test.h"

#include <stdio.h>
#include <string.h>

static uint32_t chance_state = 0x2545F491;

/* A number below `bound`. */
static uint32_t chance(uint32_t bound)
{
    chance_state ^= chance_state << 13;
    chance_state ^= chance_state >> 17;
    chance_state ^= chance_state << 5;
    return chance_state % bound;
}

static const char *pick(const char *const words[], uint32_t count)
{
    return words[chance(count)];
}

#define PICK(words) pick((words), sizeof(words) / sizeof *(words))

static void chance_path(char *path, size_t size)
{
    static const char *const pairs[] = {
        "src=1", "src=2", "src=4", "fe=1", "fe=2", "fe=3", "freq=11538", "freq=12750.01", "pol=h", "pol=v", "msys=dvbs",
        "msys=dvbs2", "mtype=qpsk", "mtype=8psk", "plts=on", "plts=off", "ro=0.35", "ro=0.20", "sr=22000",
        "fec=56", "fec=910", "pids=all", "pids=none", "pids=0,17,611", "addpids=1,2,3", "delpids=17", "x=1"
    };
    size_t length;
    snprintf(path, size, "/");
    if (chance(4) != 0)
        snprintf(path, size, "/stream=%u", (unsigned)chance(4) + 1);
    for (uint32_t i = 0, count = chance(3) * chance(3); i < count; i++) {
        length = strlen(path);
        snprintf(path + length, size - length, "%s%s", i == 0 ? "?" : "&", PICK(pairs));
    }
    if (chance(20) == 0) {
        length = strlen(path);
        snprintf(path + length, size - length, "%saddpids=", strchr(path, '?') == NULL ? "?" : "&");
        append_list(path, size, chance(100), 1 + chance(40));
    }
}

/* A request of a client's kind, mostly; its length. Its session is mostly at a low place, as those that are open. */
static size_t chance_request(char *request, size_t size)
{
    static const char *const methods[] = {"SETUP", "SETUP", "SETUP", "PLAY", "PLAY", "TEARDOWN", "OPTIONS"};
    static const char *const headers[] = {
        "", "", "", "", "Accept: x\r\n", "Require: y\r\n", "X-z:\r\n", " f\r\n"
    };
    char path[1024], session[64] = "";
    uint32_t places = chance(3) == 0 ? PLAIN_SESSIONS : 3;
    chance_path(path, sizeof path);
    if (chance(2) == 0)
        snprintf(session, sizeof session, "Session: %08lX\r\n",
                 (unsigned long)box.sessions[chance(places)].number);
    int length = snprintf(request, size, "%s rtsp://h%s RTSP/1.0\r\nCSeq: %lu\r\n%s%s%s\r\n", PICK(methods),
                          path, (unsigned long)chance(UINT32_MAX), session, chance(10) != 0 ? TRANSPORT : "",
                          PICK(headers));
    for (uint32_t i = chance(8) == 0 ? 1 + chance(4) : 0; i > 0; i--)
        request[chance((uint32_t)length)] = (char)chance(256);
    return chance(30) == 0 ? chance((uint32_t)length) : (size_t)length;
}

/* A box of chance; every other time some of its frontends do not reach all four sources. */
static struct plain_settings chance_settings(void)
{
    uint16_t frontends = (uint16_t)(1 + chance(8));
    struct plain_settings settings = all_reaching(frontends, 1024 + 16 * chance(8));
    if (chance(2) == 0)
        for (size_t i = 0; i < settings.frontends; i++)
            settings.reach[i] = (uint8_t)(1 + chance(15));
    return settings;
}

/* Whatever comes, what send_bytes and tick check holds, and every status but 414 and 505 comes up. */
void test_evening(void)
{
    unsigned long seen[1000] = {0};
    for (int round = 0; round < 30000; round++) {
        static uint8_t buffer[PLAIN_JOURNAL_MOST];
        char request[REQUEST_ROOM];
        uint32_t count;
        if (round % 3000 == 0)
            fresh_of(chance_settings());
        HERE;
        now = box.clock + (chance(5) == 0 ? chance(30) : 0) - (box.clock > 5 && chance(5) == 0 ? 5 : 0);
        draw = chance(4) == 0 ? UINT32_MAX - chance(3) : chance(40);
        if (chance(40) == 0)
            check(plain_collect(&box, journal(), box.settings.size, buffer, sizeof buffer, &count) == 0, "collecting");
        if (chance(20) == 0)
            tick(now);
        size_t length = chance_request(request, sizeof request);
        seen[send_bytes(request, length) % 1000]++;
    }
    static const int statuses[] = {200, 400, 403, 404, 405, 454, 455, 461, 501, 503, 551};
    for (size_t i = 0; i < sizeof statuses / sizeof *statuses; i++)
        CHECK(seen[statuses[i]] > 0);
}
