/*
 * The host's test: televisions that behave and others that do not, over the loopback, with a clock moved by hand; the journal's file must
 * then tell exactly what happened. tests/host compiles it and names the host and an empty folder for its files.
 */
#define _POSIX_C_SOURCE 200809L

#include "television.h"

#include <errno.h>
#include <stdio.h>
#include <string.h>
#include <sys/socket.h>
#include <time.h>
#include <unistd.h>

#define FIRST "freq=11538&pol=v&msys=dvbs&sr=22000&fec=56&pids=0,611"
#define FIRST_ORDER "src=1 freq=11538.00 pol=v msys=dvbs sr=22000 fec=56 pids=0,611"
#define SECOND "src=2&freq=10744.25&pol=h&msys=dvbs2&mtype=8psk&plts=on&ro=0.25&sr=27500&fec=910&pids=all"
#define SECOND_ORDER "src=2 freq=10744.25 pol=h msys=dvbs2 mtype=8psk plts=on ro=0.25 sr=27500 fec=910 pids=all"
#define OPTIONS "OPTIONS rtsp://127.0.0.1/ RTSP/1.0\r\nCSeq: %d\r\n\r\n"
#define USAGE "usage: host [-a ADDRESS] [-p PORT] [-f FRONTENDS] [-r SOURCES] [-j JOURNAL-SIZE] [-k KEPT-BOX] [-c] [-v] RECORDS"
#define CLIENTS 40
#define PLACES 64
#define HALF 10u
#define IDLE 120u
#define HELD_MAX ((2048 - 512) / 2)     /* bytes held of a journal of 2,048 after a call: less than so many */

static const char *host;
static char records[4096], kept[4096], other[4096];

static const char *ask_options(int television, uint32_t session)
{
    return ask(television, "OPTIONS rtsp://127.0.0.1/ RTSP/1.0\r\nCSeq: 7\r\nSession: %08X\r\n\r\n", (unsigned)session);
}

static const char *ask_play(int television, int stream, const char *query, uint32_t session)
{
    return ask(television, "PLAY rtsp://127.0.0.1/stream=%d%s RTSP/1.0\r\nCSeq: 8\r\nSession: %08X\r\n\r\n", stream, query, (unsigned)session);
}

static const char *ask_teardown(int television, int stream, uint32_t session)
{
    return ask(television, "TEARDOWN rtsp://127.0.0.1/stream=%d RTSP/1.0\r\nCSeq: 9\r\nSession: %08X\r\n\r\n", stream, (unsigned)session);
}

static const char *ask_setup(int television, const char *what)
{
    return ask(television, "SETUP rtsp://127.0.0.1/%s RTSP/1.0\r\nCSeq: 1\r\nTransport: RTP/AVP;unicast;client_port=5000-5001\r\n\r\n", what);
}

static uint32_t opened(int television, const char *what, int kind, int stream, int frontend)
{
    const char *answer = ask_setup(television, what);
    uint32_t session;

    CHECK(status_is(answer, "200") && stream_in(answer) == stream && is_for(answer, television));
    session = session_in(answer);
    note(kind, 0, session, stream, frontend);
    return session;
}

static uint32_t own(int television, const char *query, int stream)
{
    char what[256];

    snprintf(what, sizeof what, "?%s", query);
    return opened(television, what, 1, stream, stream);
}

static uint32_t join(int television, int stream)
{
    char what[16];

    snprintf(what, sizeof what, "stream=%d", stream);
    return opened(television, what, 2, stream, stream);
}

/* Two owners, two joiners, a channel change; one joiner and one owner vanish; the other owner leaves, and its joiner must too. */
static void evening(void)
{
    const int first = dial(2), second = dial(3), third = dial(4), fourth = dial(5);
    const uint32_t one = own(first, FIRST, 1), two = own(second, SECOND, 2);
    uint32_t joined, vanished;

    CHECK(status_is(ask_play(first, 1, "", one), "200"));
    expect_line("frontend 1: " FIRST_ORDER);
    CHECK(status_is(ask_play(second, 2, "", two), "200"));
    expect_line("frontend 2: " SECOND_ORDER);
    CHECK(status_is(ask_setup(third, "?" FIRST), "503"));
    joined = join(third, 1);
    vanished = join(fourth, 1);
    CHECK(two != one + 1 && vanished != joined + 1);
    CHECK(status_is(ask_play(third, 1, "", joined), "200"));
    CHECK(status_is(ask_play(third, 1, "?pids=100", joined), "403"));
    hang_up(fourth);
    move(20, NULL);
    CHECK(status_is(ask_play(first, 1, "?freq=12187.5&pol=h&pids=0,17,120", one), "200"));
    expect_line("frontend 1: src=1 freq=12187.50 pol=h msys=dvbs sr=22000 fec=56 pids=0,17,120");
    move(39, NULL);
    CHECK(status_is(ask_options(first, one), "200") && status_is(ask_options(third, joined), "200"));
    CHECK(status_is(ask_options(second, two), "200"));
    CHECK(length_of(records) == 0);
    move(1, NULL);
    note(3, 2, vanished, 1, 1);
    CHECK(length_of(records) == noted_bytes());
    hang_up(second);
    move(58, NULL);
    CHECK(status_is(ask_options(first, one), "200") && status_is(ask_options(third, joined), "200"));
    move(1, "frontend 2: off");
    note(3, 2, two, 2, 2);
    CHECK(status_is(ask_teardown(first, 1, one), "200"));
    note(3, 1, one, 1, 1);
    note(3, 3, joined, 1, 1);
    expect_line("frontend 1: off");
    CHECK(status_is(ask_play(third, 1, "", joined), "454"));
    hang_up(first);
    hang_up(third);
}

/* When it returns the host has read all that was sent before: in the second round trip at the latest. */
static void settle(int bystander)
{
    CHECK(status_is(ask(bystander, OPTIONS, 1), "200"));
    CHECK(status_is(ask(bystander, OPTIONS, 2), "200"));
}

static void split_everywhere(int bystander)
{
    static const char request[] = "OPTIONS rtsp://127.0.0.1/ RTSP/1.0\r\nCSeq: 0044\r\n\r\n";
    const int television = dial(2);
    size_t at;

    for (at = 1; at < sizeof request - 1; at++) {
        say(television, request, at);
        settle(bystander);
        say(television, request + at, sizeof request - 1 - at);
        CHECK(strstr(hear(television), "\r\nCSeq: 0044\r\n") != NULL);
    }
    for (at = 0; at < sizeof request - 1; at++) {
        say(television, request + at, 1);
        settle(bystander);
    }
    CHECK(status_is(hear(television), "200"));
    hang_up(television);
}

/* Many requests in one piece, more than the host keeps of a connection at a time; the last one's half comes later. */
static void pipelined(void)
{
    const int television = dial(2);
    char text[8192], number[32];
    size_t length = 0;
    int i;

    for (i = 0; i < 100; i++)
        length += (size_t)snprintf(text + length, sizeof text - length, OPTIONS, i);
    say(television, text, length - 20);
    for (i = 0; i < 99; i++) {
        snprintf(number, sizeof number, "\r\nCSeq: %d\r\n", i);
        CHECK(strstr(hear(television), number) != NULL);
    }
    say(television, text + length - 20, 20);
    CHECK(strstr(hear(television), "\r\nCSeq: 99\r\n") != NULL);
    hang_up(television);
}

/* A client that has said all it wants still gets its answers. */
static void half_closed(void)
{
    const int television = dial(2);
    char text[8192];
    size_t length = 0;
    int i;

    for (i = 0; i < 100; i++)
        length += (size_t)snprintf(text + length, sizeof text - length, OPTIONS, i);
    freeze();
    say(television, text, length);
    CHECK(shutdown(television, SHUT_WR) == 0);
    thaw();
    for (i = 0; i < 100; i++)
        CHECK(status_is(hear(television), "200"));
    CHECK(at_end(television));
    hang_up(television);
}

static void bodies(void)
{
    static const char with[] = "OPTIONS rtsp://127.0.0.1/ RTSP/1.0\r\nCSeq: 1\r\ncontent-LENGTH:  %s \r\n\r\n%s";
    static const char *const lengths[] = { "", "x", "-1", "5x", "65537", "99999999999999999999", "4\r\nContent-Length: 4" };
    const int television = dial(2);
    char body[5001];
    size_t i;

    memset(body, '\n', sizeof body - 1);
    body[sizeof body - 1] = '\0';
    CHECK(status_is(ask(television, with, "12", "OPTIONS\r\n\r\nx"), "200"));
    CHECK(status_is(ask(television, with, "0", ""), "200"));
    CHECK(status_is(ask(television, with, "5000", ""), "200"));
    say_text(television, body);
    CHECK(status_is(ask(television, OPTIONS, 3), "200"));
    hang_up(television);
    for (i = 0; i < sizeof lengths / sizeof lengths[0]; i++) {
        const int unclear = dial(2);

        CHECK(status_is(ask(unclear, with, lengths[i], ""), "200"));
        CHECK(at_end(unclear));
        hang_up(unclear);
    }
}

/* A request of so many bytes: one header that the box does not know is as long as need be. */
static size_t long_request(char *text, size_t length)
{
    const size_t head = (size_t)sprintf(text, "OPTIONS rtsp://127.0.0.1/ RTSP/1.0\r\nCSeq: 5\r\nX: ");

    memset(text + head, 'x', length - head - 4);
    memcpy(text + length - 4, "\r\n\r\n", 4);
    return length;
}

static void garbage(void)
{
    static char text[200000];
    const size_t lengths[] = { 2049, 2050, sizeof text };
    int television = dial(2);
    size_t i;

    say(television, text, long_request(text, 2048));
    CHECK(status_is(hear(television), "200"));
    say(television, text, long_request(text, 2048));
    CHECK(status_is(hear(television), "200"));
    hang_up(television);
    for (i = 0; i < 3; i++) {
        television = dial(2);
        say(television, text, long_request(text, lengths[i]));
        CHECK(strcmp(hear(television), "RTSP/1.0 400 Bad Request\r\n\r\n") == 0);
        CHECK(at_end(television));
        hang_up(television);
    }
    for (i = 0; i < sizeof text; i++)
        text[i] = (char)(i * i >> 3);
    television = dial(2);
    say(television, text, 50000);
    CHECK(strcmp(hear(television), "RTSP/1.0 400 Bad Request\r\n\r\n") == 0 && at_end(television));
    hang_up(television);
    television = dial(2);
    CHECK(strcmp(ask(television, "GET / HTTP/1.1\r\n\r\n"), "RTSP/1.0 400 Bad Request\r\n\r\n") == 0 && at_end(television));
    hang_up(television);
}

/* Connections that are silent, half a request, half a body or deaf are closed in their time; one that speaks is not. */
static void silent_ones(int bystander)
{
    const int idle = dial(2), half = dial(2), body = dial(2);

    CHECK(status_is(ask(idle, OPTIONS, 1), "200"));
    say_text(half, "OPTIONS rtsp://127.0.0.1/");
    CHECK(status_is(ask(body, "OPTIONS rtsp://127.0.0.1/ RTSP/1.0\r\nCSeq: 1\r\nContent-Length: 9\r\n\r\n1234"), "200"));
    settle(bystander);
    move(HALF - 1, NULL);
    CHECK(is_there(half) && is_there(body));
    say_text(half, "stream=1");
    settle(bystander);
    move(1, NULL);
    CHECK(at_end(half) && at_end(body));
    move(IDLE - HALF - 1, NULL);
    CHECK(status_is(ask(idle, OPTIONS, 2), "200"));
    settle(bystander);
    move(IDLE - 1, NULL);
    settle(bystander);
    move(1, NULL);
    CHECK(at_end(idle));
    CHECK(status_is(ask(bystander, OPTIONS, 1), "200"));
    hang_up(idle);
    hang_up(half);
    hang_up(body);
}

/* A client with little room of its own asks for long answers, and hears none, until the host takes no more: for a thousand turns it has
 * not. How many requests were sent whole. */
static size_t stuff(int television, int bystander)
{
    char text[2048];
    const size_t length = (size_t)sprintf(text, "OPTIONS rtsp://127.0.0.1/ RTSP/1.0\r\nCSeq: 5\r\nRequire: %01900d\r\n\r\n", 0);
    const int little = 16384;
    size_t sent = 0;
    int waits;

    CHECK(setsockopt(television, SOL_SOCKET, SO_SNDBUF, &little, sizeof little) == 0);
    CHECK(setsockopt(television, SOL_SOCKET, SO_RCVBUF, &little, sizeof little) == 0);
    for (waits = 0; waits < 500; waits++) {
        const ssize_t n = send(television, text + sent % length, length - sent % length, MSG_DONTWAIT | MSG_NOSIGNAL);

        CHECK(n >= 0 || errno == EAGAIN || errno == EWOULDBLOCK);
        if (n < 0) {
            settle(bystander);
        } else {
            sent += (size_t)n;
            waits = 0;
        }
    }
    return sent / length;
}

/* One that listens late gets every answer. One that never does is closed, in its time after the last answer that found room on the way to
 * it, and has held up nobody. */
static void deaf(int bystander)
{
    const int never = dial(8), late = dial(8);
    size_t count;
    int times;

    for (count = stuff(late, bystander); count > 0; count--) {
        const char *answer = hear(late);

        CHECK(status_is(answer, "551") && strlen(answer) > 1900);
    }
    CHECK(is_there(late));
    hang_up(late);
    stuff(never, bystander);
    CHECK(!is_broken(never, 0));
    for (times = 0; !is_broken(never, 100); times++) {
        CHECK(times < 10 * PATIENCE);
        settle(bystander);
        move(HALF, NULL);
    }
    hang_up(never);
}

/* One address takes every place, twice over: its oldest connections go. Another's stay, and it gets new ones. */
static void crowd(int bystander)
{
    const int quiet = dial(3);
    int held[2 * PLACES], i, newcomer;

    for (i = 0; i < 2 * PLACES; i++) {
        held[i] = dial(9);
        say_text(held[i], "OPTIONS");
        settle(bystander);
    }
    newcomer = dial(4);
    CHECK(status_is(ask(newcomer, OPTIONS, 1), "200"));
    CHECK(status_is(ask(quiet, OPTIONS, 1), "200"));
    for (i = 0; i < PLACES + 3; i++)
        CHECK(is_gone(held[i]));
    for (; i < 2 * PLACES; i++)
        CHECK(status_is(ask(held[i], " rtsp://127.0.0.1/ RTSP/1.0\r\nCSeq: %d\r\n\r\n", i), "200"));
    for (i = 0; i < 2 * PLACES; i++)
        hang_up(held[i]);
    CHECK(status_is(ask(newcomer, OPTIONS, 2), "200"));
    hang_up(newcomer);
    hang_up(quiet);
}

/* 40 at once, byte by byte, and the last bytes in one moment: 32 have room. Then their owner leaves: 32 closings in one call. */
static void forty(void)
{
    static const char request[] = "SETUP rtsp://127.0.0.1/stream=1 RTSP/1.0\r\nCSeq: 1\r\nTransport: RTP/AVP;unicast;client_port=6000-6001\r\n\r\n";
    uint32_t sessions[CLIENTS], owner;
    int televisions[CLIENTS], i, served = 1;
    size_t at;

    for (i = 0; i < CLIENTS; i++)
        televisions[i] = dial(2 + i);
    owner = own(televisions[0], FIRST, 1);
    for (at = 0; at < sizeof request - 1; at++) {
        if (at == sizeof request - 2)
            freeze();
        for (i = 1; i < CLIENTS; i++)
            say(televisions[i], request + at, 1);
    }
    thaw();
    note_group(1);
    for (i = 1; i < CLIENTS; i++) {
        const char *answer = hear(televisions[i]);

        if (strncmp(answer, "RTSP/1.0 503 ", 13) == 0)
            continue;
        CHECK(status_is(answer, "200"));
        sessions[served] = session_in(answer);
        note(2, 0, sessions[served++], 1, 1);
    }
    CHECK(served == 32);
    note_group(0);
    CHECK(status_is(ask_teardown(televisions[0], 1, owner), "200"));
    note(3, 1, owner, 1, 1);
    note_group(2);
    for (i = 1; i < 32; i++)
        note(3, 3, sessions[i], 1, 1);
    note_group(0);
    CHECK(noted_bytes() - length_of(records) < HELD_MAX);
    for (i = 0; i < CLIENTS; i++)
        hang_up(televisions[i]);
}

static void damage(const char *file, long at)
{
    FILE *f = fopen(file, "r+b");
    int byte;

    CHECK(f != NULL && fseek(f, at, SEEK_SET) == 0);
    byte = fgetc(f);
    CHECK(byte != EOF && fseek(f, at, SEEK_SET) == 0 && fputc(byte ^ 1, f) != EOF);
    CHECK(fclose(f) == 0);
}

/*
 * A stop and a start with a kept box: sessions, clock and sequence go on, and a PLAY keeps its session. A kept box is taken up once, and a
 * damaged one not at all.
 */
static void restart(const char *const *words)
{
    int television = dial(2);
    const uint32_t session = own(television, FIRST, 1);
    char line[4200];

    CHECK(status_is(ask_play(television, 1, "", session), "200"));
    expect_line("frontend 1: " FIRST_ORDER);
    stop(0, NULL);
    CHECK(at_end(television));
    hang_up(television);
    expect_told(records);
    damage(kept, 700);
    snprintf(line, sizeof line, "host: %s: the kept box is damaged", kept);
    expect_refused(host, words, 1, line);
    damage(kept, 700);
    start(host, words, "frontend 1: " FIRST_ORDER);
    CHECK(length_of(kept) < 0);
    television = dial(2);
    move(59, NULL);
    CHECK(status_is(ask_play(television, 1, "", session), "200"));
    move(59, NULL);
    move(1, "frontend 1: off");
    note(3, 2, session, 1, 1);
    CHECK(status_is(ask_play(television, 1, "", session), "454"));
    hang_up(television);
}

/* So many openings and closings in a journal of 1,024 bytes: at 16 records the host tries to store them. */
static void open_and_close(int television, int times)
{
    uint32_t session = 0, before;
    char line[256];
    int i;

    snprintf(line, sizeof line, "host: /dev/full: %s", strerror(ENOSPC));
    for (i = 1; i <= times; i++) {
        before = session;
        session = own(television, FIRST, 1);
        CHECK(session != before);
        CHECK(status_is(ask_teardown(television, 1, session), "200"));
        note(3, 1, session, 1, 1);
        if (i == 8)
            expect_line(line);
    }
}

/* No room for records: closings pass, and the 33rd opening of a journal of 1,024 bytes does not. What is held comes to the file later. */
static void full_disk(void)
{
    const char *const full[] = { "-c", "-j", "1024", "-k", kept, "/dev/full", NULL };
    const char *const roomy[] = { "-c", "-j", "1024", "-k", kept, other, NULL };
    int television;

    forget();
    set_clock(0);
    CHECK(unlink(kept) == 0);
    start(host, full, NULL);
    television = dial(2);
    open_and_close(television, 32);
    CHECK(status_is(ask_setup(television, "?" FIRST), "503"));
    move(1, NULL);
    CHECK(status_is(ask_setup(television, "?" FIRST), "503"));
    hang_up(television);
    stop(0, NULL);
    start(host, roomy, NULL);
    move(1, NULL);
    expect_told(other);
    television = dial(2);
    own(television, FIRST, 1);
    hang_up(television);
    stop(0, NULL);
    expect_told(other);
}

/* Where records can neither be stored nor kept, the host says so and its status is 1. */
static void lost_records(void)
{
    const char *const words[] = { "-c", "-j", "1024", "/dev/full", NULL };
    int television;

    start(host, words, NULL);
    television = dial(2);
    open_and_close(television, 8);
    hang_up(television);
    stop(1, "host: /dev/full: the last records are lost");
}

/* The second frontend sees two of the four sources: a new stream with one of these takes it, and stays there. */
static void two_dishes(void)
{
    const char *const words[] = { "-c", "-r", "1234,12", other, NULL };
    uint32_t one, two;
    int television;

    forget();
    set_clock(0);
    CHECK(unlink(other) == 0);
    start(host, words, NULL);
    television = dial(2);
    one = opened(television, "?" FIRST, 1, 1, 2);
    CHECK(status_is(ask_play(television, 1, "?src=3", one), "503"));
    CHECK(status_is(ask_play(television, 1, "", one), "200"));
    expect_line("frontend 2: " FIRST_ORDER);
    CHECK(status_is(ask_setup(television, "?src=4&fe=2"), "503"));
    two = opened(television, "?src=4", 1, 2, 1);
    CHECK(status_is(ask_teardown(television, 1, one), "200"));
    note(3, 1, one, 1, 2);
    expect_line("frontend 2: off");
    CHECK(status_is(ask_setup(television, "?src=3"), "503"));
    CHECK(status_is(ask_teardown(television, 2, two), "200"));
    note(3, 1, two, 2, 1);
    hang_up(television);
    stop(0, NULL);
    expect_told(other);
}

/* Sources that are none, or those of more frontends than there are: the host does not start. */
static void odd_sources(void)
{
    static const char *const odd[] = { "", ",", "0", "5", "12,", ",12", "12,,3", "12;3", " 12", "12 ", "all", "1234,12,1" };
    size_t i;

    for (i = 0; i < sizeof odd / sizeof odd[0]; i++) {
        const char *const words[] = { "-c", "-r", odd[i], other, NULL };

        expect_refused(host, words, 2, USAGE);
    }
}

static time_t seconds(void)
{
    struct timespec time;

    CHECK(clock_gettime(CLOCK_MONOTONIC, &time) == 0);
    return time.tv_sec;
}

/* With its own clock: what passes here between two openings passes there. */
static void real_time(void)
{
    const char *const words[] = { other, NULL };
    const struct timespec pause = { 1, 100000000L };
    uint8_t bytes[32];
    int television;
    time_t passed;
    FILE *file;

    CHECK(unlink(other) == 0);
    start(host, words, NULL);
    television = dial(2);
    passed = -seconds();
    own(television, FIRST, 1);
    nanosleep(&pause, NULL);
    own(television, SECOND, 2);
    passed += seconds();
    hang_up(television);
    stop(0, NULL);
    file = fopen(other, "rb");
    CHECK(file != NULL && fread(bytes, 1, sizeof bytes, file) == sizeof bytes && fclose(file) == 0);
    CHECK(bytes[23] > bytes[7] && bytes[23] - bytes[7] <= passed + 1);
}

int main(int count, char **words)
{
    const char *const options[] = { "-c", "-f", "2", "-j", "2048", "-k", kept, records, NULL };
    int bystander;

    CHECK(count == 3);
    limit(120);
    host = words[1];
    snprintf(records, sizeof records, "%s/records", words[2]);
    snprintf(kept, sizeof kept, "%s/kept", words[2]);
    snprintf(other, sizeof other, "%s/other", words[2]);
    start(host, options, NULL);
    bystander = dial(1);
    evening();
    split_everywhere(bystander);
    pipelined();
    half_closed();
    bodies();
    garbage();
    silent_ones(bystander);
    deaf(bystander);
    crowd(bystander);
    forty();
    hang_up(bystander);
    restart(options);
    stop(0, NULL);
    expect_told(records);
    printf("host: %ld records tell what happened\n", noted_bytes() / 16);
    full_disk();
    lost_records();
    two_dishes();
    odd_sources();
    real_time();
    return 0;
}
