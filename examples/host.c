/*
 * A host to try clients with: one box, reached by RTSP over TCP, on 127.0.0.1 unless told otherwise. It is no product, but does all that the
 * library leaves to its caller except tuners and streams: it cuts requests out of each connection's bytes, draws random numbers, counts
 * seconds, ticks, stores records, prints what each frontend is to be set to when that changes, and stops at SIGINT or SIGTERM.
 *
 * One poll loop serves every connection, one request in each turn, so no client waits for another. A connection that is silent for IDLE
 * seconds is closed, and one in the midst of something (a request, a body, an answer that nobody takes) after HALF. Where all PLACES are
 * taken, a newcomer takes the place of the longest silent connection of the address that has the most.
 * A closed connection closes no session: the box does that, by TEARDOWN or after 60 seconds.
 */
#define _POSIX_C_SOURCE 200809L

#include "host_box.h"
#include "host_cut.h"

#include <arpa/inet.h>
#include <errno.h>
#include <fcntl.h>
#include <netinet/in.h>
#include <poll.h>
#include <signal.h>
#include <stdio.h>
#include <stdlib.h>
#include <string.h>
#include <sys/socket.h>
#include <time.h>
#include <unistd.h>

#define PLACES 64u
#define IDLE 120u
#define HALF 10u

struct client {
    int socket;                         /* -1: the place is free */
    uint32_t address;
    uint32_t since;                     /* the clock at which it began what it is at, */
    uint64_t order;                     /* and which of all such beginnings that was */
    size_t have;                        /* bytes that came and were not handed over */
    size_t skip;                        /* bytes of a body that are still to come */
    size_t count;                       /* bytes of the answer; 0: none is on its way */
    size_t sent;
    bool ended;                         /* the client sends no more */
    bool last;                          /* the answer on its way is the last one */
    bool shut;                          /* the last answer is out; what comes is read and thrown away */
    uint8_t bytes[CUT_ROOM];
    uint8_t answer[SATBOX_ANSWER_MIN];
};

static struct client clients[PLACES];
static volatile sig_atomic_t stopped;
static bool by_hand;                    /* the clock stands still but for what standard input says */
static bool show;                       /* print requests and answers */
static bool broken;                     /* the box met a fault */
static struct timespec began;
static uint32_t clock_first, clock_now;
static uint64_t clock_moved;

static void stop(int number)
{
    (void)number;
    stopped = 1;
}

static int fail(const char *what)
{
    fprintf(stderr, "host: %s: %s\n", what, strerror(errno));
    return -1;
}

/* Text with CR LF at each line's end, as text with LF. */
static void print_text(char sign, const uint8_t *text, size_t length)
{
    bool starts = true;
    size_t i;

    for (i = 0; i < length; i++) {
        if (text[i] == '\r')
            continue;
        if (starts)
            printf("%c ", sign);
        starts = text[i] == '\n';
        putchar(starts || (text[i] >= 32 && text[i] <= 126) ? text[i] : '.');
    }
    if (!starts)
        putchar('\n');
}

static void read_clock(void)
{
    struct timespec now;
    uint64_t seconds = clock_first + clock_moved;

    clock_gettime(CLOCK_MONOTONIC, &now);
    if (!by_hand)
        seconds += (uint64_t)(now.tv_sec - began.tv_sec - (now.tv_nsec < began.tv_nsec ? 1 : 0));
    clock_now = seconds < SATBOX_CLOCK_MAX ? (uint32_t)seconds : SATBOX_CLOCK_MAX - 1u;
}

static int until_next_second(void)
{
    struct timespec now;
    long passed;

    clock_gettime(CLOCK_MONOTONIC, &now);
    passed = (now.tv_nsec - began.tv_nsec) / 1000000L;
    return (int)(passed < 0 ? -passed : 1000L - passed) + 1;
}

static void begin(struct client *c)
{
    static uint64_t beginnings;

    c->since = clock_now;
    c->order = ++beginnings;
}

static void drop(struct client *c)
{
    close(c->socket);
    c->socket = -1;
}

static void take_off(struct client *c, size_t length)
{
    c->have -= length;
    memmove(c->bytes, c->bytes + length, c->have);
}

static void skip_body(struct client *c)
{
    const size_t length = c->skip < c->have ? c->skip : c->have;

    c->skip -= length;
    take_off(c, length);
}

/* After the last answer a plain close could reset the connection, and the client would lose the answer: so it is read on for a while. */
static void send_answer(struct client *c)
{
    const ssize_t n = send(c->socket, c->answer + c->sent, c->count - c->sent, 0);

    if (n < 0) {
        if (errno != EAGAIN && errno != EWOULDBLOCK && errno != EINTR)
            drop(c);
        return;
    }
    c->sent += (size_t)n;
    if (c->sent < c->count)
        return;
    c->count = c->sent = 0;
    begin(c);
    if (c->last) {
        shutdown(c->socket, SHUT_WR);
        c->shut = true;
    }
}

/* Where the box could not read the request's layout, the answer has no CSeq, and nobody knows where the next request starts. */
static bool nothing_after(const struct client *c, size_t length)
{
    static const char unread[] = "RTSP/1.0 400 Bad Request\r\n\r\n";

    return length > SATBOX_REQUEST_MAX || (c->count == sizeof unread - 1 && memcmp(c->answer, unread, c->count) == 0);
}

static void print_request(const struct client *c, size_t length)
{
    printf("-- at %u s, from %u.%u.%u.%u\n", (unsigned)clock_now, (unsigned)(c->address >> 24), (unsigned)(c->address >> 16 & 255u),
           (unsigned)(c->address >> 8 & 255u), (unsigned)(c->address & 255u));
    print_text('>', c->bytes, length);
}

static void answer_request(struct client *c, size_t length)
{
    if (show)
        print_request(c, length);
    c->count = host_box_request(c->bytes, length, clock_now, c->address, c->answer);
    if (c->count == 0) {
        broken = true;
        drop(c);
        return;
    }
    if (show)
        print_text('<', c->answer, c->count);
    c->last = !cut_body(c->bytes, length, &c->skip) || nothing_after(c, length);
    begin(c);
    take_off(c, length);
    skip_body(c);
    send_answer(c);
}

static void receive(struct client *c)
{
    const size_t at = c->shut ? 0 : c->have;
    const ssize_t n = recv(c->socket, c->bytes + at, sizeof c->bytes - at, 0);

    if (n < 0) {
        if (errno != EAGAIN && errno != EWOULDBLOCK && errno != EINTR)
            drop(c);
        return;
    }
    c->ended = n == 0;
    if (c->shut)
        return;
    if (c->have == 0 && c->skip == 0)
        begin(c);
    c->have += (size_t)n;
    skip_body(c);
}

/* Something to do for it without another byte from the client. */
static bool ready(const struct client *c)
{
    return c->socket >= 0 && c->count == 0 && (c->ended || (!c->shut && cut_request(c->bytes, c->have) > 0));
}

static short wanted(const struct client *c)
{
    if (c->count > 0)
        return POLLOUT;
    return c->ended || (!c->shut && c->have == sizeof c->bytes) ? 0 : POLLIN;
}

static void turn(struct client *c, short came)
{
    if (c->count > 0 && came != 0)
        send_answer(c);
    else if (came != 0 && wanted(c) == POLLIN)
        receive(c);
    if (!ready(c))
        return;
    if (c->shut || cut_request(c->bytes, c->have) == 0)
        drop(c);
    else
        answer_request(c, cut_request(c->bytes, c->have));
}

static uint32_t connections_of(uint32_t address)
{
    uint32_t i, count = 0;

    for (i = 0; i < PLACES; i++)
        if (clients[i].socket >= 0 && clients[i].address == address)
            count++;
    return count;
}

static struct client *place_for(uint32_t address)
{
    struct client *chosen = NULL;
    uint32_t i, count, most = 0;

    for (i = 0; i < PLACES; i++) {
        if (clients[i].socket < 0)
            return &clients[i];
        count = connections_of(clients[i].address) + (clients[i].address == address ? 1u : 0u);
        if (count > most || (count == most && clients[i].order < chosen->order)) {
            chosen = &clients[i];
            most = count;
        }
    }
    drop(chosen);
    return chosen;
}

static void admit(int listening)
{
    const int little = (int)SATBOX_ANSWER_MIN;
    struct sockaddr_in from;
    struct client *c;
    uint32_t turns, address;

    for (turns = 0; turns < PLACES; turns++) {
        socklen_t length = sizeof from;
        const int s = accept(listening, (struct sockaddr *)&from, &length);

        if (s < 0)
            return;
        fcntl(s, F_SETFL, O_NONBLOCK);
        fcntl(s, F_SETFD, FD_CLOEXEC);
        setsockopt(s, SOL_SOCKET, SO_SNDBUF, &little, sizeof little);
        address = ntohl(from.sin_addr.s_addr);
        c = place_for(address);
        memset(c, 0, sizeof *c);
        c->socket = s;
        c->address = address;
        begin(c);
    }
}

static void second(void)
{
    uint32_t i;

    if (!host_box_tick(clock_now))
        broken = true;
    for (i = 0; i < PLACES; i++) {
        struct client *c = &clients[i];
        const bool idle = c->have == 0 && c->skip == 0 && c->count == 0 && !c->shut;

        if (c->socket >= 0 && clock_now - c->since >= (idle ? IDLE : HALF))
            drop(c);
    }
}

/* With -c each line of standard input is a number of seconds: the clock goes so much forward. Its end stops the host. */
static void move_clock(void)
{
    static uint32_t forward;
    char bytes[64];
    const ssize_t n = read(STDIN_FILENO, bytes, sizeof bytes);
    ssize_t i;

    if (n == 0)
        stopped = 1;
    for (i = 0; i < n; i++) {
        if (bytes[i] >= '0' && bytes[i] <= '9' && forward < 100000000u)
            forward = forward * 10u + (uint32_t)(bytes[i] - '0');
        if (bytes[i] != '\n')
            continue;
        clock_moved += forward;
        forward = 0;
        read_clock();
        second();
        printf("clock %u\n", (unsigned)clock_now);
    }
}

static int listen_on(const char *address, unsigned long port)
{
    struct sockaddr_in here = { 0 };
    const int on = 1, s = socket(AF_INET, SOCK_STREAM, 0);

    here.sin_family = AF_INET;
    here.sin_port = htons((uint16_t)port);
    if (inet_pton(AF_INET, address, &here.sin_addr) != 1) {
        errno = EINVAL;
        return fail(address);
    }
    if (s < 0 || setsockopt(s, SOL_SOCKET, SO_REUSEADDR, &on, sizeof on) != 0 || fcntl(s, F_SETFD, FD_CLOEXEC) != 0 ||
        fcntl(s, F_SETFL, O_NONBLOCK) != 0 || bind(s, (struct sockaddr *)&here, sizeof here) != 0 || listen(s, (int)PLACES) != 0)
        return fail(address);
    return s;
}

static void print_place(int listening, const char *address)
{
    struct sockaddr_in here = { 0 };
    socklen_t length = sizeof here;

    getsockname(listening, (struct sockaddr *)&here, &length);
    printf("host: rtsp://%s:%u/\n", address, (unsigned)ntohs(here.sin_port));
}

static int wait_for(struct pollfd *waits, int listening)
{
    int milliseconds = by_hand ? 1000 : until_next_second();
    uint32_t i;

    for (i = 0; i < PLACES; i++) {
        waits[i].fd = clients[i].socket;
        waits[i].events = clients[i].socket < 0 ? 0 : wanted(&clients[i]);
        if (ready(&clients[i]))
            milliseconds = 0;
    }
    waits[PLACES].fd = listening;
    waits[PLACES].events = POLLIN;
    waits[PLACES + 1].fd = by_hand ? STDIN_FILENO : -1;
    waits[PLACES + 1].events = POLLIN;
    return poll(waits, PLACES + 2u, milliseconds);
}

static void serve(int listening)
{
    struct pollfd waits[PLACES + 2];
    uint32_t i, last;

    while (!stopped && !broken) {
        const int n = wait_for(waits, listening);

        if (n < 0)
            continue;
        last = clock_now;
        read_clock();
        for (i = 0; i < PLACES && !broken; i++)
            if (clients[i].socket >= 0)
                turn(&clients[i], waits[i].revents);
        if (clock_now != last)
            second();
        if (waits[PLACES + 1].revents != 0)
            move_clock();
        if (waits[PLACES].revents != 0)
            admit(listening);
    }
}

static unsigned long number(const char *text, unsigned long most)
{
    char *end;
    const unsigned long n = strtoul(text, &end, 10);

    if (text[0] >= '0' && text[0] <= '9' && *end == '\0' && n <= most)
        return n;
    fprintf(stderr, "host: %s: no number up to %lu\n", text, most);
    exit(2);
}

static void usage(void)
{
    fprintf(stderr, "usage: host [-a ADDRESS] [-p PORT] [-f FRONTENDS] [-r SOURCES] [-j JOURNAL-SIZE] [-k KEPT-BOX] [-c] [-v] RECORDS\n");
    exit(2);
}

/* The sources that the frontends reach, from the first on: digits, with a comma between two frontends. How many frontends these are. */
static uint32_t read_sources(const char *text, uint8_t *reach)
{
    uint32_t count;

    for (count = 1; count <= SATBOX_FRONTENDS_MAX; count++) {
        uint8_t set = 0;

        for (; *text >= '1' && *text <= '4'; text++)
            set |= (uint8_t)SATBOX_REACH((unsigned)(*text - '0'));
        if (set == 0 || (*text != ',' && *text != '\0'))
            break;
        reach[count - 1u] = set;
        if (*text++ == '\0')
            return count;
    }
    usage();
    return 0;
}

static unsigned long options(int count, char **words, struct host_box *settings, const char **address)
{
    unsigned long port = 0;
    uint32_t given = 0;
    int option;

    memset(settings->made.reach, (int)SATBOX_REACH_ALL, sizeof settings->made.reach);
    while ((option = getopt(count, words, "a:p:f:r:j:k:cv")) != -1)
        switch (option) {
        case 'a': *address = optarg; break;
        case 'p': port = number(optarg, 65535ul); break;
        case 'f': settings->made.frontends = (uint16_t)number(optarg, SATBOX_FRONTENDS_MAX); break;
        case 'r': given = read_sources(optarg, settings->made.reach); break;
        case 'j': settings->made.size = (uint32_t)number(optarg, SATBOX_JOURNAL_MAX); break;
        case 'k': settings->kept = optarg; break;
        case 'c': by_hand = true; break;
        case 'v': show = true; break;
        default: optind = count; break;
        }
    if (optind + 1 != count || given > settings->made.frontends)
        usage();
    settings->records = words[optind];
    return port;
}

int main(int count, char **words)
{
    struct host_box settings = { .made = { .size = 4096u, .frontends = 2u } };
    const char *address = "127.0.0.1";
    const unsigned long port = options(count, words, &settings, &address);
    const int listening = listen_on(address, port);
    const struct sigaction action = { .sa_handler = stop }, none = { .sa_handler = SIG_IGN };
    uint32_t i;

    setvbuf(stdout, NULL, _IOLBF, 0);
    sigaction(SIGINT, &action, NULL);
    sigaction(SIGTERM, &action, NULL);
    sigaction(SIGPIPE, &none, NULL);
    for (i = 0; i < PLACES; i++)
        clients[i].socket = -1;
    if (listening < 0 || !host_box_begin(&settings, &clock_first))
        return 1;
    clock_gettime(CLOCK_MONOTONIC, &began);
    read_clock();
    print_place(listening, address);
    serve(listening);
    read_clock();
    return host_box_end(clock_now) && !broken ? 0 : 1;
}
