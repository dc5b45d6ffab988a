/*
 * A television and a host for the host's test, over the loopback alone. It waits for the host, never for time: an answer is read until its
 * empty line, and a moved clock until the host says that it has ticked. The host's lines are all accounted for.
 */
#define _POSIX_C_SOURCE 200809L

#include "television.h"

#include <arpa/inet.h>
#include <errno.h>
#include <netinet/in.h>
#include <netinet/tcp.h>
#include <poll.h>
#include <signal.h>
#include <stdarg.h>
#include <stdio.h>
#include <stdlib.h>
#include <string.h>
#include <sys/socket.h>
#include <sys/stat.h>
#include <sys/time.h>
#include <sys/wait.h>
#include <unistd.h>

#define RECORD 16u
#define RECORDS_MAX 4096u

struct told {
    int kind, cause, stream, frontend;
    uint32_t clock, session, group;
    bool found;
};

static pid_t host_process;
static FILE *host_says;
static int host_hears;
static uint16_t port;
static uint32_t clock_moved, group_now;
static struct told tale[RECORDS_MAX];
static uint32_t tale_length;

void check(bool holds, const char *what, const char *file, int line)
{
    char said[512];

    if (holds)
        return;
    fprintf(stderr, "%s:%d: at clock %u, after %u records: not so: %s\n", file, line, (unsigned)clock_moved, (unsigned)tale_length, what);
    if (host_process > 0) {
        kill(host_process, SIGKILL);
        while (fgets(said, sizeof said, host_says) != NULL)
            fputs(said, stderr);
    }
    exit(1);
}

static void too_long(int number)
{
    static const char text[] = "the host's test takes too long\n";
    const ssize_t written = write(STDERR_FILENO, text, sizeof text - 1);

    (void)number;
    if (host_process > 0)
        kill(host_process, SIGKILL);
    _exit(written < 0 ? 2 : 1);
}

void limit(unsigned seconds)
{
    const struct sigaction action = { .sa_handler = too_long };

    CHECK(sigaction(SIGALRM, &action, NULL) == 0);
    alarm(seconds);
}

static void run_host(const char *host, const char *const *words, const int *in, const int *out)
{
    char *all[16] = { (char *)(uintptr_t)host };
    size_t i;

    for (i = 0; words[i] != NULL && i < 14; i++)
        all[i + 1] = (char *)(uintptr_t)words[i];
    dup2(in[0], STDIN_FILENO);
    dup2(out[1], STDOUT_FILENO);
    dup2(out[1], STDERR_FILENO);
    close(in[0]);
    close(in[1]);
    close(out[0]);
    close(out[1]);
    execv(host, all);
    _exit(127);
}

static void launch(const char *host, const char *const *words)
{
    int in[2], out[2];

    CHECK(pipe(in) == 0 && pipe(out) == 0);
    host_process = fork();
    if (host_process == 0)
        run_host(host, words, in, out);
    CHECK(host_process > 0);
    close(in[0]);
    close(out[1]);
    host_hears = in[1];
    host_says = fdopen(out[0], "r");
    CHECK(host_says != NULL);
}

static int end_of_host(void)
{
    int status = 0;

    CHECK(waitpid(host_process, &status, 0) == host_process);
    host_process = 0;
    CHECK(WIFEXITED(status));
    fclose(host_says);
    close(host_hears);
    return WEXITSTATUS(status);
}

static const char *next_line(void)
{
    static char line[512];

    if (fgets(line, sizeof line, host_says) == NULL)
        return NULL;
    line[strcspn(line, "\n")] = '\0';
    return line;
}

void expect_line(const char *text)
{
    const char *line = next_line();

    if (line == NULL || strcmp(line, text) != 0)
        fprintf(stderr, "the host says '%s', and not '%s'\n", line == NULL ? "nothing more" : line, text);
    CHECK(line != NULL && strcmp(line, text) == 0);
}

void start(const char *host, const char *const *words, const char *line)
{
    static const char reached[] = "host: rtsp://127.0.0.1:";
    const char *place;

    launch(host, words);
    if (line != NULL)
        expect_line(line);
    place = next_line();
    CHECK(place != NULL && strncmp(place, reached, sizeof reached - 1) == 0);
    port = (uint16_t)strtoul(place + sizeof reached - 1, NULL, 10);
}

static void expect_end(int status, const char *line)
{
    if (line != NULL)
        expect_line(line);
    CHECK(next_line() == NULL);
    CHECK(end_of_host() == status);
}

void expect_refused(const char *host, const char *const *words, int status, const char *line)
{
    launch(host, words);
    expect_end(status, line);
}

void stop(int status, const char *line)
{
    CHECK(kill(host_process, SIGTERM) == 0);
    expect_end(status, line);
}

void freeze(void)
{
    int status = 0;

    CHECK(kill(host_process, SIGSTOP) == 0);
    CHECK(waitpid(host_process, &status, WUNTRACED) == host_process && WIFSTOPPED(status));
}

void thaw(void)
{
    CHECK(kill(host_process, SIGCONT) == 0);
}

void move(uint32_t seconds, const char *line)
{
    char text[32];
    const int length = snprintf(text, sizeof text, "%u\n", (unsigned)seconds);

    CHECK(write(host_hears, text, (size_t)length) == length);
    clock_moved += seconds;
    if (line != NULL)
        expect_line(line);
    snprintf(text, sizeof text, "clock %u", (unsigned)clock_moved);
    expect_line(text);
}

void set_clock(uint32_t clock)
{
    clock_moved = clock;
}

int dial(int place)
{
    struct sockaddr_in here = { 0 }, there = { 0 };
    const struct timeval patience = { PATIENCE, 0 };
    const int on = 1, s = socket(AF_INET, SOCK_STREAM, 0);

    here.sin_family = there.sin_family = AF_INET;
    here.sin_addr.s_addr = htonl(INADDR_LOOPBACK - 1u + (uint32_t)place);
    there.sin_addr.s_addr = htonl(INADDR_LOOPBACK);
    there.sin_port = htons(port);
    CHECK(s >= 0 && bind(s, (struct sockaddr *)&here, sizeof here) == 0);
    CHECK(connect(s, (struct sockaddr *)&there, sizeof there) == 0);
    CHECK(setsockopt(s, IPPROTO_TCP, TCP_NODELAY, &on, sizeof on) == 0);
    CHECK(setsockopt(s, SOL_SOCKET, SO_RCVTIMEO, &patience, sizeof patience) == 0);
    return s;
}

void hang_up(int television)
{
    CHECK(close(television) == 0);
}

void say(int television, const void *bytes, size_t length)
{
    const char *at = bytes;

    while (length > 0) {
        const ssize_t n = send(television, at, length, MSG_NOSIGNAL);

        CHECK(n > 0);
        at += n;
        length -= (size_t)n;
    }
}

void say_text(int television, const char *text)
{
    say(television, text, strlen(text));
}

const char *hear(int television)
{
    static char answer[4097];
    size_t length = 0;

    while (length < 4 || memcmp(answer + length - 4, "\r\n\r\n", 4) != 0) {
        CHECK(length < sizeof answer - 1);
        CHECK(recv(television, answer + length, 1, 0) == 1);
        length++;
    }
    answer[length] = '\0';
    return answer;
}

const char *ask(int television, const char *format, ...)
{
    char request[2048];
    va_list values;
    int length;

    va_start(values, format);
    length = vsnprintf(request, sizeof request, format, values);
    va_end(values);
    CHECK(length > 0 && length < (int)sizeof request);
    say(television, request, (size_t)length);
    return hear(television);
}

bool at_end(int television)
{
    char byte;

    return recv(television, &byte, 1, 0) == 0;
}

bool is_gone(int television)
{
    char byte;

    return recv(television, &byte, 1, 0) == 0 || errno == ECONNRESET;
}

bool is_broken(int television, int milliseconds)
{
    struct pollfd wait = { television, 0, 0 };

    return poll(&wait, 1, milliseconds) == 1;
}

bool is_there(int television)
{
    struct pollfd wait = { television, POLLIN, 0 };

    return poll(&wait, 1, 0) == 0;
}

bool status_is(const char *answer, const char *status)
{
    const bool is = strncmp(answer, "RTSP/1.0 ", 9) == 0 && strncmp(answer + 9, status, 3) == 0 && answer[12] == ' ';

    if (!is)
        fprintf(stderr, "not %s:\n%s", status, answer);
    return is;
}

bool is_for(const char *answer, int television)
{
    struct sockaddr_in here = { 0 };
    socklen_t length = sizeof here;
    char address[INET_ADDRSTRLEN], line[64];

    CHECK(getsockname(television, (struct sockaddr *)&here, &length) == 0);
    CHECK(inet_ntop(AF_INET, &here.sin_addr, address, sizeof address) != NULL);
    snprintf(line, sizeof line, ";destination=%s;client_port=5000-5001\r\n", address);
    return strstr(answer, line) != NULL;
}

uint32_t session_in(const char *answer)
{
    const char *at = strstr(answer, "\r\nSession: ");

    CHECK(at != NULL);
    return (uint32_t)strtoul(at + 11, NULL, 16);
}

int stream_in(const char *answer)
{
    const char *at = strstr(answer, "\r\ncom.ses.streamID: ");

    CHECK(at != NULL);
    return atoi(at + 20);
}

void note(int kind, int cause, uint32_t session, int stream, int frontend)
{
    const struct told t = { kind, cause, stream, frontend, clock_moved, session, group_now, false };

    CHECK(tale_length < RECORDS_MAX);
    tale[tale_length++] = t;
}

void note_group(uint32_t group)
{
    group_now = group;
}

long noted_bytes(void)
{
    return (long)(tale_length * RECORD);
}

void forget(void)
{
    tale_length = 0;
}

static uint32_t number_at(const uint8_t *bytes)
{
    return (uint32_t)bytes[0] << 24 | (uint32_t)bytes[1] << 16 | (uint32_t)bytes[2] << 8 | bytes[3];
}

/* Which record of a group stands where is not foretold. */
static struct told *told_at(uint32_t place, uint32_t session)
{
    const uint32_t group = tale[place].group;
    uint32_t i;

    for (i = 0; group != 0 && i < tale_length; i++)
        if (tale[i].group == group && tale[i].session == session)
            return &tale[i];
    return &tale[place];
}

static void expect_record(const uint8_t *bytes, uint32_t place)
{
    struct told *t = told_at(place, number_at(bytes + 8));

    if (t->session != number_at(bytes + 8))
        fprintf(stderr, "record %u is of session %08X\n", (unsigned)place, (unsigned)number_at(bytes + 8));
    CHECK(bytes[0] == 0x53 && bytes[1] == 0x4A);
    CHECK(bytes[2] == t->kind && bytes[3] == t->cause);
    CHECK(number_at(bytes + 4) == t->clock && number_at(bytes + 8) == t->session);
    CHECK(bytes[12] == t->stream && bytes[13] == t->frontend);
    CHECK(bytes[14] == (uint8_t)(place >> 8) && bytes[15] == (uint8_t)place);
    CHECK(!t->found);
    t->found = true;
}

void expect_told(const char *file)
{
    FILE *records = fopen(file, "rb");
    uint8_t bytes[RECORD];
    uint32_t i;

    CHECK(records != NULL);
    CHECK(length_of(file) == noted_bytes());
    for (i = 0; i < tale_length; i++)
        tale[i].found = false;
    for (i = 0; i < tale_length; i++) {
        CHECK(fread(bytes, 1, RECORD, records) == RECORD);
        expect_record(bytes, i);
    }
    fclose(records);
}

long length_of(const char *file)
{
    struct stat state;

    return stat(file, &state) == 0 ? (long)state.st_size : -1L;
}
