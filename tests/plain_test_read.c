/*
 * EDGES.md sections 2 and 3: how a request is laid out, its headers, its request line and its URI.
 */
#include "plain_test.h"

#include <stdio.h>
#include <string.h>

/* EDGES 2: layout and headers. */

#define OPTIONS_LINE "OPTIONS rtsp://h/ RTSP/1.0\r\n"

static void test_layout(void)
{
    fresh(2, 1024);
    GIVES(200, raw(OPTIONS_LINE "CSeq: 1\r\n\r\n"));
    SAYS(BAD_UNNUMBERED, raw(OPTIONS_LINE "CSeq: 1\r\nX_y: 1\r\n\r\n"));
    SAYS(BAD_UNNUMBERED, raw(OPTIONS_LINE "CSeq: 1\r\nNoColon\r\n\r\n"));
    SAYS(BAD_UNNUMBERED, raw(OPTIONS_LINE "CSeq : 1\r\n\r\n"));
    SAYS(BAD_UNNUMBERED, raw(OPTIONS_LINE "CSeq: 1\r\n folded\r\n\r\n"));
    SAYS(BAD_UNNUMBERED, raw(OPTIONS_LINE "CSeq: 1\r\n: empty\r\n\r\n"));
    SAYS(BAD_UNNUMBERED, raw(OPTIONS_LINE " CSeq: 1\r\n\r\n"));
    SAYS(BAD_UNNUMBERED, raw("\r\n"));
    SAYS(BAD_UNNUMBERED, raw("\r\n\r\n"));
    SAYS(BAD_UNNUMBERED, raw("\r\nCSeq: 1\r\n\r\n"));
    SAYS(BAD_UNNUMBERED, raw("\r"));
    SAYS(BAD_UNNUMBERED, raw("\n"));
    SAYS(BAD_UNNUMBERED, raw("\r\n" OPTIONS_LINE "CSeq: 1\r\n\r\n"));
    SAYS(BAD_UNNUMBERED, raw(OPTIONS_LINE "CSeq: 1\r\n"));
    SAYS(BAD_UNNUMBERED, raw(OPTIONS_LINE "CSeq: 1\r\n\r"));
    SAYS(BAD_UNNUMBERED, raw(OPTIONS_LINE "CSeq: 1\r\n\n"));
    SAYS(BAD_UNNUMBERED, raw(OPTIONS_LINE "CSeq: 1\r\n\r\nbody"));
    SAYS(BAD_UNNUMBERED, raw(OPTIONS_LINE "CSeq: 1\r\n\r\n\r\n"));
    SAYS(BAD_UNNUMBERED, raw(OPTIONS_LINE "CSeq: 1\r\n\r\n" OPTIONS_LINE "CSeq: 2\r\n\r\n"));
    SAYS(BAD_UNNUMBERED, raw(OPTIONS_LINE "CSeq: 1\n\r\n"));
    SAYS(BAD_UNNUMBERED, raw(OPTIONS_LINE "CSeq: 1\r\r\n\r\n"));
    SAYS(BAD_UNNUMBERED, raw("OPTIONS rtsp://h/ RTSP/1.0\nCSeq: 1\n\n"));
    SAYS(BAD_UNNUMBERED, raw("OPTIONS rtsp://h/ RTSP/1.0"));
    SAYS(BAD_UNNUMBERED, raw(OPTIONS_LINE "\r\n"));
}

/* 2.5: every byte value, in the request line, a header's name and a header's value. */
static void test_bytes(void)
{
    fresh(2, 1024);
    for (int byte = 0; byte < 256; byte++) {
        char value[] = OPTIONS_LINE "CSeq: 1\r\nX: a?b\r\n\r\n";
        char name[] = OPTIONS_LINE "CSeq: 1\r\nX?y: 1\r\n\r\n";
        char method[] = "OPTIONS?? rtsp://h/ RTSP/1.0\r\nCSeq: 1\r\n\r\n";
        bool good = byte >= 32 && byte <= 126;
        bool letter = (byte >= 'a' && byte <= 'z') || (byte >= 'A' && byte <= 'Z');
        bool in_name = letter || (byte >= '0' && byte <= '9') || byte == '-' || byte == '.' || byte == ':';
        *strchr(value, '?') = (char)byte;
        *strchr(name, '?') = (char)byte;
        *strchr(method, '?') = (char)byte;
        GIVES(good ? 200 : 400, send_bytes(value, sizeof value - 1));
        CHECK(good || answer_is(BAD_UNNUMBERED));
        GIVES(in_name ? 200 : 400, send_bytes(name, sizeof name - 1));
        CHECK(in_name || answer_is(BAD_UNNUMBERED));
        GIVES(good && byte != ' ' ? 501 : 400, send_bytes(method, sizeof method - 1));
        CHECK(good || answer_is(BAD_UNNUMBERED));
        CHECK(byte != ' ' || answer_is(BAD));
    }
}

int ask_cseq(const char *value)
{
    char request[REQUEST_ROOM];
    snprintf(request, sizeof request, OPTIONS_LINE "CSeq:%s\r\n\r\n", value);
    return raw(request);
}

bool numbered(const char *digits)
{
    char text[200];
    snprintf(text, sizeof text,
             "RTSP/1.0 200 OK\r\nCSeq: %s\r\nPublic: OPTIONS, SETUP, PLAY, TEARDOWN\r\n\r\n", digits);
    return answer_is(text);
}

static void test_cseq(void)
{
    static const char *const bad[] = {
        "", " ", " 00000000001", " 4294967296", " 9999999999", " 10000000000", " -1", " +1", " 1 2", " 1a",
        " a", " 0x1", " 1.0", " 18446744073709551617"
    };
    fresh(2, 1024);
    for (size_t i = 0; i < sizeof bad / sizeof *bad; i++)
        SAYS(BAD_UNNUMBERED, ask_cseq(bad[i]));
    GIVES(200, ask_cseq(" 0000000001"));
    CHECK(numbered("0000000001"));
    GIVES(200, ask_cseq("0"));
    CHECK(numbered("0"));
    GIVES(200, ask_cseq("  0000000000  "));
    CHECK(numbered("0000000000"));
    GIVES(200, ask_cseq(" 4294967295"));
    CHECK(numbered("4294967295"));
    GIVES(200, ask_cseq(" 1234567890 "));
    CHECK(numbered("1234567890"));
    SAYS(BAD_UNNUMBERED, raw(OPTIONS_LINE "CSeq: 1\r\nCSeq: abc\r\n\r\n"));
    SAYS(BAD_UNNUMBERED, raw(OPTIONS_LINE "CSeq: abc\r\nCSeq: 1\r\n\r\n"));
    SAYS(BAD_UNNUMBERED, raw(OPTIONS_LINE "CSeq: 1\r\nCSeq: 1\r\n\r\n"));
    SAYS(BAD_UNNUMBERED, raw(OPTIONS_LINE "CSeq: 1\r\ncseq: 2\r\n\r\n"));
    SAYS(BAD_UNNUMBERED, raw(OPTIONS_LINE "X-CSeq: 1\r\n\r\n"));
    GIVES(200, raw(OPTIONS_LINE "cSEQ: 1\r\n\r\n"));
    GIVES(200, raw(OPTIONS_LINE "X: 1\r\nCSEQ:1\r\n\r\n"));
}

static void test_headers(void)
{
    fresh(2, 1024);
    GIVES(200, ask("OPTIONS rtsp://h/", "X:\r\nX: 1\r\nx: 2\r\nA.b-9: \r\n"));
    SAYS(BAD, ask("OPTIONS rtsp://h/", "Accept: a\r\nACCEPT: b\r\n"));
    SAYS(BAD, ask("OPTIONS rtsp://h/", TRANSPORT TRANSPORT));
    SAYS(BAD, ask("OPTIONS rtsp://h/", "Require: a\r\nrequire: b\r\n"));
    SAYS(BAD, ask("OPTIONS rtsp://h/", "Session: 00000001\r\nSESSION: 00000001\r\n"));
    GIVES(200, ask("OPTIONS rtsp://h/", "Accept: a\r\n" TRANSPORT));
    SAYS("RTSP/1.0 551 Option Not Supported\r\nCSeq: 1\r\nUnsupported: a  b\r\n\r\n",
         ask("OPTIONS rtsp://h/", "Require:  a  b \r\n"));
    SAYS("RTSP/1.0 551 Option Not Supported\r\nCSeq: 1\r\nUnsupported: \r\n\r\n",
         ask("OPTIONS rtsp://h/", "Require:\r\n"));
    SAYS("RTSP/1.0 551 Option Not Supported\r\nCSeq: 1\r\nUnsupported: \r\n\r\n",
         ask("OPTIONS rtsp://h/", "REQUIRE:   \r\n"));
    SAYS("RTSP/1.0 551 Option Not Supported\r\nCSeq: 1\r\nUnsupported: a:b\r\n\r\n",
         ask("foo *", "Require:a:b\r\n"));
}

static void test_request_line(void)
{
    fresh(2, 1024);
    SAYS(BAD, raw("OPTIONS  rtsp://h/ RTSP/1.0\r\nCSeq: 1\r\n\r\n"));
    SAYS(BAD, raw("OPTIONS rtsp://h/  RTSP/1.0\r\nCSeq: 1\r\n\r\n"));
    SAYS(BAD, raw("OPTIONS rtsp://h/ RTSP/1.0 \r\nCSeq: 1\r\n\r\n"));
    SAYS(BAD, raw(" OPTIONS rtsp://h/ RTSP/1.0\r\nCSeq: 1\r\n\r\n"));
    SAYS(BAD, raw("OPTIONS rtsp://h/ \r\nCSeq: 1\r\n\r\n"));
    SAYS(BAD, raw(" rtsp://h/ RTSP/1.0\r\nCSeq: 1\r\n\r\n"));
    SAYS(BAD, raw("OPTIONS rtsp://h/\r\nCSeq: 1\r\n\r\n"));
    SAYS(BAD, raw("OPTIONS\r\nCSeq: 1\r\n\r\n"));
    SAYS(BAD, raw("  \r\nCSeq: 1\r\n\r\n"));
    SAYS(BAD, raw(" \r\nCSeq: 1\r\n\r\n"));
    GIVES(505, raw("OPTIONS rtsp://h/ RTSP/1.1\r\nCSeq: 1\r\n\r\n"));
    GIVES(505, raw("OPTIONS rtsp://h/ rtsp/1.0\r\nCSeq: 1\r\n\r\n"));
    GIVES(505, raw("OPTIONS rtsp://h/ RTSP/1.00\r\nCSeq: 1\r\n\r\n"));
    GIVES(505, raw("OPTIONS rtsp://h/ RTSP/1\r\nCSeq: 1\r\nRequire: a\r\n\r\n"));
    GIVES(505, raw("GET / HTTP/1.1\r\nCSeq: 1\r\n\r\n"));
    SAYS(BAD, raw("GET / HTTP/1.1\r\nCSeq: 1\r\nAccept: a\r\nAccept: a\r\n\r\n"));
    SAYS(BAD_UNNUMBERED, raw("GET /\r\nCSeq: x\r\n\r\n"));
    GIVES(501, ask("options rtsp://h/", ""));
    GIVES(501, ask("OPTION rtsp://h/", ""));
    GIVES(501, ask("DESCRIBE rtsp://h/", ""));
    GIVES(501, ask("foo bad", ""));
}

/* 2.11: a request that starts so, padded to a length in the value of its last header. */
static int ask_padded(const char *start, size_t length)
{
    char request[REQUEST_ROOM];
    size_t count = strlen(start);
    memcpy(request, start, count);
    memset(request + count, 'x', length - count - 4);
    memcpy(request + length - 4, "\r\n\r\n", 4);
    return send_bytes(request, length);
}

static int ask_length(size_t length)
{
    return ask_padded(OPTIONS_LINE "CSeq: 1\r\nX: ", length);
}

/* The longest answer: all that can be of Require. */
static int ask_require(size_t length)
{
    return ask_padded("a b RTSP/1.0\r\nCSeq:4294967295\r\nRequire:", length);
}

static void test_lengths(void)
{
    fresh(2, 1024);
    GIVES(200, ask_length(100));
    GIVES(200, ask_length(2047));
    GIVES(200, ask_length(2048));
    SAYS(BAD_UNNUMBERED, ask_length(2049));
    SAYS(BAD_UNNUMBERED, ask_length(REQUEST_ROOM));
    GIVES(551, ask_require(2048));
    CHECK(answer_count > 2048);
    SAYS(BAD_UNNUMBERED, ask_require(2049));
}

/* EDGES 3: URI. */

static int ask_uri(const char *uri)
{
    char method_uri[REQUEST_ROOM];
    snprintf(method_uri, sizeof method_uri, "OPTIONS %s", uri);
    return ask(method_uri, "");
}

static void test_uri_form(void)
{
    static const char *const good[] = {
        "rtsp://h/", "rtsp://h:1/", "rtsp://h:554/", "rtsp://h:00554/", "rtsp://h:65535/", "rtsp://h:00001/",
        "rtsp://10.0.0.5/", "rtsp://A-z.0/", "rtsp://-/", "rtsp://./", "rtsp://h/stream=1",
        "rtsp://h/stream=9", "rtsp://h/stream=65535", "rtsp://h:8554/stream=10"
    };
    static const char *const bad[] = {
        "*", "rtsp://h", "rtsp://", "rtsp:///", "rtsp://:554/", "RTSP://h/", "Rtsp://h/", "rtsp:/h/",
        "rtsps://h/", "xrtsp://h/", "http://h/", "rtsp://h:000554/", "rtsp://h:0/", "rtsp://h:00000/",
        "rtsp://h:65536/", "rtsp://h:99999/", "rtsp://h:/", "rtsp://h:5a/", "rtsp://h:-1/", "rtsp://h:5:4/",
        "rtsp://h_/", "rtsp://[::1]/", "rtsp://user@h/", "rtsp://h%41/", "rtsp://h//", "rtsp://h/stream=0",
        "rtsp://h/stream=01", "rtsp://h/stream=65536", "rtsp://h/stream=100000", "rtsp://h/stream=",
        "rtsp://h/stream=1/", "rtsp://h/stream=a", "rtsp://h/stream=1a", "rtsp://h/stream=-1",
        "rtsp://h/stream", "rtsp://h/Stream=1", "rtsp://h/STREAM=1", "rtsp://h/x", "rtsp://h/stream=1&pol=h",
        "rtsp://h/stream=+1", "rtsp://h?pol=h", "rtsp://h/x?pol=h", "?", "rtsp://h/?", "rtsp://h/stream=1?",
        "rtsp://h/?pol=h", "/", "h", "rtsp://h\\/"
    };
    fresh(2, 1024);
    for (size_t i = 0; i < sizeof good / sizeof *good; i++)
        GIVES(200, ask_uri(good[i]));
    for (size_t i = 0; i < sizeof bad / sizeof *bad; i++)
        SAYS(BAD, ask_uri(bad[i]));
}

int ask_uri_length(size_t length)
{
    char uri[REQUEST_ROOM] = "rtsp://";
    memset(uri + 7, 'h', length - 8);
    uri[length - 1] = '/';
    uri[length] = '\0';
    return ask_uri(uri);
}

static void test_uri_length(void)
{
    char rubbish[1026];
    memset(rubbish, '?', 1025);
    rubbish[1025] = '\0';
    fresh(2, 1024);
    GIVES(200, ask_uri_length(1024));
    GIVES(414, ask_uri_length(1025));
    SAYS("RTSP/1.0 414 Request-URI Too Long\r\nCSeq: 1\r\n\r\n", ask_uri(rubbish));
    rubbish[1024] = '\0';
    SAYS(BAD, ask_uri(rubbish));
    SAYS(BAD_UNNUMBERED, ask_uri_length(2040));
}

/* 3.3: stream numbers against the eight places; 3.5 and 3.6: the first `?`. */
static void test_uri_stream(void)
{
    fresh(2, 1024);
    GIVES(200, raw(example));
    GIVES(404, in(1, "PLAY", "/stream=8"));
    GIVES(404, in(1, "PLAY", "/stream=9"));
    GIVES(404, in(1, "PLAY", "/stream=257"));
    GIVES(404, in(1, "PLAY", "/stream=65535"));
    GIVES(400, in(1, "PLAY", "/stream=65536"));
    GIVES(400, in(1, "PLAY", "/stream=0"));
    GIVES(404, in(0, "SETUP", "/stream=65535"));
    GIVES(403, in(0, "SETUP", "/?pol=h?x"));
    GIVES(400, in(0, "SETUP", "/??pol=h"));
    GIVES(400, in(0, "SETUP", "/?"));
    GIVES(400, in(1, "PLAY", "/stream=1?"));
    GIVES(400, in(1, "PLAY", "/stream=x?pol=x"));
}

void test_reading(void)
{
    test_layout();
    test_bytes();
    test_cseq();
    test_headers();
    test_request_line();
    test_lengths();
    test_uri_form();
    test_uri_length();
    test_uri_stream();
}
