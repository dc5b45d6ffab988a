/*
 * Order 2 of document 02, EDGES-02.md section 2: CSeq comes back as it was sent. Which digits step 2 takes, that every
 * answer from step 3 on copies them from where they stand in the request, and that nothing else goes by them.
 */
#include "plain_test.h"

#include <stdio.h>
#include <string.h>

#define OPTIONS_LINE "OPTIONS rtsp://h/ RTSP/1.0\r\n"
#define PUBLIC "Public: OPTIONS, SETUP, PLAY, TEARDOWN\r\n"

/* 2.1: 1 to 10 digits, up to 4294967295. */

static void test_limits(void)
{
    static const char *const good[] = {
        "0", "00", "7", "07", "0007", "0000000007", "0000000000", "0429496729", "0999999999", "0123456789",
        "1234567890", "4294967294", "4294967295"
    };
    static const char *const bad[] = {
        "00000000007", "00000000000", "04294967295", "000000000000000000007", "12345678901", "4294967296",
        "4294967300", "5000000000", "9999999999", "18446744073709551623", "0007a", "a0007", "0x07", "+007", "-007",
        "00.7", "00 07", "0007,0007", "0007;", "\"0007\"", "", " "
    };
    fresh(2, 1024);
    for (size_t i = 0; i < sizeof good / sizeof *good; i++) {
        GIVES(200, ask_cseq(good[i]));
        CHECK(numbered(good[i]));
    }
    for (size_t i = 0; i < sizeof bad / sizeof *bad; i++)
        SAYS(BAD_UNNUMBERED, ask_cseq(bad[i]));
}

/* Each digit at each of ten places, and a 7 behind each number of zeros. */
static void test_every_place(void)
{
    fresh(2, 1024);
    for (size_t place = 0; place < 10; place++)
        for (char digit = '0'; digit <= '9'; digit++) {
            char digits[] = "0000000000";
            bool good = place > 0 || digit <= '4';
            digits[place] = digit;
            GIVES(good ? 200 : 400, ask_cseq(digits));
            CHECK(good ? numbered(digits) : answer_is(BAD_UNNUMBERED));
        }
    for (int count = 1; count <= 40; count++) {
        char digits[41];
        snprintf(digits, sizeof digits, "%0*d", count, 7);
        GIVES(count <= 10 ? 200 : 400, ask_cseq(digits));
        CHECK(count <= 10 ? numbered(digits) : answer_is(BAD_UNNUMBERED));
    }
}

/* Exactly one header, of this name; and the digits of one request are not those of the next. */
static void test_one_header(void)
{
    fresh(2, 1024);
    SAYS(BAD_UNNUMBERED, raw(OPTIONS_LINE "CSeq : 0007\r\n\r\n"));
    SAYS(BAD_UNNUMBERED, raw(OPTIONS_LINE "CSeq  :0007\r\n\r\n"));
    SAYS(BAD_UNNUMBERED, raw(OPTIONS_LINE " CSeq: 0007\r\n\r\n"));
    SAYS(BAD_UNNUMBERED, raw(OPTIONS_LINE "CSeq:\t0007\r\n\r\n"));
    SAYS(BAD_UNNUMBERED, raw(OPTIONS_LINE "CSeq 0007\r\n\r\n"));
    SAYS(BAD_UNNUMBERED, raw(OPTIONS_LINE "CSeq: 0007\r\nCSeq: 0007\r\n\r\n"));
    SAYS(BAD_UNNUMBERED, raw(OPTIONS_LINE "CSeq: 7\r\ncseq: 0007\r\n\r\n"));
    GIVES(200, ask_cseq(" 0000000007"));
    CHECK(numbered("0000000007"));
    SAYS(BAD_UNNUMBERED, raw(OPTIONS_LINE "\r\n"));
    GIVES(200, ask_cseq(" 7"));
    CHECK(numbered("7"));
}

/* 2.2: the digits come back without their outer spaces, however many there are. */
static void test_outer_spaces(void)
{
    static const int counts[] = {0, 1, 2, 3, 7, 11, 255, 256, 900};
    const size_t most = sizeof counts / sizeof *counts;
    char value[REQUEST_ROOM];
    fresh(2, 1024);
    GIVES(200, ask_cseq("   0007  "));
    CHECK(numbered("0007"));
    for (size_t before = 0; before < most; before++)
        for (size_t behind = 0; behind < most; behind++) {
            snprintf(value, sizeof value, "%*s0007%*s", counts[before], "", counts[behind], "");
            GIVES(200, ask_cseq(value));
            CHECK(numbered("0007"));
        }
}

/* 2.2 and 2.3: the answers of every status. */

/* A request but for its CSeq, and its answer but for that. */
struct exchange {
    const char *line;     /* the request line */
    const char *headers;  /* the other headers */
    const char *status;   /* the answer's status and reason */
    const char *rest;     /* its lines after CSeq */
};

#define DESTINATION "Transport: RTP/AVP;unicast;destination=192.168.178.39;client_port="

/* On a box with F = 2 whose session 1 owns stream 1 with document 01's example. */
static const struct exchange exchanges[] = {
    {"OPTIONS rtsp://h:00554/ RTSP/1.0", "", "200 OK", PUBLIC},
    {"OPTIONS rtsp://h/ RTSP/1.0", SESSION, "200 OK", SESSION PUBLIC},
    {"SETUP rtsp://h/?src=00002&fe=00002&pids=00007 RTSP/1.0", TRANSPORT, "200 OK",
     "Session: 00000002;timeout=60\r\n" DESTINATION "5000-5001\r\ncom.ses.streamID: 2\r\n"},
    {"SETUP rtsp://h/stream=1 RTSP/1.0", TRANSPORT, "200 OK",
     "Session: 00000002;timeout=60\r\n" DESTINATION "5000-5001\r\ncom.ses.streamID: 1\r\n"},
    {"SETUP rtsp://h:00554/stream=1?sr=01000&addpids=00007 RTSP/1.0",
     SESSION "Transport: RTP/AVP;unicast;client_port=1024-1025\r\n", "200 OK",
     "Session: 00000001;timeout=60\r\n" DESTINATION "1024-1025\r\ncom.ses.streamID: 1\r\n"},
    {"PLAY rtsp://0007:00554/stream=1?src=00002 RTSP/1.0", SESSION, "200 OK",
     SESSION "RTP-Info: url=rtsp://0007/stream=1\r\n"},
    {"TEARDOWN rtsp://h/stream=1 RTSP/1.0", SESSION, "200 OK", SESSION},
    {"OPTIONS rtsp://h/", "", "400 Bad Request", ""},
    {"0042", "", "400 Bad Request", ""},
    {"OPTIONS rtsp://h/ RTSP/1.0", "Accept: 0042\r\naccept: 0042\r\n", "400 Bad Request", ""},
    {"OPTIONS rtsp://h/ RTSP/1.01", "", "505 RTSP Version Not Supported", ""},
    {"OPTIONS rtsp://h/ RTSP/1.0", "Require: 0042\r\n", "551 Option Not Supported", "Unsupported: 0042\r\n"},
    {"OPTIONS rtsp://h/ RTSP/1.0", "Require:\r\n", "551 Option Not Supported", "Unsupported: \r\n"},
    {"0042 rtsp://h/ RTSP/1.0", "", "501 Not Implemented", PUBLIC},
    {"OPTIONS rtsp://" TEN(TEN(TEN("0"))) TEN("0") "/stream=1 RTSP/1.0", "", "414 Request-URI Too Long", ""},
    {"OPTIONS * RTSP/1.0", "", "400 Bad Request", ""},
    {"PLAY rtsp://h/stream=01 RTSP/1.0", SESSION, "400 Bad Request", ""},
    {"OPTIONS rtsp://h/?pol=h RTSP/1.0", "", "400 Bad Request", ""},
    {"SETUP rtsp://h/?0007=0007 RTSP/1.0", TRANSPORT, "400 Bad Request", ""},
    {"SETUP rtsp://h/?src=00005 RTSP/1.0", TRANSPORT, "403 Forbidden", ""},
    {"PLAY rtsp://h/ RTSP/1.0", SESSION, "405 Method Not Allowed", "Allow: OPTIONS\r\n"},
    {"SETUP rtsp://h/ RTSP/1.0", TRANSPORT, "405 Method Not Allowed", "Allow: OPTIONS\r\n"},
    {"PLAY rtsp://h/stream=1 RTSP/1.0", "Session: 0007\r\n", "454 Session Not Found", ""},
    {"PLAY rtsp://h/stream=2 RTSP/1.0", SESSION, "404 Not Found", ""},
    {"SETUP rtsp://h/?pol=h RTSP/1.0", SESSION TRANSPORT, "455 Method Not Valid in This State", ""},
    {"SETUP rtsp://h/stream=1?pol=h RTSP/1.0", TRANSPORT, "403 Forbidden", ""},
    {"SETUP rtsp://h/?pol=h RTSP/1.0", "Transport: RTP/AVP;unicast;client_port=05000-5001\r\n",
     "461 Unsupported Transport", ""},
    {"PLAY rtsp://h/stream=1?fec=910 RTSP/1.0", SESSION, "403 Forbidden", ""},
    {"PLAY rtsp://h/stream=1?pids=" PIDS_33 " RTSP/1.0", SESSION, "503 Service Unavailable", ""},
    {"SETUP rtsp://h/?fe=1 RTSP/1.0", TRANSPORT, "503 Service Unavailable", ""}
};

/* What stands around CSeq's digits, before or behind the other headers. */
struct form {
    bool last;
    const char *before, *behind;
};

static const struct form forms[] = {
    {false, "CSeq: ", "\r\n"},
    {true, "CSeq: ", "\r\n"},
    {false, "cseq:", "\r\n"},
    {true, "cSeQ:   ", "  \r\n"},
    {false, "X: 0042\r\nCSEQ:  ", " \r\nCSeqs: 0043\r\n"},
    {true, "X-CSeq: 0000000042\r\nCSeq:", "   \r\nx: 7\r\n"}
};

/* Sends an exchange's request with these digits; its answer is as it is told, with them. */
static void exchange(const struct exchange *exchange, const struct form *form, const char *digits)
{
    char text[REQUEST_ROOM];
    fresh(2, 1024);
    raw(example);
    snprintf(text, sizeof text, "%s\r\n%s%s%s%s%s\r\n", exchange->line, form->last ? exchange->headers : "",
             form->before, digits, form->behind, form->last ? "" : exchange->headers);
    raw(text);
    snprintf(text, sizeof text, "RTSP/1.0 %s\r\nCSeq: %s\r\n%s\r\n", exchange->status, digits, exchange->rest);
    check(answer_is(text), text);
}

/* Whatever the digits are: the table, too, is the one after a CSeq of 1. */
static void test_every_answer(void)
{
    static const char *const digits[] = {
        "0", "7", "00", "0007", "0000000007", "0000000000", "0429496729", "0999999999", "1234567890", "4294967295"
    };
    for (size_t i = 0; i < sizeof exchanges / sizeof *exchanges; i++) {
        HERE;
        exchange(&exchanges[i], &forms[0], "1");
        const struct plain_box after = box;
        for (size_t form = 0; form < sizeof forms / sizeof *forms; form++)
            for (size_t j = 0; j < sizeof digits / sizeof *digits; j++) {
                HERE;
                exchange(&exchanges[i], &forms[form], digits[j]);
                check(memcmp(&box, &after, sizeof box) == 0, "the table does not go by CSeq");
            }
    }
}

/* 2.4: where the digits stand is a place in the request's bytes. */

/* Sends a request of two parts with other digits between them; its length is this. */
static int ask_between(const char *start, const char *end, size_t length)
{
    char request[REQUEST_ROOM];
    size_t first = strlen(start), behind = length - strlen(end);
    memcpy(request, start, first);
    for (size_t i = first; i < behind; i++)
        request[i] = (char)('0' + i % 10);
    memcpy(request + behind, end, length - behind);
    return send_bytes(request, length);
}

/* Digits of all lengths before CSeq or behind it, and one byte too many. */
static void test_between(const char *start, const char *end, const char *status, const char *rest)
{
    char text[200];
    snprintf(text, sizeof text, "RTSP/1.0 %s\r\nCSeq: 0429496729\r\n%s\r\n", status, rest);
    for (size_t length = strlen(start) + strlen(end) + 1; length <= 2048; length++) {
        HERE;
        ask_between(start, end, length);
        check(answer_is(text), text);
    }
    SAYS(BAD_UNNUMBERED, ask_between(start, end, 2049));
}

static void test_places(void)
{
    fresh(2, 1024);
    test_between("", " rtsp://h/ RTSP/1.0\r\nCSeq: 0429496729\r\n\r\n", "501 Not Implemented", PUBLIC);
    test_between("", " rtsp://h/ RTSP/1.0\r\ncseq:0429496729  \r\nX: 1\r\n\r\n", "501 Not Implemented", PUBLIC);
    test_between("OPTIONS rtsp://h/ RTSP/1.", "\r\nCSeq:  0429496729\r\n\r\n", "505 RTSP Version Not Supported", "");
    test_between(OPTIONS_LINE "X: ", "\r\nCSeq: 0429496729\r\n\r\n", "200 OK", PUBLIC);
    test_between(OPTIONS_LINE "CSeq: 0429496729\r\nX: ", "\r\n\r\n", "200 OK", PUBLIC);
}

void test_cseq_comes_back(void)
{
    test_limits();
    test_every_place();
    test_one_header();
    test_outer_spaces();
    test_every_answer();
    test_places();
}
