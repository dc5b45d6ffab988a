/*
 * Writes the answer's text: status line, CSeq, the lines of a 200 or the one line of a 405, 501 or 551, and the
 * empty line that ends it.
 */
#include "plain_parts.h"

#include <string.h>

/* All but the request's own bytes, which an answer repeats at most once, is far below this. */
enum { FIXED_BYTES = 512 };

_Static_assert(PLAIN_REQUEST_BYTES + FIXED_BYTES <= PLAIN_ANSWER_BYTES, "every answer fits its buffer");

/* The answer so far. */
struct answer {
    uint8_t *bytes;
    size_t count;
};

static void put_bytes(struct answer *answer, const void *bytes, size_t length)
{
    memcpy(answer->bytes + answer->count, bytes, length);
    answer->count += length;
}

static void put(struct answer *answer, const char *string)
{
    put_bytes(answer, string, strlen(string));
}

/* A text of the request; it may be empty. */
static void put_text(struct answer *answer, struct text text)
{
    if (text.length > 0)
        put_bytes(answer, text.bytes, text.length);
}

/* A decimal number without leading zeros. */
static void put_number(struct answer *answer, uint32_t number)
{
    uint8_t digits[10];
    size_t first = sizeof digits;
    do {
        digits[--first] = (uint8_t)('0' + number % 10);
        number /= 10;
    } while (number > 0);
    put_bytes(answer, digits + first, sizeof digits - first);
}

/* The Session line up to its number's 8 upper-case hex digits. */
static void put_session(struct answer *answer, uint32_t number)
{
    uint8_t digits[8];
    for (size_t i = sizeof digits; i-- > 0; number /= 16)
        digits[i] = (uint8_t)"0123456789ABCDEF"[number % 16];
    put(answer, "Session: ");
    put_bytes(answer, digits, sizeof digits);
}

/* An address as four octets, the highest first. */
static void put_address(struct answer *answer, uint32_t address)
{
    put_number(answer, address >> 24);
    put(answer, ".");
    put_number(answer, address >> 16 & 255);
    put(answer, ".");
    put_number(answer, address >> 8 & 255);
    put(answer, ".");
    put_number(answer, address & 255);
}

static void put_public(struct answer *answer)
{
    put(answer, "Public: OPTIONS, SETUP, PLAY, TEARDOWN\r\n");
}

/* The reason phrases of document 001, 3.5.14. */
static const char *reason(enum status status)
{
    switch (status) {
    case STATUS_OK: return "OK";
    case STATUS_BAD_REQUEST: return "Bad Request";
    case STATUS_FORBIDDEN: return "Forbidden";
    case STATUS_NOT_FOUND: return "Not Found";
    case STATUS_METHOD_NOT_ALLOWED: return "Method Not Allowed";
    case STATUS_URI_TOO_LONG: return "Request-URI Too Long";
    case STATUS_SESSION_NOT_FOUND: return "Session Not Found";
    case STATUS_NOT_VALID_IN_STATE: return "Method Not Valid in This State";
    case STATUS_UNSUPPORTED_TRANSPORT: return "Unsupported Transport";
    case STATUS_NOT_IMPLEMENTED: return "Not Implemented";
    case STATUS_UNAVAILABLE: return "Service Unavailable";
    case STATUS_VERSION_NOT_SUPPORTED: return "RTSP Version Not Supported";
    case STATUS_OPTION_NOT_SUPPORTED: break;
    }
    return "Option Not Supported";
}

/* The lines of a SETUP's 200 after CSeq. */
static void put_setup(struct answer *answer, const struct plain_session *session)
{
    put_session(answer, session->number);
    put(answer, ";timeout=60\r\nTransport: RTP/AVP;unicast;destination=");
    put_address(answer, session->address);
    put(answer, ";client_port=");
    put_number(answer, session->port);
    put(answer, "-");
    put_number(answer, session->port + 1);
    put(answer, "\r\ncom.ses.streamID: ");
    put_number(answer, session->stream);
    put(answer, "\r\n");
}

/* The lines of a 200 after CSeq. */
static void put_success(struct answer *answer, const struct reading *reading,
                        const struct plain_session *session)
{
    if (reading->method == METHOD_SETUP) {
        put_setup(answer, session);
        return;
    }
    if (session->number != 0) {
        put_session(answer, session->number);
        put(answer, "\r\n");
    }
    if (reading->method == METHOD_OPTIONS)
        put_public(answer);
    if (reading->method == METHOD_PLAY) {
        put(answer, "RTP-Info: url=rtsp://");
        put_text(answer, reading->host);
        put(answer, "/stream=");
        put_number(answer, session->stream);
        put(answer, "\r\n");
    }
}

size_t plain_write_answer(uint8_t *bytes, enum status status, const struct reading *reading,
                          const struct plain_session *session)
{
    struct answer answer = {bytes, 0};
    put(&answer, "RTSP/1.0 ");
    put_number(&answer, status);
    put(&answer, " ");
    put(&answer, reason(status));
    put(&answer, "\r\n");
    if (reading->cseq.length > 0) {
        put(&answer, "CSeq: ");
        put_text(&answer, reading->cseq);
        put(&answer, "\r\n");
    }
    if (status == STATUS_OK)
        put_success(&answer, reading, session);
    if (status == STATUS_METHOD_NOT_ALLOWED)
        put(&answer, "Allow: OPTIONS\r\n");
    if (status == STATUS_NOT_IMPLEMENTED)
        put_public(&answer);
    if (status == STATUS_OPTION_NOT_SUPPORTED) {
        put(&answer, "Unsupported: ");
        put_text(&answer, reading->require);
        put(&answer, "\r\n");
    }
    put(&answer, "\r\n");
    return answer.count;
}
