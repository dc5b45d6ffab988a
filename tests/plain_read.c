/*
 * Reads a request: layout, headers and request line, which is steps 1 to 6 of the answer, and then its URI.
 */
#include "plain_scan.h"

/* Lines and headers: step 1. */

/* The known headers. */
enum known { CSEQ, SESSION, TRANSPORT, REQUIRE, ACCEPT, KNOWN };

static const char *const known_names[KNOWN] = {"cseq", "session", "transport", "require", "accept"};

/* How often each known header is there, and its last value. */
struct headers {
    struct text values[KNOWN];
    unsigned counts[KNOWN];
};

/* Takes a line of bytes 32 to 126 and its CR LF off the front; false if none stands there. */
static bool take_line(struct text *rest, struct text *line)
{
    size_t length = 0;
    while (length < rest->length && rest->bytes[length] >= 32 && rest->bytes[length] <= 126)
        length++;
    if (rest->length - length < 2 || rest->bytes[length] != '\r' || rest->bytes[length + 1] != '\n')
        return false;
    *line = (struct text){rest->bytes, length};
    rest->bytes += length + 2;
    rest->length -= length + 2;
    return true;
}

static struct text without_outer_spaces(struct text text)
{
    while (text.length > 0 && text.bytes[text.length - 1] == ' ')
        text.length--;
    while (text.length > 0 && text.bytes[0] == ' ') {
        text.bytes++;
        text.length--;
    }
    return text;
}

static bool read_header(struct text line, struct headers *headers)
{
    struct text name, value;
    if (!split(line, ':', &name, &value) || !is_name(name))
        return false;
    for (size_t i = 0; i < KNOWN; i++)
        if (same_name(name, known_names[i])) {
            headers->values[i] = without_outer_spaces(value);
            headers->counts[i]++;
        }
    return true;
}

/* Lines, of which the last is empty and no other, the middle ones headers. */
static bool read_layout(struct text rest, struct text *request_line, struct headers *headers)
{
    struct text line;
    if (!take_line(&rest, request_line) || request_line->length == 0)
        return false;
    while (take_line(&rest, &line)) {
        if (line.length == 0)
            return rest.length == 0;
        if (!read_header(line, headers))
            return false;
    }
    return false;
}

/* The request line and the headers' values: steps 2, 3 and 6, and what steps 11 and 15 look at. */

struct request_line {
    struct text method, uri, version;
};

/* Three non-empty parts split by exactly two spaces. */
static bool read_request_line(struct text line, struct request_line *parts)
{
    struct text rest, third, fourth;
    if (!split(line, ' ', &parts->method, &rest) || !split(rest, ' ', &parts->uri, &third))
        return false;
    if (split(third, ' ', &parts->version, &fourth))
        return false;
    return parts->method.length > 0 && parts->uri.length > 0 && parts->version.length > 0;
}

/* Is a known header there twice, CSeq aside? */
static bool known_twice(const struct headers *headers)
{
    return headers->counts[SESSION] > 1 || headers->counts[TRANSPORT] > 1
        || headers->counts[REQUIRE] > 1 || headers->counts[ACCEPT] > 1;
}

static enum method method_named(struct text name)
{
    if (same(name, "OPTIONS"))
        return METHOD_OPTIONS;
    if (same(name, "SETUP"))
        return METHOD_SETUP;
    if (same(name, "PLAY"))
        return METHOD_PLAY;
    if (same(name, "TEARDOWN"))
        return METHOD_TEARDOWN;
    return METHOD_OTHER;
}

/* A hex digit of either case; 16 if it is none. */
static uint32_t hex_digit(uint8_t byte)
{
    if (is_digit(byte))
        return (uint32_t)(byte - '0');
    if (byte >= 'A' && byte <= 'F')
        return (uint32_t)(byte - 'A' + 10);
    if (byte >= 'a' && byte <= 'f')
        return (uint32_t)(byte - 'a' + 10);
    return 16;
}

/* The number a Session header sends up to its first semicolon; 0, which is never open, if not 8 hex digits. */
static uint32_t session_number(struct text value)
{
    struct text digits, parameters;
    uint32_t number = 0;
    split(value, ';', &digits, &parameters);
    if (digits.length != 8)
        return 0;
    for (size_t i = 0; i < digits.length; i++) {
        uint32_t digit = hex_digit(digits.bytes[i]);
        if (digit == 16)
            return 0;
        number = 16 * number + digit;
    }
    return number;
}

/* The port a of a Transport exactly as step 15 wants it, else 0. */
static uint32_t transport_port(struct text value)
{
    struct text first, second;
    uint32_t a, b;
    if (!take_prefix(&value, "RTP/AVP;unicast;client_port=") || !split(value, '-', &first, &second))
        return 0;
    if (!read_strict_number(first, PORT_LEAST, PORT_MOST, &a)
        || !read_strict_number(second, PORT_LEAST, PORT_MOST + 1, &b))
        return 0;
    return a % 2 == 0 && b == a + 1 ? a : 0;
}

enum status plain_read(struct text request, uint32_t frontends, struct reading *reading)
{
    struct headers headers = {{{NULL, 0}}, {0}};
    struct request_line parts;
    struct text line;
    uint32_t number;
    *reading = (struct reading){.method = METHOD_OTHER};
    if (request.length > PLAIN_REQUEST_BYTES || !read_layout(request, &line, &headers))
        return STATUS_BAD_REQUEST;                                  /* step 1 */
    if (headers.counts[CSEQ] != 1 || !read_number(headers.values[CSEQ], 10, 0, UINT32_MAX, &number))
        return STATUS_BAD_REQUEST;                                  /* step 2 */
    reading->cseq = headers.values[CSEQ];
    if (!read_request_line(line, &parts) || known_twice(&headers))
        return STATUS_BAD_REQUEST;                                  /* step 3 */
    if (!same(parts.version, "RTSP/1.0"))
        return STATUS_VERSION_NOT_SUPPORTED;                        /* step 4 */
    reading->require = headers.values[REQUIRE];
    if (headers.counts[REQUIRE] > 0)
        return STATUS_OPTION_NOT_SUPPORTED;                         /* step 5 */
    reading->method = method_named(parts.method);
    if (reading->method == METHOD_OTHER)
        return STATUS_NOT_IMPLEMENTED;                              /* step 6 */
    reading->session_sent = headers.counts[SESSION] > 0;
    reading->session = session_number(headers.values[SESSION]);
    reading->port = transport_port(headers.values[TRANSPORT]);
    return plain_read_uri(parts.uri, frontends, reading);           /* steps 7 to 9 */
}
